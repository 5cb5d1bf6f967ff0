//! Links the test program with the static library that tools/build writes.

use std::path::Path;

fn main() {
    let root = Path::new(env!("CARGO_MANIFEST_DIR")).join("..");
    let library = root.join("target/staticlib/libexports.a");
    if !library.exists() {
        println!("cargo:warning=target/staticlib/libexports.a is missing: run tools/build first");
    }
    println!("cargo:rerun-if-changed={}", library.display());
    println!("cargo:rustc-link-arg-bin=bithrowy-tests={}", library.display());
}
