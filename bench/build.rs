//! Links the bench with the static library that tools/build writes.

use std::path::Path;

fn main() {
    let library = Path::new(env!("CARGO_MANIFEST_DIR")).join("../target/staticlib/libexports.a");
    if !library.exists() {
        println!("cargo:warning=target/staticlib/libexports.a is missing: run tools/build first");
    }
    println!("cargo:rerun-if-changed={}", library.display());
    println!("cargo:rustc-link-arg-bins={}", library.display());
}
