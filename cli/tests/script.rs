//! The script `bithrowy` at the top of the repository, and tools/cli: when all is built, the script adds nothing; else they
//! build what is due, and say in a line what they do or what is missing. Programs that build are played by stubs, which
//! write down their calls.
#![cfg(unix)]

mod support;

use std::env;
use std::fs::{self, File};
use std::io::{BufRead, BufReader, Read};
use std::os::unix::fs::{symlink, PermissionsExt};
use std::path::{Path, PathBuf};
use std::process::{Command, Stdio};
use std::time::{Duration, SystemTime};
use support::{finished, Folder, Ran, PROGRAM};

/// What the scripts need of a system. They find nothing else, unless a stub stands there.
const TOOLS: [&str; 14] = [
    "bash", "sh", "cat", "cp", "dirname", "find", "flock", "mkdir", "readlink", "rm", "sed", "timeout", "touch", "true",
];

/// Fetches crates from the source that CRATES names, and no others; what it builds is the file `program`.
const CARGO: &str = "\
case \"$*\" in
fetch*source.system*) [ \"$CRATES\" = system ] && echo lock >cli/Cargo.lock ;;
fetch*--offline*) false ;;
fetch*) [ \"$CRATES\" = registry ] && echo lock >cli/Cargo.lock ;;
build*) mkdir -p target/cli/release && cp program target/cli/release/bithrowy ;;
esac
";
const RUSTC: &str = "echo host: x86_64-unknown-linux-gnu\n";
/// In place of tools/build, which calls rt.
const BUILD: &str = "\
echo tools/build $* >>\"$CALLS\"
mkdir -p \"${0%/*}/../target/staticlib\" && echo library >\"${0%/*}/../target/staticlib/libexports.a\"
";
const FAILS: &str = "exit 1\n";
const PROGRAM_STUB: &str = "echo ran \"$@\"\n";

const LIBRARY: &str = "target/staticlib/libexports.a";
const BUILT: &str = "target/cli/release/bithrowy";

fn top() -> PathBuf {
    Path::new(env!("CARGO_MANIFEST_DIR")).join("..")
}

/// A copy of the scripts with a few sources, in which the stubs are all that can be called.
struct Copy(Folder);

impl Copy {
    /// Nothing where bash is not here.
    fn new(name: &str) -> Option<Copy> {
        let folder = Folder::new(name);
        for file in ["bithrowy", "tools/cli"] {
            folder.write(file, fs::read(top().join(file)).expect("the script is there"));
        }
        for file in ["crates/exports_c/src/a.rs", "front/src/lib.rs", "front/build.rs", "front/Cargo.toml"] {
            folder.write(file, "");
        }
        for file in ["cli/src/main.rs", "cli/Cargo.toml", "calls", "bin/none"] {
            folder.write(file, "");
        }
        for tool in TOOLS {
            if let Some(file) = on_path(tool) {
                symlink(file, folder.path("bin").join(tool)).expect("a link can be made");
            }
        }
        folder.write("tools/build", BUILD);
        let copy = Copy(folder);
        copy.script("program", PROGRAM_STUB);
        copy.stub("id", "echo 1000\n");
        if !copy.0.path("bin/bash").exists() {
            println!("not tested: bash is not here");
            return None;
        }
        Some(copy)
    }

    fn script(&self, file: &str, body: &str) {
        self.0.write(file, format!("#!/bin/sh\n{body}"));
        let mode = fs::Permissions::from_mode(0o755);
        fs::set_permissions(self.0.path(file), mode).expect("its mode can be set");
    }

    /// A program that writes its calls down and does what its body says.
    fn stub(&self, name: &str, body: &str) {
        self.script(&format!("bin/{name}"), &format!("echo {name} $1 >>\"$CALLS\"\n{body}"));
    }

    fn with_cargo(self) -> Copy {
        self.stub("cargo", CARGO);
        self.stub("rustc", RUSTC);
        self
    }

    /// With a library that is newer than its sources.
    fn with_library(self) -> Copy {
        self.0.write(LIBRARY, "library");
        self
    }

    fn set_age(&self, file: &str, time: SystemTime) {
        let file = File::options().write(true).open(self.0.path(file)).expect("the file is there");
        file.set_modified(time).expect("its time can be set");
    }

    /// With a program that is newer than all.
    fn with_program(self) -> Copy {
        self.script(BUILT, PROGRAM_STUB);
        self.set_age(BUILT, SystemTime::now() + Duration::from_secs(3600));
        self
    }

    fn command(&self, script: &str, arguments: &[&str], crates: &str) -> Command {
        let mut command = Command::new(self.0.path("bin/bash"));
        command.arg(self.0.path(script)).args(arguments).env_clear().stdin(Stdio::null());
        command.env("PATH", self.0.path("bin")).env("CALLS", self.0.path("calls")).env("CRATES", crates);
        command
    }

    /// A run with the crates of a source: `registry`, `system` or `none`.
    fn run(&self, script: &str, arguments: &[&str], crates: &str) -> Ran {
        finished(&mut self.command(script, arguments, crates))
    }

    /// The stubs' calls up to now, which are then forgotten.
    fn calls(&self) -> Vec<String> {
        let calls = self.0.read("calls").lines().map(str::to_string).collect();
        self.0.write("calls", "");
        calls
    }
}

fn on_path(tool: &str) -> Option<PathBuf> {
    let path = env::var_os("PATH")?;
    env::split_paths(&path).map(|folder| folder.join(tool)).find(|file| file.is_file())
}

/// The one line of a text.
fn only_line(text: &str) -> &str {
    let mut lines = text.lines();
    let line = lines.next().unwrap_or_default();
    assert_eq!(lines.next(), None, "{text}");
    line
}

#[test]
fn the_script_runs_the_program_from_any_folder() {
    if Path::new(PROGRAM).canonicalize().ok() != top().join(BUILT).canonicalize().ok() {
        println!("not tested: this is not the program that the script runs");
        return;
    }
    let folder = Folder::with_dialog("script");
    let run = |arguments: &[&str]| {
        let mut command = Command::new("bash");
        finished(command.arg(top().join("bithrowy")).args(arguments).current_dir(folder.path("")))
    };
    let ran = run(&["check", "dialog.aut", "-e", "mu X. [true] X"]).expect_exit(0);
    assert!(ran.out.starts_with("The formula holds in the initial state, open.\n"), "{}", ran.out);
    assert_eq!(ran.err, "");
    run(&["check", "dialog.aut", "-e", "false"]).expect_exit(1);
    run(&["check", "dialog.aut", "-e", "two words"]).expect_exit(2);
}

#[test]
fn neither_library_nor_rt() {
    let Some(copy) = Copy::new("script-no-rt").map(Copy::with_cargo) else { return };
    let ran = copy.run("bithrowy", &["check"], "registry").expect_exit(2);
    assert!(only_line(&ran.err).starts_with("bithrowy: the proved library is not built yet, and rt is missing"));
    let ran = copy.run("tools/cli", &["build"], "registry").expect_exit(2);
    assert_eq!(only_line(&ran.err), "bithrowy: the proved library is missing: run tools/build library");
    assert_eq!((ran.out.as_str(), copy.calls()), ("", Vec::new()));
}

#[test]
fn an_old_library_and_no_rt() {
    let Some(copy) = Copy::new("script-old").map(|copy| copy.with_library().with_program()) else { return };
    copy.set_age(LIBRARY, SystemTime::UNIX_EPOCH + Duration::from_secs(86_400));
    let ran = copy.run("bithrowy", &["check", "two words"], "registry").expect_exit(0);
    assert!(
        only_line(&ran.err).ends_with("rt is missing, which builds it: going on with the older one"),
        "{}",
        ran.err
    );
    assert_eq!((ran.out.as_str(), copy.calls()), ("ran check two words\n", Vec::new()));
}

#[test]
fn no_cargo() {
    let Some(copy) = Copy::new("script-no-cargo").map(Copy::with_library) else { return };
    for (script, arguments, exit) in [("bithrowy", ["check"], 2), ("tools/cli", ["crates"], 69)] {
        let ran = copy.run(script, &arguments, "registry").expect_exit(exit);
        assert_eq!(only_line(&ran.err), "bithrowy: cargo is missing: install Rust (rustc and cargo)");
        assert_eq!((ran.out.as_str(), copy.calls()), ("", Vec::new()));
    }
}

/// The last line says what to do, and where the system's packages may be installed that is tried first.
#[test]
fn crates_that_cannot_be_had() {
    let Some(copy) = Copy::new("script-no-crates").map(|copy| copy.with_library().with_cargo()) else { return };
    copy.stub("apt-get", FAILS);
    for (user, tries_apt) in [("1000", false), ("0", true)] {
        copy.stub("id", &format!("echo {user}\n"));
        for (script, arguments, exit) in [("bithrowy", ["check"], 2), ("tools/cli", ["crates"], 69)] {
            let ran = copy.run(script, &arguments, "none").expect_exit(exit);
            let to_do: Vec<&str> =
                ran.err.lines().filter(|line| line.contains("connect to the network, or ")).collect();
            assert_eq!((to_do.len(), ran.err.lines().last()), (1, to_do.first().copied()), "{}", ran.err);
            assert!(to_do[0].contains("install the packages librust-clap-dev "), "{}", ran.err);
            assert_eq!(copy.calls().iter().any(|call| call.starts_with("apt-get ")), tries_apt);
            assert!(!copy.0.path(BUILT).exists() && ran.out.is_empty());
        }
    }
}

/// A second run has nothing to build, and says nothing.
#[test]
fn all_is_built_once() {
    let Some(copy) = Copy::new("script-build").map(Copy::with_cargo) else { return };
    copy.stub("rt", FAILS);
    let ran = copy.run("bithrowy", &["test", "x"], "registry").expect_exit(0);
    assert_eq!(ran.out, "ran test x\n");
    let said: Vec<&str> = ran.err.lines().collect();
    assert!(said.len() == 3 && said[0].contains("proving and building the library"), "{}", ran.err);
    assert!(said[1].ends_with("from the public registry") && said[2].ends_with("building the program"), "{}", ran.err);
    assert_eq!(copy.calls(), ["tools/build library", "cargo metadata", "rustc -vV", "cargo fetch", "cargo build"]);
    fs::remove_file(copy.0.path("target/lock")).expect("it was there");
    let ran = copy.run("bithrowy", &["test", "x"], "none").expect_exit(0);
    assert!(!copy.0.path("target/lock").exists(), "nothing is locked");
    assert_eq!((ran.out.as_str(), ran.err.as_str(), copy.calls()), ("ran test x\n", "", Vec::new()));
}

#[test]
fn the_tests_say_where_their_crates_are_from() {
    let Some(copy) = Copy::new("script-source").map(|copy| copy.with_library().with_cargo()) else { return };
    let ran = copy.run("tools/cli", &["test"], "system").expect_exit(0);
    let last = ran.err.lines().last();
    assert_eq!(last, Some("bithrowy: testing with crates from the system's packages"));
    assert_eq!(copy.calls().last().map(String::as_str), Some("cargo test"));
    // They are here now, so the registry is not asked again.
    let again = copy.run("tools/cli", &["test"], "system").expect_exit(0);
    assert_eq!(Some(only_line(&again.err)), last);
    // They are gone, and the registry is back.
    let ran = copy.run("tools/cli", &["test"], "registry").expect_exit(0);
    assert!(ran.err.ends_with("\nbithrowy: testing with crates from the public registry\n"), "{}", ran.err);
}

#[test]
fn a_second_run_waits_for_the_first() {
    let Some(copy) = Copy::new("script-lock").map(|copy| copy.with_library().with_cargo()) else { return };
    if !copy.0.path("bin/flock").exists() {
        println!("not tested: flock is not here");
        return;
    }
    let mut holder = Command::new(copy.0.path("bin/flock"));
    holder.arg(copy.0.path("target/lock")).args(["sh", "-c", "echo held; read line"]);
    let mut holder = holder.stdin(Stdio::piped()).stdout(Stdio::piped()).spawn().expect("it runs");
    let mut held = [0; 4];
    holder.stdout.take().expect("it has an output").read_exact(&mut held).expect("it holds the lock");
    let mut command = copy.command("bithrowy", &["check"], "registry");
    let mut waiting = command.stdout(Stdio::piped()).stderr(Stdio::piped()).spawn().expect("it runs");
    let mut said = BufReader::new(waiting.stderr.take().expect("it has an output")).lines().map_while(Result::ok);
    assert_eq!(said.next().as_deref(), Some("bithrowy: another run is building: waiting for it"));
    assert_eq!(copy.calls(), Vec::<String>::new());
    drop(holder.stdin.take());
    holder.wait().expect("it ends");
    assert_eq!(said.last().as_deref(), Some("bithrowy: building the program"));
    let output = waiting.wait_with_output().expect("it ends");
    assert_eq!((output.status.code(), output.stdout), (Some(0), b"ran check\n".to_vec()));
}
