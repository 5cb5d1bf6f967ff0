//! Runs the built program on files in a folder of its own.

// Each test program uses a part of this.
#![allow(dead_code)]

use serde_json::Value;
use std::fs;
use std::io::Write;
use std::path::{Path, PathBuf};
use std::process::{Command, Stdio};

pub const PROGRAM: &str = env!("CARGO_BIN_EXE_bithrowy");

/// The paper's P1: a dialog that records its click twice and then closes.
pub const DIALOG: &str = "des (0, 3, 3)\n(0, \"click\", 1)\n(0, \"click\", 1)\n(1, \"close\", 2)\n";
pub const DIALOG_NAMES: &str = "0 open\n1 closing\n2 closed\n";

/// The same with a loop at closing: it may never close.
pub const HOVER: &str = "des (0, 3, 3)\n(0, click, 1)\n(1, hover, 1)\n(1, close, 2)\n";

/// Does every run end?
pub const ENDS: &str = "mu X. [true] X\n";

/// The paper's P1 as a case file, in 16-bit numbers.
pub const CASE: [u16; 27] = [
    1, 3, 3, 2, 0, 1, 3, 20, 38, 42, // header
    0, 0, 1, 0, 0, 1, 1, 1, 2, // transitions
    1, 0, // action node
    7, 0, 4, 0, 6, 0, // formula nodes
       // nothing behind them
];

/// Its equation file, in 32-bit numbers.
pub const EQUATIONS: [u32; 40] = [
    1, 3, 1, 9, 2, 0, 36, 44, 152, // header
    0, 3, // block
    2, 0, 0, 2, 0, 1, 2, 0, 2, 0, 0, 1, 0, 1, 1, 0, 2, 0, 2, 0, 0, 2, 0, 1, 2, 0, 2, // cells
    7, 8, // operands
];

/// What a test says that needs a terminal and has none.
pub const NO_TERMINAL: &str = "not tested: the program `script` is not here, or it is another one";

/// A folder for files, which is removed in the end.
pub struct Folder(PathBuf);

/// What a run printed, and its exit.
#[derive(Debug)]
pub struct Ran {
    pub exit: Option<i32>,
    pub out: String,
    pub err: String,
}

impl Folder {
    /// Each test has a name of its own, and so a folder.
    pub fn new(name: &str) -> Folder {
        let path = Path::new(env!("CARGO_TARGET_TMPDIR")).join(name);
        let _ = fs::remove_dir_all(&path);
        fs::create_dir_all(&path).expect("a folder can be made");
        Folder(path)
    }

    /// A folder with the dialog, its names and the formula.
    pub fn with_dialog(name: &str) -> Folder {
        let folder = Folder::new(name);
        folder.write("dialog.aut", DIALOG);
        folder.write("dialog.names", DIALOG_NAMES);
        folder.write("ends.mcf", ENDS);
        folder
    }

    pub fn path(&self, name: &str) -> PathBuf {
        self.0.join(name)
    }

    pub fn write(&self, name: &str, content: impl AsRef<[u8]>) {
        let path = self.path(name);
        fs::create_dir_all(path.parent().expect("it has a folder")).expect("a folder can be made");
        fs::write(path, content).expect("a file can be written");
    }

    pub fn read(&self, name: &str) -> String {
        fs::read_to_string(self.path(name)).expect("the file is there")
    }

    pub fn bytes(&self, name: &str) -> Vec<u8> {
        fs::read(self.path(name)).expect("the file is there")
    }

    /// The program, to be run in this folder.
    pub fn command(&self, arguments: &[&str]) -> Command {
        let mut command = Command::new(PROGRAM);
        command.args(arguments).current_dir(&self.0).env_remove("NO_COLOR").stdin(Stdio::null());
        command
    }

    pub fn run(&self, arguments: &[&str]) -> Ran {
        finished(&mut self.command(arguments))
    }

    /// A run whose output may be bytes; what is no text in it is replaced.
    pub fn run_for_bytes(&self, arguments: &[&str]) -> Ran {
        let output = self.command(arguments).output().expect("it runs");
        let text = |bytes: &[u8]| String::from_utf8_lossy(bytes).into_owned();
        Ran { exit: output.status.code(), out: text(&output.stdout), err: text(&output.stderr) }
    }

    /// A run that reads this from standard input.
    pub fn run_with(&self, arguments: &[&str], input: &[u8]) -> Ran {
        let mut command = self.command(arguments);
        let mut child =
            command.stdin(Stdio::piped()).stdout(Stdio::piped()).stderr(Stdio::piped()).spawn().expect("it runs");
        child.stdin.take().expect("it has an input").write_all(input).expect("it reads");
        let output = child.wait_with_output().expect("it ends");
        Ran { exit: output.status.code(), out: text(output.stdout), err: text(output.stderr) }
    }

    /// What a run prints on a terminal, with these variables set; nothing where `script`, which plays the terminal, is not here.
    pub fn on_terminal(&self, arguments: &str, variables: &[(&str, &str)]) -> Option<String> {
        let line = format!("'{PROGRAM}' {arguments}");
        let mut command = Command::new("script");
        command.args(["-qec", &line, "/dev/null"]).current_dir(&self.0).env_remove("NO_COLOR").env("TERM", "xterm");
        command.envs(variables.iter().copied()).stdin(Stdio::null());
        let is_here = Command::new("script").arg("--version").output().is_ok_and(|output| output.status.success());
        is_here.then(|| finished(&mut command).out)
    }
}

impl Drop for Folder {
    fn drop(&mut self) {
        let _ = fs::remove_dir_all(&self.0);
    }
}

impl Ran {
    /// The output as JSON.
    pub fn json(&self) -> Value {
        serde_json::from_str(&self.out).expect("the output is JSON")
    }

    /// Fails with all that was printed, unless the exit is this.
    pub fn expect_exit(self, exit: i32) -> Ran {
        assert_eq!(self.exit, Some(exit), "printed\n{}\nand\n{}", self.out, self.err);
        self
    }
}

pub fn finished(command: &mut Command) -> Ran {
    let output = command.output().expect("it runs");
    Ran { exit: output.status.code(), out: text(output.stdout), err: text(output.stderr) }
}

fn text(bytes: Vec<u8>) -> String {
    String::from_utf8(bytes).expect("the output is text")
}
