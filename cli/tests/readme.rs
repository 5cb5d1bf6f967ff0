//! The README: each command that it shows prints what stands below it.

use std::fs;
use std::path::Path;
use std::process::Command;

/// Begins a command in the README, in a block of text.
const PROMPT: &str = "    $ ./bithrowy ";

fn root() -> &'static Path {
    Path::new(concat!(env!("CARGO_MANIFEST_DIR"), "/.."))
}

/// The commands of the README's blocks, each with the lines that follow it in its block.
fn shown(readme: &str) -> Vec<(&str, String)> {
    let mut shown: Vec<(&str, String)> = Vec::new();
    let mut inside = false;
    for line in readme.lines() {
        if let Some(arguments) = line.strip_prefix(PROMPT) {
            shown.push((arguments, String::new()));
            inside = true;
        } else if !line.is_empty() && !line.starts_with("    ") {
            inside = false;
        } else if let (true, Some((_, output))) = (inside, shown.last_mut()) {
            output.push_str(line.strip_prefix("    ").unwrap_or(line));
            output.push('\n');
        }
    }
    shown
}

#[test]
fn each_command_prints_what_stands_below_it() {
    let readme = fs::read_to_string(root().join("README.md")).expect("the README is there");
    let shown = shown(&readme);
    assert!(shown.iter().any(|(arguments, _)| *arguments == "test examples"), "its main command is shown");
    assert!(shown.iter().any(|(arguments, _)| arguments.starts_with("check ")), "and an answer is");
    for (arguments, expected) in shown {
        let mut command = Command::new(env!("CARGO_BIN_EXE_bithrowy"));
        let output = command.args(arguments.split(' ')).current_dir(root()).output().expect("it runs");
        let printed = String::from_utf8(output.stdout).expect("the output is text");
        assert_eq!(printed.trim_end(), expected.trim_end(), "of {arguments}");
    }
}
