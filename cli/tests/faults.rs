//! Faults: what is said, where, and with which exit; and that nothing in them steers a terminal.

mod support;

use serde_json::json;
use std::process::Stdio;
use support::{Folder, CASE, DIALOG, EQUATIONS, NO_TERMINAL};

#[test]
fn a_broken_formula() {
    let folder = Folder::with_dialog("fault-formula");
    folder.write("broken.mcf", "nu X [true] X\n");
    let ran = folder.run(&["check", "dialog.aut", "broken.mcf"]).expect_exit(2);
    let lines: Vec<&str> = ran.err.lines().collect();
    assert_eq!(lines[0], "error: expected \".\" after \"nu X\", found \"[\"");
    assert_eq!(lines[1].trim(), "--> broken.mcf:1:6");
    assert!(ran.err.contains("\n1 | nu X [true] X\n  |      ^\n"), "{}", ran.err);
    assert!(ran.err.contains("= help: "), "{}", ran.err);
    assert_eq!(ran.out, "");
}

#[test]
fn a_refused_model() {
    let folder = Folder::new("fault-refused");
    folder.write("big.aut", "des (0, 0, 257)\n");
    let ran = folder.run(&["check", "big.aut", "-e", "true"]).expect_exit(2);
    assert!(ran.err.starts_with("error[refusal 3]: 257 states: the checker takes 1 to 256\n"), "{}", ran.err);
    assert!(ran.err.contains("--> big.aut:1:12\n"), "{}", ran.err);
}

/// A dialog that never fires close: the formula that speaks of it says so, and does not hold by accident.
#[test]
fn a_missing_close_event() {
    let folder = Folder::new("fault-missing");
    folder.write("dialog.aut", "des (0, 1, 2)\n(0, \"click\", 1)\n");
    let ran = folder.run(&["check", "dialog.aut", "-e", "[click] mu X. <true>true && [!close]X"]).expect_exit(2);
    let help = "\
  = help: if some step should have it, the component or its recording lacks that step
          the model's labels: `click`
          to check it all the same: --allow-unknown-labels, or the line `% unknown labels: allow` in the
          formula's file
";
    assert!(ran.err.starts_with("error: no transition has the label `close`\n"), "{}", ran.err);
    assert!(ran.err.contains(help), "{}", ran.err);
}

#[test]
fn a_fault_as_json() {
    let folder = Folder::new("fault-json");
    folder.write("big.aut", "des (0, 0, 257)\n");
    let ran = folder.run(&["check", "big.aut", "-e", "true", "--json"]).expect_exit(2);
    let answer = ran.json();
    let fault = &answer["faults"][0];
    assert_eq!(answer["exit"], 2);
    assert_eq!(fault["message"], "257 states: the checker takes 1 to 256");
    assert_eq!((&fault["file"], &fault["line"], &fault["column"]), (&json!("big.aut"), &json!(1), &json!(12)));
    assert_eq!((&fault["end_line"], &fault["end_column"]), (&json!(1), &json!(15)));
    assert_eq!((&fault["refusal"], &fault["differ"]), (&json!(3), &json!(false)));
    assert!(ran.err.starts_with("error[refusal 3]"), "people see it too: {}", ran.err);
}

#[test]
fn files_that_cannot_be_read_or_written() {
    let folder = Folder::with_dialog("fault-files");
    let missing = folder.run(&["check", "nothing.aut", "ends.mcf"]).expect_exit(2);
    assert!(
        missing.err.starts_with("error: nothing.aut cannot be read: No such file or directory\n"),
        "{}",
        missing.err
    );
    assert!(missing.err.contains("help: names are looked up from the folder "), "{}", missing.err);
    assert!(missing.err.contains("fault-files"), "{}", missing.err);
    let missing = folder.run(&["test", "nowhere"]).expect_exit(2);
    assert!(missing.err.starts_with("error: nowhere cannot be read: No such file or directory\n"), "{}", missing.err);
    assert!(missing.err.contains("help: names are looked up from the folder "), "{}", missing.err);
    for (file, said) in [("nowhere/m.svg", "help: the folder is not there: "), (".", "help: this is a folder: ")] {
        let unwritten = folder.run(&["draw", "dialog.aut", "--svg", file]).expect_exit(2);
        assert!(unwritten.err.starts_with(&format!("error: {file} cannot be written: ")), "{}", unwritten.err);
        assert!(unwritten.err.contains(said), "{}", unwritten.err);
    }
    let model = folder.run(&["check", ".", "ends.mcf"]).expect_exit(2);
    assert!(model.err.contains("help: this is a folder: name a file in it\n"), "{}", model.err);
}

/// Who may do everything may read it all the same.
#[cfg(unix)]
#[test]
fn files_without_permission() {
    use std::os::unix::fs::PermissionsExt;
    let folder = Folder::with_dialog("fault-permission");
    let nobody = std::fs::Permissions::from_mode(0o000);
    std::fs::set_permissions(folder.path("dialog.aut"), nobody).expect("its mode can be set");
    if std::fs::read(folder.path("dialog.aut")).is_ok() {
        println!("not tested: this user may read every file");
        return;
    }
    let ran = folder.run(&["check", "dialog.aut", "ends.mcf"]).expect_exit(2);
    assert!(ran.err.contains("help: ask its owner for the permission to read it\n"), "{}", ran.err);
    let ran = folder.run(&["draw", "dialog.aut", "--svg", "dialog.aut"]).expect_exit(2);
    assert!(ran.err.starts_with("error: dialog.aut cannot be read: "), "{}", ran.err);
}

/// What comes from standard input is called so.
#[test]
fn faults_of_standard_input() {
    let folder = Folder::with_dialog("fault-stdin");
    let ran = folder.run_with(&["check", "-", "ends.mcf"], b"des (0, 0, 257)\n").expect_exit(2);
    assert!(ran.err.contains("--> standard input:1:12\n"), "{}", ran.err);
    let ran = folder.run_with(&["convert", "-"], b"true").expect_exit(2);
    assert!(ran.err.starts_with("error: standard input is neither a model nor "), "{}", ran.err);
}

/// A case file in place of a model, and a file that does not end.
#[test]
fn files_that_are_no_text() {
    let folder = Folder::with_dialog("fault-kinds");
    folder.run(&["convert", "dialog.aut", "ends.mcf", "-o", "case.bin"]).expect_exit(0);
    let ran = folder.run(&["check", "case.bin", "ends.mcf"]).expect_exit(2);
    assert!(ran.err.contains("`bithrowy convert` makes text of it"), "{}", ran.err);
    let ran = folder.run(&["check", "dialog.aut", "case.bin"]).expect_exit(2);
    assert!(ran.err.starts_with("error: case.bin is not text, and so no formula\n"), "{}", ran.err);
    assert!(ran.err.contains("`bithrowy convert` makes text of it"), "{}", ran.err);
    folder.write("utf16.aut", b"\xff\xfed\0e\0s\0");
    let ran = folder.run(&["check", "utf16.aut", "ends.mcf"]).expect_exit(2);
    assert!(ran.err.contains("UTF-16") && ran.err.contains("--> utf16.aut:1:1\n"), "{}", ran.err);
    if cfg!(unix) {
        let ran = folder.run(&["check", "/dev/zero", "ends.mcf"]).expect_exit(2);
        assert!(
            ran.err.starts_with("error: /dev/zero is not read: it has more than 67,108,864 bytes\n"),
            "{}",
            ran.err
        );
        assert!(ran.err.contains("help: "), "{}", ran.err);
    }
}

/// However long a line is, what is shown of it is short, and the caret stands below its place.
#[test]
fn long_lines_are_cut() {
    let folder = Folder::with_dialog("fault-long");
    folder.write("long.mcf", " ".repeat(100_000) + "nu X [true] X" + &" ".repeat(100_000));
    let ran = folder.run(&["check", "dialog.aut", "long.mcf"]).expect_exit(2);
    assert!(ran.err.len() < 2_000, "{} bytes", ran.err.len());
    assert!(ran.err.contains("--> long.mcf:1:100006\n"), "{}", ran.err);
    let column = |sign: char| ran.err.lines().skip(3).find_map(|line| line.chars().position(|c| c == sign));
    assert!(column('[').is_some() && column('[') == column('^'), "{}", ran.err);
}

/// A long help, here with the labels of a model, is broken into lines that begin below its first word.
#[test]
fn long_help_is_broken() {
    let folder = Folder::new("fault-help");
    let labels = ["keydown", "keyup", "focusin", "focusout", "pointerdown", "pointerup", "dragenter", "dragleave"];
    let lines: String = labels.iter().map(|label| format!("(0, {label}, 0)\n")).collect();
    folder.write("m.aut", format!("des (0, 8, 1)\n{lines}"));
    let ran = folder.run(&["check", "m.aut", "-e", "[keydwon]false"]).expect_exit(2);
    let help: Vec<&str> = ran.err.lines().skip_while(|line| !line.contains("= help: ")).collect();
    assert!(help.len() > 1 && help[0].starts_with("  = help: "), "{}", ran.err);
    assert!(help[1..].iter().all(|line| line.starts_with("          ") && !line.starts_with("           ")));
    assert!(help.iter().all(|line| line.len() <= 104), "{}", ran.err);
    assert!(labels.iter().all(|label| ran.err.contains(&format!("`{label}`"))), "{}", ran.err);
}

/// Numbers far beyond the limits are refused by each command, at once.
#[test]
fn enormous_numbers() {
    let folder = Folder::with_dialog("fault-enormous");
    for header in ["des (0, 0, 18446744073709551615)", "des (18446744073709551615, 0, 1)", "des (0, 0, 0)"] {
        folder.write("m.aut", header);
        for arguments in
            [vec!["check", "m.aut", "ends.mcf"], vec!["draw", "m.aut"], vec!["convert", "m.aut", "ends.mcf"]]
        {
            let ran = folder.run(&arguments).expect_exit(2);
            assert!(ran.err.starts_with("error[refusal "), "{header}: {}", ran.err);
        }
    }
}

/// Random bytes and pieces of text, as models, formulas and case files.
#[test]
fn random_files() {
    let folder = Folder::with_dialog("fault-random");
    let pieces = [
        "des", "(0,", "\"", "mu X.", "[", "]", "X", "\0", "\u{1}", "\u{fffd}", "\n", "%", "models:", "1", "3", ")",
        "&&",
    ];
    let mut random = Random(12345);
    for _ in 0..30 {
        let content: String = (0..20).map(|_| pieces[random.below(pieces.len())]).collect();
        folder.write("random", content);
        ends_in_order(&folder, "random");
        let bytes: Vec<u8> = (0..100).map(|_| random.below(256) as u8).collect();
        folder.write("bytes", bytes);
        ends_in_order(&folder, "bytes");
    }
}

/// Knuth's linear generator.
struct Random(u64);

impl Random {
    fn below(&mut self, end: usize) -> usize {
        self.0 = self.0.wrapping_mul(6364136223846793005).wrapping_add(1442695040888963407);
        (self.0 >> 33) as usize % end
    }
}

/// A case file and an equation file with bytes changed, and cut off at any place.
#[test]
fn damaged_files() {
    let folder = Folder::with_dialog("fault-damaged");
    let mut random = Random(99);
    for number in 0..36 {
        let mut bytes: Vec<u8> = match number % 2 {
            0 => CASE.iter().flat_map(|word| word.to_le_bytes()).collect(),
            _ => EQUATIONS.iter().flat_map(|word| word.to_le_bytes()).collect(),
        };
        // The version stays, by which the file is known.
        for _ in 0..random.below(4) {
            let place = 4 + random.below(bytes.len() - 4);
            bytes[place] = [0, 1, 2, 0x7f, 0xff][random.below(5)];
        }
        if number % 3 == 0 {
            bytes.truncate(4 + random.below(bytes.len() - 4));
        }
        folder.write("damaged", &bytes);
        ends_in_order(&folder, "damaged");
    }
}

/// Each command takes the file in each place, and ends with an answer or a fault.
fn ends_in_order(folder: &Folder, file: &str) {
    for arguments in [
        vec!["check", file, "ends.mcf"],
        vec!["check", "dialog.aut", file],
        vec!["check", "dialog.aut", "ends.mcf", "--names", file],
        vec!["convert", file],
        vec!["convert", file, "--equations"],
        vec!["convert", file, "ends.mcf"],
        vec!["convert", "dialog.aut", file],
        vec!["draw", file],
        vec!["draw", "dialog.aut", file],
        vec!["show", file],
        vec!["test", file],
    ] {
        let ran = folder.run_for_bytes(&arguments);
        assert!(ran.exit.is_some_and(|exit| exit <= 2), "{arguments:?}: {:?}: {ran:?}", folder.bytes(file));
    }
}

#[test]
fn wrong_arguments() {
    let folder = Folder::with_dialog("fault-arguments");
    for arguments in [
        vec![],
        vec!["chekc"],
        vec!["check"],
        vec!["check", "dialog.aut"],
        vec!["check", "dialog.aut", "ends.mcf", "-e", "true"],
        vec!["check", "dialog.aut", "ends.mcf", "--limit", "many"],
        vec!["test"],
        vec!["show", "ends.mcf", "--silent", "i"],
        vec!["show"],
    ] {
        let ran = folder.run(&arguments).expect_exit(2);
        assert!(ran.out.is_empty() && !ran.err.is_empty(), "{arguments:?}: {ran:?}");
    }
}

/// The second would find nothing to read, or be mixed with the first.
#[test]
fn one_standard_input_and_output() {
    let folder = Folder::with_dialog("fault-twice");
    folder.run(&["convert", "dialog.aut", "ends.mcf", "-o", "case.bin"]).expect_exit(0);
    for (arguments, stream) in [
        (&["check", "-", "-"][..], "input"),
        (&["check", "dialog.aut", "-", "--names", "-"], "input"),
        (&["draw", "-", "-"], "input"),
        (&["convert", "-", "-"], "input"),
        (&["draw", "dialog.aut", "ends.mcf", "--svg", "-", "--html", "-"], "output"),
        (&["convert", "case.bin", "--aut", "-", "--mcf", "-"], "output"),
    ] {
        let ran = folder.run(arguments).expect_exit(2);
        let said = format!("error: - is standard {stream}, and stands here twice\n");
        assert!(ran.err.starts_with(&said) && ran.err.contains("help: ") && ran.out.is_empty(), "{ran:?}");
    }
}

/// What is said of a value names no kinds of numbers that only programmers know.
#[test]
fn wrong_values_of_options() {
    let folder = Folder::with_dialog("fault-values");
    let rounds = "a whole number of rounds in digits, up to 18,446,744,073,709,551,615";
    let check = ["check", "dialog.aut", "ends.mcf"];
    for (command, option, value, said) in [
        (&check[..], "--limit", "18446744073709551616", rounds),
        (&check, "--limit", "-1", rounds),
        (&check, "--limit", "+5", rounds),
        (&check, "--limit", "", rounds),
        (&check, "--silent", "", "one word, without blanks"),
        (&check, "--silent", "a b", "one word, without blanks"),
        (&check, "--silent", "a|b", "one word, without blanks"),
        (&["test", "."], "--jobs", "0", "a whole number from 1 on"),
        (&["test", "."], "--jobs", "-1", "a whole number from 1 on"),
        (&["test", "."], "--json", "-", "the name of a file"),
        (&["test", "."], "--junit", "-", "the name of a file"),
    ] {
        let ran = folder.run(&[command, &[option, value]].concat()).expect_exit(2);
        assert!(ran.err.contains(said) && ran.err.contains(option) && ran.out.is_empty(), "{value}: {ran:?}");
    }
    folder.run(&["check", "dialog.aut", "ends.mcf", "--silent=-x"]).expect_exit(0);
    folder.run(&["check", "dialog.aut", "ends.mcf", "--silent", "--json"]).expect_exit(2);
}

/// A file's text, its name and the names in it with characters that a terminal would obey.
#[test]
fn nothing_steers_a_terminal() {
    let folder = Folder::new("fault-escapes");
    folder.write("m\u{1b}[31m.aut", "des (0, 1, 2)\n(0, \"a\u{1b}[31m\u{9b}b\u{202e}\", 1)\n");
    folder.write("m\u{1b}[31m.names", "0 red\u{1b}[31m\u{7}\u{9b}\u{202e}\n");
    folder.write("f.mcf", "% name: \u{1b}[31m\n% models: m*.aut\n% expect: false\n<true>true\n");
    let model = "m\u{1b}[31m.aut";
    for arguments in [
        vec!["check", model, "f.mcf"],
        vec!["check", model, "f.mcf", "--json"],
        vec!["check", model, "-e", "[\u{1b}]true"],
        vec!["check", model, "-e", "[\"\u{1b}x\"]true"],
        vec!["check", "\u{1b}[31m", "f.mcf"],
        vec!["test", "."],
        vec!["test", ".", "--tap"],
        vec!["test", ".", "--filter", "\u{1b}[3"],
        vec!["test", ".", "--filter", "\u{1b}[32m"],
        vec!["show", "-e", "[\"\u{1b}[31m\"]true"],
        vec!["show", "\u{1b}"],
    ] {
        let ran = folder.run(&arguments);
        assert!(ran.exit.is_some_and(|exit| exit <= 2), "{arguments:?}: {ran:?}");
        let obeyed = |c: char| (c.is_control() && c != '\n' && c != '\t') || c == '\u{202e}';
        assert!(!ran.out.contains(obeyed) && !ran.err.contains(obeyed), "{arguments:?}: {ran:?}");
    }
}

/// Standard output is closed before anything is written to it.
#[test]
fn a_reader_who_has_gone_away() {
    let folder = Folder::with_dialog("fault-pipe");
    let mut child = folder
        .command(&["check", "-", "ends.mcf"])
        .stdin(Stdio::piped())
        .stdout(Stdio::piped())
        .stderr(Stdio::piped())
        .spawn()
        .expect("it runs");
    drop(child.stdout.take());
    std::io::Write::write_all(&mut child.stdin.take().expect("it has an input"), DIALOG.as_bytes()).expect("it reads");
    let output = child.wait_with_output().expect("it ends");
    assert_eq!((output.status.code(), output.stderr), (Some(0), Vec::new()));
}

/// A bar is drawn on a terminal only that can move its cursor, and cleared in the end.
#[test]
fn a_bar_on_a_terminal_only() {
    let folder = Folder::with_dialog("fault-bar");
    folder.write("bar.mcf", "% models: dialog.aut\ntrue\n");
    let piped = folder.run(&["test", "bar.mcf"]).expect_exit(0);
    assert!(piped.err.is_empty() && !piped.out.contains('\u{1b}'), "{piped:?}");
    match folder.on_terminal("test bar.mcf", &[]) {
        Some(shown) => assert!(shown.contains("1 of 1") && shown.contains('\u{1b}'), "{shown:?}"),
        None => println!("{NO_TERMINAL}"),
    }
    let dumb = folder.on_terminal("test bar.mcf", &[("TERM", "dumb")]);
    assert!(dumb.iter().all(|shown| shown.contains("1 check") && !shown.contains("1 of 1")), "{dumb:?}");
}

/// On a terminal, which the program `script` plays, faults have colours; not with NO_COLOR.
#[test]
fn colours_on_a_terminal_only() {
    let folder = Folder::with_dialog("fault-colours");
    let wrong = "check nothing.aut ends.mcf";
    let Some(plain) = folder.on_terminal(wrong, &[("NO_COLOR", "1")]) else {
        println!("{NO_TERMINAL}");
        return;
    };
    let coloured = folder.on_terminal(wrong, &[]).expect("it was here before");
    assert!(plain.contains("error: nothing.aut cannot be read"), "{plain:?}");
    assert!(!plain.contains('\u{1b}'), "{plain:?}");
    assert!(coloured.contains("\u{1b}["), "{coloured:?}");
}
