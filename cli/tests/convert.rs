//! `convert`: text to case files, case files to text, and equations.

mod support;

use support::{Folder, CASE, DIALOG, EQUATIONS, NO_TERMINAL};

fn case() -> Vec<u8> {
    CASE.iter().flat_map(|number| number.to_le_bytes()).collect()
}

fn equations() -> Vec<u8> {
    EQUATIONS.iter().flat_map(|number| number.to_le_bytes()).collect()
}

#[test]
fn text_to_a_case_file() {
    let folder = Folder::with_dialog("convert-case");
    folder.run(&["convert", "dialog.aut", "ends.mcf", "-o", "case.bin"]).expect_exit(0);
    assert_eq!(folder.bytes("case.bin"), case());
    let ran = folder.run(&["convert", "dialog.aut", "-e", "mu X. [true] X"]).expect_exit(0);
    assert_eq!(ran.out.as_bytes(), case());
    folder.run_with(&["convert", "-", "ends.mcf", "-o", "again.bin"], DIALOG.as_bytes()).expect_exit(0);
    assert_eq!(folder.bytes("again.bin"), case());
}

/// Bytes would garble a terminal, and text from a file might steer it.
#[test]
fn on_a_terminal() {
    let folder = Folder::with_dialog("convert-terminal");
    let Some(refused) = folder.on_terminal("convert dialog.aut ends.mcf", &[("NO_COLOR", "1")]) else {
        println!("{NO_TERMINAL}");
        return;
    };
    assert!(refused.starts_with("error: a case file is not text, and a terminal cannot show it"), "{refused:?}");
    folder.write("escape.aut", "des (0, 1, 2)\n(0, \"a\u{1b}[31m\", 1)\n");
    assert!(folder.on_terminal("draw escape.aut", &[]).is_some_and(|shown| !shown.contains('\u{1b}')));
}

#[test]
fn a_case_file_to_text() {
    let folder = Folder::new("convert-text");
    folder.write("case.bin", case());
    let ran = folder.run(&["convert", "case.bin", "--aut", "m.aut", "--mcf", "f.mcf"]).expect_exit(0);
    assert_eq!(ran.out, "");
    let answer = folder.run(&["check", "m.aut", "f.mcf", "--json"]).expect_exit(0).json();
    assert_eq!((&answer["count"], &answer["records"]), (&serde_json::json!(3), &serde_json::json!(3)));
    let ran = folder.run(&["convert", "case.bin"]).expect_exit(0);
    assert_eq!(ran.out, format!("Model (.aut):\n{}\nFormula (.mcf):\n{}", folder.read("m.aut"), folder.read("f.mcf")));
    folder.run(&["convert", "m.aut", "f.mcf", "-o", "again.bin"]).expect_exit(0);
    assert_eq!(folder.bytes("again.bin"), case());
}

#[test]
fn equations_to_read() {
    let folder = Folder::with_dialog("convert-equations");
    folder.write("case.bin", case());
    folder.write("equations.bin", equations());
    let from_text = folder.run(&["convert", "dialog.aut", "ends.mcf", "--equations"]).expect_exit(0).out;
    assert!(from_text.contains("mu") && from_text.contains("X0"), "{from_text}");
    assert_eq!(folder.run(&["convert", "case.bin", "--equations"]).expect_exit(0).out, from_text);
    assert_eq!(folder.run(&["convert", "equations.bin"]).expect_exit(0).out, from_text);
    folder.run(&["convert", "equations.bin", "-o", "equations.txt"]).expect_exit(0);
    assert_eq!(folder.read("equations.txt"), from_text);
}

#[test]
fn files_that_are_refused() {
    let folder = Folder::with_dialog("convert-refused");
    let mut wrong_version = case();
    wrong_version[0] = 9;
    folder.write("nine.bin", wrong_version);
    let ran = folder.run(&["convert", "nine.bin"]).expect_exit(2);
    assert!(ran.err.contains("nine.bin") && ran.err.contains("(refusal 2)"), "{}", ran.err);
    folder.write("short.bin", &equations()[..100]);
    let ran = folder.run(&["convert", "short.bin"]).expect_exit(2);
    assert!(ran.err.contains("short.bin"), "{}", ran.err);
    folder.write("big.aut", "des (0, 0, 257)\n");
    let ran = folder.run(&["convert", "big.aut", "-e", "true", "-o", "big.bin"]).expect_exit(2);
    assert!(ran.err.starts_with("error[refusal 3]"), "{}", ran.err);
    assert!(!folder.path("big.bin").exists());
}

#[test]
fn arguments_that_do_not_fit_the_file() {
    let folder = Folder::with_dialog("convert-arguments");
    folder.write("case.bin", case());
    folder.write("equations.bin", equations());
    for arguments in [
        vec!["dialog.aut"],
        vec!["dialog.aut", "ends.mcf", "--aut", "m.aut"],
        vec!["case.bin", "ends.mcf"],
        vec!["case.bin", "-o", "m.txt"],
        vec!["case.bin", "-o", "m.txt", "--aut", "m.aut"],
        vec!["equations.bin", "-e", "true"],
        vec!["equations.bin", "--mcf", "f.mcf"],
        vec!["nothing.bin"],
    ] {
        let ran = folder.run(&[vec!["convert"], arguments].concat()).expect_exit(2);
        assert!(ran.out.is_empty() && ran.err.contains("error: "), "{ran:?}");
    }
    assert!(!folder.path("m.aut").exists() && !folder.path("m.txt").exists() && !folder.path("f.mcf").exists());
}

/// A file that is no model is not said to be one, and a model that has a fault says which.
#[test]
fn text_without_a_formula() {
    let folder = Folder::with_dialog("convert-alone");
    folder.write("empty", "");
    folder.write("bytes", [0xc3, 0x28, 0x90, 0x0d]);
    for file in ["ends.mcf", "empty", "bytes"] {
        let ran = folder.run(&["convert", file]).expect_exit(2);
        assert!(ran.err.starts_with(&format!("error: {file} is neither a model nor a case file nor ")), "{}", ran.err);
        assert!(ran.err.contains("help: a model as text begins with `des (`"), "{}", ran.err);
    }
    let ran = folder.run(&["convert", "dialog.aut"]).expect_exit(2);
    assert!(ran.err.starts_with("error: dialog.aut is a model, and a case has a formula too\n"), "{}", ran.err);
    folder.write("broken.aut", "\u{feff}\n des (0, 1, 2)\n(0 click, 1)\n");
    let ran = folder.run(&["convert", "broken.aut"]).expect_exit(2);
    assert!(ran.err.contains("--> broken.aut:3:"), "{}", ran.err);
    folder.write("utf16.aut", b"\xff\xfed\0e\0s\0");
    let ran = folder.run(&["convert", "utf16.aut"]).expect_exit(2);
    assert!(ran.err.contains("UTF-16"), "{}", ran.err);
}

/// The name `-` is no file's name.
#[test]
fn to_standard_output() {
    let folder = Folder::with_dialog("convert-stdout");
    folder.write("case.bin", case());
    let equations = folder.run(&["convert", "case.bin", "--equations"]).expect_exit(0).out;
    assert_eq!(folder.run(&["convert", "case.bin", "--equations", "-o", "-"]).expect_exit(0).out, equations);
    assert_eq!(folder.run(&["convert", "dialog.aut", "ends.mcf", "-o", "-"]).expect_exit(0).out.as_bytes(), case());
    assert!(folder.run(&["convert", "case.bin", "--aut", "-"]).expect_exit(0).out.starts_with("des (0, 3, 3)\n"));
    let formula = folder.run(&["convert", "case.bin", "--mcf", "-"]).expect_exit(0).out;
    assert!(formula.contains("mu ") && !formula.contains("des"), "{formula}");
    assert!(folder.run(&["draw", "dialog.aut", "--svg", "-"]).expect_exit(0).out.contains("<svg"));
    let page = folder.run(&["draw", "dialog.aut", "ends.mcf", "--html", "-"]).expect_exit(0).out;
    assert!(page.to_lowercase().starts_with("<!doctype html>"), "{page}");
    assert!(!folder.path("-").exists());
}

#[test]
fn options_for_reading() {
    let folder = Folder::new("convert-options");
    folder.write("m.aut", "des (0, 1, 2)\n(0, click|i, 1)\n");
    folder.run(&["convert", "m.aut", "-e", "<click>true", "-o", "c.bin"]).expect_exit(2);
    folder.run(&["convert", "m.aut", "-e", "<click>true", "-o", "c.bin", "--silent", "i"]).expect_exit(0);
    folder.run(&["convert", "m.aut", "-e", "<click>true", "-o", "c.bin", "--allow-unknown-labels"]).expect_exit(0);
}
