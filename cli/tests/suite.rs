//! `test`: which checks are run, what is printed, and the exits.

mod support;

use support::{Folder, Ran, DIALOG, DIALOG_NAMES, ENDS, HOVER};

/// A folder with two models and two formulas. Each run of the dialog ends, and with hovering not; the second formula says
/// wrongly that it does.
fn suite(name: &str) -> Folder {
    let folder = Folder::new(name);
    folder.write("s/dialog.aut", DIALOG);
    folder.write("s/dialog.names", DIALOG_NAMES);
    folder.write("s/hover.aut", HOVER);
    let directives = "% name: Every run ends\n% models: dialog.aut\n% models: hover.aut\n% expect: false\n";
    folder.write("s/a.mcf", format!("{directives}{ENDS}"));
    folder.write("s/b.mcf", format!("% name: It ends, they say\n% models: *.aut\n{ENDS}"));
    folder
}

/// The output without the end of its last line.
fn printed(ran: &Ran) -> &str {
    ran.out.trim_end()
}

/// The first formula alone: both its verdicts are as expected.
const AS_EXPECTED: &str = "\
ok     Every run ends  holds in dialog; fails in hover, as expected

2 checks of 1 formula on 2 models: all as expected";

#[test]
fn all_as_expected() {
    let folder = suite("suite-expected");
    let ran = folder.run(&["test", "s/a.mcf"]).expect_exit(0);
    assert_eq!(printed(&ran), AS_EXPECTED);
    assert_eq!(ran.err, "");
    let filtered = folder.run(&["test", "s", "--filter", "Every run"]).expect_exit(0);
    assert_eq!(printed(&filtered), AS_EXPECTED);
}

#[test]
fn a_verdict_that_is_not_as_expected() {
    let ran = suite("suite-wrong").run(&["test", "s"]).expect_exit(1);
    let lines: Vec<&str> = ran.out.lines().filter(|line| !line.starts_with("       ")).collect();
    assert_eq!(lines[0], "ok     Every run ends     holds in dialog; fails in hover, as expected");
    assert_eq!(lines[1], "ok     It ends, they say  holds in dialog");
    assert_eq!(lines[2], "WRONG  It ends, they say  s/hover.aut  fails, but is expected to hold");
    assert!(printed(&ran).ends_with("\n4 checks of 2 formulas on 2 models: 3 as expected, 1 not as expected"));
    let why = ran.out.lines().find(|line| line.starts_with("       ") && line.contains("hover"));
    assert!(why.is_some(), "the loop is shown: {}", ran.out);
}

/// Up to six models are named, and more are counted.
#[test]
fn many_models() {
    let folder = suite("suite-many");
    for (models, said) in [(6, "holds in m0, m1, m2, m3, m4, m5"), (7, "holds in 7 models")] {
        for number in 0..models {
            folder.write(&format!("m/m{number}.aut"), DIALOG);
        }
        folder.write("s/b.mcf", format!("% name: Many\n% models: ../m/*.aut\n{ENDS}"));
        let ran = folder.run(&["test", "s/b.mcf"]).expect_exit(0);
        assert_eq!(ran.out.lines().next(), Some(format!("ok     Many  {said}").as_str()));
    }
}

#[test]
fn filters() {
    let folder = suite("suite-filter");
    for (text, checks) in [("dialog", 2), ("b.mcf", 2), ("they say", 2), ("hover.aut", 2), ("s/", 4), ("a", 4)] {
        let ran = folder.run(&["test", "s", "--filter", text]);
        assert!(ran.out.contains(&format!("\n{checks} checks of ")), "{text}: {}", ran.out);
    }
    let ran = folder.run(&["test", "s", "--filter", "nowhere"]).expect_exit(2);
    assert!(ran.err.starts_with("error: no check found in s\n"), "{}", ran.err);
}

/// The third check of seven is the first that is not as expected.
#[test]
fn bail_ends_the_run_whatever_the_jobs() {
    let folder = suite("suite-bail");
    folder.write("s/a.mcf", format!("% models: dialog.aut\n{ENDS}"));
    for name in ["c", "d"] {
        folder.write(&format!("s/{name}.mcf"), format!("% models: *.aut\n{ENDS}"));
    }
    for jobs in ["1", "2", "8"] {
        let ran = folder.run(&["test", "s", "--bail", "--jobs", jobs]).expect_exit(1);
        assert!(printed(&ran)
            .ends_with("\n3 checks of 2 formulas on 2 models: 2 as expected, 1 not as expected, 4 not run"));
        let tap = folder.run(&["test", "s", "--bail", "--tap", "--jobs", jobs]).expect_exit(1);
        assert!(tap.out.starts_with("TAP version 14\n1..7\nok 1 - "), "{}", tap.out);
        assert!(tap.out.ends_with("\nBail out! A check is not as expected.\n"), "{}", tap.out);
    }
}

#[test]
fn the_output_does_not_depend_on_the_jobs() {
    let folder = suite("suite-jobs");
    for number in 0..40 {
        let expected = number % 3 != 0;
        folder.write(&format!("s/n{number}.mcf"), format!("% models: *.aut\n% expect: {expected}\n{ENDS}"));
    }
    let one = folder.run(&["test", "s", "--jobs", "1"]).expect_exit(1);
    assert!(printed(&one).contains("\n84 checks of 42 formulas on 2 models: "));
    for jobs in ["2", "8", "100000"] {
        assert_eq!(printed(&folder.run(&["test", "s", "--jobs", jobs]).expect_exit(1)), printed(&one));
    }
    let tap = folder.run(&["test", "s", "--tap", "--jobs", "1"]).expect_exit(1);
    assert_eq!(folder.run(&["test", "s", "--tap", "--jobs", "8"]).out, tap.out);
}

/// Each kind of fault in a formula's file is one check at fault; the others are run all the same.
#[test]
fn formulas_at_fault() {
    let folder = suite("suite-faults");
    folder.write("other/readme.txt", "a second folder");
    for (text, said) in [
        ("mu X. [true] X\n", "the formula names no models"),
        ("% models: nothing*.aut\ntrue\n", "no file matches `nothing*.aut`"),
        (&format!("% models: {}*.aut\ntrue\n", "../*/../*/".repeat(40)), "matches more than 10,000 files"),
        ("% models: *.aut\n% expect: true\n% models: hover.aut\n% expect: false\ntrue\n", "named twice"),
        ("% models: dialog.aut\nnu X [true] X\n", "expected \".\" after \"nu X\", found \"[\""),
        ("% models: dialog.aut\n[clsoe]false\n", "clsoe"),
        ("% models: dialog.aut\n% expect: perhaps\ntrue\n", "perhaps"),
    ] {
        folder.write("s/b.mcf", text);
        let ran = folder.run(&["test", "s"]).expect_exit(2);
        let mut below = ran.out.lines().skip_while(|line| !line.starts_with("FAULT  "));
        assert!(below.next().is_some_and(|line| line.ends_with("  cannot be checked:")), "{}", ran.out);
        let fault = below.next().unwrap_or_default();
        assert!(fault.starts_with("       error: ") && fault.contains(said), "{said}: {}", ran.out);
        assert!(ran.out.contains("s/b.mcf:"), "the place is shown: {}", ran.out);
        assert!(ran.out.contains("help: "), "it says what to do: {}", ran.out);
        assert!(printed(&ran).ends_with(": 2 as expected, 1 at fault"), "{}", ran.out);
    }
}

/// A file that is named by two patterns is checked once.
#[test]
fn patterns() {
    let folder = suite("suite-patterns");
    folder.write("t/f.mcf", format!("% models: ../s/d*.aut ../?/dialog.aut ../s/dialog.aut\n{ENDS}"));
    let ran = folder.run(&["test", "t"]).expect_exit(0);
    assert!(printed(&ran).ends_with("\n1 check of 1 formula on 1 model: all as expected"), "{}", ran.out);
}

/// The same file by two ways to write its name is one model, and one formula.
#[test]
fn one_file_by_two_names() {
    let folder = suite("suite-names");
    folder.write("s/f.mcf", format!("% models: ../s/dialog.aut dialog.aut\n{ENDS}"));
    let ran = folder.run(&["test", "s/f.mcf", "s/../s/f.mcf"]).expect_exit(0);
    assert!(printed(&ran).ends_with("\n1 check of 1 formula on 1 model: all as expected"), "{}", ran.out);
    folder.write("s/f.mcf", format!("% models: dialog.aut\n% models: ../s/dialog.aut\n% expect: false\n{ENDS}"));
    let ran = folder.run(&["test", "s/f.mcf"]).expect_exit(2);
    assert!(ran.out.contains("error: s/../s/dialog.aut is named twice: "), "{}", ran.out);
    let ran = folder.run(&["test", "s", "s/a.mcf", "s/b.mcf", "s", "--filter", "dialog.aut"]);
    assert!(ran.out.contains("\n2 checks of 2 formulas on 1 model: "), "{}", ran.out);
}

/// A formula without a folder before its name, and patterns in it.
#[test]
fn a_formula_in_this_folder() {
    let folder = Folder::with_dialog("suite-here");
    folder.write("here.mcf", format!("% name: Here\n% models: d*.au? ./dialog.aut\n{ENDS}"));
    let ran = folder.run(&["test", "here.mcf"]).expect_exit(0);
    assert!(ran.out.starts_with("ok     Here  holds in dialog\n\n1 check of "), "{}", ran.out);
    // Patterns end at blanks, and the path of the folder may have some.
    let pattern = folder.path("dialog.a*").display().to_string().replace(' ', "?");
    folder.write("here.mcf", format!("% name: Here\n% models: {pattern}\n{ENDS}"));
    let ran = folder.run(&["test", "here.mcf"]).expect_exit(0);
    assert!(ran.out.starts_with("ok     Here  holds in dialog\n\n1 check of "), "{}", ran.out);
    let ran = folder.run(&["test", "here.mcf", "--filter", "nothing"]).expect_exit(2);
    assert!(ran.err.contains("error: no check found in here.mcf\n"), "{}", ran.err);
    folder.write("here.mcf", "% models: e*.aut\ntrue\n");
    let ran = folder.run(&["test", "here.mcf"]).expect_exit(2);
    assert!(ran.out.contains("error: no file matches `e*.aut`\n"), "{}", ran.out);
    assert!(ran.out.contains("help: names are looked up from this folder; "), "{}", ran.out);
}

#[test]
fn folders_without_formulas() {
    let folder = Folder::with_dialog("suite-empty");
    folder.write("empty/readme.txt", "nothing");
    let ran = folder.run(&["test", "empty"]).expect_exit(2);
    assert!(ran.err.starts_with("error: no check found in empty\n"), "{}", ran.err);
    assert_eq!(ran.out, "");
}

/// A fault ends the run too, and the report says how many checks were not run.
#[test]
fn bail_at_a_fault() {
    let folder = suite("suite-bail-fault");
    folder.write("s/a.mcf", "% models: dialog.aut\nnu X [true] X\n");
    let ran = folder.run(&["test", "s", "--bail", "--jobs", "1", "--json", "r.json"]).expect_exit(2);
    assert!(printed(&ran).ends_with(": 0 as expected, 1 at fault, 2 not run"), "{}", ran.out);
    let report: serde_json::Value = serde_json::from_str(&folder.read("r.json")).expect("it is JSON");
    assert_eq!((&report["summary"]["checks"], &report["summary"]["not_run"]), (&3.into(), &2.into()));
}
