//! `check`: the answer in words and as JSON, its options, its exits.

mod support;

use serde_json::json;
use support::{Folder, DIALOG, HOVER};

/// By the paper's P1: all three states, four rounds by both routes, three records of two transitions, 5 cents.
const HOLDS: &str = "\
The formula holds in the initial state, open.

  holds in     3 states: open, closing, closed
  fails in     no state
  rounds       4 by the equation route, 4 by the direct one
  transitions  3 records, 2 distinct
  price        5 cents

";

#[test]
fn a_formula_that_holds() {
    let folder = Folder::with_dialog("check-holds");
    let ran = folder.run(&["check", "dialog.aut", "ends.mcf"]).expect_exit(0);
    let explanation = ran.out.strip_prefix(HOLDS).expect("the facts come first");
    assert!(!explanation.trim().is_empty());
    assert_eq!(ran.err, "");
}

/// The loop at state 1 never ends, and from state 0 it can be reached; state 2 has no transition. By both routes: the first
/// round adds state 2, the second finds nothing new.
const FAILS: &str = "\
The formula fails in the initial state, state 0.

  holds in     1 state: state 2
  fails in     2 states: state 0, state 1
  rounds       2 by the equation route, 2 by the direct one
  transitions  3 records, 3 distinct
  price        5 cents

";

#[test]
fn a_formula_that_fails() {
    let folder = Folder::new("check-fails");
    folder.write("hover.aut", HOVER);
    let ran = folder.run(&["check", "hover.aut", "-e", "mu X. [true] X"]).expect_exit(1);
    let explanation = ran.out.strip_prefix(FAILS).expect("the facts come first");
    assert!(explanation.contains("hover"), "the loop is shown: {explanation}");
}

/// Without the close event no run comes to state 2, in which the formula holds all the same.
#[test]
fn states_that_no_run_comes_to() {
    let folder = Folder::new("check-unreached");
    folder.write("lost.aut", "des (0, 1, 3)\n(0, click, 1)\n");
    let ran = folder.run(&["check", "lost.aut", "-e", "mu X. [true] X"]).expect_exit(0);
    assert!(ran.out.contains("\n  holds in     2 states: state 0, state 1\n"), "{}", ran.out);
    assert!(ran.out.contains("\n  not reached  1 state: state 2 (holds)\n"), "{}", ran.out);
}

/// Sixty states in a ring: their names are broken into lines of at most a hundred characters, and none is lost.
#[test]
fn long_lists_of_states() {
    let folder = Folder::new("check-ring");
    let lines = (0..60).map(|state| format!("({state}, next, {})\n", (state + 1) % 60));
    folder.write("ring.aut", format!("des (0, 60, 60)\n{}", lines.collect::<String>()));
    let ran = folder.run(&["check", "ring.aut", "-e", "<next>true"]).expect_exit(0);
    assert!(ran.out.lines().all(|line| line.len() <= 100), "{}", ran.out);
    let words: Vec<&str> = ran.out.split_whitespace().collect();
    let names: Vec<String> = (0..60).map(|state| format!("state {state}")).collect();
    assert!(
        words.join(" ").contains(&format!(" holds in 60 states: {} fails in no state ", names.join(", "))),
        "{}",
        ran.out
    );
}

#[test]
fn the_answer_as_json() {
    let folder = Folder::with_dialog("check-json");
    let answer = folder.run(&["check", "dialog.aut", "ends.mcf", "--json"]).expect_exit(0).json();
    let state = |number: usize, name: &str| json!({"number": number, "name": name, "holds": true, "reached": true});
    assert_eq!(answer["model"], "dialog.aut");
    assert_eq!(answer["formula"], "ends.mcf");
    assert_eq!(answer["verdict"], true);
    assert_eq!(answer["initial"], 0);
    assert_eq!(answer["states"], json!([state(0, "open"), state(1, "closing"), state(2, "closed")]));
    assert_eq!(answer["count"], 3);
    assert_eq!(answer["rounds"], json!({"equation": 4, "direct": 4}));
    assert_eq!((&answer["records"], &answer["distinct"], &answer["cents"]), (&json!(3), &json!(2), &json!(5)));
    assert!(answer["explanation"].as_array().is_some_and(|lines| !lines.is_empty()));
    assert_eq!((&answer["exit"], &answer["faults"]), (&json!(0), &json!([])));
}

#[test]
fn a_state_without_a_name_has_none_in_json() {
    let folder = Folder::new("check-json-fails");
    folder.write("hover.aut", HOVER);
    let answer = folder.run(&["check", "hover.aut", "-e", "mu X. [true] X", "--json"]).expect_exit(1).json();
    assert_eq!(answer["states"][1], json!({"number": 1, "name": null, "holds": false, "reached": true}));
    assert_eq!((&answer["verdict"], &answer["exit"]), (&json!(false), &json!(1)));
}

#[test]
fn names_from_another_file() {
    let folder = Folder::with_dialog("check-names");
    folder.write("other.txt", "0 shown\n");
    let ran = folder.run(&["check", "dialog.aut", "ends.mcf", "--names", "other.txt"]).expect_exit(0);
    assert!(ran.out.starts_with("The formula holds in the initial state, shown.\n"), "{}", ran.out);
}

/// `i` is a step with a name of its own in version 1; as the silent step it adds nothing to `click|i`, which is then `click`.
#[test]
fn another_word_for_the_silent_step() {
    let folder = Folder::new("check-silent");
    folder.write("m.aut", "des (0, 1, 2)\n(0, click|i, 1)\n");
    folder.run(&["check", "m.aut", "-e", "<click>true", "--silent", "i"]).expect_exit(0);
    folder.write("f.mcf", "% silent: i\n<click>true\n");
    folder.run(&["check", "m.aut", "f.mcf"]).expect_exit(0);
    folder.run(&["check", "m.aut", "-e", "<click>true", "--allow-unknown-labels"]).expect_exit(1);
    folder.run(&["check", "m.aut", "f.mcf", "--silent", "tau", "--allow-unknown-labels"]).expect_exit(1);
}

#[test]
fn a_label_that_no_transition_has() {
    let folder = Folder::with_dialog("check-unknown");
    let ran = folder.run(&["check", "dialog.aut", "-e", "[clsoe]false"]).expect_exit(2);
    assert!(ran.err.contains("`close`"), "it says what may be meant: {}", ran.err);
    assert_eq!(ran.out, "");
    folder.run(&["check", "dialog.aut", "-e", "[clsoe]false", "--allow-unknown-labels"]).expect_exit(0);
    folder.write("f.mcf", "% unknown labels: allow\n[clsoe]false\n");
    folder.run(&["check", "dialog.aut", "f.mcf"]).expect_exit(0);
}

/// P1 takes four rounds, so a limit of three is too low; an option counts before the formula's file.
#[test]
fn a_limit() {
    let folder = Folder::with_dialog("check-limit");
    let ran = folder.run(&["check", "dialog.aut", "ends.mcf", "--limit", "3"]).expect_exit(2);
    assert!(ran.err.starts_with("error[refusal 14]: "), "{}", ran.err);
    folder.run(&["check", "dialog.aut", "ends.mcf", "--limit", "4"]).expect_exit(0);
    folder.write("f.mcf", "% limit: 3\nmu X. [true] X\n");
    folder.run(&["check", "dialog.aut", "f.mcf"]).expect_exit(2);
    folder.run(&["check", "dialog.aut", "f.mcf", "--limit", "18446744073709551615"]).expect_exit(0);
}

#[test]
fn a_model_from_standard_input() {
    let folder = Folder::with_dialog("check-stdin");
    folder.run_with(&["check", "-", "ends.mcf"], DIALOG.as_bytes()).expect_exit(0);
    folder.run_with(&["check", "dialog.aut", "-"], b"<close>true").expect_exit(1);
}

/// `true` has no fixed point: the direct route has nothing to iterate, and the equation route iterates the nu that is
/// written around it once, which finds nothing new.
#[test]
fn rounds_of_each_route() {
    let folder = Folder::with_dialog("check-rounds");
    let ran = folder.run(&["check", "dialog.aut", "-e", "true"]).expect_exit(0);
    assert!(ran.out.contains("\n  rounds       1 by the equation route, 0 by the direct one\n"), "{}", ran.out);
    let answer = folder.run(&["check", "dialog.aut", "-e", "true", "--json"]).expect_exit(0).json();
    assert_eq!(answer["rounds"], json!({"equation": 1, "direct": 0}));
}

/// The formula holds in three states, one of which no run comes to.
#[test]
fn an_unreached_state_in_json() {
    let folder = Folder::new("check-json-unreached");
    folder.write("lost.aut", "des (0, 1, 3)\n(0, click, 1)\n");
    let answer = folder.run(&["check", "lost.aut", "-e", "mu X. [true] X", "--json"]).expect_exit(0).json();
    assert_eq!(answer["count"], 2);
    assert_eq!(answer["states"][2], json!({"number": 2, "name": null, "holds": true, "reached": false}));
}
