//! Names of states: what a .names file gives a model, and its faults as they are printed.

use bithrowy_front::label::SILENT;
use bithrowy_front::model::Model;
use bithrowy_front::source::{Fault, Source};
use bithrowy_front::{aut, names};
use std::collections::BTreeMap;

/// A model with so many states and no transitions.
fn model(states: usize) -> Model {
    aut::read(&Source::new("dialog.aut", format!("des (0, 0, {states})")), SILENT).expect("a model")
}

fn read(text: &str, model: &mut Model) -> Result<(), Fault> {
    names::read(&Source::new("dialog.names", text), model)
}

/// The names that a text gives to the states of a model with three of them.
fn given(text: &str) -> BTreeMap<usize, String> {
    let mut model = model(3);
    read(text, &mut model).expect("names");
    model.names
}

fn named(names: &[(usize, &str)]) -> BTreeMap<usize, String> {
    names.iter().map(|&(state, name)| (state, name.to_string())).collect()
}

#[track_caller]
fn check(states: usize, text: &str, lines: &[&str]) {
    let mut model = model(states);
    let fault = read(text, &mut model).expect_err("a fault");
    assert_eq!(fault.to_string(), lines.join("\n"));
    assert_eq!(model.names, BTreeMap::new(), "after a fault the model is as it was");
}

#[test]
fn names_are_the_rest_of_their_lines() {
    assert_eq!(given(""), named(&[]));
    assert_eq!(given("0 open\n1 closing\n2 closed\n"), named(&[(0, "open"), (1, "closing"), (2, "closed")]));
    assert_eq!(
        given("2\tclosed, at last \r\n\r\n  0   wide  open"),
        named(&[(0, "wide  open"), (2, "closed, at last")])
    );
    assert_eq!(given("01 é|ü\n"), named(&[(1, "é|ü")]));
}

#[test]
fn comments_begin_with_a_percent_sign() {
    let text = "% the dialog\n0 open % at first\n  % 1 closing\n1 50%\n2 b%a %c % d";
    assert_eq!(given(text), named(&[(0, "open"), (1, "50%"), (2, "b%a")]));
}

#[test]
fn states_are_shown_by_their_names() {
    let mut model = model(3);
    read("1 closing\n2 a\u{1b}b", &mut model).expect("names");
    assert_eq!((model.state(0), model.state(1)), ("state 0".to_string(), "closing".to_string()));
    assert_eq!(model.state(2), "a\u{fffd}b");
    assert_eq!(model.state(usize::MAX), "state 18446744073709551615");
}

#[test]
fn a_second_file_adds_names() {
    let mut model = model(3);
    read("0 open", &mut model).expect("names");
    read("1 closing", &mut model).expect("more names");
    assert_eq!(model.names, named(&[(0, "open"), (1, "closing")]));
    assert!(read("2 open", &mut model).is_err(), "the first file's name is taken");
    assert!(read("0 shown", &mut model).is_err(), "the first file's state has its name");
    assert_eq!(model.names, named(&[(0, "open"), (1, "closing")]));
}

#[test]
fn names_are_written_in_the_order_of_states() {
    let mut model = model(3);
    assert_eq!(names::write(&model), "");
    read("2 closed\n0 wide open", &mut model).expect("names");
    assert_eq!(names::write(&model), "0 wide open\n2 closed\n");
}

#[test]
fn line_without_a_number() {
    check(
        3,
        "0 open\nclosing\n",
        &[
            "dialog.names:2:1: expected a state's number at the start of the line, found \"closing\"",
            "  |",
            "2 | closing",
            "  | ^^^^^^^",
            "  = help: write a state's number and then its name, such as 0 open",
        ],
    );
}

#[test]
fn line_without_a_name() {
    let lines = |shown| {
        [
            "dialog.names:1:1: no name stands behind the number of state 1",
            "  |",
            shown,
            "  | ^",
            "  = help: write its name behind it, or leave the line out",
        ]
    };
    check(3, "1", &lines("1 | 1"));
    check(3, "1 % closing", &lines("1 | 1 % closing"));
}

#[test]
fn number_that_touches_the_name() {
    let lines = |shown, carets| {
        [
            "dialog.names:1:2: expected a blank between a state's number and its name",
            "  |",
            shown,
            carets,
            "  = help: write a state's number and then its name, such as 0 open",
        ]
    };
    check(3, "0open", &lines("1 | 0open", "  |  ^^^^"));
    check(3, "0: open", &lines("1 | 0: open", "  |  ^^^^^^"));
}

#[test]
fn state_that_the_model_does_not_have() {
    let lines = |message, shown, carets, help| [message, "  |", shown, carets, help];
    let message = "dialog.names:1:1: the model has no state 3";
    let three = "  = help: dialog.aut has the states 0 to 2";
    check(3, "3 open", &lines(message, "1 | 3 open", "  | ^", three));
    check(1, "3 open", &lines(message, "1 | 3 open", "  | ^", "  = help: dialog.aut has one state, 0"));
    check(0, "3 open", &lines(message, "1 | 3 open", "  | ^", "  = help: dialog.aut has no states"));
    let large = "dialog.names:1:1: the model has no state 99999999999999999999";
    check(3, "99999999999999999999 x", &lines(large, "1 | 99999999999999999999 x", "  | ^^^^^^^^^^^^^^^^^^^^", three));
}

#[test]
fn state_that_is_named_twice() {
    check(
        3,
        "0 open\n1 closing\n0 shown\n",
        &[
            "dialog.names:3:1: state 0 is called `open` already",
            "  |",
            "3 | 0 shown",
            "  | ^",
            "  = help: keep one of its two names",
        ],
    );
}

#[test]
fn name_that_is_given_twice() {
    check(
        3,
        "0 open\n1 open\n",
        &[
            "dialog.names:2:3: state 0 is called `open` already",
            "  |",
            "2 | 1 open",
            "  |   ^^^^",
            "  = help: give each state a name of its own",
        ],
    );
}

/// A state without a name is called by its number, so no other state may be called so.
#[test]
fn name_that_is_another_state_s_number() {
    check(
        3,
        "1 state 2\n",
        &[
            "dialog.names:1:3: state 2 is called `state 2` already",
            "  |",
            "1 | 1 state 2",
            "  |   ^^^^^^^",
            "  = help: give each state a name of its own",
        ],
    );
    assert_eq!(given("2 state 2\n1 state 02\n"), named(&[(1, "state 02"), (2, "state 2")]));
}
