//! The faults of models, as they are printed. Each text was written down from the rules of the format before it was
//! compared: columns count characters from 1, and carets stand below what the message names.

use bithrowy_front::aut;
use bithrowy_front::label::SILENT;
use bithrowy_front::source::Source;

const ABOUT_HEADER: &str =
    "  = help: begin with des (0, 1, 2): the initial state, how many transitions follow, how many states there are";
const ABOUT_TRANSITION: &str = "  = help: write (0, \"click\", 1): from state 0, by click, to state 1";
const ABOUT_STATES: &str = "  = help: states are numbered from 0; a .names file gives them names";
const ABOUT_NAMES: &str = "  = help: write a name, such as click, or several, such as focus|blur";

#[track_caller]
fn check(text: &str, lines: &[&str]) {
    let fault = aut::read(&Source::new("dialog.aut", text), SILENT).expect_err("a fault");
    assert_eq!(fault.to_string(), lines.join("\n"));
}

/// A fault in the one transition of a model, which is its second line.
#[track_caller]
fn check_transition(line: &str, place: &str, carets: &str, help: &str) {
    let first = format!("dialog.aut:2:{place}");
    let shown = format!("2 | {line}");
    let carets = format!("  | {carets}");
    check(&format!("des (0, 1, 2)\n{line}\n"), &[&first, "  |", &shown, &carets, help]);
}

/// A fault in the header, which is all of the text.
#[track_caller]
fn check_header(line: &str, place: &str, carets: &str, help: &str) {
    let first = format!("dialog.aut:1:{place}");
    let shown = format!("1 | {line}");
    let carets = format!("  | {carets}");
    check(line, &[&first, "  |", &shown, &carets, help]);
}

#[test]
fn nothing_to_read() {
    check("", &["dialog.aut:1:1: the file holds no model", "  |", "1 |", "  | ^", ABOUT_HEADER]);
    check(" \n\r\n\t\n", &["dialog.aut:1:1: the file holds no model", "  |", "1 |", "  | ^", ABOUT_HEADER]);
}

#[test]
fn header_that_is_missing() {
    let message = "1: expected \"des\" at the start of the model, found \"(\"";
    check_header("(0, \"click\", 1)", message, "^", ABOUT_HEADER);
    let help = format!(
        "{ABOUT_HEADER}\n          is this the formula? The model's file comes first; and a model has no comments"
    );
    check_header("DES (0, 0, 1)", "1: expected \"des\" at the start of the model, found \"DES\"", "^^^", &help);
    check_header("% Does it end?", "1: expected \"des\" at the start of the model, found \"%\"", "^", &help);
}

#[test]
fn header_without_a_sign() {
    check_header("des 0, 1, 2)", "5: expected \"(\" after \"des\", found \"0\"", "    ^", ABOUT_HEADER);
    let message = "7: expected \",\" after the initial state's number, found \";\"";
    check_header("des (0; 1, 2)", message, "      ^", ABOUT_HEADER);
    let message = "10: expected \",\" after the number of transitions, found \")\"";
    check_header("des (0, 1)", message, "         ^", ABOUT_HEADER);
    check_header("des (0, 1, 2", "13: expected \")\" at the end of the header", "            ^", ABOUT_HEADER);
    check_header("des", "4: expected \"(\" after \"des\"", "   ^", ABOUT_HEADER);
}

#[test]
fn header_without_a_number() {
    let message = "6: expected the initial state's number after \"(\", found \"open\"";
    check_header("des (open, 1, 2)", message, "     ^^^^", ABOUT_HEADER);
    let message = "9: expected the number of transitions after the first \",\", found \",\"";
    check_header("des (0, , 2)", message, "        ^", ABOUT_HEADER);
    let message = "12: expected the number of states after the second \",\", found \"-3\"";
    check_header("des (0, 1, -3)", message, "           ^^", ABOUT_HEADER);
}

#[test]
fn header_with_more_behind_it() {
    let help = "  = help: leave out what stands behind \")\": these files have no comments";
    let message = "15: expected the end of the line after \")\", found \"%\"";
    check_header("des (0, 1, 2) % a dialog", message, "              ^", help);
}

/// 2^64 is 18446744073709551616, the first number that 64 bits do not hold.
#[test]
fn numbers_of_the_header_that_are_too_large() {
    let help = "  = help: write a smaller number";
    let carets = "^^^^^^^^^^^^^^^^^^^^";
    let large = "18446744073709551616";
    let message = format!("6: state {large}: the checker takes the states 0 to 255");
    check_header(&format!("des ({large}, 1, 2)"), &message, &format!("     {carets}"), help);
    let message = format!("9: {large} transitions: the checker takes 0 to 2,048");
    check_header(&format!("des (0, {large}, 2)"), &message, &format!("        {carets}"), help);
    let message = format!("12: {large} states: the checker takes 1 to 256");
    check_header(&format!("des (0, 1, {large})"), &message, &format!("           {carets}"), help);
}

#[test]
fn header_that_counts_wrongly() {
    let header = |message: &str, text: &str, carets: &str, help: &str| {
        let shown = format!("1 | {}", text.lines().next().unwrap_or(""));
        check(text, &[message, "  |", &shown, carets, help]);
    };
    header(
        "dialog.aut:1:9: the header says 3 transitions, 4 follow",
        "des (0, 3, 2)\n(0, a, 1)\n(0, a, 1)\n(0, a, 1)\n(0, a, 1)\n",
        "  |         ^",
        "  = help: write 4",
    );
    header(
        "dialog.aut:1:7: the header says 1,000 transitions, 1 follows",
        "des(0,1000,2)\n(0, a, 1)\n",
        "  |       ^^^^",
        "  = help: write 1, or add the 999 lines that are missing",
    );
    header(
        "dialog.aut:1:9: the header says 1 transition, 0 follow",
        "des (0, 1, 2)\n",
        "  |         ^",
        "  = help: write 0, or add the line that is missing",
    );
}

#[test]
fn second_header() {
    let message = "1: expected a transition, found \"des\"";
    check_transition(
        "des (0, 1, 2)",
        message,
        "^^^",
        "  = help: the header stands once, on the first line: keep each model in a file of its own",
    );
}

#[test]
fn transition_without_a_sign() {
    check_transition(
        "0, \"click\", 1)",
        "1: expected \"(\" at the start of the transition, found \"0\"",
        "^",
        ABOUT_TRANSITION,
    );
    let message = "4: expected \",\" after the first state's number, found a quote";
    check_transition("(0 \"click\" 1)", message, "   ^", ABOUT_TRANSITION);
    check_transition("(0", "3: expected \",\" after the first state's number", "  ^", ABOUT_TRANSITION);
    let message = "13: expected \",\" after the label, found \"1\"";
    check_transition("(0, \"click\" 1)", message, "            ^", ABOUT_TRANSITION);
    let message = "5: expected \",\" and a state's number after the label";
    check_transition("(0, click)", message, "    ^^^^^^", ABOUT_TRANSITION);
}

#[test]
fn transition_that_does_not_end() {
    let help = "  = help: write (0, \"click\", 1)";
    check_transition("(0, \"click\", 1", "15: expected \")\" at the end of the transition", "              ^", help);
    check_transition(
        "(0, \"click\", 1]",
        "15: expected \")\" at the end of the transition, found \"]\"",
        "              ^",
        help,
    );
}

#[test]
fn transition_with_a_word_for_a_state() {
    let message = "2: expected a state's number after \"(\", found \"open\"";
    check_transition("(open, \"click\", 1)", message, " ^^^^", ABOUT_STATES);
    let message = "14: expected a state's number after the label, found \"closing\"";
    check_transition("(0, \"click\", closing)", message, "             ^^^^^^^", ABOUT_STATES);
}

#[test]
fn transition_with_a_large_number() {
    let help = "  = help: write a smaller number";
    let message = "2: state 18446744073709551616: the checker takes the states 0 to 255";
    check_transition("(18446744073709551616, a, 1)", message, " ^^^^^^^^^^^^^^^^^^^^", help);
    let message = "8: state 99999999999999999999: the checker takes the states 0 to 255";
    check_transition("(0, a, 99999999999999999999)", message, "       ^^^^^^^^^^^^^^^^^^^^", help);
}

#[test]
fn transitions_on_one_line() {
    let message = "16: expected the end of the line after \")\", found \"(\"";
    let help = "  = help: write each transition on a line of its own";
    check_transition("(0, \"open\", 1) (1, \"close\", 0)", message, "               ^", help);
    let help = "  = help: leave out what stands behind \")\": these files have no comments";
    let message = "16: expected the end of the line after \")\", found \"//\"";
    check_transition("(0, \"click\", 1)// twice", message, "               ^^", help);
}

/// Without quotes a label ends at the last comma, but not behind the end of the transition that it stands in.
#[test]
fn transitions_on_one_line_without_quotes() {
    let message = "11: expected the end of the line after \")\", found \"(\"";
    let help = "  = help: write each transition on a line of its own\n          a label with such signs in it stands in quotes";
    check_transition("(0, a, 1 ) (1, b, 0)", &message.replace("11", "12"), "           ^", help);
    check_transition("(0, a, 12)(1, b, 0) (0, c, 1)", message, "          ^", help);
    check_transition("(0, a(1,2), 1)(1, b, 0)", &message.replace("11", "15"), "              ^", help);
    let help = "  = help: leave out what stands behind \")\": these files have no comments\n          a label with such signs in it stands in quotes";
    let message = "10: expected the end of the line after \")\", found \",\"";
    check_transition("(0, a, 1),", message, "         ^", help);
}

#[test]
fn labels_without_a_name() {
    let empty = "a label has a name, and this one is empty";
    check_transition("(0, , 1)", &format!("5: {empty}"), "    ^", ABOUT_NAMES);
    check_transition("(0, \" \", 1)", &format!("5: {empty}"), "    ^^^", ABOUT_NAMES);
    let missing = "a name stands before and behind each \"|\", and here one is missing";
    check_transition("(0, focus||blur, 1)", &format!("5: {missing}"), "    ^^^^^^^^^^^", ABOUT_NAMES);
    check_transition("(0, \"focus|\", 1)", &format!("5: {missing}"), "    ^^^^^^^^", ABOUT_NAMES);
}

#[test]
fn labels_with_quotes() {
    let message = "5: the label begins with a quote, and no quote ends it";
    let help = "  = help: write \"click\"; inside a label, \\\" stands for a quote";
    check_transition("(0, \"click, 1)", message, "    ^^^^^^^^^^", help);
    let message = "10: a quote stands inside a label that does not begin with one";
    let help = "  = help: write the whole label in quotes, with \\\" for a quote inside it";
    check_transition("(0, click\", 1)", message, "         ^", help);
    let message = "7: a backslash in quotes stands before a quote or a backslash";
    let help = "  = help: write \\\\ for one backslash, or leave the quotes of the label out";
    check_transition("(0, \"a\\b\", 1)", message, "      ^", help);
}

/// The place is on line 12, so that two columns are for the number.
#[test]
fn line_numbers_of_two_digits() {
    let text = "des (0, 11, 2)\n".to_string() + &"(0, a, 1)\n".repeat(10) + "(0, a, b)\n";
    check(
        &text,
        &[
            "dialog.aut:12:8: expected a state's number after the label, found \"b\"",
            "   |",
            "12 | (0, a, b)",
            "   |        ^",
            "   = help: states are numbered from 0; a .names file gives them names",
        ],
    );
}

/// The line's return is no part of it: the caret stands behind the last sign, as with line feeds alone.
#[test]
fn lines_with_returns() {
    check(
        "des (0, 1, 2)\r\n\r\n(0, \"é\", 1\r\n",
        &[
            "dialog.aut:3:11: expected \")\" at the end of the transition",
            "  |",
            "3 | (0, \"é\", 1",
            "  |           ^",
            "  = help: write (0, \"é\", 1)",
        ],
    );
}

#[test]
fn tabs_stay_before_the_caret() {
    let line = "\t(0,\t\"click\", x)";
    let message = "15: expected a state's number after the label, found \"x\"";
    check_transition(line, message, "\t   \t         ^", ABOUT_STATES);
}

/// An escape code in a label would colour the terminal, and a mark from right to left would turn the line.
#[test]
fn signs_that_a_terminal_obeys_are_not_shown() {
    check(
        "des (0, 1, 2)\n(0, \"\u{1b}[31m\u{202e}\", \u{7}x)\n",
        &[
            "dialog.aut:2:15: expected a state's number after the label, found \"\u{fffd}x\"",
            "  |",
            "2 | (0, \"\u{fffd}[31m\u{fffd}\", \u{fffd}x)",
            "  |               ^^",
            ABOUT_STATES,
        ],
    );
}
