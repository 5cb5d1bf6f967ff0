//! Sources, places in them, how a fault is shown, and what somebody may have meant.

use bithrowy_front::source::{shown, Fault, Place, Source, Span};
use bithrowy_front::suggest::nearest;

fn place(line: usize, column: usize) -> Place {
    Place { line, column }
}

#[test]
fn places_count_lines_and_characters() {
    let source = Source::new("a", "éa\r\n\nb");
    // The bytes are 0 and 1 for é, 2 for a, 3 and 4 for the line's end, 5 for an empty line, 6 for b.
    let places = [0, 1, 2, 3, 4, 5, 6, 7, 8, usize::MAX].map(|offset| source.place(offset));
    let expected =
        [(1, 1), (1, 1), (1, 2), (1, 3), (1, 3), (2, 1), (3, 1), (3, 2), (3, 2), (3, 2)].map(|(l, c)| place(l, c));
    assert_eq!(places, expected);
    assert_eq!(Source::new("a", "").place(9), place(1, 1));
    assert_eq!(Source::new("a", "b\n").place(2), place(2, 1));
}

#[test]
fn lines_are_without_their_ends() {
    let source = Source::new("a", "éa\r\n\nb");
    assert_eq!([0, 1, 2, 3, 4, usize::MAX].map(|line| source.line(line)), ["", "éa", "", "b", "", ""]);
}

#[test]
fn slices_of_any_part() {
    let source = Source::new("a", "aéb");
    let slice = |start, end| source.slice(Span::new(start, end));
    assert_eq!((slice(0, 4), slice(1, 3), slice(3, 9)), ("aéb", "é", "b"));
    assert_eq!((slice(2, 3), slice(0, 2), slice(3, 1), slice(9, 9)), ("é", "a", "", ""));
    assert_eq!(Span::new(1, 2).to(Span::new(4, 6)), Span::new(1, 6));
}

#[test]
fn bytes_that_are_text() {
    let source = Source::from_bytes("a", b"\xef\xbb\xbfdes \xc3\xa9".to_vec()).expect("text");
    assert_eq!(source.text, "des é", "the byte order mark is left out");
    assert_eq!(Source::new("a", "\u{feff}\u{feff}b").text, "\u{feff}b");
}

#[test]
fn bytes_that_are_no_text() {
    let message = |bytes: &[u8]| Source::from_bytes("a.aut", bytes.to_vec()).expect_err("a fault").to_string();
    let lines = |lines: [&str; 5]| lines.join("\n");
    assert_eq!(
        message(b"des\n\xc3\xa9 caf\xe9!"),
        lines([
            "a.aut:2:6: the file is not UTF-8 text from here on",
            "  |",
            "2 | é caf\u{fffd}!",
            "  |      ^",
            "  = help: save it as UTF-8",
        ])
    );
    assert_eq!(
        message(b"\xef\xbb\xbfab\xff"),
        lines([
            "a.aut:1:3: the file is not UTF-8 text from here on",
            "  |",
            "1 | ab\u{fffd}",
            "  |   ^",
            "  = help: save it as UTF-8",
        ])
    );
    assert_eq!(
        message(b"\xff\xfed\0"),
        lines([
            "a.aut:1:1: the file is not UTF-8 text from here on",
            "  |",
            "1 | \u{fffd}\u{fffd}d\u{fffd}",
            "  | ^",
            "  = help: it begins as UTF-16 text does: save it as UTF-8",
        ])
    );
}

#[test]
fn refusal_numbers_stand_behind_the_message() {
    let source = Source::new("dialog.aut", "des (0, 3, 300)");
    let fault = Fault::new(&source, Span::new(11, 14), "300 states: the checker takes 1 to 256").with_refusal(3);
    let lines = [
        "dialog.aut:1:12: 300 states: the checker takes 1 to 256 (refusal 3)",
        "  |",
        "1 | des (0, 3, 300)",
        "  |            ^^^",
    ];
    assert_eq!(fault.to_string(), lines.join("\n"));
}

#[test]
fn carets_span_the_part_on_its_first_line() {
    let source = Source::new("a", "ab cd\nef\n");
    let carets = |start, end| {
        let fault = Fault::new(&source, Span::new(start, end), "m").to_string();
        fault.lines().skip(2).collect::<Vec<_>>().join("\n")
    };
    assert_eq!(carets(3, 8), "1 | ab cd\n  |    ^^");
    assert_eq!(carets(4, 4), "1 | ab cd\n  |     ^");
    assert_eq!(carets(4, 1), "1 | ab cd\n  |     ^");
    assert_eq!(carets(5, 6), "1 | ab cd\n  |      ^");
    assert_eq!(carets(9, 9), "3 |\n  | ^");
    assert_eq!(carets(usize::MAX, usize::MAX), "3 |\n  | ^");
    assert_eq!(carets(6, usize::MAX), "2 | ef\n  | ^^");
}

#[test]
fn help_of_several_lines_is_in_line() {
    let source = Source::new("a", "b");
    let fault = Fault::new(&source, Span::new(0, 1), "m").with_help("write c\nor d\u{1b}");
    assert_eq!(fault.to_string(), "a:1:1: m\n  |\n1 | b\n  | ^\n  = help: write c\n          or d\u{fffd}");
}

#[test]
fn nothing_of_a_fault_steers_a_terminal() {
    let source = Source::new("a\u{1b}b", "c");
    let fault = Fault::new(&source, Span::new(0, 1), "m\nn\u{9b}");
    assert_eq!(fault.to_string(), "a\u{fffd}b:1:1: m\u{fffd}n\u{fffd}\n  |\n1 | c\n  | ^");
}

/// 160 characters of a long line are shown: those from 80 before the place on.
#[test]
fn long_lines_are_cut() {
    let source = Source::new("a", "x".repeat(1000));
    let lines = |start, end| {
        let fault = Fault::new(&source, Span::new(start, end), "m").to_string();
        fault.lines().skip(2).map(str::to_string).collect::<Vec<_>>()
    };
    let (x, blank, caret) = (|n| "x".repeat(n), |n| " ".repeat(n), |n| "^".repeat(n));
    assert_eq!(lines(0, 2), [format!("1 | {}…", x(160)), "  | ^^".to_string()]);
    assert_eq!(lines(80, 1000), [format!("1 | {}…", x(160)), format!("  | {}{}", blank(80), caret(80))]);
    assert_eq!(lines(500, 501), [format!("1 | …{}…", x(160)), format!("  | {}^", blank(81))]);
    assert_eq!(lines(1000, 1000), [format!("1 | …{}", x(80)), format!("  | {}^", blank(81))]);
    let whole = Source::new("a", x(160));
    let fault = Fault::new(&whole, Span::new(159, 160), "m").to_string();
    assert_eq!(fault, format!("a:1:160: m\n  |\n1 | {}\n  | {}^", x(160), blank(159)));
}

#[test]
fn shown_texts_have_no_hidden_signs_and_an_end() {
    assert_eq!(shown("focus|blur é ✓"), "focus|blur é ✓");
    assert_eq!(
        shown("a\tb\nc\u{7f}d\u{85}e\u{202e}f\u{200b}g\u{2029}h"),
        "a\u{fffd}b\u{fffd}c\u{fffd}d\u{fffd}e\u{fffd}f\u{fffd}g\u{fffd}h"
    );
    assert_eq!(shown(&"é".repeat(80)), "é".repeat(80));
    assert_eq!(shown(&"é".repeat(81)), "é".repeat(80) + "…");
}

/// A third of the characters of `close` is one, of `dialog` two.
#[test]
fn slips_that_are_near() {
    let labels = ["click", "close", "focus", "dialog"];
    assert_eq!(nearest("clsoe", labels), Some("close"), "two neighbours exchanged");
    assert_eq!(nearest("clos", labels), Some("close"), "one is missing");
    assert_eq!(nearest("cloose", labels), Some("close"), "one is too many");
    assert_eq!(nearest("clase", labels), Some("close"), "one is another");
    assert_eq!(nearest("CLOSE", labels), Some("close"), "capitals");
    assert_eq!(nearest("dilaogg", labels), Some("dialog"), "two changes of seven");
}

#[test]
fn words_that_are_far() {
    let labels = ["click", "close", "focus"];
    assert_eq!(nearest("clozzze", labels), None, "three changes, and a third of seven is two");
    assert_eq!(nearest("cslei", labels), None);
    assert_eq!(nearest("ab", ["bac"]), None, "an exchange and one more are two changes, and one is allowed");
    assert_eq!(nearest("hover", labels), None);
    assert_eq!(nearest("", ["ab"]), None);
    assert_eq!(nearest("click", []), None);
}

/// `b` to `a` and `ab` is one change each; an exchange is no chance to change the exchanged again.
#[test]
fn the_nearest_comes_first() {
    assert_eq!(nearest("b", ["xyz", "a", "ab"]), Some("a"), "the first of those that are equally near");
    assert_eq!(nearest("clocks", ["clicks", "clock", "clocks"]), Some("clocks"), "no change is nearer than one");
    assert_eq!(nearest("ca", ["abc"]), None, "ca, ac, abc would change what was exchanged: three changes otherwise");
}

#[test]
fn long_words_are_not_compared() {
    let long = "x".repeat(65);
    assert_eq!(nearest(&long, [long.as_str()]), None);
    let fits = "x".repeat(64);
    assert_eq!(nearest(&fits, [&format!("{}y", &fits[1..])[..]]), Some(&format!("{}y", &fits[1..])[..]));
}
