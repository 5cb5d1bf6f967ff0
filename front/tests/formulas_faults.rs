//! What a wrong formula is answered: the whole text that is printed, worked out by hand.

use bithrowy_front::expand::expand;
use bithrowy_front::label::SILENT;
use bithrowy_front::parser;
use bithrowy_front::source::{Fault, Source};

/// The fault of a text, in its syntax or in its variables.
fn fault(text: &str) -> Fault {
    let source = Source::new("f.mcf", text);
    let fault = match parser::read(&source, SILENT) {
        Ok(formula) => expand(&source, &formula).err(),
        Err(fault) => Some(fault),
    };
    fault.unwrap_or_else(|| panic!("{text} has no fault"))
}

/// Compares what is printed about a text of one line: the column, the message, how many carets, and the help.
#[track_caller]
fn says(text: &str, column: usize, message: &str, carets: usize, help: &str) {
    let below = " ".repeat(column - 1) + &"^".repeat(carets);
    let expected = format!("f.mcf:1:{column}: {message}\n  |\n1 | {text}\n  | {below}\n  = help: {help}");
    assert_eq!(fault(text).to_string(), expected);
}

const FORMULA: &str = "a formula begins with true, false, a variable, mu, nu, \"!\", \"[\", \"<\" or \"(\"";
const STEP: &str = "a step is a label, true (any label), false, or joined from these by \"!\", \"&&\", \"||\", \"=>\"";
const STEPS: &str = "inside a step write \"!\", \"&&\", \"||\" and \"=>\"; between steps \".\", \"+\" and \"*\"";
const BETWEEN: &str = "write \"&&\", \"||\" or \"=>\" between two formulas";

#[test]
fn binders() {
    says("nu X [a] X", 6, "expected \".\" after \"nu X\", found \"[\"", 1, "write nu X. and behind it the formula");
    says("mu X, Y. X", 5, "expected \".\" after \"mu X\", found \",\"", 1, "write mu X. and behind it the formula");
    let name = "write a name behind it, as in mu X. [true] X";
    says("mu . [a] X", 4, "expected a variable after \"mu\", found \".\"", 1, name);
    says("[a] nu", 7, "expected a variable after \"nu\", found the end of the text", 1, name);
    says("mu \"X\". true", 4, "expected a variable after \"mu\", found the label \"X\"", 3, name);
    let other = "take another name, such as X";
    says("mu true. X", 4, "\"true\" is a word of the language and no name for a variable", 4, other);
    let parameters = "\"mu X\" has parameters: data are not supported";
    says("mu X(n: Nat = 0). X(n)", 5, parameters, 1, "write a variable of its own for each value");
}

#[test]
fn operands() {
    says("true &&", 8, "expected a formula after \"&&\", found the end of the text", 1, FORMULA);
    says("[a . b*]", 9, "expected a formula after \"[a . b*]\", found the end of the text", 1, FORMULA);
    says("mu X. => X", 7, "expected a formula after \"mu X.\", found \"=>\"", 2, FORMULA);
    says("!(|| true)", 3, "expected a formula after \"(\", found \"||\"", 2, FORMULA);
    says(
        "true false",
        6,
        "expected \"&&\", \"||\", \"=>\" or the end of the text after \"true\", found \"false\"",
        5,
        BETWEEN,
    );
    says("[a || ] true", 7, "expected a label after \"||\", found \"]\"", 1, STEP);
    says("<a|> true", 4, "expected a name after \"a|\", found \">\"", 1, STEP);
    says("[!] true", 3, "expected a label after \"!\", found \"]\"", 1, STEP);
    says("[a . + b] true", 6, "expected a label after \".\", found \"+\"", 1, STEP);
}

#[test]
fn brackets() {
    says("[a) X", 3, "expected \"]\" after \"a\", found \")\"", 1, "the \"[\" in line 1, column 1 needs its \"]\"");
    says("<a] X", 3, "expected \">\" after \"a\", found \"]\"", 1, "the \"<\" in line 1, column 1 needs its \">\"");
    says(
        "true && (mu X. X",
        17,
        "expected \")\" after \"X\", found the end of the text",
        1,
        "the \"(\" in line 1, column 9 needs its \")\"",
    );
    says(
        "[b . (a] true",
        8,
        "expected \")\" after \"a\", found \"]\"",
        1,
        "the \"(\" in line 1, column 6 needs its \")\"",
    );
    let quotes =
        "the \"[\" in line 1, column 1 needs its \"]\"; a label with blanks or other signs in it stands in quotes";
    says("[log in] true", 6, "expected \"]\" after \"log\", found \"in\"", 2, quotes);
    let quotes = quotes.replace('[', "<").replace(']', ">");
    says("<a--b> true", 3, "expected \">\" after \"a\", found \"-\"", 1, &quotes);
    let end = "expected \"&&\", \"||\", \"=>\" or the end of the text after \"true\"";
    says(
        "true)",
        5,
        &format!("{end}, found \")\""),
        1,
        "no \"(\" is open here: leave this one out, or write a \"(\" further left",
    );
    says(
        "true]",
        5,
        &format!("{end}, found \"]\""),
        1,
        "no \"[\" is open here: leave this one out, or write a \"[\" further left",
    );
    says("[] true", 1, "\"[]\" names no step", 2, "for any step write [true]");
    says("< > true", 1, "\"<>\" names no step", 3, "for any step write <true>");
}

/// The line of the fault is shown, with another character for one that a terminal would obey, and the opening bracket is
/// found by its line. By hand: the X of line 4 is its ninth character, so the end is found at the tenth.
#[test]
fn lines() {
    let text = "% a dialog\nmu X. (\n  % nothing yet\n\t[\"a\u{7}\"] X % the end\n\n";
    let expected = "f.mcf:4:10: expected \")\" after \"X\", found the end of the text\n  \
                    |\n4 | \t[\"a\u{fffd}\"] X % the end\n  | \t        ^\n  = help: the \"(\" in line 2, column 7 needs its \")\"";
    assert_eq!(fault(text).to_string(), expected);
}

/// What stands before a bracket that is expected may lack an operator, and what stands behind a formula a `;` of a
/// specification.
#[test]
fn operators_that_are_missing() {
    let help = "the \"(\" in line 1, column 1 needs its \")\", or an operator is missing before \"[\"";
    says("([a]true [b]true)", 10, "expected \")\" after \"true\", found \"[\"", 1, help);
    let help = "the \"[\" in line 1, column 1 needs its \"]\", or an operator is missing before \"(\"";
    says("[a*(b)] true", 4, "expected \"]\" after \"*\", found \"(\"", 1, help);
    let message = "expected \"&&\", \"||\", \"=>\" or the end of the text after \"true\", found \";\"";
    says("true;", 5, message, 1, "leave it out: a file has one formula, and no sign ends it");
}

/// Between operands in brackets the same is meant as outside of them.
#[test]
fn connectives_of_other_languages() {
    let (and, or) = ("did you mean \"&&\"?", "did you mean \"||\"?");
    says("(<a>true | <b>true)", 10, "expected \")\" after \"true\", found \"|\"", 1, or);
    says("(<a>true and <b>true)", 10, "expected \")\" after \"true\", found \"and\"", 3, and);
    says("(X implies Y)", 4, "expected \")\" after \"X\", found \"implies\"", 7, "did you mean \"=>\"?");
    says("<a and b>true", 4, "expected \">\" after \"a\", found \"and\"", 3, and);
    says("[(a or b)*]true", 5, "expected \")\" after \"a\", found \"or\"", 2, or);
    says("<a, b>true", 3, "expected \">\" after \"a\", found \",\"", 1, or);
    says("[(a, b)]true", 4, "expected \")\" after \"a\", found \",\"", 1, or);
    let help = "the \"(\" in line 1, column 1 needs its \")\", or an operator is missing before \",\"";
    says("(true, true)", 6, "expected \")\" after \"true\", found \",\"", 1, help);
}

/// The word is marked, wherever the reader first sees that it is none.
#[test]
fn negations_of_other_languages() {
    for (text, column) in [
        ("not (<a>true)", 1),
        ("not <a>true", 1),
        ("true && (not <a>true)", 10),
        ("<not a>true", 2),
        ("<not (a || b)>true", 2),
        ("[b . (not a)]true", 7),
    ] {
        says(text, column, "\"not\" is no word of formulas", 3, "did you mean \"!\"?");
    }
}

#[test]
fn fixed_points_and_quantifiers_of_other_languages() {
    says("min X. <a>X", 1, "\"min\" is no word of formulas", 3, "did you mean \"mu\"?");
    says("(max X. <a>X)", 2, "\"max\" is no word of formulas", 3, "did you mean \"nu\"?");
    let message = |word: &str| format!("\"{word}\" is a quantifier: quantifiers are not supported");
    says("inf n: Nat. true", 1, &message("inf"), 3, "write each case out, with \"&&\" between them");
    says("[a](sup n: Nat. true)", 5, &message("sup"), 3, "write each case out, with \"||\" between them");
}

#[test]
fn words_of_temporal_logics() {
    let until = "for \"a is so until b is, on every run\" write mu X. b || a && <true>true && [true]X";
    for (text, column, word, help) in [
        ("always close", 1, "always", "write [true*] before what is always so"),
        ("AG <a>true", 1, "AG", "write [true*] before what is always so"),
        ("AG(<a>true)", 1, "AG", "write [true*] before what is always so"),
        ("[a](EF <b>true)", 5, "EF", "write <true*> before what can come to be so"),
        ("never close", 1, "never", "for \"a never happens\" write [true* . a]false"),
        ("AF <a>true", 1, "AF", "for \"a comes, whatever is done\" write mu X. <true>true && [!a]X"),
        ("eventually close", 1, "eventually", "for \"a comes, whatever is done\" write mu X. <true>true && [!a]X"),
        ("EG <a>true", 1, "EG", "for \"a is always so on some run\" write nu X. a && (<true>X || [true]false)"),
        ("A (true)", 1, "A", until),
        ("E [a]true", 1, "E", until),
        ("true U <close>true", 6, "U", until),
        ("(true until <close>true)", 7, "until", until),
    ] {
        says(text, column, &format!("\"{word}\" is no word of formulas"), word.len(), help);
    }
}

/// A variable may have such a name, and in a modality such a word may be a part of a label.
#[test]
fn names_that_other_languages_have_as_words() {
    let message = "expected \"&&\", \"||\", \"=>\" or the end of the text after \"A\", found \"[\"";
    says("mu A. A [a]A", 9, message, 1, BETWEEN);
    let message = "\"not\" has parameters: data are not supported";
    says("mu not. not(1)", 12, message, 1, "write a variable of its own for each value");
    let quotes =
        "the \"<\" in line 1, column 1 needs its \">\"; a label with blanks or other signs in it stands in quotes";
    says("<min width>true", 6, "expected \">\" after \"min\", found \"width\"", 5, quotes);
    for text in ["<not>true", "[and . U]true", "mu AG. <inf>AG", "nu max. [always]max"] {
        assert!(parser::read(&Source::new("f.mcf", text), SILENT).is_ok(), "{text}");
    }
}

#[test]
fn stars_in_other_places() {
    let help = |brackets: &str| format!("the \"*\" stands inside the brackets: {brackets}");
    says("[click]* a", 8, "expected a formula after \"[click]\", found \"*\"", 1, &help("[click*]"));
    says("< a . b >* true", 10, "expected a formula after \"< a . b >\", found \"*\"", 1, &help("<(a . b)*>"));
    says("[(!a)]* true", 7, "expected a formula after \"[(!a)]\", found \"*\"", 1, &help("[(!a)*]"));
    let plus = "the \"+\" stands inside the brackets: <a+>";
    says("<a>+ true", 4, "expected a formula after \"<a>\", found \"+\"", 1, plus);
    says("true && * true", 9, "expected a formula after \"&&\", found \"*\"", 1, FORMULA);
    let behind = "a \"*\" stands behind what it repeats, as in click*; true* is any number of steps";
    says("[*] true", 2, "expected a label after \"[\", found \"*\"", 1, behind);
    says("<a . *> true", 6, "expected a label after \".\", found \"*\"", 1, behind);
}

#[test]
fn steps_where_labels_are_needed() {
    says("[!(a.b)] true", 4, "`a.b` takes two steps; `!` stands before a single step's labels", 3, STEPS);
    says(
        "[(a.b*.c) && d] true",
        3,
        "`a.b*.c` takes several steps; `&&` stands between labels of a single step",
        6,
        STEPS,
    );
    says("[a* || b] true", 2, "`a*` repeats steps; `||` stands between labels of a single step", 2, STEPS);
    says(
        "[a => (b + c)] true",
        8,
        "`b + c` is a choice between runs; `=>` stands between labels of a single step",
        5,
        STEPS,
    );
}

#[test]
fn quantifiers_and_data() {
    says(
        "forall n: Nat. X",
        1,
        "\"forall\" is a quantifier: quantifiers are not supported",
        6,
        "write each case out, with \"&&\" between them",
    );
    says(
        "[exists n: Nat. a] X",
        2,
        "\"exists\" is a quantifier: quantifiers are not supported",
        6,
        "write each case out, with \"||\" between them",
    );
    says(
        "val(n > 0)",
        1,
        "\"val\" is for data expressions: data are not supported",
        3,
        "write true or false, or a label in quotes",
    );
    let number = "a label that begins with a digit stands in quotes, as in <\"404\">true";
    says("<404> true", 2, "\"404\" is a number: data are not supported", 3, number);
    says(
        "<a(1, b)> true",
        3,
        "the label \"a\" has arguments: data are not supported",
        1,
        "the whole label stands in quotes: \"a(1, b)\"",
    );
    says("X(1)", 2, "\"X\" has parameters: data are not supported", 1, "write a variable of its own for each value");
}

#[test]
fn time_and_specifications() {
    says("<a@3> true", 3, "\"@\" gives a time: time is not supported", 1, "leave \"@\" and the time out");
    says("delay", 1, "\"delay\" is about time: time is not supported", 5, "a label of this name stands in quotes");
    says("yaled@1", 1, "\"yaled\" is about time: time is not supported", 5, "a label of this name stands in quotes");
    says(
        "[nil] X",
        2,
        "\"nil\" is the run without a step, which is not supported",
        3,
        "leave the modality out: [nil] X is X",
    );
    says(
        "form true;",
        1,
        "\"form\" begins a specification, which is not supported",
        4,
        "write the formula alone, without declarations",
    );
}

#[test]
fn signs_and_words_of_other_languages() {
    for (text, column, sign, meant) in [
        ("true & true", 6, "&", "&&"),
        ("true = true", 6, "=", "=>"),
        ("true == true", 6, "==", "=>"),
        ("true -> true", 6, "->", "=>"),
        ("true /\\ true", 6, "/\\", "&&"),
        ("true \\/ true", 6, "\\/", "||"),
        ("~true", 1, "~", "!"),
        ("true ∧ true", 6, "∧", "&&"),
        ("<¬a> true", 2, "¬", "!"),
    ] {
        let message = format!("\"{sign}\" is no sign of formulas");
        says(text, column, &message, sign.chars().count(), &format!("did you mean \"{meant}\"?"));
    }
    says("<'a'> true", 2, "\"'\" is no sign of formulas", 1, "a label stands in double quotes: \"a b\"");
    says(
        "true | true",
        6,
        "expected \"&&\", \"||\", \"=>\" or the end of the text after \"true\", found \"|\"",
        1,
        "did you mean \"||\"?",
    );
    says(
        "true and true",
        6,
        "expected \"&&\", \"||\", \"=>\" or the end of the text after \"true\", found \"and\"",
        3,
        "did you mean \"&&\"?",
    );
    says("not true", 1, "\"not\" is no word of formulas", 3, "did you mean \"!\"?");
}

#[test]
fn signs_of_too_many_characters() {
    says("a &&& b", 5, "\"&\" behind \"&&\" is one sign too many", 1, "leave it out");
    says("(true ||| true)", 9, "\"|\" behind \"||\" is one sign too many", 1, "leave it out");
    says("[a ||| b] true", 6, "\"|\" behind \"||\" is one sign too many", 1, "leave it out");
    let implication = "for \"if a, then b\" write a => b";
    says("true =< true", 6, "\"=<\" is no sign of formulas", 2, implication);
    says("true <= true", 6, "\"<=\" is no sign of formulas", 2, implication);
    says("[a <= b] true", 4, "\"<=\" is no sign of formulas", 2, implication);
    says("true <=> true", 6, "\"<=>\" is no sign of formulas", 3, "write (a => b) && (b => a)");
}

#[test]
fn labels() {
    says(
        "<mu> true",
        2,
        "\"mu\" is a word of the language, and a label is expected here",
        2,
        "a label of this name stands in quotes: \"mu\"",
    );
    says(
        "[\"a] true",
        2,
        "the label begins with a quote, and no quote ends it",
        8,
        "write \"click\"; inside a label, \\\" stands for a quote",
    );
    says(
        "[\"a\\b\"] true",
        4,
        "a backslash in quotes stands before a quote or a backslash",
        1,
        "write \\\\ for one backslash",
    );
    let names = "a label is a name, or several with \"|\" between them";
    says("[\"a||b\"] true", 2, "a name stands before and behind each \"|\", and here one is missing", 6, names);
    says("[\"\"] true", 2, "a label has a name, and this one is empty", 2, names);
    says(
        "\"close\"",
        1,
        "expected a formula, found the label \"close\"",
        7,
        "for \"a step close is possible\" write <\"close\">true",
    );
}

#[test]
fn variables() {
    says("mu X. [a] (x)", 12, "no mu or nu around it binds `x`", 1, "did you mean `X`?");
    says("True", 1, "no mu or nu around it binds `True`", 4, "did you mean `true`?");
    says(
        "[a] close",
        5,
        "no mu or nu around it binds `close`",
        5,
        "for \"a step close is possible\" write <close>true",
    );
    says(
        "(mu X. X) && Y",
        14,
        "no mu or nu around it binds `Y`",
        1,
        "write mu Y. or nu Y. before the formula that it stands for; for \"a step Y is possible\" write <Y>true",
    );
    let help =
        "each \"!\" and each left side of \"=>\" between nu X and this X is a negation, and their number has to be \
                even: a set that is defined by its own opposite need not exist";
    says("!(nu X. !X)", 10, "`X` stands under a negation inside its nu X", 1, help);
    says("nu X. <a> X => true", 11, "`X` stands under a negation inside its nu X", 1, help);
}

/// Negations count from a variable's own binder, and an even number of them is none.
#[test]
fn negations_that_are_even() {
    for text in [
        "! mu X. [a] X",
        "nu X. !!X",
        "nu X. !(X => false) && true",
        "nu X. (X => false) => true",
        "mu X. !(nu Y. !(X || [a] !Y))",
        "!(mu X. !(nu X. [a] X))",
        "nu X. !(mu X. [a] X) && X",
    ] {
        let source = Source::new("f.mcf", text);
        let formula = parser::read(&source, SILENT).unwrap_or_else(|fault| panic!("{fault}"));
        assert!(expand(&source, &formula).is_ok(), "{text}");
    }
}
