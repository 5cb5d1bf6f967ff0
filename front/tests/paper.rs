//! The paper's runs P1 to P8 as text: the case files, byte for byte, and the outcomes that the paper gives.

#[path = "support/case_texts.rs"]
mod case_texts;

use bithrowy_front::library;
use bithrowy_front::limits::ROUNDS;
use bithrowy_tests::paper::{p1_file, runs};
use case_texts::{case, checked, refused};

const P1: &str = "des (0, 3, 3)\n(0, \"click\", 1)\n(0, \"click\", 1)\n(1, \"close\", 2)\n";
const TWO: &str = "des (0, 2, 2)\n(0, \"a\", 1)\n(1, \"b\", 0)\n";
const SINGLE: &str = "des (0, 0, 1)\n";

/// A run as text, by its model and its formula.
const TEXTS: [(&str, &str, &str); 8] = [
    ("P1", P1, "mu X. [true] X"),
    ("P2", TWO, "nu X. mu Y. <a> X || <b> Y"),
    ("P3", TWO, "mu X. nu Y. <a> X || <b> Y"),
    ("P4", SINGLE, "true"),
    ("P5", SINGLE, "[true] false"),
    ("P6", SINGLE, "<true> true"),
    ("P7", SINGLE, "(nu A. nu B. nu C. true) && nu D. nu E. nu F. true"),
    ("P8", SINGLE, "nu A. nu B. nu C. nu D. nu E. nu F. true"),
];

#[test]
fn p1_is_the_programs_input() {
    let stored = include_bytes!("../../crates/twosides/stdin");
    assert_eq!(stored.len(), 54);
    assert_eq!(case(P1, "mu X. [true] X").bytes, stored);
}

#[test]
fn each_run_has_the_papers_bytes() {
    let runs = runs();
    assert_eq!(runs.len(), TEXTS.len());
    for (run, (name, model, formula)) in runs.iter().zip(TEXTS) {
        assert_eq!(run.name, name);
        assert_eq!(case(model, formula).bytes, run.case.bytes(), "{name}");
    }
}

#[test]
fn p1_has_the_papers_equation_file() {
    assert_eq!(library::translate(&case(P1, "mu X. [true] X").bytes), Ok(p1_file()));
}

/// What the paper gives: verdict, states that hold and are reached, rounds of the equation route and of direct. In P2 and
/// P3 all states are reached, and so they are in a model of one state. P8's rounds follow from the rules: each of six
/// binders takes one.
#[test]
fn each_run_has_the_papers_outcome() {
    let outcomes = [
        ("P1", true, 3, 4, 4),
        ("P2", true, 2, 4, 4),
        ("P3", false, 0, 4, 4),
        ("P4", true, 1, 1, 0),
        ("P5", true, 1, 1, 0),
        ("P6", false, 0, 2, 0),
        ("P8", true, 1, 6, 6),
    ];
    for (name, verdict, count, equation_rounds, direct_rounds) in outcomes {
        let (_, model, formula) = TEXTS.into_iter().find(|text| text.0 == name).unwrap();
        let answer = checked(&case(model, formula), ROUNDS);
        assert_eq!((answer.verdict, answer.count), (verdict, count), "{name}");
        assert_eq!((answer.equation_rounds, answer.direct_rounds), (equation_rounds, direct_rounds), "{name}");
        assert_eq!(answer.holds, vec![verdict; answer.holds.len()], "{name}: all states hold, or none");
    }
}

/// README: of P1's three records two are distinct, and with nine cells it costs 5 cents. The sink holds at once, so that
/// the box holds everywhere, and so do the binder and its variable.
#[test]
fn p1_as_readme_tells_it() {
    let answer = checked(&case(P1, "mu X. [true] X"), ROUNDS);
    assert_eq!((answer.records, answer.distinct, answer.cents), (3, 2, 5));
    assert_eq!(answer.reached, [true; 3]);
    assert_eq!(answer.values, [[true; 3]; 3]);
}

/// README: with a loop at closing the formula fails in 0 and 1. Without the close event nothing enters closed: the formula
/// holds there too, but two states are counted.
#[test]
fn p1_changed_as_readme_tells_it() {
    let with_loop = "des (0, 4, 3)\n(0, click, 1)\n(0, click, 1)\n(1, close, 2)\n(1, hover, 1)\n";
    let answer = checked(&case(with_loop, "mu X. [true] X"), ROUNDS);
    assert_eq!((answer.verdict, answer.holds), (false, vec![false, false, true]));
    let without_close = "des (0, 2, 3)\n(0, click, 1)\n(0, click, 1)\n";
    let answer = checked(&case(without_close, "mu X. [true] X"), ROUNDS);
    assert_eq!((answer.verdict, answer.count), (true, 2));
    assert_eq!((answer.holds, answer.reached), (vec![true; 3], vec![true, true, false]));
}

/// The paper: P1 needs 4 rounds, and limit 3 is spent.
#[test]
fn p1_with_limit_3_is_spent() {
    let case = case(P1, "mu X. [true] X");
    assert_eq!(checked(&case, 4).equation_rounds, 4);
    assert_eq!(
        refused(&case, 3).to_string(),
        "f.mcf:1:1: more than 3 rounds by either route (refusal 14)\n  |\n1 | mu X. [true] X\n  | ^^^^^^^^^^^^^^\n  = help: a \
         larger --limit, or a line `% limit: N` in the formula's file, allows more rounds; a formula with fewer mu and nu \
         one inside another takes fewer of them"
    );
}

/// The paper: d is 7, which is refused with 10. The nu that is added comes first, so that nu F is the seventh.
#[test]
fn p7_has_seven_blocks() {
    let (_, model, formula) = TEXTS[6];
    assert_eq!(
        refused(&case(model, formula), ROUNDS).to_string(),
        "f.mcf:1:41: 7 fixed points: the checker takes at most 6 (refusal 10)\n  |\n1 | (nu A. nu B. nu C. true) && nu \
         D. nu E. nu F. true\n  |                                         ^^^^^^^^^^\n  = help: counted are: nu A; nu B; nu C; nu \
         D; nu E; nu F; 1 because the formula begins with neither mu nor nu. Check the parts of the formula one by one"
    );
}
