//! Laws of modalities, negations and fixed points: two formulas that have to mean the same do, on random models, as the
//! independent checker finds by a parity game on their tables.

use bithrowy_front::expand::{expand, Expansion};
use bithrowy_front::label::SILENT;
use bithrowy_front::parser;
use bithrowy_front::source::Source;
use bithrowy_front::table::{ActionNode, Kind, Table};
use bithrowy_tests::formats::{self, action, formula, node, Case, Labels, Transition};
use bithrowy_tests::meaning;
use bithrowy_tests::random::Random;

/// The labels of all models, by number.
const LABELS: [&str; 3] = ["a", "b", "c"];

/// For two closed formulas F and G and two regular formulas R and S.
const LAWS: [(&str, &str); 26] = [
    ("![R] (F)", "<R> !(F)"),
    ("!<R> (F)", "[R] !(F)"),
    ("!((F) && (G))", "!(F) || !(G)"),
    ("!((F) || (G))", "!(F) && !(G)"),
    ("(F) => (G)", "!(F) || (G)"),
    ("!((F) => (G))", "(F) && !(G)"),
    ("((F) => (G)) && ((G) => (F))", "(F) && (G) || !(F) && !(G)"),
    ("[(R) . (S)] (F)", "[R] [S] (F)"),
    ("<(R) . (S)> (F)", "<R> <S> (F)"),
    ("[(R) + (S)] (F)", "[R] (F) && [S] (F)"),
    ("<(R) + (S)> (F)", "<R> (F) || <S> (F)"),
    ("[(R)*] (F)", "(F) && [R] [(R)*] (F)"),
    ("<(R)*> (F)", "(F) || <R> <(R)*> (F)"),
    ("[(R)+] (F)", "[R] [(R)*] (F)"),
    ("<(R)+> (F)", "<R> <(R)*> (F)"),
    ("[(R)*] (F)", "(F) && [(R)+] (F)"),
    ("[(R)**] (F)", "[(R)*] (F)"),
    ("<(R)* . (R)*> (F)", "<(R)*> (F)"),
    ("[((R) + (S))*] (F)", "[((R)* . (S)*)*] (F)"),
    ("[(R) . ((S) . (R))*] (F)", "[((R) . (S))* . (R)] (F)"),
    ("[R] ((F) && (G))", "[R] (F) && [R] (G)"),
    ("<R> ((F) || (G))", "<R> (F) || <R> (G)"),
    ("!(mu X. (F) || <R> X && (G))", "nu X. !(F) && ([R] X || !(G))"),
    ("mu X. (F) || <R> X", "<(R)*> (F)"),
    ("nu X. (F) && [R] X", "[(R)*] (F)"),
    ("mu X. (F) && [R] X && nu X. (G) && <S> X", "mu X. (F) && [R] X && nu Y. (G) && <S> Y"),
];

const CLOSED: [&str; 8] = [
    "true",
    "false",
    "<a> true",
    "[b] false",
    "mu X. <a> true || <c> X",
    "nu X. <true> X",
    "nu X. mu Y. <a> X || <b> Y",
    "[true*] <true* . b> true => <a || c> true",
];

const RUNS: [&str; 9] = ["a", "!a", "true", "a || b", "a . b", "a + b . c", "b* . a", "(a . c)+", "(a* + b)*"];

fn table(text: &str) -> Table {
    let source = Source::new("law.mcf", text);
    let formula = parser::read(&source, SILENT).unwrap_or_else(|fault| panic!("{fault}"));
    match expand(&source, &formula) {
        Ok(Expansion::Table(table)) => table,
        other => panic!("{text}: {other:?}"),
    }
}

/// A formula's nodes as the independent checker has them.
fn nodes(table: &Table) -> Vec<formats::Node> {
    let kind = |kind| match kind {
        Kind::False => node(formula::FALSE, 0),
        Kind::True => node(formula::TRUE, 0),
        Kind::And => node(formula::AND, 0),
        Kind::Or => node(formula::OR, 0),
        Kind::Box(action) => node(formula::BOX, action),
        Kind::Diamond(action) => node(formula::DIAMOND, action),
        Kind::Variable(binder) => node(formula::VARIABLE, binder),
        Kind::Mu => node(formula::MU, 0),
        Kind::Nu => node(formula::NU, 0),
    };
    table.nodes.iter().map(|node| kind(node.kind)).collect()
}

fn action_nodes(table: &Table) -> Vec<formats::Node> {
    let number = |place: usize| LABELS.iter().position(|label| *label == table.labels[place].0.text);
    let kind = |kind| match kind {
        ActionNode::False => node(action::FALSE, 0),
        ActionNode::True => node(action::TRUE, 0),
        ActionNode::Label(place) => node(action::LABEL, number(place).unwrap_or(usize::MAX)),
        ActionNode::Not => node(action::NOT, 0),
        ActionNode::And => node(action::AND, 0),
        ActionNode::Or => node(action::OR, 0),
        ActionNode::Implies => node(action::IMPLIES, 0),
    };
    table.actions.iter().map(|&node| kind(node)).collect()
}

fn random_transitions(random: &mut Random, states: usize) -> Vec<Transition> {
    let count = random.between(0, 2 * states);
    let mut transition =
        || Transition { source: random.below(states), label: random.below(LABELS.len()), target: random.below(states) };
    (0..count).map(|_| transition()).collect()
}

/// The states of a model where a formula holds.
fn states(table: &Table, states: usize, transitions: &[Transition]) -> Vec<bool> {
    meaning::states_by_game(&Case {
        states,
        labels: Labels::Numbered(LABELS.len()),
        initial: 0,
        transitions: transitions.to_vec(),
        actions: action_nodes(table),
        formula: nodes(table),
    })
}

/// Puts closed formulas and regular formulas into a law.
fn filled(law: &str, closed: [&str; 2], runs: [&str; 2]) -> String {
    law.replace('F', closed[0]).replace('G', closed[1]).replace('R', runs[0]).replace('S', runs[1])
}

#[test]
fn laws() {
    let mut random = Random::new(5);
    let mut mixed = 0;
    for _ in 0..120 {
        for (one, other) in LAWS {
            let closed = [random.pick(&CLOSED), random.pick(&CLOSED)];
            let runs = [random.pick(&RUNS), random.pick(&RUNS)];
            let texts = [one, other].map(|law| filled(law, closed, runs));
            let count = random.between(1, 5);
            let transitions = random_transitions(&mut random, count);
            let [one, other] = [&texts[0], &texts[1]].map(|text| states(&table(text), count, &transitions));
            assert_eq!(one, other, "{texts:?} on {transitions:?}");
            mixed += usize::from(one.contains(&true) && one.contains(&false));
        }
    }
    assert!(mixed > 300, "{mixed} with some states and not all");
}

/// A law that does not hold is noticed: the star without its first, empty run.
#[test]
fn a_wrong_law_is_noticed() {
    let mut random = Random::new(6);
    let wrong = [table("[a*] <b> true"), table("[a+] <b> true")];
    let differs = (0..200).any(|_| {
        let transitions = random_transitions(&mut random, 3);
        states(&wrong[0], 3, &transitions) != states(&wrong[1], 3, &transitions)
    });
    assert!(differs);
}
