//! Tables of nodes from words in prefix order, such as `nu X mu Y or dia 0 X dia 1 Y`.

use crate::formats::*;
use crate::names::record_of;

/// A formula table: false, true, and, or, `box A`, `dia A` (A an action node's number), `mu X`, `nu X`, and X for the
/// variable of the innermost binder X.
pub fn formula(words: &str) -> Vec<Node> {
    let words: Vec<&str> = words.split_whitespace().collect();
    let mut table = Vec::new();
    let end = read(&words, 0, &mut Vec::new(), &mut table);
    assert_eq!(end, words.len(), "one whole formula");
    table
}

fn read<'a>(words: &[&'a str], at: usize, scope: &mut Vec<(&'a str, usize)>, table: &mut Vec<Node>) -> usize {
    let here = table.len();
    let plain = |kind: usize| node(kind, 0);
    match words[at] {
        "false" => table.push(plain(formula::FALSE)),
        "true" => table.push(plain(formula::TRUE)),
        "and" | "or" => {
            table.push(plain(if words[at] == "and" { formula::AND } else { formula::OR }));
            let middle = read(words, at + 1, scope, table);
            return read(words, middle, scope, table);
        }
        "box" | "dia" => {
            let action = words[at + 1].parse().expect("an action node's number");
            table.push(node(if words[at] == "box" { formula::BOX } else { formula::DIAMOND }, action));
            return read(words, at + 2, scope, table);
        }
        "mu" | "nu" => {
            table.push(plain(if words[at] == "mu" { formula::MU } else { formula::NU }));
            scope.push((words[at + 1], here));
            let end = read(words, at + 2, scope, table);
            scope.pop();
            return end;
        }
        name => {
            let binder = scope.iter().rev().find(|(bound, _)| *bound == name).expect("a bound variable").1;
            table.push(node(formula::VARIABLE, binder));
        }
    }
    at + 1
}

/// An action table: false, true, `label L`, not, and, or, implies.
pub fn actions(words: &str) -> Vec<Node> {
    let mut table = Vec::new();
    let mut words = words.split_whitespace();
    while let Some(word) = words.next() {
        table.push(match word {
            "false" => node(action::FALSE, 0),
            "true" => node(action::TRUE, 0),
            "label" => node(action::LABEL, words.next().and_then(|l| l.parse().ok()).expect("a label's number")),
            "not" => node(action::NOT, 0),
            "and" => node(action::AND, 0),
            "or" => node(action::OR, 0),
            "implies" => node(action::IMPLIES, 0),
            other => panic!("action word {other}"),
        });
    }
    table
}

/// Transitions from triples of source, label, target.
pub fn transitions(triples: &[(usize, usize, usize)]) -> Vec<Transition> {
    triples.iter().map(|&(source, label, target)| Transition { source, label, target }).collect()
}

/// A case of version 1 with initial state 0.
pub fn case(states: usize, labels: usize, triples: &[(usize, usize, usize)], acts: &str, words: &str) -> Case {
    Case {
        states,
        labels: Labels::Numbered(labels),
        initial: 0,
        transitions: transitions(triples),
        actions: actions(acts),
        formula: formula(words),
    }
}

/// The case as version 2, with the names of each of its labels.
pub fn named(case: Case, names: &[&[usize]]) -> Case {
    assert_eq!(names.len(), case.labels.count(), "a record for each label");
    Case { labels: Labels::Named(names.iter().map(|names| record_of(names)).collect()), ..case }
}

/// The case as version 2, in which each label has one name that no other has.
pub fn with_own_names(case: Case) -> Case {
    let records = (0..case.labels.count()).map(|label| record_of(&[LARGEST_NAME - label])).collect();
    Case { labels: Labels::Named(records), ..case }
}
