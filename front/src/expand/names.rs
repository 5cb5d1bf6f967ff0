//! Names for binders in the table: the formula's own, but that a name bound inside itself is made different, and a name
//! that the formula does not use for the binders that come of a star.

use crate::formula::{State, StateFormula};
use std::collections::{BTreeMap, BTreeSet};

/// What a star's binder is called, if the formula does not use it.
const STAR: &str = "Z";

/// The names that binders get. A number behind a stem makes a name; no two stems make the same one, and none that the
/// formula uses.
pub(super) struct Names {
    stems: BTreeMap<String, String>,
    star: String,
}

impl Names {
    pub(super) fn of(formula: &StateFormula) -> Names {
        let mut used = bound(formula);
        let stem = |name: &String| (name.clone(), stem(name, &used, numbered));
        let stems: BTreeMap<String, String> = used.iter().map(stem).collect();
        used.extend(stems.values().cloned());
        let star = self::stem(STAR, &used, |name, stem| name == stem || numbered(name, stem));
        Names { stems, star }
    }

    /// The name of a binder that so many binders of the same name stand around.
    pub(super) fn own(&self, name: &str, around: usize) -> String {
        match self.stems.get(name) {
            Some(stem) if around > 0 => format!("{stem}{around}"),
            _ => name.to_string(),
        }
    }

    /// The name of a star's binder that so many of its kind stand around.
    pub(super) fn star(&self, around: usize) -> String {
        match around {
            0 => self.star.clone(),
            _ => format!("{}{around}", self.star),
        }
    }
}

/// The names that the binders of a formula bind.
fn bound(formula: &StateFormula) -> BTreeSet<String> {
    let mut names = BTreeSet::new();
    let mut left = vec![formula];
    while let Some(formula) = left.pop() {
        match &formula.kind {
            State::False | State::True | State::Variable(_) => {}
            State::Not(operand) | State::Must(_, operand) | State::May(_, operand) => left.push(operand),
            State::And(one, other) | State::Or(one, other) | State::Implies(one, other) => left.extend([&**one, other]),
            State::Mu(name, body) | State::Nu(name, body) => {
                names.insert(name.text.clone());
                left.push(body);
            }
        }
    }
    names
}

/// A name with as many `_` behind it as are needed so that it is in no one's way.
fn stem(name: &str, used: &BTreeSet<String>, in_the_way: impl Fn(&str, &str) -> bool) -> String {
    let mut stem = name.to_string();
    while used.iter().any(|used| in_the_way(used, &stem)) {
        stem.push('_');
    }
    stem
}

/// Is a name this stem with a number behind it?
fn numbered(name: &str, stem: &str) -> bool {
    let number = name.strip_prefix(stem).unwrap_or("");
    !number.is_empty() && number.chars().all(|digit| digit.is_ascii_digit())
}
