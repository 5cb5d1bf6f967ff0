//! The value of each part of a formula by a run of its own: the part is made closed, by putting for each variable that is
//! bound outside it the formula of its binder, and the independent checker is asked, and the library where the part is
//! within its limits.

use bithrowy_front::{library, limits};
use bithrowy_tests::formats::*;
use bithrowy_tests::meaning::states_by_game;
use std::collections::HashMap;

/// Larger closed parts than this are not looked at.
const LARGEST: usize = 1_500;

pub struct Truths<'a> {
    case: &'a Case,
    known: HashMap<usize, Option<Vec<bool>>>,
}

impl<'a> Truths<'a> {
    pub fn of(case: &'a Case) -> Truths<'a> {
        Truths { case, known: HashMap::new() }
    }

    /// Does the part hold in the state? Nothing if it is too large when made closed.
    pub fn holds(&mut self, node: usize, state: usize) -> Option<bool> {
        let case = self.case;
        let known = self.known.entry(node).or_insert_with(|| closed_part(case, node).map(|part| states(&part)));
        known.as_ref().map(|states| states[state])
    }
}

/// The states of a closed part by the independent checker. The library, if it accepts the part, says the same.
fn states(part: &Case) -> Vec<bool> {
    let states = states_by_game(part);
    let run = library::direct(&part.bytes(), limits::ROUNDS);
    if run.refusal == 0 {
        assert_eq!(run.marks[..part.states], states, "{part:?}");
    }
    states
}

/// The case with the part in the place of the formula.
pub fn closed_part(case: &Case, node: usize) -> Option<Case> {
    let mut part = Part { case, formula: Vec::new(), binders: Vec::new() };
    part.add(node).then(|| Case { formula: part.formula, ..case.clone() })
}

struct Part<'a> {
    case: &'a Case,
    formula: Vec<Node>,
    /// The binders around the place where the next node goes: their old and their new numbers.
    binders: Vec<(usize, usize)>,
}

impl Part<'_> {
    /// Adds a subtree; false if it becomes too large.
    fn add(&mut self, node: usize) -> bool {
        let Node { kind, argument } = self.case.formula[node];
        if self.formula.len() > LARGEST {
            return false;
        }
        if kind == formula::VARIABLE {
            return match self.binders.iter().rev().find(|(old, _)| *old == argument) {
                Some(&(_, new)) => {
                    self.formula.push(Node { kind, argument: new });
                    true
                }
                None => self.add(argument),
            };
        }
        if formula::is_binder(kind) {
            self.binders.push((node, self.formula.len()));
        }
        self.formula.push(Node { kind, argument });
        let operands = operands_of(&self.case.formula, node, formula::operands);
        let added = operands.into_iter().all(|operand| self.add(operand));
        if formula::is_binder(kind) {
            self.binders.pop();
        }
        added
    }
}

/// Are all variables of a part bound in it?
pub fn is_closed(case: &Case, node: usize) -> bool {
    let end = subtree_end(&case.formula, node, formula::operands).expect("a whole formula");
    case.formula[node..end].iter().all(|inner| inner.kind != formula::VARIABLE || inner.argument >= node)
}
