//! What a formula that is too large to be written out has twice in its tables.

use crate::formula::{Regular, RegularFormula, State, StateFormula};
use crate::label::SILENT;
use crate::parser;
use crate::source::Source;
use std::sync::Arc;

/// Which parts of a formula are written twice.
#[derive(Default)]
struct Found {
    /// What follows a choice that is not a single step.
    choice: bool,
    /// What a plus repeats.
    plus: bool,
}

const CHOICE: &str = "a `+` between runs, at least one of more than a step, writes what follows it twice";
const PLUS: &str = "a `+` behind a run writes the run twice, since R+ is R . R*";
const PARTS: &str = "check the parts of the formula one by one";

/// What to do about a formula's size. The text is read again; which label is the silent step makes no difference here.
pub(super) fn help(source: &Arc<Source>) -> String {
    let mut found = Found::default();
    if let Ok(formula) = parser::read(source, SILENT) {
        found.formula(&formula);
    }
    match (found.choice, found.plus) {
        (true, true) => format!("{CHOICE}, and {PLUS}: {PARTS}"),
        (true, false) => format!("{CHOICE}: check its sides one by one"),
        (false, true) => format!("{PLUS}: {PARTS}"),
        (false, false) => PARTS.to_string(),
    }
}

impl Found {
    fn formula(&mut self, formula: &StateFormula) {
        match &formula.kind {
            State::False | State::True | State::Variable(_) => {}
            State::Not(operand) | State::Mu(_, operand) | State::Nu(_, operand) => self.formula(operand),
            State::And(left, right) | State::Or(left, right) | State::Implies(left, right) => {
                self.formula(left);
                self.formula(right);
            }
            State::Must(steps, operand) | State::May(steps, operand) => {
                self.steps(steps);
                self.formula(operand);
            }
        }
    }

    fn steps(&mut self, steps: &RegularFormula) {
        match &steps.kind {
            Regular::Step(_) => {}
            Regular::Star(repeated) => self.steps(repeated),
            Regular::Plus(repeated) => {
                self.plus = true;
                self.steps(repeated);
            }
            Regular::Choice(one, other) | Regular::Sequence(one, other) => {
                self.choice |= matches!(steps.kind, Regular::Choice(..)) && !steps.is_single_step();
                self.steps(one);
                self.steps(other);
            }
        }
    }
}
