//! How many nodes a formula becomes, counted without writing them: a choice says its operand twice, so a short text can
//! stand for more nodes than fit anywhere. Sums stop at the largest number there is.

use crate::formula::{Action, ActionFormula, Regular, RegularFormula, State, StateFormula};

/// The formula nodes.
pub(super) fn nodes(formula: &StateFormula) -> usize {
    Costs { state: 1, modality: |_| 1 }.of_state(formula)
}

/// The action nodes, where equal action formulas count each time.
pub(super) fn actions(formula: &StateFormula) -> usize {
    Costs { state: 0, modality: of_single_step }.of_state(formula)
}

/// What is counted.
struct Costs {
    /// For each node that is no modality.
    state: usize,
    /// For each modality, by its single step.
    modality: fn(&RegularFormula) -> usize,
}

/// What a modality counts: so much by itself, and its operand so many times.
#[derive(Clone, Copy)]
struct Growth {
    own: usize,
    times: usize,
}

impl Growth {
    fn with(self, operand: usize) -> usize {
        self.own.saturating_add(self.times.saturating_mul(operand))
    }

    /// This modality with the other one as its operand.
    fn then(self, next: Growth) -> Growth {
        Growth { own: self.with(next.own), times: self.times.saturating_mul(next.times) }
    }

    /// Both modalities side by side.
    fn beside(self, other: Growth) -> Growth {
        Growth { own: self.own.saturating_add(other.own), times: self.times.saturating_add(other.times) }
    }

    fn plus(self, more: usize) -> Growth {
        Growth { own: self.own.saturating_add(more), times: self.times }
    }
}

impl Costs {
    fn of_state(&self, formula: &StateFormula) -> usize {
        match &formula.kind {
            State::False | State::True | State::Variable(_) => self.state,
            State::Not(operand) => self.of_state(operand),
            State::And(left, right) | State::Or(left, right) | State::Implies(left, right) => {
                self.state.saturating_add(self.of_state(left)).saturating_add(self.of_state(right))
            }
            State::Must(steps, operand) | State::May(steps, operand) => {
                self.of_regular(steps).with(self.of_state(operand))
            }
            State::Mu(_, body) | State::Nu(_, body) => self.state.saturating_add(self.of_state(body)),
        }
    }

    fn of_regular(&self, steps: &RegularFormula) -> Growth {
        match &steps.kind {
            Regular::Step(_) => self.once(steps),
            Regular::Choice(..) if steps.is_single_step() => self.once(steps),
            Regular::Sequence(first, second) => self.of_regular(first).then(self.of_regular(second)),
            Regular::Choice(one, other) => self.of_regular(one).beside(self.of_regular(other)).plus(self.state),
            Regular::Star(repeated) => self.star(self.of_regular(repeated)),
            Regular::Plus(repeated) => {
                let once = self.of_regular(repeated);
                once.then(self.star(once))
            }
        }
    }

    fn once(&self, step: &RegularFormula) -> Growth {
        Growth { own: (self.modality)(step), times: 1 }
    }

    /// A binder, a connective, the operand, and the repeated modality with the binder's variable.
    fn star(&self, repeated: Growth) -> Growth {
        let around = self.state.saturating_mul(2);
        Growth { own: around.saturating_add(repeated.with(self.state)), times: 1 }
    }
}

fn of_single_step(steps: &RegularFormula) -> usize {
    match &steps.kind {
        Regular::Step(step) => of_action(step),
        Regular::Choice(one, other) => 1 + of_single_step(one) + of_single_step(other),
        Regular::Sequence(..) | Regular::Star(_) | Regular::Plus(_) => 0,
    }
}

fn of_action(formula: &ActionFormula) -> usize {
    match &formula.kind {
        Action::False | Action::True | Action::Label(_) => 1,
        Action::Not(operand) => 1 + of_action(operand),
        Action::And(left, right) | Action::Or(left, right) | Action::Implies(left, right) => {
            1 + of_action(left) + of_action(right)
        }
    }
}
