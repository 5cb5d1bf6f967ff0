//! Formulas as values: built without a text, and shown with all their structure.

use bithrowy_front::formula::{Action, ActionFormula, Name, Regular, RegularFormula, State, StateFormula};
use bithrowy_front::label::Label;
use bithrowy_front::source::Span;

/// The place of what no text holds.
const NOWHERE: Span = Span { start: 0, end: 0 };

pub fn state(kind: State) -> StateFormula {
    StateFormula { kind, span: NOWHERE }
}

pub fn regular(kind: Regular) -> RegularFormula {
    RegularFormula { kind, span: NOWHERE }
}

pub fn action(kind: Action) -> ActionFormula {
    ActionFormula { kind, span: NOWHERE }
}

pub fn step(kind: Action) -> RegularFormula {
    regular(Regular::Step(action(kind)))
}

pub fn name(text: &str) -> Name {
    Name { text: text.to_string(), span: NOWHERE }
}

/// A label of which nothing but its text is looked at.
pub fn label(text: &str) -> Label {
    Label { text: text.to_string(), names: Vec::new() }
}

/// A state formula with a bracket around each part, its word first. Two formulas are the same if this is equal.
pub fn shape(formula: &StateFormula) -> String {
    match &formula.kind {
        State::False => "false".to_string(),
        State::True => "true".to_string(),
        State::Variable(name) => name.clone(),
        State::Not(a) => format!("(not {})", shape(a)),
        State::And(a, b) => format!("(and {} {})", shape(a), shape(b)),
        State::Or(a, b) => format!("(or {} {})", shape(a), shape(b)),
        State::Implies(a, b) => format!("(implies {} {})", shape(a), shape(b)),
        State::Must(r, a) => format!("(must {} {})", regular_shape(r), shape(a)),
        State::May(r, a) => format!("(may {} {})", regular_shape(r), shape(a)),
        State::Mu(name, a) => format!("(mu {} {})", name.text, shape(a)),
        State::Nu(name, a) => format!("(nu {} {})", name.text, shape(a)),
    }
}

fn regular_shape(formula: &RegularFormula) -> String {
    match &formula.kind {
        Regular::Step(a) => format!("(step {})", action_shape(a)),
        Regular::Sequence(r, s) => format!("(sequence {} {})", regular_shape(r), regular_shape(s)),
        Regular::Choice(r, s) => format!("(choice {} {})", regular_shape(r), regular_shape(s)),
        Regular::Star(r) => format!("(star {})", regular_shape(r)),
        Regular::Plus(r) => format!("(plus {})", regular_shape(r)),
    }
}

pub fn action_shape(formula: &ActionFormula) -> String {
    match &formula.kind {
        Action::False => "false".to_string(),
        Action::True => "true".to_string(),
        Action::Label(label) => format!("{:?}", label.text),
        Action::Not(a) => format!("(not {})", action_shape(a)),
        Action::And(a, b) => format!("(and {} {})", action_shape(a), action_shape(b)),
        Action::Or(a, b) => format!("(or {} {})", action_shape(a), action_shape(b)),
        Action::Implies(a, b) => format!("(implies {} {})", action_shape(a), action_shape(b)),
    }
}
