//! Formulas as they are written: state formulas, regular formulas over steps, and action formulas over labels.

use crate::label::Label;
use crate::source::Span;

/// A state formula, with the part of the text that it was read from. Brackets around it belong to it.
#[derive(Clone, Debug)]
pub struct StateFormula {
    pub kind: State,
    pub span: Span,
}

#[derive(Clone, Debug)]
pub enum State {
    False,
    True,
    Variable(String),
    Not(Box<StateFormula>),
    And(Box<StateFormula>, Box<StateFormula>),
    Or(Box<StateFormula>, Box<StateFormula>),
    Implies(Box<StateFormula>, Box<StateFormula>),
    /// `[R] a`: each run that R describes leads to a state of a.
    Must(RegularFormula, Box<StateFormula>),
    /// `<R> a`: some run that R describes leads to a state of a.
    May(RegularFormula, Box<StateFormula>),
    /// `mu X. a`, the variable with its place.
    Mu(Name, Box<StateFormula>),
    /// `nu X. a`.
    Nu(Name, Box<StateFormula>),
}

/// A variable where it is bound.
#[derive(Clone, Debug)]
pub struct Name {
    pub text: String,
    pub span: Span,
}

#[derive(Clone, Debug)]
pub struct RegularFormula {
    pub kind: Regular,
    pub span: Span,
}

#[derive(Clone, Debug)]
pub enum Regular {
    /// One step, by a label that the action formula accepts.
    Step(ActionFormula),
    /// `R . S`: first one, then the other.
    Sequence(Box<RegularFormula>, Box<RegularFormula>),
    /// `R + S`: one or the other.
    Choice(Box<RegularFormula>, Box<RegularFormula>),
    /// `R*`: as often as one likes, or never.
    Star(Box<RegularFormula>),
    /// `R+`: as often as one likes, but at least once.
    Plus(Box<RegularFormula>),
}

#[derive(Clone, Debug)]
pub struct ActionFormula {
    pub kind: Action,
    pub span: Span,
}

#[derive(Clone, Debug)]
pub enum Action {
    False,
    True,
    Label(Label),
    Not(Box<ActionFormula>),
    And(Box<ActionFormula>, Box<ActionFormula>),
    Or(Box<ActionFormula>, Box<ActionFormula>),
    Implies(Box<ActionFormula>, Box<ActionFormula>),
}

/// Two formulas are the same if they are built alike from the same names and labels, wherever they stand in a text.
impl StateFormula {
    pub fn same(&self, other: &StateFormula) -> bool {
        match (&self.kind, &other.kind) {
            (State::False, State::False) | (State::True, State::True) => true,
            (State::Variable(a), State::Variable(b)) => a == b,
            (State::Not(a), State::Not(b)) => a.same(b),
            (State::And(a, c), State::And(b, d))
            | (State::Or(a, c), State::Or(b, d))
            | (State::Implies(a, c), State::Implies(b, d)) => a.same(b) && c.same(d),
            (State::Must(r, a), State::Must(s, b)) | (State::May(r, a), State::May(s, b)) => r.same(s) && a.same(b),
            (State::Mu(x, a), State::Mu(y, b)) | (State::Nu(x, a), State::Nu(y, b)) => x.text == y.text && a.same(b),
            _ => false,
        }
    }
}

impl RegularFormula {
    /// Is it one step, or a choice between single steps, which is one too?
    pub fn is_single_step(&self) -> bool {
        match &self.kind {
            Regular::Step(_) => true,
            Regular::Choice(one, other) => one.is_single_step() && other.is_single_step(),
            Regular::Sequence(..) | Regular::Star(_) | Regular::Plus(_) => false,
        }
    }

    pub fn same(&self, other: &RegularFormula) -> bool {
        match (&self.kind, &other.kind) {
            (Regular::Step(a), Regular::Step(b)) => a.same(b),
            (Regular::Sequence(a, c), Regular::Sequence(b, d)) | (Regular::Choice(a, c), Regular::Choice(b, d)) => {
                a.same(b) && c.same(d)
            }
            (Regular::Star(a), Regular::Star(b)) | (Regular::Plus(a), Regular::Plus(b)) => a.same(b),
            _ => false,
        }
    }
}

impl ActionFormula {
    pub fn same(&self, other: &ActionFormula) -> bool {
        match (&self.kind, &other.kind) {
            (Action::False, Action::False) | (Action::True, Action::True) => true,
            (Action::Label(a), Action::Label(b)) => a == b,
            (Action::Not(a), Action::Not(b)) => a.same(b),
            (Action::And(a, c), Action::And(b, d))
            | (Action::Or(a, c), Action::Or(b, d))
            | (Action::Implies(a, c), Action::Implies(b, d)) => a.same(b) && c.same(d),
            _ => false,
        }
    }
}
