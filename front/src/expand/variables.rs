//! Each variable stands inside a binder of its name, with an even number of negations between them.

use crate::formula::{Name, State, StateFormula};
use crate::lexer;
use crate::source::{shown, Fault, Source, Span};
use crate::suggest;
use std::sync::Arc;

/// Finds the first variable, in the order of the text, that no binder binds or that is its binder's opposite.
pub(super) fn check(source: &Arc<Source>, formula: &StateFormula) -> Result<(), Fault> {
    Check { source, around: Vec::new() }.formula(formula, false)
}

/// A binder around the place, and whether an odd number of negations stands around it.
struct Binder<'a> {
    word: &'static str,
    name: &'a Name,
    negated: bool,
}

struct Check<'a> {
    source: &'a Arc<Source>,
    around: Vec<Binder<'a>>,
}

impl<'a> Check<'a> {
    fn formula(&mut self, formula: &'a StateFormula, negated: bool) -> Result<(), Fault> {
        match &formula.kind {
            State::False | State::True => Ok(()),
            State::Variable(name) => self.variable(name, formula.span, negated),
            State::Not(operand) => self.formula(operand, !negated),
            State::And(left, right) | State::Or(left, right) => {
                self.formula(left, negated)?;
                self.formula(right, negated)
            }
            State::Implies(left, right) => {
                self.formula(left, !negated)?;
                self.formula(right, negated)
            }
            State::Must(_, operand) | State::May(_, operand) => self.formula(operand, negated),
            State::Mu(name, body) => self.body(Binder { word: "mu", name, negated }, body),
            State::Nu(name, body) => self.body(Binder { word: "nu", name, negated }, body),
        }
    }

    fn body(&mut self, binder: Binder<'a>, body: &'a StateFormula) -> Result<(), Fault> {
        let negated = binder.negated;
        self.around.push(binder);
        let checked = self.formula(body, negated);
        self.around.pop();
        checked
    }

    fn variable(&self, name: &str, span: Span, negated: bool) -> Result<(), Fault> {
        match self.around.iter().rev().find(|binder| binder.name.text == name) {
            None => Err(self.unbound(name, span)),
            Some(binder) if binder.negated != negated => Err(self.opposite(binder, span)),
            Some(_) => Ok(()),
        }
    }

    fn unbound(&self, name: &str, span: Span) -> Fault {
        let message = format!("no mu or nu around it binds `{}`", shown(name));
        self.fault(span, message).with_help(self.instead_of(name))
    }

    /// What may have been meant by a variable that nothing binds. Variables are mostly capitals, labels are not.
    fn instead_of(&self, name: &str) -> String {
        let bound = self.around.iter().rev().map(|binder| binder.name.text.as_str());
        if let Some(near) = suggest::nearest(name, bound.chain(["true", "false"])) {
            return format!("did you mean `{}`?", shown(near));
        }
        let name = shown(name);
        let label = format!("for \"a step {name} is possible\" write <{name}>true");
        match name.starts_with(char::is_uppercase) {
            true => format!("write mu {name}. or nu {name}. before the formula that it stands for; {label}"),
            false => label,
        }
    }

    fn opposite(&self, binder: &Binder, span: Span) -> Fault {
        let name = shown(&binder.name.text);
        let word = binder.word;
        let message = format!("`{name}` stands under a negation inside its {word} {name}");
        let help = format!(
            "each \"!\" and each left side of \"=>\" between {word} {name} and this {name} is a negation, and their \
             number has to be even: a set that is defined by its own opposite need not exist"
        );
        self.fault(span, message).with_help(help)
    }

    fn fault(&self, variable: Span, message: String) -> Fault {
        Fault::new(self.source, lexer::unbracketed(self.source, variable), message)
    }
}
