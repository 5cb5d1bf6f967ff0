//! State formulas.

use super::connective::{self, Connective};
use super::cursor::{Cursor, Read};
use super::foreign::Operands;
use super::operators::{self, Grammar, Written};
use super::{refused, steps};
use crate::formula::{Name, RegularFormula, State, StateFormula};
use crate::label;
use crate::lexer::Word;
use crate::precedence::state::{AND, BINDER, IMPLIES, OR, PREFIX};
use crate::source::{Fault, Span};
use std::convert::Infallible;

const BEGINNINGS: &str = "a formula begins with true, false, a variable, mu, nu, \"!\", \"[\", \"<\" or \"(\"";

/// Reads a formula, as far to the right as it goes.
pub(super) fn formula(cursor: &mut Cursor) -> Result<Read<StateFormula>, Fault> {
    operators::read::<States>(cursor)
}

struct States;

/// What stands before an operand.
enum Prefix {
    Not,
    Must(RegularFormula),
    May(RegularFormula),
    Mu(Name),
    Nu(Name),
}

impl Grammar for States {
    type Part = StateFormula;
    type Before = Prefix;
    type Between = Connective;
    type Behind = Infallible;

    const BEHIND: u8 = PREFIX;
    const OPERANDS: Operands = Operands::Formulas;

    fn level_before(operator: &Prefix) -> u8 {
        match operator {
            Prefix::Not | Prefix::Must(_) | Prefix::May(_) => PREFIX,
            Prefix::Mu(_) | Prefix::Nu(_) => BINDER,
        }
    }

    fn level_between(operator: Connective) -> u8 {
        match operator {
            Connective::Implies => IMPLIES,
            Connective::Or => OR,
            Connective::And => AND,
        }
    }

    fn before(cursor: &mut Cursor) -> Result<Option<Read<Written<Prefix>>>, Fault> {
        match cursor.word() {
            Word::Sign("!") => {
                let not = Written { operator: Prefix::Not, span: cursor.advance() };
                Ok(Some(Read { part: not, height: 0 }))
            }
            Word::Sign("[") => modality(cursor, "]", Prefix::Must).map(Some),
            Word::Sign("<") => modality(cursor, ">", Prefix::May).map(Some),
            Word::Name(name) if name == "mu" => binder(cursor, Prefix::Mu).map(Some),
            Word::Name(name) if name == "nu" => binder(cursor, Prefix::Nu).map(Some),
            _ => Ok(None),
        }
    }

    fn between(cursor: &mut Cursor) -> Option<Written<Connective>> {
        connective::read(cursor)
    }

    fn behind(_: &mut Cursor) -> Option<Written<Infallible>> {
        None
    }

    fn single(cursor: &mut Cursor, after: Option<Span>) -> Result<Read<StateFormula>, Fault> {
        match cursor.word().clone() {
            Word::Name(name) => named(cursor, name),
            Word::Quoted(_) => Err(refused::label_for_formula(cursor)),
            _ => {
                let help = refused::repeated_modality(cursor, after);
                Err(cursor.expected("a formula", after, help.as_deref().unwrap_or(BEGINNINGS)))
            }
        }
    }

    fn put_before(
        cursor: &mut Cursor,
        before: Read<Written<Prefix>>,
        operand: Read<StateFormula>,
    ) -> Result<Read<StateFormula>, Fault> {
        let Written { operator, span: sign } = before.part;
        let span = sign.to(operand.part.span);
        let height = before.height.max(operand.height);
        let operand = Box::new(operand.part);
        let kind = match operator {
            Prefix::Not => State::Not(operand),
            Prefix::Must(steps) => State::Must(steps, operand),
            Prefix::May(steps) => State::May(steps, operand),
            Prefix::Mu(name) => State::Mu(name, operand),
            Prefix::Nu(name) => State::Nu(name, operand),
        };
        cursor.around(StateFormula { kind, span }, height, sign)
    }

    fn put_between(
        cursor: &mut Cursor,
        left: Read<StateFormula>,
        sign: Written<Connective>,
        right: Read<StateFormula>,
    ) -> Result<Read<StateFormula>, Fault> {
        let span = left.part.span.to(right.part.span);
        let height = left.height.max(right.height);
        let (left, right) = (Box::new(left.part), Box::new(right.part));
        let kind = match sign.operator {
            Connective::And => State::And(left, right),
            Connective::Or => State::Or(left, right),
            Connective::Implies => State::Implies(left, right),
        };
        cursor.around(StateFormula { kind, span }, height, sign.span)
    }

    fn put_behind(
        _: &mut Cursor,
        _: Read<StateFormula>,
        sign: Written<Infallible>,
    ) -> Result<Read<StateFormula>, Fault> {
        match sign.operator {}
    }

    fn put_in_brackets(formula: &mut StateFormula, brackets: Span) {
        formula.span = brackets;
    }
}

fn modality(
    cursor: &mut Cursor,
    closing: &str,
    kind: fn(RegularFormula) -> Prefix,
) -> Result<Read<Written<Prefix>>, Fault> {
    let opening = cursor.advance();
    if cursor.is_at(closing) {
        return Err(refused::empty_modality(cursor, opening));
    }
    let steps = steps::regular(cursor)?;
    let span = opening.to(cursor.close(opening, closing)?);
    Ok(Read { part: Written { operator: kind(steps.part), span }, height: steps.height })
}

/// Reads `mu X.` or `nu X.`.
fn binder(cursor: &mut Cursor, kind: fn(Name) -> Prefix) -> Result<Read<Written<Prefix>>, Fault> {
    let word = cursor.advance();
    let name = variable(cursor, word)?;
    let both = word.to(name.span);
    if cursor.is_at("(") {
        return Err(refused::parameters(cursor, both));
    }
    let Some(dot) = cursor.take(".") else {
        let help = format!("write {}. and behind it the formula", cursor.text(both));
        return Err(cursor.expected("\".\"", Some(both), &help));
    };
    Ok(Read { part: Written { operator: kind(name), span: word.to(dot) }, height: 0 })
}

/// Reads the variable that a binder binds.
fn variable(cursor: &mut Cursor, binder: Span) -> Result<Name, Fault> {
    match cursor.word().clone() {
        Word::Name(text) if label::WORDS.contains(&text.as_str()) => Err(refused::word_for_variable(cursor)),
        Word::Name(text) => Ok(Name { text, span: cursor.advance() }),
        _ => Err(cursor.expected("a variable", Some(binder), "write a name behind it, as in mu X. [true] X")),
    }
}

/// Reads a constant or a variable.
fn named(cursor: &mut Cursor, name: String) -> Result<Read<StateFormula>, Fault> {
    if let Some(fault) = refused::word(cursor) {
        return Err(fault);
    }
    let span = cursor.advance();
    let kind = match name.as_str() {
        "true" => State::True,
        "false" => State::False,
        _ if cursor.is_at("(") => return Err(refused::parameters(cursor, span)),
        _ => State::Variable(name),
    };
    cursor.around(StateFormula { kind, span }, 0, span)
}
