//! What stands in a modality: regular formulas over action formulas. Round brackets may hold either, so all is read as a
//! regular formula, and several steps are refused where only the labels of one can stand.

use super::connective::{self, Connective};
use super::cursor::{Cursor, Read};
use super::foreign::Operands;
use super::operators::{self, Grammar, Written};
use super::refused;
use crate::formula::{Action, ActionFormula, Regular, RegularFormula};
use crate::label::Label;
use crate::lexer::Word;
use crate::precedence::steps::{AND, CHOICE, IMPLIES, NOT, OR, REPETITION, SEQUENCE};
use crate::source::{Fault, Span};

const BEGINNINGS: &str =
    "a step is a label, true (any label), false, or joined from these by \"!\", \"&&\", \"||\", \"=>\"";

const STAR: &str = "a \"*\" stands behind what it repeats, as in click*; true* is any number of steps";

/// Reads what stands in a modality.
pub(super) fn regular(cursor: &mut Cursor) -> Result<Read<RegularFormula>, Fault> {
    operators::read::<Steps>(cursor)
}

struct Steps;

#[derive(Clone, Copy)]
struct Not;

#[derive(Clone, Copy)]
enum Between {
    Choice,
    Sequence,
    Labels(Connective),
}

#[derive(Clone, Copy)]
enum Repetition {
    Star,
    Plus,
}

impl Grammar for Steps {
    type Part = RegularFormula;
    type Before = Not;
    type Between = Between;
    type Behind = Repetition;

    const BEHIND: u8 = REPETITION;
    const OPERANDS: Operands = Operands::Labels;

    fn level_before(_: &Not) -> u8 {
        NOT
    }

    fn level_between(operator: Between) -> u8 {
        match operator {
            Between::Choice => CHOICE,
            Between::Sequence => SEQUENCE,
            Between::Labels(Connective::Implies) => IMPLIES,
            Between::Labels(Connective::Or) => OR,
            Between::Labels(Connective::And) => AND,
        }
    }

    fn before(cursor: &mut Cursor) -> Result<Option<Read<Written<Not>>>, Fault> {
        let sign = cursor.take("!");
        Ok(sign.map(|span| Read { part: Written { operator: Not, span }, height: 0 }))
    }

    fn between(cursor: &mut Cursor) -> Option<Written<Between>> {
        if let Some(span) = cursor.take("+") {
            return Some(Written { operator: Between::Choice, span });
        }
        if let Some(span) = cursor.take(".") {
            return Some(Written { operator: Between::Sequence, span });
        }
        let Written { operator, span } = connective::read(cursor)?;
        Some(Written { operator: Between::Labels(operator), span })
    }

    fn behind(cursor: &mut Cursor) -> Option<Written<Repetition>> {
        if let Some(span) = cursor.take("*") {
            return Some(Written { operator: Repetition::Star, span });
        }
        if cursor.is_at("+") && !begins_steps(cursor.word_after(1)) {
            return Some(Written { operator: Repetition::Plus, span: cursor.advance() });
        }
        None
    }

    fn single(cursor: &mut Cursor, after: Option<Span>) -> Result<Read<RegularFormula>, Fault> {
        let kind = match cursor.word() {
            Word::Name(name) if name == "true" => Action::True,
            Word::Name(name) if name == "false" => Action::False,
            _ => return label(cursor, after),
        };
        let span = cursor.advance();
        cursor.around(step(kind, span), 0, span)
    }

    fn put_before(
        cursor: &mut Cursor,
        not: Read<Written<Not>>,
        operand: Read<RegularFormula>,
    ) -> Result<Read<RegularFormula>, Fault> {
        let sign = not.part.span;
        let span = sign.to(operand.part.span);
        let action = labels(cursor, operand.part, sign)?;
        cursor.around(step(Action::Not(Box::new(action)), span), operand.height, sign)
    }

    fn put_between(
        cursor: &mut Cursor,
        left: Read<RegularFormula>,
        sign: Written<Between>,
        right: Read<RegularFormula>,
    ) -> Result<Read<RegularFormula>, Fault> {
        let span = left.part.span.to(right.part.span);
        let height = left.height.max(right.height);
        let (left, right) = (left.part, right.part);
        let part = match sign.operator {
            Between::Choice => RegularFormula { kind: Regular::Choice(Box::new(left), Box::new(right)), span },
            Between::Sequence => RegularFormula { kind: Regular::Sequence(Box::new(left), Box::new(right)), span },
            Between::Labels(connective) => {
                let (left, right) = (labels(cursor, left, sign.span)?, labels(cursor, right, sign.span)?);
                step(connected(connective, left, right), span)
            }
        };
        cursor.around(part, height, sign.span)
    }

    fn put_behind(
        cursor: &mut Cursor,
        operand: Read<RegularFormula>,
        sign: Written<Repetition>,
    ) -> Result<Read<RegularFormula>, Fault> {
        let span = operand.part.span.to(sign.span);
        let repeated = Box::new(operand.part);
        let kind = match sign.operator {
            Repetition::Star => Regular::Star(repeated),
            Repetition::Plus => Regular::Plus(repeated),
        };
        cursor.around(RegularFormula { kind, span }, operand.height, sign.span)
    }

    fn put_in_brackets(steps: &mut RegularFormula, brackets: Span) {
        steps.span = brackets;
        if let Regular::Step(action) = &mut steps.kind {
            action.span = brackets;
        }
    }
}

/// Can a word begin a regular formula? One that is refused wherever it stands counts too, so that it is found.
fn begins_steps(word: &Word) -> bool {
    match word {
        Word::Name(_) | Word::Quoted(_) | Word::Number(_) | Word::Other(_) => true,
        Word::Sign(sign) => matches!(*sign, "!" | "(" | "~"),
        Word::End => false,
    }
}

/// The action formula of a single step, which a sign needs.
fn labels(cursor: &Cursor, steps: RegularFormula, sign: Span) -> Result<ActionFormula, Fault> {
    match steps.kind {
        Regular::Step(action) => Ok(action),
        _ => Err(refused::several_steps(cursor, &steps, sign)),
    }
}

fn connected(connective: Connective, left: ActionFormula, right: ActionFormula) -> Action {
    let (left, right) = (Box::new(left), Box::new(right));
    match connective {
        Connective::And => Action::And(left, right),
        Connective::Or => Action::Or(left, right),
        Connective::Implies => Action::Implies(left, right),
    }
}

fn step(kind: Action, span: Span) -> RegularFormula {
    RegularFormula { kind: Regular::Step(ActionFormula { kind, span }), span }
}

/// Reads a label, with `|` between its names.
fn label(cursor: &mut Cursor, after: Option<Span>) -> Result<Read<RegularFormula>, Fault> {
    let start = cursor.span();
    let mut text = name(cursor, "a label", after)?;
    let mut span = start;
    while let Some(sign) = cursor.take("|") {
        span = start.to(cursor.span());
        text.push('|');
        text.push_str(&name(cursor, "a name", Some(start.to(sign)))?);
    }
    if cursor.is_at("(") {
        return Err(refused::arguments(cursor, span));
    }
    match Label::read(&text, cursor.silent) {
        Ok(label) => cursor.around(step(Action::Label(label), span), 0, span),
        Err(message) => Err(refused::no_label(cursor, span, message)),
    }
}

/// Reads one name of a label, or several in quotes.
fn name(cursor: &mut Cursor, what: &str, after: Option<Span>) -> Result<String, Fault> {
    let text = match cursor.word() {
        Word::Quoted(text) => text.clone(),
        Word::Name(text) => match refused::word_for_label(cursor) {
            Some(fault) => return Err(fault),
            None => text.clone(),
        },
        Word::Sign("*") => return Err(cursor.expected(what, after, STAR)),
        _ => return Err(cursor.expected(what, after, BEGINNINGS)),
    };
    cursor.advance();
    Ok(text)
}
