//! Operators before, between and behind operands, and round brackets, which state formulas and regular formulas have
//! alike. What waits for its operand is kept in a list, so that no depth of a formula exhausts the stack.

use super::cursor::{Cursor, Read};
use super::foreign::Operands;
use crate::source::{Fault, Span};

/// A language of operators. A tighter one has a greater level.
pub(super) trait Grammar {
    type Part;
    /// An operator before an operand, or a binder.
    type Before;
    /// An operator between two operands. All of them group to the right.
    type Between: Copy;
    /// An operator behind an operand.
    type Behind: Copy;

    /// The level of the operators behind an operand.
    const BEHIND: u8;
    const OPERANDS: Operands;

    fn level_before(operator: &Self::Before) -> u8;
    fn level_between(operator: Self::Between) -> u8;

    /// Each of these four reads what its name says, if that is the next thing there is.
    fn before(cursor: &mut Cursor) -> Result<Option<Read<Written<Self::Before>>>, Fault>;
    fn between(cursor: &mut Cursor) -> Option<Written<Self::Between>>;
    fn behind(cursor: &mut Cursor) -> Option<Written<Self::Behind>>;
    /// A name, a label or a constant; a fault if there is none behind the text of a place.
    fn single(cursor: &mut Cursor, after: Option<Span>) -> Result<Read<Self::Part>, Fault>;

    fn put_before(
        cursor: &mut Cursor,
        operator: Read<Written<Self::Before>>,
        operand: Read<Self::Part>,
    ) -> Result<Read<Self::Part>, Fault>;
    fn put_between(
        cursor: &mut Cursor,
        left: Read<Self::Part>,
        operator: Written<Self::Between>,
        right: Read<Self::Part>,
    ) -> Result<Read<Self::Part>, Fault>;
    fn put_behind(
        cursor: &mut Cursor,
        operand: Read<Self::Part>,
        operator: Written<Self::Behind>,
    ) -> Result<Read<Self::Part>, Fault>;

    /// Brackets belong to what stands in them.
    fn put_in_brackets(part: &mut Self::Part, brackets: Span);
}

/// An operator where it is written.
#[derive(Clone, Copy)]
pub(super) struct Written<T> {
    pub(super) operator: T,
    pub(super) span: Span,
}

/// What waits for the operand behind it.
enum Waiting<G: Grammar> {
    Bracket(Span),
    Before(Read<Written<G::Before>>),
    Left(Read<G::Part>, Written<G::Between>),
}

impl<G: Grammar> Waiting<G> {
    /// A bracket has no level: it ends what belongs together.
    fn level(&self) -> Option<u8> {
        match self {
            Waiting::Bracket(_) => None,
            Waiting::Before(operator) => Some(G::level_before(&operator.part.operator)),
            Waiting::Left(_, operator) => Some(G::level_between(operator.operator)),
        }
    }

    fn span(&self) -> Span {
        match self {
            Waiting::Bracket(span) => *span,
            Waiting::Before(operator) => operator.part.span,
            Waiting::Left(_, operator) => operator.span,
        }
    }
}

/// Reads a formula, as far to the right as it goes.
pub(super) fn read<G: Grammar>(cursor: &mut Cursor) -> Result<Read<G::Part>, Fault> {
    let start = cursor.last();
    let mut waiting: Vec<Waiting<G>> = Vec::new();
    loop {
        let single = operand(cursor, start, &mut waiting)?;
        let left = behind_operand(cursor, &mut waiting, single)?;
        match G::between(cursor) {
            Some(operator) => {
                let left = joined(cursor, &mut waiting, left, G::level_between(operator.operator))?;
                waiting.push(Waiting::Left(left, operator));
            }
            None => return whole(cursor, waiting, left),
        }
    }
}

/// Reads what stands before an operand, and the operand's innermost part.
fn operand<G: Grammar>(
    cursor: &mut Cursor,
    start: Option<Span>,
    waiting: &mut Vec<Waiting<G>>,
) -> Result<Read<G::Part>, Fault> {
    loop {
        if let Some(bracket) = cursor.take("(") {
            waiting.push(Waiting::Bracket(bracket));
        } else if let Some(operator) = G::before(cursor)? {
            waiting.push(Waiting::Before(operator));
        } else {
            let after = waiting.last().map(Waiting::span).or(start);
            return G::single(cursor, after);
        }
    }
}

/// Reads closing brackets and operators behind an operand.
fn behind_operand<G: Grammar>(
    cursor: &mut Cursor,
    waiting: &mut Vec<Waiting<G>>,
    mut operand: Read<G::Part>,
) -> Result<Read<G::Part>, Fault> {
    loop {
        if let Some(operator) = G::behind(cursor) {
            operand = joined(cursor, waiting, operand, G::BEHIND)?;
            operand = G::put_behind(cursor, operand, operator)?;
        } else if cursor.is_at(")") && waiting.iter().rev().any(|waiting| matches!(waiting, Waiting::Bracket(_))) {
            operand = joined(cursor, waiting, operand, 0)?;
            if let Some(Waiting::Bracket(opening)) = waiting.pop() {
                G::put_in_brackets(&mut operand.part, opening.to(cursor.advance()));
            }
        } else {
            return Ok(operand);
        }
    }
}

/// The operand with all that waits for it and is no looser than a level.
fn joined<G: Grammar>(
    cursor: &mut Cursor,
    waiting: &mut Vec<Waiting<G>>,
    mut operand: Read<G::Part>,
    level: u8,
) -> Result<Read<G::Part>, Fault> {
    while waiting.last().and_then(Waiting::level).is_some_and(|tight| tight > level) {
        match waiting.pop() {
            Some(Waiting::Before(operator)) => operand = G::put_before(cursor, operator, operand)?,
            Some(Waiting::Left(left, operator)) => operand = G::put_between(cursor, left, operator, operand)?,
            Some(Waiting::Bracket(_)) | None => break,
        }
    }
    Ok(operand)
}

/// The formula whose last operand was read.
fn whole<G: Grammar>(
    cursor: &mut Cursor,
    mut waiting: Vec<Waiting<G>>,
    last: Read<G::Part>,
) -> Result<Read<G::Part>, Fault> {
    let formula = joined(cursor, &mut waiting, last, 0)?;
    match waiting.pop() {
        Some(bracket) => Err(cursor.unclosed(bracket.span(), ")", G::OPERANDS)),
        None => Ok(formula),
    }
}
