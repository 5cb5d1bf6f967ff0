//! The connectives that state formulas and action formulas both have.

use super::cursor::Cursor;
use super::operators::Written;

#[derive(Clone, Copy, PartialEq, Eq)]
pub(super) enum Connective {
    Implies,
    Or,
    And,
}

const CONNECTIVES: [(&str, Connective); 3] =
    [("=>", Connective::Implies), ("||", Connective::Or), ("&&", Connective::And)];

/// Reads a connective, if one is the next word.
pub(super) fn read(cursor: &mut Cursor) -> Option<Written<Connective>> {
    let (_, operator) = CONNECTIVES.into_iter().find(|(sign, _)| cursor.is_at(sign))?;
    Some(Written { operator, span: cursor.advance() })
}
