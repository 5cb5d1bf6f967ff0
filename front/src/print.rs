//! Formulas as text.

mod shape;

use crate::formula::{RegularFormula, StateFormula};
use crate::precedence::LOOSEST;
use crate::table::Table;
use shape::{Part, Shape};

/// With no more brackets than the reading needs. Read again it is the same formula.
pub fn plain(formula: &StateFormula) -> String {
    text(Part::State(formula), Brackets::Needed)
}

/// With brackets around each operand that is not a single word, so that nothing is left to know about precedence.
pub fn bracketed(formula: &StateFormula) -> String {
    text(Part::State(formula), Brackets::Everywhere)
}

/// The subtree at a table's node.
pub(crate) fn node(table: &Table, node: usize) -> String {
    text(Part::Node(table, node), Brackets::Needed)
}

/// The subtree at a table's node in pieces, which together are its text.
pub(crate) fn node_in_pieces(table: &Table, node: usize) -> Vec<Written> {
    written(Part::Node(table, node), Brackets::Needed)
}

/// The subtree at a table's action node.
pub(crate) fn action_node(table: &Table, action: usize) -> String {
    text(Part::ActionNode(table, action), Brackets::Needed)
}

/// What stands in a modality.
fn regular(formula: &RegularFormula, brackets: Brackets) -> String {
    text(Part::Regular(formula), brackets)
}

/// Where brackets are set.
#[derive(Clone, Copy, PartialEq, Eq)]
enum Brackets {
    Needed,
    Everywhere,
}

/// A piece of a text.
pub(crate) enum Written {
    /// What the part itself is written by.
    Words(String),
    Bracket(&'static str),
    /// Here the part of a table's node begins, brackets around it included.
    Begin(usize),
    /// Here the part that began last ends.
    End,
}

/// What is still to be written.
enum Piece<'a> {
    Ready(Written),
    /// A part that stands where nothing looser than a level can stand. Does more text follow it before the next closing
    /// bracket? A binder would reach into that.
    Part {
        part: Part<'a>,
        level: u8,
        followed: bool,
    },
}

/// A part as text.
fn text(part: Part, brackets: Brackets) -> String {
    let words = |piece| match piece {
        Written::Words(words) => words,
        Written::Bracket(bracket) => bracket.to_string(),
        Written::Begin(_) | Written::End => String::new(),
    };
    written(part, brackets).into_iter().map(words).collect()
}

/// Writes a part. The pieces are kept in a list, so that no depth of a formula exhausts the stack.
fn written(part: Part, brackets: Brackets) -> Vec<Written> {
    let mut written = Vec::new();
    let mut pieces = vec![Piece::Part { part, level: LOOSEST, followed: false }];
    let mut is_operand = false;
    while let Some(piece) = pieces.pop() {
        match piece {
            Piece::Ready(piece) => written.push(piece),
            Piece::Part { part, level, followed } => {
                if let Part::Node(_, node) = part {
                    written.push(Written::Begin(node));
                    pieces.push(Piece::Ready(Written::End));
                }
                let shape = part.shape(brackets);
                let everywhere = brackets == Brackets::Everywhere && is_operand && !matches!(shape, Shape::Word(_));
                let in_brackets = everywhere || shape.needs_brackets(level, followed);
                push(&mut pieces, shape, in_brackets, followed);
                is_operand = true;
            }
        }
    }
    written
}

/// Puts the pieces of a shape on the list, the first of them last.
fn push<'a>(pieces: &mut Vec<Piece<'a>>, shape: Shape<'a>, in_brackets: bool, followed: bool) {
    let followed = followed && !in_brackets;
    let part = |part, level, followed| Piece::Part { part, level, followed };
    let words = |words| Piece::Ready(Written::Words(words));
    if in_brackets {
        pieces.push(Piece::Ready(Written::Bracket(")")));
    }
    match shape {
        Shape::Word(text) => pieces.push(words(text)),
        Shape::Prefix(level, text, operand) => {
            pieces.extend([part(operand, level, followed), words(text)]);
        }
        Shape::Postfix(level, sign, operand) => {
            pieces.extend([words(sign.to_string()), part(operand, level, true)]);
        }
        Shape::Infix(level, sign, left, right) => {
            let sign = words(format!(" {sign} "));
            pieces.extend([part(right, level, followed), sign, part(left, level + 1, true)]);
        }
        Shape::Binder(text, body) => pieces.extend([part(body, LOOSEST, false), words(text)]),
    }
    if in_brackets {
        pieces.push(Piece::Ready(Written::Bracket("(")));
    }
}
