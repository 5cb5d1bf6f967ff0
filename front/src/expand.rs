//! From a formula as it is written to the checker's tables: names are bound, regular formulas written out, negations and
//! implications pushed inward by the dual.
//!
//! Nothing is simplified, but that a choice between two single steps is one step: `a + b` is `a || b`. A sequence is one
//! modality behind the other: `[R . S] a` is `[R] [S] a`. A choice is both: `[R + S] a` is `[R] a && [S] a`. A star is a
//! fixed point: `[R*] a` is `nu Z. a && [R] Z`; a plus is a step and a star. Diamonds are dual: `||` for `&&`, `mu` for
//! `nu`.

mod actions;
mod growth;
mod literal;
mod names;
mod variables;
mod writer;

use crate::formula::StateFormula;
use crate::source::{Fault, Source, Span};
use crate::table::Table;
use std::sync::Arc;

/// What comes of a formula.
#[derive(Clone, Debug)]
pub enum Expansion {
    /// Its tables, of at most `WRITTEN_OUT` formula nodes.
    Table(Table),
    /// So many formula nodes that they are not written out. They are counted all the same (up to the largest number there
    /// is), and so are the action nodes, where equal action formulas count each time.
    /// The formula's text and place are there for the fault.
    TooLarge { source: Arc<Source>, span: Span, nodes: usize, actions: usize },
}

/// Formulas of more nodes than this are not written out; the checker's own limit is far below.
pub const WRITTEN_OUT: usize = 4096;

/// A variable that no binder around it binds is a fault, and so is one under an odd number of negations.
pub fn expand(source: &Arc<Source>, formula: &StateFormula) -> Result<Expansion, Fault> {
    variables::check(source, formula)?;
    let nodes = growth::nodes(formula);
    if nodes > WRITTEN_OUT {
        let actions = growth::actions(formula);
        return Ok(Expansion::TooLarge { source: source.clone(), span: formula.span, nodes, actions });
    }
    Ok(Expansion::Table(writer::write(source, formula)))
}
