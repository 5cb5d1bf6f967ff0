//! Reads formulas as mCRL2's .mcf files write them.
//!
//! From loose to tight: `mu X.` and `nu X.` (as far to the right as possible), `=>`, `||`, `&&` (these three to the
//! right), `[R]` and `<R>`, `!`. In a regular formula: `+`, `.` (both to the right), then `*` and `+` behind a formula;
//! in an action formula `=>`, `||`, `&&`, `!`, and `|` between the names of a label. A star stands behind a whole action
//! formula: `!a*` is `(!a)*`. A `+` stands behind a formula if what follows it begins none.

mod connective;
mod cursor;
mod foreign;
mod operators;
mod refused;
mod state;
mod steps;

use crate::formula::StateFormula;
use crate::source::{Fault, Source};
use cursor::Cursor;
use std::sync::Arc;

/// So many parts of a formula stand one inside the other at most, each `!` among them. A formula that the checker takes
/// needs fewer, as a path through all nodes that it may have is shorter; but for `!` before formulas, which costs no node:
/// so many of them before `true` are refused here, though the formula has one node.
pub const NESTED: usize = 500;

/// So many parts (operators, names and constants) a formula has at most. A formula that the checker takes has fewer, even
/// if each of its modalities has an action formula of all the nodes that there may be; but for `!` before formulas, as
/// above.
pub const PARTS: usize = 10_000;

/// Reads one formula that fills the text. `silent` is the name of the silent step.
pub fn read(source: &Arc<Source>, silent: &str) -> Result<StateFormula, Fault> {
    let mut cursor = Cursor::new(source, silent)?;
    if let Some(fault) = refused::specification(&cursor) {
        return Err(fault);
    }
    let formula = state::formula(&mut cursor)?;
    cursor.end()?;
    Ok(formula.part)
}
