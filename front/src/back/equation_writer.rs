//! Writes an equation file as equations. What a right side is made of is written out in its place, but a part that stands
//! in several places is written once and has a name, so that the text never grows beyond the file.

use super::equation_reader::{Cell, Equations};
use crate::amount;

/// The equations as text.
pub fn write(equations: &Equations) -> String {
    let parts = Parts::new(equations);
    let mut text = heading(equations);
    for (number, block) in equations.blocks.iter().enumerate() {
        text.push_str(&format!("\n{} X{number}\n", if block.greatest { "nu" } else { "mu" }));
        for state in 0..equations.states {
            let side = parts.side(block.first + state);
            text.push_str(&format!("  X{number}({state}) = {side}\n"));
        }
    }
    if !parts.named().is_empty() {
        text.push_str("\nParts that stand in several places\n");
    }
    for cell in parts.named() {
        let part = parts.written_out(cell);
        text.push_str(&format!("  c{cell} = {part}\n"));
    }
    text
}

fn heading(equations: &Equations) -> String {
    format!(
        "% {}, {}, {}; the initial state is {}.\n% X0(1) is the variable of block 0 in state 1. The least solution of a \
         mu block and the greatest of a nu block is meant,\n% the first block outermost.\n",
        amount::of(equations.states, "state"),
        amount::of(equations.blocks.len(), "block"),
        amount::of(equations.cells.len(), "cell"),
        equations.initial,
    )
}

/// The cells as parts of right sides.
struct Parts<'a> {
    equations: &'a Equations,
    /// For each cell the one that says what it says: a list of one operand is that operand.
    same: Vec<usize>,
    /// How often each cell stands in a right side or in a part that does.
    uses: Vec<usize>,
}

/// What is still to be written of a part, the next last.
enum Piece {
    Sign(&'static str),
    /// A cell, which needs brackets inside another list.
    Cell {
        cell: usize,
        inside: bool,
    },
}

impl<'a> Parts<'a> {
    fn new(equations: &'a Equations) -> Parts<'a> {
        let same = same_cells(&equations.cells);
        let uses = uses(equations, &same);
        Parts { equations, same, uses }
    }

    /// The parts that have names, in order: those of two or more operands that stand in several places.
    fn named(&self) -> Vec<usize> {
        (0..self.uses.len()).filter(|&cell| self.is_named(cell)).collect()
    }

    fn is_named(&self, cell: usize) -> bool {
        self.uses[cell] > 1 && self.operands(cell).len() > 1
    }

    fn operands(&self, cell: usize) -> &'a [usize] {
        operands(&self.equations.cells[cell])
    }

    /// A right side: the name of its part, or the part itself.
    fn side(&self, cell: usize) -> String {
        let cell = self.same[cell];
        if self.is_named(cell) {
            format!("c{cell}")
        } else {
            self.written_out(cell)
        }
    }

    /// A part with the parts in it, up to those that have names. Parts lie within parts as deep as there are cells, so
    /// that what is left to write waits in a list.
    fn written_out(&self, cell: usize) -> String {
        let mut text = String::new();
        let mut waiting = self.pieces(cell);
        while let Some(piece) = waiting.pop() {
            match piece {
                Piece::Sign(sign) => text.push_str(sign),
                Piece::Cell { cell, .. } if self.is_named(cell) => text.push_str(&format!("c{cell}")),
                Piece::Cell { cell, inside } if inside && self.operands(cell).len() > 1 => {
                    waiting.push(Piece::Sign(")"));
                    waiting.extend(self.pieces(cell));
                    text.push('(');
                }
                Piece::Cell { cell, .. } => match &self.equations.cells[cell] {
                    Cell::Variable { block, state } => text.push_str(&format!("X{block}({state})")),
                    Cell::And(_) => text.push_str("true"),
                    Cell::Or(_) => text.push_str("false"),
                },
            }
        }
        text
    }

    /// The pieces of a cell, the first last: its operands with signs between them, or itself if it has none.
    fn pieces(&self, cell: usize) -> Vec<Piece> {
        let sign = match self.equations.cells[cell] {
            Cell::And(_) => " && ",
            _ => " || ",
        };
        let mut pieces = Vec::new();
        for &operand in self.operands(cell).iter().rev() {
            if !pieces.is_empty() {
                pieces.push(Piece::Sign(sign));
            }
            pieces.push(Piece::Cell { cell: self.same[operand], inside: true });
        }
        if pieces.is_empty() {
            pieces.push(Piece::Cell { cell, inside: false });
        }
        pieces
    }
}

fn operands(cell: &Cell) -> &[usize] {
    match cell {
        Cell::And(list) | Cell::Or(list) => list,
        Cell::Variable { .. } => &[],
    }
}

/// From the last cell to the first, since operands are later cells.
fn same_cells(cells: &[Cell]) -> Vec<usize> {
    let mut same: Vec<usize> = (0..cells.len()).collect();
    for place in (0..cells.len()).rev() {
        if let [operand] = *operands(&cells[place]) {
            same[place] = same[operand];
        }
    }
    same
}

/// From the first cell to the last: what stands in a part that is used is used.
fn uses(equations: &Equations, same: &[usize]) -> Vec<usize> {
    let mut uses = vec![0; equations.cells.len()];
    for block in &equations.blocks {
        for &cell in &same[block.first..block.first + equations.states] {
            uses[cell] += 1;
        }
    }
    for (place, cell) in equations.cells.iter().enumerate() {
        let is_part = uses[place] > 0 && same[place] == place;
        for &operand in operands(cell).iter().filter(|_| is_part) {
            uses[same[operand]] += 1;
        }
    }
    uses
}
