//! Equation files: conditions 11 and 12, their standard solution, and the rounds that it takes.

use super::sets::{self, Set, WORDS};

pub const BLOCKS: usize = 6;
pub const CELLS: usize = 65 * sets::STATES;
pub const OPERANDS: usize = 133_120;
const HEADER: usize = 36;

/// The length of the largest equation file.
pub const LARGEST: usize = HEADER + 8 * BLOCKS + 12 * CELLS + 4 * OPERANDS;

pub struct Report {
    pub verdict: bool,
    pub count: usize,
    pub rounds: u64,
}

/// An opened file: its bytes and counts.
struct File<'a> {
    bytes: &'a [u8],
    states: usize,
    blocks: usize,
    cells: usize,
    operands: usize,
    initial: usize,
}

struct Entry {
    kind: usize,
    one: usize,
    two: usize,
}

/// The limit is reached.
struct Spent;

/// The 32-bit number at a place, low byte first.
fn number_at(bytes: &[u8], at: usize) -> usize {
    let number = &bytes[at..at + 4];
    u32::from_le_bytes([number[0], number[1], number[2], number[3]]) as usize
}

/// How many cells the header of an equation file says.
pub fn cells_of(bytes: &[u8]) -> usize {
    number_at(bytes, 12)
}

impl File<'_> {
    fn cells_from(&self) -> usize {
        HEADER + 8 * self.blocks
    }

    fn operands_from(&self) -> usize {
        self.cells_from() + 12 * self.cells
    }

    fn entry_at(&self, i: usize) -> Entry {
        let at = self.cells_from() + 12 * i;
        let entry = &self.bytes[at..at + 12];
        Entry { kind: number_at(entry, 0), one: number_at(entry, 4), two: number_at(entry, 8) }
    }

    fn operand_at(&self, j: usize) -> usize {
        number_at(self.bytes, self.operands_from() + 4 * j)
    }

    fn layout_holds(&self) -> bool {
        (1..=sets::STATES).contains(&self.states)
            && (1..=BLOCKS).contains(&self.blocks)
            && (1..=CELLS).contains(&self.cells)
            && self.operands <= OPERANDS
            && self.initial < self.states
            && number_at(self.bytes, 0) == 1
            && number_at(self.bytes, 24) == HEADER
            && number_at(self.bytes, 28) == self.cells_from()
            && number_at(self.bytes, 32) == self.operands_from()
            && self.bytes.len() == self.operands_from() + 4 * self.operands
    }

    fn block_holds(&self, k: usize) -> bool {
        let at = HEADER + 8 * k;
        number_at(self.bytes, at) <= 1 && number_at(self.bytes, at + 4) + self.states <= self.cells
    }

    /// How many operands cell i has, where the lists before it have `used` operands; none if it breaks its rule.
    fn entry_span(&self, i: usize, used: usize) -> Option<usize> {
        let x = self.entry_at(i);
        if x.kind == 2 {
            return (x.one < self.blocks && x.two < self.states).then_some(0);
        }
        if x.kind > 2 || x.one != used || x.two > self.operands - used {
            return None;
        }
        let holds = |j| {
            let operand = self.operand_at(used + j);
            i < operand && operand < self.cells
        };
        (0..x.two).all(holds).then_some(x.two)
    }

    fn tables_hold(&self) -> bool {
        if !(0..self.blocks).all(|k| self.block_holds(k)) {
            return false;
        }
        let mut used = 0;
        for i in 0..self.cells {
            match self.entry_span(i, used) {
                Some(count) => used += count,
                None => return false,
            }
        }
        used == self.operands
    }

    /// Whether one of the operands has the value wanted.
    fn finds(&self, from: usize, count: usize, wanted: u8, work: &[u8]) -> bool {
        (0..count).any(|j| work[self.operand_at(from + j)] == wanted)
    }

    fn value_of(&self, sets: &[Set; BLOCKS], i: usize, work: &[u8]) -> u8 {
        let x = self.entry_at(i);
        match x.kind {
            0 => !self.finds(x.one, x.two, 0, work) as u8,
            1 => self.finds(x.one, x.two, 1, work) as u8,
            _ => sets::test(&sets[x.one], x.two) as u8,
        }
    }

    /// Works out the cells from the last down to cell `from`.
    fn evaluate(&self, sets: &[Set; BLOCKS], from: usize, work: &mut [u8]) {
        for i in (from..self.cells).rev() {
            work[i] = self.value_of(sets, i, work);
        }
    }

    /// The right-hand sides of block k.
    fn right_sides(&self, sets: &[Set; BLOCKS], k: usize, work: &mut [u8]) -> Set {
        let first = number_at(self.bytes, HEADER + 8 * k + 4);
        self.evaluate(sets, first, work);
        let mut row = sets::EMPTY;
        for s in 0..self.states {
            if work[first + s] == 1 {
                sets::add(&mut row, s);
            }
        }
        row
    }

    /// Solves block k and those after it, with the sets of those before it held.
    fn solve_from(
        &self,
        sets: &mut [Set; BLOCKS],
        k: usize,
        limit: u64,
        work: &mut [u8],
        rounds: &mut u64,
    ) -> Result<(), Spent> {
        if k >= self.blocks {
            return Ok(());
        }
        sets[k] = sets::initial(self.states, number_at(self.bytes, HEADER + 8 * k) == 1);
        loop {
            self.solve_from(sets, k + 1, limit, work, rounds)?;
            if *rounds >= limit {
                return Err(Spent);
            }
            *rounds += 1;
            let row = self.right_sides(sets, k, work);
            if row == sets[k] {
                return Ok(());
            }
            sets[k] = row;
        }
    }
}

/// The file, or the first of conditions 11 and 12 that holds.
fn open(bytes: &[u8]) -> Result<File<'_>, u8> {
    if bytes.len() < HEADER {
        return Err(11);
    }
    let file = File {
        bytes,
        states: number_at(bytes, 4),
        blocks: number_at(bytes, 8),
        cells: cells_of(bytes),
        operands: number_at(bytes, 16),
        initial: number_at(bytes, 20),
    };
    if !file.layout_holds() {
        return Err(11);
    }
    if !file.tables_hold() {
        return Err(12);
    }
    Ok(file)
}

/// Solves an equation file: a report, or the number of the refusal.
pub fn solve(bytes: &[u8], work: &mut [u8], marks: &mut [u64], limit: u64) -> Result<Report, u8> {
    let file = open(bytes)?;
    if work.len() < file.cells || marks.len() < WORDS {
        return Err(13);
    }
    let work = &mut work[..file.cells];
    work.fill(0);
    let mut sets = [sets::EMPTY; BLOCKS];
    let mut rounds = 0;
    file.solve_from(&mut sets, 0, limit, work, &mut rounds).map_err(|Spent| 14)?;
    file.evaluate(&sets, 0, work);
    let row = sets[0];
    marks[..WORDS].copy_from_slice(&row);
    Ok(Report { verdict: sets::test(&row, file.initial), count: sets::count(&row), rounds })
}
