//! The limits of a case file, by name. The library decides whether a case is within them; these say it to people.

pub const STATES: usize = 256;
pub const TRANSITIONS: usize = 2048;
pub const LABELS: usize = 64;
pub const ACTION_NODES: usize = 128;
pub const FORMULA_NODES: usize = 64;
pub const BLOCKS: usize = 6;

/// Names of one label, and different names of one case.
pub const NAMES_OF_A_LABEL: usize = 4;
pub const NAMES: usize = 255;

/// Cells and operands of an equation file at most, and so the memory that a run is lent.
pub const CELLS: usize = 16_640;
pub const OPERANDS: usize = 133_120;

/// The 64-bit words of a set of states.
pub const WORDS: usize = STATES / 64;

/// The length of the largest equation file.
pub const EQUATION_FILE: usize = 36 + 8 * BLOCKS + 12 * CELLS + 4 * OPERANDS;

/// The round limit of a run where nothing else is said.
pub const ROUNDS: u64 = 1_000_000;
