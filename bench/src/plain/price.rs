//! What a run of the equation route costs, in cents.

use super::solver::Report;

const ROUNDS: u64 = 1_000;
const CENTS_PER_ROUNDS: u64 = 2;
const CELLS: u64 = 500;
const FREE_CELLS: u64 = 100;
const LEAST: u64 = 5;

/// The refusal number of a spent run.
const SPENT: u8 = 14;

/// A solved run pays its rounds and the cells of its equation file, a spent one its limit, and any other nothing.
pub fn cents(outcome: &Result<Report, u8>, cells: usize, limit: u64) -> u64 {
    match outcome {
        Ok(report) => {
            let cells = cells as u64;
            let sum = CENTS_PER_ROUNDS * report.rounds.div_ceil(ROUNDS) + cells.div_ceil(CELLS);
            let sum = if cells <= FREE_CELLS { 0 } else { sum };
            sum.max(LEAST)
        }
        Err(SPENT) => CENTS_PER_ROUNDS * limit.div_ceil(ROUNDS),
        Err(_) => 0,
    }
}
