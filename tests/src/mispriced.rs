//! Wrong prices of a run: slips in the rules of the price.

use crate::price::{self, *};
use crate::slips::Slip;

/// The refusal number of memory that is too short.
const SHORT: u64 = 13;

/// What calls with a slip, or with none, ask for a run, in which the equation file was written or not.
pub fn cents(slip: Option<Slip>, run: Run, written: bool) -> u64 {
    match slip {
        Some(slip) if run.is_solved() => of_solved(slip, run),
        Some(slip) if run.is_spent() => of_spent(slip, run),
        Some(Slip::ShortFilePriced) if run.refusal == SHORT && !written => with_minimum(of_answer(run)),
        Some(Slip::ShortMemoryPriced) if run.refusal == SHORT && written => with_minimum(of_answer(run)),
        _ => price::cents(run),
    }
}

/// The rounds that are answered and the cells, before the other rules.
fn of_answer(run: Run) -> u128 {
    of_rounds(run.rounds) + of_cells(run.cells)
}

fn with_minimum(sum: u128) -> u64 {
    narrow(sum.max(LEAST))
}

/// A whole part counted as two started ones, and 0 as one.
fn started_anyway(count: u64, together: u64) -> u128 {
    u128::from(count / together) + 1
}

fn of_solved(slip: Slip, run: Run) -> u64 {
    let free = run.cells <= MOST_FREE_CELLS;
    let rounds = CENTS_FOR_ROUNDS * started_anyway(run.rounds, ROUNDS_TOGETHER);
    let cells = CENTS_FOR_CELLS * started_anyway(run.cells, CELLS_TOGETHER);
    match slip {
        Slip::MinimumBeforeFree if free => 0,
        Slip::ThousandAsTwo if !free => with_minimum(rounds + of_cells(run.cells)),
        Slip::FiveHundredAsTwo if !free => with_minimum(of_rounds(run.rounds) + cells),
        Slip::NothingFree => with_minimum(of_answer(run)),
        Slip::HundredNotFree if run.cells == MOST_FREE_CELLS => with_minimum(of_answer(run)),
        Slip::MoreFree if run.cells < 2 * MOST_FREE_CELLS => with_minimum(0),
        _ => price::cents(run),
    }
}

fn of_spent(slip: Slip, run: Run) -> u64 {
    match slip {
        Slip::LimitAsTwo => narrow(CENTS_FOR_ROUNDS * started_anyway(run.limit, ROUNDS_TOGETHER)),
        Slip::SpentByRounds => narrow(of_rounds(run.rounds)),
        Slip::SpentWithMinimum => with_minimum(of_rounds(run.limit)),
        Slip::SpentPaysCells => narrow(of_rounds(run.limit) + of_cells(run.cells)),
        Slip::SpentFree if run.cells <= MOST_FREE_CELLS => 0,
        _ => price::cents(run),
    }
}
