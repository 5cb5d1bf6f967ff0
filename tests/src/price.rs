//! What a run of the equation route costs, from the paper's words on it alone: a line for each rule, in their order.

/// How many rounds, and how many cells, are paid together: the first of them pays for all.
pub const ROUNDS_TOGETHER: u64 = 1_000;
pub const CELLS_TOGETHER: u64 = 500;
/// What so many started rounds cost, and so many started cells.
pub const CENTS_FOR_ROUNDS: u128 = 2;
pub const CENTS_FOR_CELLS: u128 = 1;
/// A solved run of at most so many cells is free.
pub const MOST_FREE_CELLS: u64 = 100;
/// What a solved run costs at least.
pub const LEAST: u128 = 5;

/// The refusal numbers of a solved run and of a spent one.
const SOLVED: u64 = 0;
const SPENT: u64 = 14;

/// What a run's price depends on: its refusal number, its own rounds if it is solved, the cells of the case's equation
/// file, and its limit.
#[derive(Clone, Copy, Debug, PartialEq, Eq)]
pub struct Run {
    pub refusal: u64,
    pub rounds: u64,
    pub cells: u64,
    pub limit: u64,
}

impl Run {
    pub fn is_solved(self) -> bool {
        self.refusal == SOLVED
    }

    pub fn is_spent(self) -> bool {
        self.refusal == SPENT
    }
}

/// How many parts of a size are started by so many: the whole ones, and one more if something is left.
pub fn started(count: u64, together: u64) -> u128 {
    u128::from(count / together) + u128::from(count % together > 0)
}

/// What started rounds cost.
pub fn of_rounds(rounds: u64) -> u128 {
    CENTS_FOR_ROUNDS * started(rounds, ROUNDS_TOGETHER)
}

/// What started cells cost.
pub fn of_cells(cells: u64) -> u128 {
    CENTS_FOR_CELLS * started(cells, CELLS_TOGETHER)
}

/// The price of a run.
pub fn cents(run: Run) -> u64 {
    let sum = if run.is_solved() { of_rounds(run.rounds) + of_cells(run.cells) } else { 0 };
    let sum = if run.is_spent() { of_rounds(run.limit) } else { sum };
    let sum = if run.is_solved() && run.cells <= MOST_FREE_CELLS { 0 } else { sum };
    let sum = if run.is_solved() { sum.max(LEAST) } else { sum };
    let sum = if run.is_solved() || run.is_spent() { sum } else { 0 };
    narrow(sum)
}

/// A price as the call answers it. The largest, of 2 to the 64 less one rounds and all cells, has 64 bits.
pub fn narrow(sum: u128) -> u64 {
    u64::try_from(sum).expect("a price has 64 bits")
}

/// Rounds, cells, and what a solved run with these costs.
type SolvedPrice = (u64, u64, u64);

/// Worked out by hand: 2 for each started 1,000 rounds and 1 for each started 500 cells, or 0; then at least 5.
const OF_SOLVED: [SolvedPrice; 33] = [
    // Two cells are the fewest, and a round is the least: free, then the minimum.
    (1, 2, 5),
    // P1 has 4 rounds and 9 cells: free, then the minimum.
    (4, 9, 5),
    // Just not free: 2 + 1 = 3, so the minimum.
    (1, 100, 5),
    (1, 101, 5),
    // The free rule shows where the sum would be above the minimum: 6 + 1 = 7 for 3 started thousands.
    (2_001, 99, 5),
    (2_001, 100, 5),
    (2_001, 101, 7),
    (2_001, 102, 7),
    // 4 + 1 = 5 is the minimum by itself.
    (2_000, 101, 5),
    (u64::MAX, 100, 5),
    // 2 + 1, 2 + 2, 2 + 2, 2 + 3 and 2 + 3: all at the minimum or below. 2 + 4 is the first above.
    (1, 500, 5),
    (1, 501, 5),
    (1, 1_000, 5),
    (1, 1_001, 5),
    (1, 1_500, 5),
    (1, 1_501, 6),
    (1, 2_000, 6),
    (1, 2_001, 7),
    // With 3 started thousands, which are 6: 6 + 1, 6 + 2, 6 + 2 and 6 + 3.
    (3_000, 500, 7),
    (3_000, 501, 8),
    (3_000, 1_000, 8),
    (3_000, 1_001, 9),
    // The most cells are 33 times 500 and 140 more, 34 started: 2 + 34. For one round, and for 0, which no run has: 34.
    (1, 16_640, 36),
    (0, 16_640, 34),
    // 1,000 cells are 2. With 1, 2, 2, 3 and 3 started thousands: 4 (so 5), 6, 6, 8 and 8.
    (999, 1_000, 5),
    (1_000, 1_000, 5),
    (1_001, 1_000, 6),
    (2_000, 1_000, 6),
    (2_001, 1_000, 8),
    (3_000, 1_000, 8),
    // A million rounds are 2,000, and one more is 2 more; 500 cells are 1.
    (1_000_000, 500, 2_001),
    (1_000_001, 500, 2_003),
    // The most rounds that a number holds are 18,446,744,073,709,551 thousands and 615, twice one more than that; and 34.
    (u64::MAX, 16_640, 36_893_488_147_419_138),
];

/// Limits, and what a run that is spent there costs: 2 for each started 1,000, without a minimum.
const OF_SPENT: [(u64, u64); 13] = [
    (0, 0),
    (1, 2),
    (3, 2),
    (999, 2),
    (1_000, 2),
    (1_001, 4),
    (2_000, 4),
    (2_001, 6),
    (1_000_000, 2_000),
    (1_000_001, 2_002),
    // A number of 32 bits: 4,294,967 thousands and 295.
    (4_294_967_295, 8_589_936),
    // 18,446,744,073,709,551 thousands and 1, and the largest number, with 615: one more is started, and twice that.
    (18_446_744_073_709_551_001, 36_893_488_147_419_104),
    (u64::MAX, 36_893_488_147_419_104),
];

/// The refusal numbers, and one above them.
const REFUSALS: std::ops::RangeInclusive<u64> = 1..=18;

/// Cells around those where a rule changes, and limits and rounds around those.
const SOME_CELLS: [u64; 6] = [0, 9, 100, 101, 501, 16_640];
const SOME_NUMBERS: [u64; 5] = [0, 4, 1_000, 1_001, u64::MAX];

/// Holds the price to the values worked out by hand; answers how many were compared.
pub fn check() -> Result<u64, String> {
    let mut compared = 0;
    let mut held = |run: Run, expected: u64| {
        compared += 1;
        match cents(run) {
            got if got == expected => Ok(()),
            got => Err(format!("{run:?} costs {got} instead of {expected}")),
        }
    };
    for (rounds, cells, expected) in OF_SOLVED {
        // Whatever the limit, which is the rounds at least.
        for limit in [rounds, rounds.saturating_add(1), u64::MAX] {
            held(Run { refusal: SOLVED, rounds, cells, limit }, expected)?;
        }
    }
    for cells in SOME_CELLS {
        for (limit, expected) in OF_SPENT {
            // Whatever the cells, few or many, and whatever stands for the rounds.
            held(Run { refusal: SPENT, rounds: 0, cells, limit }, expected)?;
            held(Run { refusal: SPENT, rounds: 5_000, cells, limit }, expected)?;
        }
        for refusal in REFUSALS.filter(|&number| number != SPENT) {
            for number in SOME_NUMBERS {
                held(Run { refusal, rounds: 0, cells, limit: number }, 0)?;
                held(Run { refusal, rounds: number, cells, limit: u64::MAX }, 0)?;
            }
        }
    }
    Ok(compared)
}
