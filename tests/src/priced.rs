//! Cases whose rounds, cells and prices are worked out by hand. In each of them the formula holds in all states, and the
//! transitions are paths from the initial state.

use crate::calls::{Calls, EquationNumbers, Numbers, Recorded, RouteNumbers, MARK_WORDS};
use crate::compare::{same, Check};
use crate::damage::number_at;
use crate::formats::*;
use crate::stream::{beside, path};
use crate::text::case;

/// A case by what its equation route needs, and what runs cost.
pub struct Priced {
    pub name: &'static str,
    pub case: Case,
    rounds: u64,
    cells: usize,
    /// Limits, and what a run with each costs: a spent one below the rounds, a solved one from there on.
    prices: Vec<(u64, u64)>,
}

/// States without transitions under boxes over true, with so many rows of cells, the added nu's among them. The nu starts
/// with all states, and its first round finds nothing new: 1 round.
fn still(states: usize, rows: usize) -> Case {
    case(states, 1, &[], "true", &("box 0 ".repeat(rows - 2) + "true"))
}

/// So many mus side by side under boxes, on a path. No mu needs another: whenever one is solved, it finds the path's end
/// in its first round, a state more in each further one and nothing new in its last, which is n + 1 rounds for n states.
/// Before each of its rounds all later ones are solved anew. So with t for n + 1 a mu alone takes t rounds, two take
/// t (1 + t), three t (1 + t (1 + t)), which is t + t² + t³, and so on. The added nu before them has all states after its
/// first round, as at its start: 1 round more. Of k mus there are 4 k rows and one for each box: the nu's, those of k - 1
/// ands, and three for each mu.
fn mus(states: usize, count: usize, boxes: usize) -> Case {
    case(states, 1, &path(states), "true", &("box 0 ".repeat(boxes) + &beside(count, "mu", "box 0 X")))
}

/// A mu that takes `outer` rounds over one that takes `inner` rounds each time, so `outer` times `inner` + 1 in all. Both
/// go along a path, X under label 0 and Y under label 1. A path of e transitions takes e + 2 rounds: the first finds its
/// end and all states beside it, e more find a state each, and the last nothing new. Y always ends with all states, so it
/// takes nothing from X. There are seven rows.
fn turns(states: usize, outer: usize, inner: usize) -> Case {
    let steps = |label: usize, rounds: usize| (0..rounds - 2).map(move |s| (s, label, s + 1));
    let triples: Vec<_> = steps(0, outer).chain(steps(1, inner)).collect();
    case(states, 2, &triples, "label 0 label 1", "mu X and box 0 X mu Y box 1 Y")
}

impl Priced {
    fn new(name: &'static str, case: Case, rounds: u64, cells: usize, prices: &[(u64, u64)]) -> Priced {
        Priced { name, case, rounds, cells, prices: prices.to_vec() }
    }
}

/// Cases of one round, where a started thousand is 2. No case has 101 cells: cells are states times rows, at most 256 and
/// at most 65, and there are two rows at least, for a binder has an operand; but 101 is prime. 501 is 3 times 167, so it
/// has three rows, with which no case has as many rounds as show more than the minimum.
fn few_rounds() -> Vec<Priced> {
    let one = |name, states, rows, cents| {
        let prices = [(0, 0), (1, cents), (2, cents), (u64::MAX, cents)];
        Priced::new(name, still(states, rows), 1, states * rows, &prices)
    };
    vec![
        // Free, then the minimum; from there on 2 + 1, 2 + 1, 2 + 2, 2 + 2 and 2 + 3, with the minimum.
        one("100 cells, a round", 50, 2, 5),
        one("102 cells, a round", 51, 2, 5),
        one("500 cells, a round", 250, 2, 5),
        one("501 cells, a round", 167, 3, 5),
        one("1,000 cells, a round", 250, 4, 5),
        one("1,500 cells, a round", 250, 6, 5),
        // 2 + 4. Without the added nu's row there were 79 less, which are 1,422, and the price 5.
        one("1,501 cells, a round", 79, 19, 6),
        // 2 + 4, and 2 + 5.
        one("2,000 cells, a round", 250, 8, 6),
        one("2,001 cells, a round", 87, 23, 7),
        // The most cells, 33 times 500 and 140: 2 + 34.
        one("16,640 cells, a round", 256, 65, 36),
    ]
}

/// Cases with so many rounds that free ones show.
fn around_free() -> Vec<Priced> {
    // With 5 states t is 6: 6 + 36 + 216 + 1,296 + 7,776 is 9,330, and one round more. 10 started thousands and 1 would be
    // 21, but it is free, so 5. Spent ones are not free.
    let free =
        [(0, 0), (1, 2), (1_000, 2), (1_001, 4), (9_000, 18), (9_001, 20), (9_330, 20), (9_331, 5), (u64::MAX, 5)];
    // With 6 states t is 7: 7 + 49 + 343 + 2,401 is 2,800, and one more. 6 + 1 is 7.
    let paid = [(0, 0), (1, 2), (1_001, 4), (2_800, 6), (2_801, 7), (2_802, 7), (u64::MAX, 7)];
    // With 9 states t is 10: 10 + 100 + 1,000 is 1,110, and one more. With 4 boxes there are 16 rows: 144 cells, 4 + 1.
    // With 12 states t is 13: 13 + 169 + 2,197 is 2,379, and one more. 12 rows are 144 cells, and 6 + 1 is 7.
    vec![
        Priced::new("100 cells, 9,331 rounds", mus(5, 5, 0), 9_331, 100, &free),
        Priced::new("102 cells, 2,801 rounds", mus(6, 4, 1), 2_801, 102, &paid),
        Priced::new("144 cells, 1,111 rounds", mus(9, 3, 4), 1_111, 144, &[(1_110, 4), (1_111, 5)]),
        Priced::new("144 cells, 2,380 rounds", mus(12, 3, 0), 2_380, 144, &[(2_379, 6), (2_380, 7)]),
    ]
}

/// Cases with so many rounds that each started part of the cells shows: 3 started thousands, for which a run pays 6.
fn cells_around() -> Vec<Priced> {
    // With 50 states t is 51: 51 + 2,601 is 2,652, and one more. There are 10 rows, or 20 with ten boxes more: 1 or 2.
    let two_mus = |name, boxes, cells, cents| {
        let prices = [(0, 0), (2_652, 6), (2_653, cents), (u64::MAX, cents)];
        Priced::new(name, mus(50, 2, boxes), 2_653, cells, &prices)
    };
    // 29 times 69 is 2,001. There are 7 rows: the cells are 2 and 3.
    let seven_rows = |name, states, cells, cents| {
        let prices = [(0, 0), (2_000, 4), (2_001, cents), (u64::MAX, cents)];
        Priced::new(name, turns(states, 29, 68), 2_001, cells, &prices)
    };
    vec![
        two_mus("500 cells, 2,653 rounds", 2, 500, 7),
        seven_rows("504 cells, 2,001 rounds", 72, 504, 8),
        two_mus("1,000 cells, 2,653 rounds", 12, 1_000, 8),
        seven_rows("1,001 cells, 2,001 rounds", 143, 1_001, 9),
    ]
}

/// Cases with exactly 1,000 rounds and one more, and 2,000 and one more. 1,750 cells are 4.
fn rounds_around() -> Vec<Priced> {
    let of = |name, outer, inner, rounds, prices: &[(u64, u64)]| {
        Priced::new(name, turns(250, outer, inner), rounds, 1_750, prices)
    };
    let spent = [(0, 0), (1, 2), (999, 2), (1_000, 2), (1_001, 4), (1_999, 4), (2_000, 4), (2_001, 10), (u64::MAX, 10)];
    vec![
        // 27 times 37 is 999: 2 + 4.
        of("999 rounds", 27, 36, 999, &[(998, 2), (999, 6), (1_000, 6), (1_001, 6), (u64::MAX, 6)]),
        // 25 times 40 is 1,000: 2 + 4. A larger limit costs no more.
        of("1,000 rounds", 25, 39, 1_000, &[(999, 2), (1_000, 6), (1_001, 6), (2_001, 6), (u64::MAX, 6)]),
        // 13 times 77 is 1,001: 4 + 4.
        of("1,001 rounds", 13, 76, 1_001, &[(1, 2), (1_000, 2), (1_001, 8), (1_002, 8), (u64::MAX, 8)]),
        // 40 times 50 is 2,000: 4 + 4.
        of("2,000 rounds", 40, 49, 2_000, &[(1_000, 2), (1_001, 4), (1_999, 4), (2_000, 8), (u64::MAX, 8)]),
        // 29 times 69 is 2,001: 6 + 4.
        of("2,001 rounds", 29, 68, 2_001, &spent),
    ]
}

/// All cases.
pub fn all() -> Vec<Priced> {
    [few_rounds(), around_free(), cells_around(), rounds_around()].into_iter().flatten().collect()
}

/// Lent sizes: of the file, the working bytes and the mark words.
type Sizes = [usize; 3];

/// Room for any run.
const ROOM: Sizes = [EQUATION_HEADER + 8 * BLOCKS + 12 * CELLS + 4 * OPERANDS, CELLS, MARK_WORDS];

impl Priced {
    /// What a run answers that is refused with this number, or 0, for so many cents. All states are in the set. The
    /// transitions are paths from state 0, which is the initial one, so what is reached are the states before the
    /// longest one's end, and that.
    fn answer(&self, refusal: u64, cents: u64) -> EquationNumbers {
        let numbers = match refusal {
            0 => Numbers {
                count: self.case.transitions.iter().map(|t| t.target + 1).max().unwrap_or(1) as u64,
                ..Numbers::report(&vec![true; self.case.states], self.case.initial, self.rounds)
            },
            _ => Numbers::refused(refusal),
        };
        // No transition is there twice.
        let count = self.case.transitions.len() as u64;
        EquationNumbers { run: RouteNumbers::with(numbers, Recorded { records: count, distinct: count }), cents }
    }

    /// Holds a run to an answer, and the cells of its equation file, if it was written, to those that were worked out.
    fn held_to(&self, calls: &dyn Calls, sizes: Sizes, limit: u64, expected: EquationNumbers, written: bool) -> Check {
        let [mut file, mut work] = [vec![0; sizes[0]], vec![0; sizes[1]]];
        let answer = calls.equation(&self.case.bytes(), &mut file, &mut work, &mut vec![0; sizes[2]], limit);
        let cells = if file.len() < EQUATION_HEADER { 0 } else { number_at(&file, 12, 4) };
        same(answer, expected)
            .and_then(|()| same(cells, if written { self.cells as u64 } else { 0 }))
            .map_err(|text| format!("{}, limit {limit}, lent {sizes:?}: {text}", self.name))
    }

    /// Runs with each limit; answers how many there were.
    fn with_limits(&self, calls: &dyn Calls) -> Result<u64, String> {
        for &(limit, cents) in &self.prices {
            let refusal = if limit < self.rounds { 14 } else { 0 };
            self.held_to(calls, ROOM, limit, self.answer(refusal, cents), true)?;
        }
        Ok(self.prices.len() as u64)
    }

    /// Runs with each lent place in turn too short, whose file is written but for the first; answers how many there were.
    fn with_short_memory(&self, calls: &dyn Calls) -> Result<u64, String> {
        let short = [[0, CELLS, MARK_WORDS], [ROOM[0], self.cells - 1, MARK_WORDS], [ROOM[0], CELLS, MARK_WORDS - 1]];
        let limits = [0, self.rounds - 1, self.rounds, u64::MAX];
        for (place, sizes) in short.into_iter().enumerate() {
            for limit in limits {
                self.held_to(calls, sizes, limit, self.answer(13, 0), place > 0)?;
            }
        }
        Ok((short.len() * limits.len()) as u64)
    }
}

/// Holds runs to the prices worked out by hand; answers how many were compared.
pub fn check(calls: &dyn Calls) -> Result<u64, String> {
    let mut compared = 0;
    for priced in all() {
        compared += priced.with_limits(calls)? + priced.with_short_memory(calls)?;
    }
    Ok(compared)
}
