//! Changes of a case that change nothing in what the calls answer and leave: the labels of version 1 given a name each,
//! names in another order, and other names; and larger limits, which change no solved run. The calls are compared with
//! themselves, not with the reference.

use crate::calls::{Calls, EquationNumbers, Numbers, RouteNumbers, MARK_WORDS};
use crate::formats::*;
use crate::generate::{case_in, case_of, Size};
use crate::names::shuffled;
use crate::price::LEAST;
use crate::random::Random;
use crate::text::with_own_names;

/// How many cases each law is tried on.
const CASES: u64 = 400;

/// What the calls answer and leave.
#[derive(Debug, PartialEq)]
struct Left {
    translated: Numbers,
    equation: EquationNumbers,
    direct: RouteNumbers,
    files: [Vec<u8>; 2],
    /// The working bytes of the equation route, unless its rounds exceed the limit.
    work: Vec<u8>,
    marks: [[u64; MARK_WORDS]; 2],
}

/// The calls on a case, with a limit and with lent memory that is too short for some.
fn left(calls: &dyn Calls, case: &Case, limit: u64) -> Left {
    let bytes = case.bytes();
    let mut files = [vec![9; 8_000], vec![9; 8_000]];
    let (mut work, mut marks) = (vec![9; 2_000], [[9; MARK_WORDS]; 2]);
    let translated = calls.translate(&bytes, &mut files[0]);
    let equation = calls.equation(&bytes, &mut files[1], &mut work, &mut marks[0], limit);
    let direct = calls.direct(&bytes, &mut marks[1], limit);
    if equation.run.refusal == 14 {
        work.clear();
    }
    Left { translated, equation, direct, files, work, marks }
}

/// The case with each name changed by a rule that keeps different names different.
fn renamed(case: Case, rule: fn(usize) -> usize) -> Case {
    let change = |record: &Names| record.map(|name| if name == 0 { 0 } else { rule(name) });
    let records = case.labels.records().iter().map(change).collect();
    Case { labels: Labels::Named(records), ..case }
}

fn reordered(case: Case, random: &mut Random) -> Case {
    let records = case.labels.records().iter().map(|record| shuffled(random, record)).collect();
    Case { labels: Labels::Named(records), ..case }
}

/// Holds calls to the laws; answers how many pairs of cases were compared. In most of them the changed file differs.
pub fn check(calls: &dyn Calls, seed: u64) -> Result<u64, String> {
    let (mut compared, mut changed) = (0, 0);
    for seed in seed..seed + CASES {
        let random = &mut Random::new(seed);
        let size = random.pick(&[Size::Tiny, Size::Small, Size::Medium]);
        let (numbered, named) = (case_in(random, size, 1), case_in(random, size, 2));
        let pairs = [
            ("a name for each label", numbered.clone(), with_own_names(numbered)),
            ("names in another order", named.clone(), reordered(named.clone(), random)),
            ("names turned round", named.clone(), renamed(named, |name| LARGEST_NAME + 1 - name)),
        ];
        for (law, case, other) in pairs {
            let limit = random.pick(&[2, 20, 200]);
            let (before, after) = (left(calls, &case, limit), left(calls, &other, limit));
            if before != after {
                return Err(format!("seed {seed}, {law}: {before:?} became {after:?}"));
            }
            compared += 1;
            changed += (case != other) as u64;
        }
    }
    assert!(2 * changed > compared, "most changes are changes");
    Ok(compared)
}

/// How many cases are run with a limit and, where it solves them, with larger ones. Of those that are solved at least one
/// in so many costs more than the minimum. Measured: one in 7.0 to 7.6.
const LIMITED: u64 = 3_000;
const DEAR_ONE_IN: u64 = 15;

/// Solved runs of the equation route answer the same, and so cost the same, with each larger limit: from their own rounds
/// on, around the limit, around whole thousands, and up to the largest. Answers how many runs were compared.
pub fn larger_limits(calls: &dyn Calls, seed: u64) -> Result<u64, String> {
    let (mut compared, mut solved, mut dear) = (0, 0, 0);
    for seed in seed..seed + LIMITED {
        let random = &mut Random::new(seed);
        let size = random.pick(&[Size::Small, Size::Medium, Size::Wide]);
        let bytes = case_of(random, size).bytes();
        let limit = random.pick(&[2, 20, 200, 2_000, 20_000]);
        let first = priced(calls, &bytes, limit);
        if first.run.refusal != 0 {
            continue;
        }
        solved += 1;
        dear += (u128::from(first.cents) > LEAST) as u64;
        let (own, any) = (first.run.rounds, random.below(1_000_000) as u64);
        let thousands = 1_000 * (limit / 1_000 + 1);
        for larger in [own, own + 1, limit + 1, limit + any, thousands, thousands + 1, 1_000_000, u64::MAX] {
            let again = priced(calls, &bytes, larger);
            if again != first {
                return Err(format!("seed {seed}: limit {limit} gives {first:?}, limit {larger} {again:?}"));
            }
            compared += 1;
        }
    }
    assert!(2 * solved > LIMITED, "only {solved} of {LIMITED} solved");
    assert!(dear * DEAR_ONE_IN >= solved, "only {dear} of {solved} above the minimum");
    Ok(compared)
}

/// What the equation route answers with room for all cases here.
fn priced(calls: &dyn Calls, bytes: &[u8], limit: u64) -> EquationNumbers {
    calls.equation(bytes, &mut vec![0; 400_000], &mut vec![0; CELLS], &mut [0; MARK_WORDS], limit)
}
