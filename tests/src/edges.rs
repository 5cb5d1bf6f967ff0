//! Sets of states at the edges of the mark words, of which it is known which states they have, and which of these are
//! reached: one, all but one, all, none.

use crate::calls::{Calls, MARK_WORDS};
use crate::compare::Check;
use crate::formats::*;
use crate::paper::both_left;
use crate::text::case;

/// Numbers of states around each edge.
fn sizes() -> impl Iterator<Item = usize> {
    (0..MARK_WORDS).flat_map(|word| [64 * word + 1, 64 * word + 63, 64 * word + 64])
}

/// A case, the states where its formula holds, and how many of them are reached.
struct Known {
    case: Case,
    holding: Vec<usize>,
    count: usize,
}

/// A way from state to state, under the label that no formula here speaks of, recorded from its end to its start.
fn way(from: usize, to: usize) -> Vec<(usize, usize, usize)> {
    (from..to).rev().map(|s| (s, 1, s + 1)).collect()
}

/// Cases of so many states whose formulas look at transitions under label 0 alone.
fn cases(states: usize) -> Vec<Known> {
    let last = states - 1;
    let of = |triples: &[(usize, usize, usize)], formula| case(states, 2, triples, "label 0", formula);
    // Without a transition state 0 alone is reached; with a way through all states each.
    let mut known = vec![
        Known { case: of(&[], "true"), holding: (0..states).collect(), count: 1 },
        Known { case: of(&way(0, last), "true"), holding: (0..states).collect(), count: states },
        Known { case: of(&way(0, last), "false"), holding: Vec::new(), count: 0 },
    ];
    for only in (0..states).filter(|&s| s % 64 == 0 || s % 64 == 63 || s == last) {
        let others: Vec<usize> = (0..states).filter(|&s| s != only).collect();
        let still = (only == 0) as usize;
        let step = [(only, 0, 0)];
        let step_and_way = [&step[..], &way(0, last)].concat();
        // The step leaves that state for state 0. Alone it reaches none; with the way all are.
        known.push(Known { case: of(&step, "dia 0 true"), holding: vec![only], count: still });
        known.push(Known { case: of(&step, "box 0 false"), holding: others.clone(), count: 1 - still });
        known.push(Known { case: of(&step_and_way, "dia 0 true"), holding: vec![only], count: 1 });
        known.push(Known { case: of(&step_and_way, "box 0 false"), holding: others, count: states - 1 });
        // The way ends in that state, or starts there.
        let all = || (0..states).collect();
        known.push(Known { case: of(&way(0, only), "true"), holding: all(), count: only + 1 });
        let from_there = Case { initial: only, ..of(&way(0, last), "true") };
        known.push(Known { case: from_there, holding: all(), count: states - only });
    }
    known
}

/// Holds the marks of both routes to the states, and the count to those that are reached; answers how many runs were
/// compared.
pub fn check(calls: &dyn Calls) -> Result<u64, String> {
    let mut compared = 0;
    for known in sizes().flat_map(cases) {
        held_to(calls, &known)?;
        compared += 2;
    }
    Ok(compared)
}

fn held_to(calls: &dyn Calls, known: &Known) -> Check {
    let Known { case, holding, count } = known;
    let (equation, direct) = both_left(calls, &case.bytes());
    for (answer, marks) in [(equation.0.run, equation.1), direct] {
        let marked: Vec<usize> = (0..64 * MARK_WORDS).filter(|s| marks[s / 64] >> (s % 64) & 1 == 1).collect();
        let verdict = holding.contains(&case.initial) as u64;
        if (answer.refusal, answer.verdict, answer.count) != (0, verdict, *count as u64) || marked != *holding {
            let states = case.states;
            return Err(format!("{states} states: {answer:?}, marked {marked:?}, instead of {count} of {holding:?}"));
        }
    }
    Ok(())
}
