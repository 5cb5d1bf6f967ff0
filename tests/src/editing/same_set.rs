//! The order in which transitions are added does not matter: models that hold the same set give equal answers and marks,
//! whichever calls led to it. The calls are compared with themselves, not with the reference.

use super::lists::{any_transition, in_any_order};
use super::rules::room_of;
use crate::calls::{Edits, RouteNumbers, MARK_WORDS};
use crate::compare::Check;
use crate::formats::*;
use crate::generate;
use crate::random::Random;
use crate::reader::read_case;
use std::collections::BTreeSet;

/// How many pairs of models are compared.
const PAIRS: u64 = 800;
/// The limits of their wants.
const LIMITS: [u64; 3] = [2, 20, 400];

fn accepted(number: u64, what: &str) -> Check {
    if number != 0 {
        return Err(format!("{what} is refused with {number}"));
    }
    Ok(())
}

/// A model that holds the set of a case: a case with some of its transitions and some others is opened, and the edits
/// that lead from there to the set are made in any order.
fn model(edits: &dyn Edits, random: &mut Random, case: &Case) -> Result<Vec<u8>, String> {
    let goal: BTreeSet<Transition> = case.transitions.iter().copied().collect();
    let mut start: BTreeSet<Transition> = goal.iter().copied().filter(|_| random.chance(1, 2)).collect();
    start.extend((0..random.below(6)).map(|_| any_transition(random, case)).collect::<Vec<_>>());
    let opened = Case { transitions: in_any_order(random, start.clone()), ..case.clone() };
    let mut model = vec![0xa5; room_of(&opened)];
    accepted(edits.open(&opened.bytes(), &mut model), "open")?;
    for t in in_any_order(random, goal.symmetric_difference(&start).copied().collect()) {
        if goal.contains(&t) {
            accepted(edits.add(&mut model, t), "add")?;
        } else {
            accepted(edits.drop(&mut model, t), "drop")?;
        }
    }
    Ok(model)
}

/// What wants answer and mark, at each limit.
fn wanted(edits: &dyn Edits, model: &[u8]) -> Vec<(RouteNumbers, [u64; MARK_WORDS])> {
    let want = |limit: u64| {
        let mut marks = [9; MARK_WORDS];
        (edits.want(model, &mut marks, limit), marks)
    };
    LIMITS.map(want).to_vec()
}

/// Compares pairs of models; answers how many. In most pairs the tables differ.
pub fn check(edits: &dyn Edits, seed: u64) -> Result<u64, String> {
    let (mut compared, mut differ) = (0, 0);
    for seed in seed.. {
        let random = &mut Random::new(seed);
        let case = generate::case(random);
        if read_case(&case.bytes()).is_err() {
            continue;
        }
        let made = model(edits, random, &case).and_then(|one| Ok((one, model(edits, random, &case)?)));
        let (one, other) = made.map_err(|text| format!("seed {seed}: {text}"))?;
        let (first, second) = (wanted(edits, &one), wanted(edits, &other));
        if first != second {
            return Err(format!("seed {seed}: {first:?} by one history, {second:?} by another"));
        }
        compared += 1;
        differ += (one != other) as u64;
        if compared == PAIRS {
            break;
        }
    }
    assert!(2 * differ > compared, "most tables differ");
    Ok(compared)
}
