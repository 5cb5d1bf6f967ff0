//! The states of a case that can be reached from its initial state, by transitions of every label.

use super::cases::transition_at;
use super::sets::{self, Set, STATES, WORDS};

/// What is reached along the m records of an accepted case of n states.
pub fn reached(part: &[u8], m: usize, n: usize, initial: usize) -> Set {
    match n {
        0..=16 => searched::<16>(part, m, initial),
        17..=64 => searched::<64>(part, m, initial),
        _ => searched::<STATES>(part, m, initial),
    }
}

/// The same with a set of targets for each of so many states. A state that is found is due until those of its targets
/// that were not found before are.
fn searched<const ROWS: usize>(part: &[u8], m: usize, initial: usize) -> Set {
    let mut targets = [sets::EMPTY; ROWS];
    for i in 0..m {
        let t = transition_at(part, i);
        sets::add(&mut targets[t.source], t.target);
    }
    let mut found = sets::EMPTY;
    sets::add(&mut found, initial);
    let mut due = found;
    while let Some(s) = sets::take(&mut due) {
        for i in 0..WORDS {
            let new = targets[s][i] & !found[i];
            found[i] |= new;
            due[i] |= new;
        }
    }
    found
}
