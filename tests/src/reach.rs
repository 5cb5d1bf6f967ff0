//! Which states of a case can be reached from its initial state by zero or more transitions, of every label: found in two
//! ways, and worked out by hand.

use crate::compare::{same, Check};
use crate::formats::*;
use crate::text::{case, named};

/// The reached states by closing a matrix, whose row s has the states that can be reached from state s. A row starts with
/// its own state and the targets of one transition; then each state in turn may stand between.
pub fn reached(case: &Case) -> Vec<bool> {
    let n = case.states;
    let mut rows: Vec<Vec<bool>> = (0..n).map(|s| (0..n).map(|t| s == t).collect()).collect();
    for t in &case.transitions {
        rows[t.source][t.target] = true;
    }
    for between in 0..n {
        let further = rows[between].clone();
        for row in rows.iter_mut().filter(|row| row[between]) {
            row.iter_mut().zip(&further).for_each(|(to, &on)| *to |= on);
        }
    }
    rows.swap_remove(case.initial)
}

/// The same by passes over the records, until a whole pass finds no further state.
pub fn reached_by_passes(case: &Case) -> Vec<bool> {
    let mut found = vec![false; case.states];
    found[case.initial] = true;
    loop {
        let before = found.clone();
        pass(&case.transitions, &mut found);
        if found == before {
            return found;
        }
    }
}

/// One pass over transitions in their order: the target of each whose source is found is found.
pub fn pass(transitions: &[Transition], found: &mut [bool]) {
    for t in transitions {
        found[t.target] |= found[t.source];
    }
}

/// Do both ways reach the same states?
pub fn agreed(case: &Case) -> bool {
    reached(case) == reached_by_passes(case)
}

/// How many states of a set are reached.
pub fn count(set: &[bool], reached: &[bool]) -> u64 {
    set.iter().zip(reached).filter(|&(&marked, &on)| marked && on).count() as u64
}

type Triple = (usize, usize, usize);

/// A chain from one state to a later one, recorded in order.
pub fn chain(from: usize, to: usize) -> Vec<Triple> {
    (from..to).map(|s| (s, 0, s + 1)).collect()
}

/// The same chain recorded from its end to its start.
pub fn backward_chain(from: usize, to: usize) -> Vec<Triple> {
    chain(from, to).into_iter().rev().collect()
}

/// A model by what its paths are like, and the states that are reached.
struct Model {
    name: &'static str,
    case: Case,
    reached: Vec<usize>,
}

impl Model {
    fn new(name: &'static str, states: usize, initial: usize, triples: &[Triple], reached: &[usize]) -> Model {
        Model { name, case: Case { initial, ..case(states, 4, triples, "", "true") }, reached: reached.to_vec() }
    }
}

/// Models of a few states, worked out by hand.
fn small_models() -> Vec<Model> {
    let model = Model::new;
    vec![
        model("P1", 3, 0, &[(0, 0, 1), (0, 0, 1), (1, 1, 2)], &[0, 1, 2]),
        model("P1 without its last transition", 3, 0, &[(0, 0, 1), (0, 0, 1)], &[0, 1]),
        // Zero transitions reach the initial state, and nothing else.
        model("no transition", 3, 1, &[], &[1]),
        model("a single state", 1, 0, &[], &[0]),
        model("a loop on the initial state", 2, 0, &[(0, 0, 0)], &[0]),
        model("a loop on another state", 2, 0, &[(1, 0, 1)], &[0]),
        model("a cycle that no path enters", 4, 0, &[(0, 0, 1), (2, 0, 3), (3, 0, 2)], &[0, 1]),
        model("a cycle that a path enters", 4, 0, &[(0, 0, 2), (2, 0, 3), (3, 0, 2)], &[0, 2, 3]),
        model("a cycle through the initial state", 4, 2, &[(2, 0, 1), (1, 0, 2)], &[1, 2]),
        model("a chain in reverse order", 5, 0, &[(3, 0, 4), (2, 0, 3), (1, 0, 2), (0, 0, 1)], &[0, 1, 2, 3, 4]),
        model("a chain in mixed order", 5, 0, &[(1, 0, 4), (3, 0, 1), (0, 0, 3), (4, 0, 2)], &[0, 1, 2, 3, 4]),
        model("a chain with a gap", 5, 0, &[(0, 0, 1), (2, 0, 3), (3, 0, 4)], &[0, 1]),
        model("copies", 4, 0, &[(1, 0, 2), (0, 0, 1), (1, 0, 2), (3, 0, 3), (0, 0, 1)], &[0, 1, 2]),
        // The initial state leads on and is led to by none; from behind it nothing is reached.
        model("an initial state that none enters", 4, 1, &[(1, 0, 2), (0, 0, 3), (2, 0, 3)], &[1, 2, 3]),
        model("an initial state without a step", 3, 2, &[(0, 0, 1), (1, 0, 2)], &[2]),
        model("the last state first", 4, 3, &[(3, 0, 2), (2, 0, 1), (1, 0, 3)], &[1, 2, 3]),
        model("two ways to a state", 5, 0, &[(0, 0, 1), (0, 0, 2), (1, 0, 3), (2, 0, 3)], &[0, 1, 2, 3]),
        model("a state entered from one that is not", 3, 0, &[(1, 0, 2)], &[0]),
        model("every label", 6, 0, &[(0, 0, 1), (1, 1, 2), (2, 2, 3), (3, 3, 4)], &[0, 1, 2, 3, 4]),
        model("equal ends, two labels", 3, 0, &[(0, 0, 1), (0, 3, 1)], &[0, 1]),
        model("all from one state", 4, 2, &[(2, 0, 0), (2, 1, 1), (2, 2, 2), (2, 3, 3)], &[0, 1, 2, 3]),
    ]
}

/// Models of 256 states, with edges of mark words between the reached states and the others.
fn wide_models() -> Vec<Model> {
    let model = |name, initial, triples: &[Triple], reached: &mut dyn Iterator<Item = usize>| {
        Model::new(name, STATES, initial, triples, &reached.collect::<Vec<_>>())
    };
    let back_to_start = [vec![(255, 0, 0)], chain(0, 3)].concat();
    vec![
        model("a chain of 256", 0, &chain(0, 255), &mut (0..256)),
        model("a chain of 256 in reverse order", 0, &backward_chain(0, 255), &mut (0..256)),
        model("a chain of 256 from its end", 255, &chain(0, 255), &mut (255..256)),
        model("a chain of 64", 0, &backward_chain(0, 63), &mut (0..64)),
        model("a chain of 65", 0, &backward_chain(0, 64), &mut (0..65)),
        model("a chain from 64", 64, &chain(0, 255), &mut (64..256)),
        model("a chain from 63 to 192", 63, &backward_chain(0, 192), &mut (63..193)),
        model("a chain with a gap at 127", 0, &[chain(0, 127), chain(128, 255)].concat(), &mut (0..128)),
        model("a chain with a gap at 128", 0, &[chain(129, 255), chain(0, 128)].concat(), &mut (0..129)),
        model("from the last state to the first", 255, &back_to_start, &mut (0..4).chain([255])),
    ]
}

/// A silent step and one of two names lead on like any other.
fn named_model() -> Model {
    let triples = [(0, 0, 1), (1, 1, 2), (2, 2, 3)];
    let case = named(case(5, 3, &triples, "", "true"), &[&[], &[1, 2], &[7]]);
    Model { name: "silent and together", case, reached: vec![0, 1, 2, 3] }
}

/// Holds both ways to the states worked out by hand; answers how many sets were compared.
pub fn check() -> Result<u64, String> {
    let mut compared = 0;
    for Model { name, case, reached: states } in small_models().into_iter().chain(wide_models()).chain([named_model()])
    {
        let expected: Vec<bool> = (0..case.states).map(|s| states.contains(&s)).collect();
        let of = |way: &str, got: Vec<bool>| -> Check {
            same(got, expected.clone()).map_err(|text| format!("{name}, by {way}: {text}"))
        };
        of("a matrix", reached(&case))?;
        of("passes", reached_by_passes(&case))?;
        compared += 2;
    }
    Ok(compared)
}
