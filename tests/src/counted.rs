//! Small cases in which the count covers fewer states than are marked, worked out by hand: marked states that no path from
//! the initial state enters; and cases in which all marked states are reached, by ways that are easy to overlook.

use crate::calls::Numbers;
use crate::formats::*;
use crate::paper::Run;
use crate::text::{case, named, with_own_names};

/// P1 without (1,1,2), by the rules of the rounds. The mu starts empty. In state 0 the box asks for state 1, twice; in 1
/// and 2, without transitions, it asks for nothing. So round 1 finds 1 and 2, which differs from the empty set; round 2,
/// with these, finds 0 too; round 3, with all three, finds the same and stops: 3 rounds. The root is the mu, so it is the
/// only block, and the equation route counts the same 3. All three states are marked; from 0 the path leads to 1 and no
/// further, so 2 is not reached and the count is 2. Of the two records one is distinct.
fn p1_without_its_last() -> [Run; 2] {
    let case = case(3, 2, &[(0, 0, 1), (0, 0, 1)], "true", "mu X box 0 X");
    let run = |case| Run::new("P1 without (1,1,2)", case, [0, 1, 2, 3], [0, 1, 2, 3], [2, 1], 7);
    [run(case.clone()), run(with_own_names(case))]
}

/// The equation file of that case, number by number: rows of the mu, the box and the variable, three cells each. The box
/// in state 0 has one operand, the variable's cell of state 1, which is cell 7; in 1 and 2 it has none. Solved by itself
/// it takes the same 3 rounds and has the same marks, and all three of them are counted: the file has no transitions.
pub fn p1_without_its_last_file() -> (Vec<u8>, Numbers) {
    let header = [1, 3, 1, 9, 1, 0, 36, 44, 152];
    let block = [0, 3];
    let cells = [[2, 0, 0], [2, 0, 1], [2, 0, 2], [0, 0, 1], [0, 1, 0], [0, 1, 0], [2, 0, 0], [2, 0, 1], [2, 0, 2]];
    let numbers = [&header[..], &block, &cells.concat(), &[7]].concat();
    let bytes = numbers.iter().flat_map(|x: &u32| x.to_le_bytes()).collect();
    (bytes, Numbers { refusal: 0, verdict: 1, count: 3, rounds: 3, length: 0 })
}

type Triple = (usize, usize, usize);

/// A case of so many states whose formula is true, all transitions distinct, with the initial state and the number of
/// states that are reached. All states are marked. The added nu starts with all states, and its first round finds the
/// same: 1 round; direct has no binder: 0 rounds.
fn all_marked(name: &'static str, states: usize, initial: usize, triples: &[Triple], count: u64) -> Run {
    let (m, marks) = (triples.len() as u64, (1 << states) - 1);
    let case = Case { initial, ..case(states, 4, triples, "", "true") };
    Run::new(name, case, [0, 1, count, 1], [0, 1, count, 0], [m, m], marks)
}

/// What is reached by transitions of every label, and by nothing else.
fn paths() -> Vec<Run> {
    vec![
        all_marked("marked states that nothing enters", 4, 0, &[], 1),
        // 2 has a transition into it, but only from 1, which is not reached; so has 3, from 2.
        all_marked("entered from unreached states only", 4, 0, &[(1, 0, 2), (2, 0, 3)], 1),
        all_marked("a cycle that no path enters", 4, 0, &[(0, 0, 1), (2, 0, 3), (3, 0, 2)], 2),
        all_marked("an unreached state that leads to reached ones", 4, 0, &[(0, 0, 1), (3, 0, 0), (3, 0, 1)], 2),
        // 0, then 3, then 1, recorded in another order; 2 and 4 are left.
        all_marked("a chain in reverse order", 5, 0, &[(1, 0, 1), (3, 0, 1), (0, 0, 3)], 3),
        // 1 and 2; the transition from 0 is not taken, and none enters 1.
        all_marked("an initial state that nothing enters", 4, 1, &[(0, 0, 3), (1, 0, 2)], 2),
        all_marked("an initial state that only leads to itself", 3, 2, &[(2, 0, 2), (0, 0, 1)], 1),
        all_marked("the last state as the initial one", 4, 3, &[(3, 0, 1), (2, 0, 3)], 2),
        // Each step has its own label, and no action formula is there that could accept one.
        all_marked("labels that no formula speaks of", 5, 0, &[(0, 3, 1), (1, 2, 2), (2, 1, 3)], 4),
    ]
}

/// What formulas mark and what is reached are two things.
fn marks() -> Vec<Run> {
    let step = |states: usize, triples: &[Triple], words: &str| case(states, 2, triples, "label 0", words);
    let ends = "box 0 false";
    // The added nu starts with all states. Where the formula leaves some out, the first round finds the others and the
    // second the same: 2 rounds; where it holds everywhere, the first round finds the same: 1 round. Direct: 0 rounds.
    vec![
        // Only 0 has a transition, to itself. 1 and 2 are marked, and not reached.
        Run::new("unreached ones marked", step(3, &[(0, 0, 0)], ends), [0, 0, 0, 2], [0, 0, 0, 0], [1, 1], 6),
        // From 0 to 1. 1, 2 and 3 have no transition and are marked; of them 1 is reached, and 0 is not marked.
        Run::new("the initial one unmarked", step(4, &[(0, 0, 1)], ends), [0, 0, 1, 2], [0, 0, 1, 0], [1, 1], 14),
        // 0 and 2 can step; only 0 is reached of them, and 1, which is reached from it, is not marked.
        Run::new(
            "a reached one unmarked",
            step(4, &[(0, 0, 1), (2, 0, 2)], "dia 0 true"),
            [0, 1, 1, 2],
            [0, 1, 1, 0],
            [2, 2],
            5,
        ),
        // No transition has label 0, so the box holds in all three; 1 is reached under label 1, which it does not accept.
        Run::new("a label not accepted", step(3, &[(0, 1, 1)], ends), [0, 1, 2, 1], [0, 1, 2, 0], [1, 1], 7),
        // Three records are one transition, and a fourth leads on from 1 to 2 under label 1. The diamond asks for one
        // under label 0 into a state that has none: 0 has it, as 1 has none. 3 has one too, into 4, and is not reached.
        Run::new(
            "copies",
            step(5, &[(1, 1, 2), (0, 0, 1), (3, 0, 4), (0, 0, 1), (0, 0, 1)], "dia 0 box 0 false"),
            [0, 1, 1, 2],
            [0, 1, 1, 0],
            [5, 3],
            9,
        ),
        binders(),
    ]
}

/// Every run ends from 0 and 1, and from 3, but not from 2 and 4, which lead to each other. Round 1 finds 1, which has no
/// transition; round 2 finds 0, whose only one leads to 1, and 3, likewise; round 3 finds the same: 3 rounds in both routes.
/// Of the three that are marked 0 and 1 are reached.
fn binders() -> Run {
    let triples = [(3, 0, 1), (2, 0, 4), (4, 1, 2), (0, 1, 1)];
    let case = case(5, 2, &triples, "true", "mu X box 0 X");
    Run::new("runs that end", case, [0, 1, 2, 3], [0, 1, 2, 3], [4, 4], 11)
}

/// Version 2: a silent step and one of two names at once lead on. The action node speaks of the single name.
fn together() -> Vec<Run> {
    let names: [&[usize]; 3] = [&[], &[1, 2], &[7]];
    let of = |triples: &[Triple]| named(case(4, 3, triples, "label 2", "box 0 false"), &names);
    vec![
        // No transition has the name 7, so all four are marked: 1 round, and 0 in direct. 3 is not reached.
        Run::new("a silent step", of(&[(0, 0, 1), (1, 1, 2)]), [0, 1, 3, 1], [0, 1, 3, 0], [2, 2], 15),
        // 1 has a step of that name, so it is not marked; 2 rounds. 0, 2 and 3 are, of which 3 is not reached.
        Run::new("a step behind a silent one", of(&[(1, 2, 2), (0, 0, 1)]), [0, 1, 2, 2], [0, 1, 2, 0], [2, 2], 13),
    ]
}

/// All of these.
pub fn runs() -> Vec<Run> {
    [p1_without_its_last().to_vec(), paths(), marks(), together()].concat()
}
