//! Edits of P1 that are worked out by hand, in both versions: the answers, the marks, and each byte of the model.

use crate::calls::{Edits, RouteNumbers, MARK_WORDS};
use crate::compare::same;
use crate::formats::Transition;
use crate::paper::{named_runs, refused_cases, refused_names, runs};

/// Source, label, target.
type Triple = [usize; 3];

/// A call with what it answers: an edit its number; a want with a limit six numbers, and the marked states as bits.
enum Step {
    Add(Triple, u64),
    Drop(Triple, u64),
    Want(u64, [u64; 6], u64),
}

use Step::{Add, Drop, Want};

/// Calls one after another, each with the transition table that it leaves.
fn steps() -> Vec<(Step, Vec<Triple>)> {
    let (click, close) = ([0, 0, 1], [1, 1, 2]);
    let (other, again) = ([0, 1, 1], [1, 0, 1]);
    let far = usize::MAX;
    vec![
        // Closed holds first, then closing, then open, and the fourth round finds nothing new.
        (Want(9, [0, 1, 3, 4, 2, 2], 7), vec![click, close]),
        // The click is held: its copy is not recorded.
        (Add(click, 0), vec![click, close]),
        // Another label between the same states is another transition.
        (Add(other, 0), vec![click, close, other]),
        (Want(4, [0, 1, 3, 4, 3, 3], 7), vec![click, close, other]),
        // The last record takes the place of the dropped one.
        (Drop(click, 0), vec![other, close]),
        (Drop(click, 17), vec![other, close]),
        (Want(4, [0, 1, 3, 4, 2, 2], 7), vec![other, close]),
        // The last record itself is dropped. Closing and closed have no step left and hold first. No path leads to closed
        // any more: it is marked and not counted.
        (Drop(close, 0), vec![other]),
        (Want(3, [0, 1, 2, 3, 1, 1], 7), vec![other]),
        // No step is left: all states hold in the first round, and the second finds nothing new. Open alone is reached.
        (Drop(other, 0), vec![]),
        (Want(2, [0, 1, 1, 2, 0, 0], 7), vec![]),
        (Want(1, [14, 0, 0, 0, 0, 0], 0), vec![]),
        (Drop(other, 17), vec![]),
        // Added back in another order. The close alone starts in a state that is not reached: open and closed hold first,
        // then closing, and the third round finds nothing new; open is counted. With the click all three are.
        (Add(close, 0), vec![close]),
        (Want(3, [0, 1, 1, 3, 1, 1], 7), vec![close]),
        (Add(click, 0), vec![close, click]),
        (Want(4, [0, 1, 3, 4, 2, 2], 7), vec![close, click]),
        // A loop from closing to itself: only closed holds, found in the first round; the second finds nothing new.
        (Add(again, 0), vec![close, click, again]),
        (Want(2, [0, 0, 1, 2, 3, 3], 4), vec![close, click, again]),
        (Want(1, [14, 0, 0, 0, 3, 3], 0), vec![close, click, again]),
        // State 3, label 2, and numbers of more than 16 bits whose low bits are those of a transition that is held.
        (Add([3, 0, 1], 6), vec![close, click, again]),
        (Add([0, 2, 1], 6), vec![close, click, again]),
        (Add([0, 0, 3], 6), vec![close, click, again]),
        (Add([65_536, 0, 1], 6), vec![close, click, again]),
        (Add([0, 65_536, 1], 6), vec![close, click, again]),
        (Add([0, 0, far], 6), vec![close, click, again]),
        (Drop([3, 0, 1], 6), vec![close, click, again]),
        (Drop([0, 2, 1], 6), vec![close, click, again]),
        (Drop([0, 0, 3], 6), vec![close, click, again]),
        (Drop([65_536, 0, 1], 6), vec![close, click, again]),
        (Drop([0, 65_536, 1], 6), vec![close, click, again]),
        (Drop([0, 0, 65_537], 6), vec![close, click, again]),
        (Drop(close, 0), vec![again, click]),
    ]
}

/// The file of P1 with a table of transitions, number by number, in either version.
fn file(named: bool, table: &[Triple]) -> Vec<u8> {
    let m = table.len();
    let mut numbers = if named {
        let header = [2, 3, m, 2, 0, 1, 3, 38, 38 + 6 * m, 42 + 6 * m, 22];
        [&header[..], &[255, 0, 0, 0], &[254, 0, 0, 0]].concat()
    } else {
        vec![1, 3, m, 2, 0, 1, 3, 20, 20 + 6 * m, 24 + 6 * m]
    };
    numbers.extend(table.as_flattened());
    numbers.extend([1, 0, 7, 0, 4, 0, 6, 0]);
    numbers.iter().flat_map(|&number| (number as u16).to_le_bytes()).collect()
}

/// P1's bytes, and how many a model of it needs: 12,270 more, for 2,045 transitions more than its three.
fn p1(named: bool) -> (Vec<u8>, usize) {
    if named {
        (named_runs()[0].case.bytes(), 12_342)
    } else {
        (runs()[0].case.bytes(), 12_324)
    }
}

/// A model as it is lent.
const LENT: u8 = 0xa5;

fn transition([source, label, target]: Triple) -> Transition {
    Transition { source, label, target }
}

fn want(edits: &dyn Edits, model: &[u8], limit: u64) -> ([u64; 6], [u64; MARK_WORDS]) {
    let mut marks = [9; MARK_WORDS];
    let RouteNumbers { refusal, verdict, count, rounds, records, distinct } = edits.want(model, &mut marks, limit);
    ([refusal, verdict, count, rounds, records, distinct], marks)
}

/// Holds the calls to the steps in one version; answers how many values were compared.
fn check_steps(edits: &dyn Edits, named: bool) -> Result<u64, String> {
    let (case, room) = p1(named);
    let mut model = vec![LENT; room];
    same(edits.open(&case, &mut model), 0)?;
    let mut right = vec![LENT; room];
    let opened = file(named, &[[0, 0, 1], [1, 1, 2]]);
    right[..opened.len()].copy_from_slice(&opened);
    same(&model, &right).map_err(|_| "the opened model differs".to_string())?;
    let mut compared = 2;
    for (i, (step, table)) in steps().into_iter().enumerate() {
        match step {
            Add(t, number) => same(edits.add(&mut model, transition(t)), number),
            Drop(t, number) => same(edits.drop(&mut model, transition(t)), number),
            Want(limit, numbers, marks) => {
                let marks = if numbers[0] == 0 { [marks, 0, 0, 0] } else { [9; MARK_WORDS] };
                same(want(edits, &model, limit), (numbers, marks))
            }
        }
        .map_err(|text| format!("step {i}: {text}"))?;
        let file = file(named, &table);
        right[..file.len()].copy_from_slice(&file);
        same(&model, &right).map_err(|_| format!("step {i}: the model differs"))?;
        compared += 2;
    }
    Ok(compared)
}

/// The bytes of P1's opened model in version 1, and those that are left when the click is dropped: the file is six bytes
/// shorter, and its last six bytes stay behind it.
fn check_bytes(edits: &dyn Edits) -> Result<u64, String> {
    let mut model = vec![LENT; p1(false).1];
    same(edits.open(&p1(false).0, &mut model), 0)?;
    let header = [1, 0, 3, 0, 2, 0, 2, 0, 0, 0, 1, 0, 3, 0, 20, 0, 32, 0, 36, 0];
    let tables = [0, 0, 0, 0, 1, 0, 1, 0, 1, 0, 2, 0, 1, 0, 0, 0, 7, 0, 0, 0, 4, 0, 0, 0, 6, 0, 0, 0];
    same(&model[..50], &[&header[..], &tables, &[LENT; 2]].concat())?;
    same(edits.drop(&mut model, transition([0, 0, 1])), 0)?;
    let header = [1, 0, 3, 0, 1, 0, 2, 0, 0, 0, 1, 0, 3, 0, 20, 0, 26, 0, 30, 0];
    let tables = [1, 0, 1, 0, 2, 0, 1, 0, 0, 0, 7, 0, 0, 0, 4, 0, 0, 0, 6, 0, 0, 0];
    same(&model[..50], &[&header[..], &tables, &[0, 0, 6, 0, 0, 0], &[LENT; 2]].concat())?;
    Ok(4)
}

/// Refused opens: the case's own number, then 13 for a byte too little. Nothing is written.
fn check_refused(edits: &dyn Edits) -> Result<u64, String> {
    let mut refused = [refused_cases(1), refused_cases(2), refused_names()].concat();
    refused.extend([false, true].map(|named| (13, p1(named).0)));
    for (number, case) in &refused {
        let room = if *number == 13 { case.len() + 12_269 } else { 13_590 };
        let mut model = vec![LENT; room];
        same(edits.open(case, &mut model), *number)?;
        same(&model, &vec![LENT; room]).map_err(|_| format!("written after {number}"))?;
    }
    Ok(2 * refused.len() as u64)
}

/// A model that is an empty file: 1 of each call.
fn check_empty(edits: &dyn Edits) -> Result<u64, String> {
    let t = transition([0, 0, 0]);
    same((edits.add(&mut [], t), edits.drop(&mut [], t)), (1, 1))?;
    same(want(edits, &[], 9), ([1, 0, 0, 0, 0, 0], [9; MARK_WORDS]))?;
    Ok(2)
}

/// Holds the calls to all that is worked out; answers how many values were compared.
pub fn check(edits: &dyn Edits) -> Result<u64, String> {
    let steps = check_steps(edits, false)? + check_steps(edits, true)?;
    Ok(check_bytes(edits)? + steps + check_refused(edits)? + check_empty(edits)?)
}
