//! What opening and editing answer and leave, for a model of any bytes. The file of a model is read whole, changed as a
//! value, and written anew; what stands beyond it stays.

use crate::formats::*;
use crate::reader::{read_case, read_tables, refuse_if, Refusal};
use crate::tables;

/// The bytes of the model after a call, or the number of the refusal, after which they are as before.
pub type After = Result<Vec<u8>, Refusal>;

/// The number at a place of a model. A byte that is not there reads as 0.
fn number(model: &[u8], at: usize) -> usize {
    let byte = |i: usize| model.get(i).map_or(0, |&byte| byte as usize);
    byte(at) + 256 * byte(at + 1)
}

/// Where the file ends of which a model's header tells, whatever its counts are.
fn file_end(model: &[u8]) -> usize {
    let (m, l, a, f) = (number(model, 4), number(model, 6), number(model, 10), number(model, 12));
    let labels_end = if number(model, 0) == 2 { NAMED_HEADER + 8 * l } else { CASE_HEADER };
    labels_end + 6 * m + 4 * a + 4 * f
}

/// The case of a model: the bytes up to that end, or all if there are fewer.
pub fn case_of(model: &[u8]) -> &[u8] {
    &model[..file_end(model).min(model.len())]
}

/// Are the numbers of a transition those of states and of a label?
pub fn in_range(case: &Case, t: Transition) -> bool {
    t.source < case.states && t.target < case.states && t.label < case.labels.count()
}

/// How many bytes a case would have with as many transitions as there may be.
pub fn room_of(case: &Case) -> usize {
    case.bytes().len() + 6 * (TRANSITIONS - case.transitions.len())
}

/// The model with a file at its start, or 13.
pub fn with_file(model: &[u8], file: &Case) -> After {
    let bytes = file.bytes();
    refuse_if(model.len() < bytes.len(), 13)?;
    Ok([&bytes[..], &model[bytes.len()..]].concat())
}

/// The model once a case is opened.
pub fn opened(case: &[u8], model: &[u8]) -> After {
    let case = read_case(case)?;
    refuse_if(model.len() < room_of(&case), 13)?;
    let transitions = tables::distinct(&case.transitions);
    with_file(model, &Case { transitions, ..case })
}

/// The model once a transition is added.
pub fn added(model: &[u8], t: Transition) -> After {
    let mut case = read_tables(case_of(model))?;
    refuse_if(!in_range(&case, t), 6)?;
    if case.transitions.contains(&t) {
        return Ok(model.to_vec());
    }
    refuse_if(case.transitions.len() == TRANSITIONS, 16)?;
    case.transitions.push(t);
    with_file(model, &case)
}

/// The model once a transition is dropped: the last record stands in the place of the first that is equal.
pub fn dropped(model: &[u8], t: Transition) -> After {
    let mut case = read_tables(case_of(model))?;
    refuse_if(!in_range(&case, t), 6)?;
    let at = case.transitions.iter().position(|&record| record == t).ok_or(17u64)?;
    case.transitions.swap_remove(at);
    with_file(model, &case)
}
