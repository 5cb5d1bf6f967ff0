//! Edits of a model: lent bytes that start with a case file, whose transition table has each transition once.

use super::cases::{self, Header, TRANSITIONS};
use super::routes::{self, Answer};

/// The length of a record of the transition table.
const RECORD: usize = 6;

/// Source, label and target.
pub type Transition = [u64; 3];

/// The case of a model: the file of which its header tells, or all bytes if there are fewer.
fn case_of(model: &[u8]) -> &[u8] {
    if cases::too_short(model) {
        return model;
    }
    let end = cases::end(&cases::header(model));
    &model[..end.min(model.len())]
}

/// The record of a transition, unless a number is out of range.
fn record_of(h: &Header, [source, label, target]: Transition) -> Option<[u8; RECORD]> {
    let (states, labels) = (h.states as u64, h.labels as u64);
    let holds = source < states && label < labels && target < states;
    holds.then_some([source as u8, (source >> 8) as u8, label as u8, 0, target as u8, (target >> 8) as u8])
}

/// The place of a record in the table.
fn place(model: &[u8], h: &Header, record: &[u8; RECORD]) -> Option<usize> {
    model[h.first..h.second].as_chunks().0.iter().position(|x| x == record)
}

fn put(model: &mut [u8], at: usize, number: usize) {
    model[at..at + 2].copy_from_slice(&(number as u16).to_le_bytes());
}

/// Writes the count of transitions and the offsets behind them.
fn put_count(model: &mut [u8], h: &Header, transitions: usize) {
    let second = h.first + RECORD * transitions;
    put(model, 4, transitions);
    put(model, 16, second);
    put(model, 18, second + 4 * h.actions);
}

/// Adds a transition behind the last record, unless it is held, or answers the number of the refusal.
pub fn add(model: &mut [u8], transition: Transition) -> Result<(), u8> {
    let h = cases::layout(case_of(model))?;
    let record = record_of(&h, transition).ok_or(6)?;
    if place(model, &h, &record).is_some() {
        return Ok(());
    }
    if h.transitions == TRANSITIONS {
        return Err(16);
    }
    let end = cases::end(&h);
    if model.len() < end + RECORD {
        return Err(13);
    }
    model.copy_within(h.second..end, h.second + RECORD);
    model[h.second..h.second + RECORD].copy_from_slice(&record);
    put_count(model, &h, h.transitions + 1);
    Ok(())
}

/// Drops a transition, whose place the last record takes, or answers the number of the refusal.
pub fn drop(model: &mut [u8], transition: Transition) -> Result<(), u8> {
    let h = cases::layout(case_of(model))?;
    let record = record_of(&h, transition).ok_or(6)?;
    let i = place(model, &h, &record).ok_or(17)?;
    let last = h.second - RECORD;
    model.copy_within(last..h.second, h.first + RECORD * i);
    model.copy_within(h.second..cases::end(&h), last);
    put_count(model, &h, h.transitions - 1);
    Ok(())
}

/// What direct answers on the case of a model.
pub fn want(model: &[u8], marks: &mut [u64], limit: u64) -> Answer {
    routes::direct(case_of(model), marks, limit)
}
