//! Wrong readings of a case: slips in the names of labels, made by changing the case that is read.

use crate::damage::number_at;
use crate::formats::*;
use crate::names::record_of;
use crate::reader::{read_case, read_in_order, Refusal};
use crate::slips::Slip;

/// The case that calls with a slip, or with none, read from bytes, or the number that they refuse it with.
pub fn read(slip: Option<Slip>, bytes: &[u8]) -> Result<Case, Refusal> {
    match slip {
        Some(Slip::NamesAfterActions) => read_in_order(bytes, &[6, 7, 15, 8, 9, 10]),
        Some(Slip::UnusedUnchecked) => read_changed(bytes, without_unused),
        Some(Slip::BehindUnchecked) => read_changed(bytes, |case| with_records(case, |_, record| moved_up(record))),
        Some(Slip::NamesInOrder) => read_case(bytes).map(numbered_by_order),
        Some(Slip::NamesAsSet) => read_case(bytes).map(|case| with_records(case, |_, record| as_set(record))),
        Some(Slip::SilentRefused) => read_case(bytes).map(without_silent_nodes),
        Some(Slip::NumberedSilent) => read_case(bytes).map(|case| named_anyway(case, &[])),
        Some(Slip::NumberedNamed) => read_case(bytes).map(|case| named_anyway(case, bytes)),
        _ => read_case(bytes),
    }
}

/// Changes the tables of a case before the conditions after 6 are looked at.
fn read_changed(bytes: &[u8], change: fn(Case) -> Case) -> Result<Case, Refusal> {
    let case = read_in_order(bytes, &[6])?;
    read_case(&change(case).bytes())
}

/// The case with another record for each label of version 2.
fn with_records(case: Case, change: impl Fn(usize, Names) -> Names) -> Case {
    let changed = case.labels.records().iter().enumerate().map(|(label, &record)| change(label, record)).collect();
    match case.labels {
        Labels::Numbered(_) => case,
        Labels::Named(_) => Case { labels: Labels::Named(changed), ..case },
    }
}

/// The records of labels that no transition and no action node has are emptied.
fn without_unused(case: Case) -> Case {
    let on_transition = |label: usize| case.transitions.iter().any(|t| t.label == label);
    let in_node = |label: usize| case.actions.iter().any(|x| x.kind == action::LABEL && x.argument == label);
    let used: Vec<bool> = (0..case.labels.count()).map(|label| on_transition(label) || in_node(label)).collect();
    with_records(case, |label, record| if used[label] { record } else { [0; NAMES] })
}

/// The names of a record without the zeros between them.
fn moved_up(record: Names) -> Names {
    let names: Vec<usize> = record.into_iter().filter(|&name| name != 0).collect();
    record_of(&names)
}

/// Each different record gets a name of its own, so that only labels with the same names in the same order are alike.
fn numbered_by_order(case: Case) -> Case {
    let records = case.labels.records().to_vec();
    let first = |record: Names| records.iter().position(|&other| other == record).expect("a record of the case");
    with_records(case, |_, record| record_of(&[first(record) + 1]))
}

/// Each name once.
fn as_set(mut record: Names) -> Names {
    record.sort_unstable();
    let mut names = record.to_vec();
    names.dedup();
    names.retain(|&name| name != 0);
    record_of(&names)
}

/// Label nodes of silent labels accept nothing.
fn without_silent_nodes(mut case: Case) -> Case {
    let records = case.labels.records();
    let silent = |label: usize| records.get(label) == Some(&[0; NAMES]);
    for x in case.actions.iter_mut().filter(|x| x.kind == action::LABEL && silent(x.argument)) {
        *x = node(action::FALSE, 0);
    }
    case
}

/// A case of version 1 with names: the numbers at the bytes where version 2 has its records, and zeros beyond the end.
fn named_anyway(case: Case, bytes: &[u8]) -> Case {
    let number = |at: usize| if at + 2 <= bytes.len() { number_at(bytes, at, 2) as usize } else { 0 };
    let record = |label: usize| [0, 2, 4, 6].map(|part| number(NAMED_HEADER + 8 * label + part));
    match case.labels {
        Labels::Numbered(count) => Case { labels: Labels::Named((0..count).map(record).collect()), ..case },
        Labels::Named(_) => case,
    }
}
