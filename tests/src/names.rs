//! The names of labels: which labels a label node accepts, found in two ways, and what the names of a case bring up.

use crate::formats::*;
use crate::random::Random;
use std::collections::BTreeSet;

/// The names of a record without its padding.
fn present(record: &Names) -> Vec<usize> {
    record.iter().copied().filter(|&name| name != 0).collect()
}

/// A label record from its names.
pub fn record_of(names: &[usize]) -> Names {
    let mut record = [0; NAMES];
    record[..names.len()].copy_from_slice(names);
    record
}

/// The same names in another order, by chance.
pub fn shuffled(random: &mut Random, record: &Names) -> Names {
    let mut names = present(record);
    for i in (1..names.len()).rev() {
        names.swap(i, random.below(i + 1));
    }
    record_of(&names)
}

fn sorted(mut record: Names) -> Names {
    record.sort_unstable();
    record
}

/// Does a label node of one label accept another? In version 1 only if they are the same; in version 2 if their names
/// are, each as often. Padding fills each record to the same length, so that sorted records tell.
pub fn alike(labels: &Labels, own: usize, other: usize) -> bool {
    match labels {
        Labels::Numbered(_) => own == other,
        Labels::Named(records) => sorted(records[own]) == sorted(records[other]),
    }
}

/// The same as Sat says it: some permutation takes the names of one to those of the other.
pub fn alike_by_permutation(labels: &Labels, own: usize, other: usize) -> bool {
    match labels {
        Labels::Numbered(_) => own == other,
        Labels::Named(records) => permuted(&present(&records[own]), &present(&records[other])),
    }
}

/// Is one list the other in some order? Each place of the other is tried for the first element.
fn permuted(names: &[usize], others: &[usize]) -> bool {
    let Some((first, rest)) = names.split_first() else { return others.is_empty() };
    let without = |i: usize| [&others[..i], &others[i + 1..]].concat();
    (0..others.len()).any(|i| others[i] == *first && permuted(rest, &without(i)))
}

/// Do both ways agree on each label node and each label of a case?
pub fn agreed(case: &Case) -> bool {
    let labels = &case.labels;
    let all = |own: usize| {
        (0..labels.count()).all(|other| alike(labels, own, other) == alike_by_permutation(labels, own, other))
    };
    own_labels(case).into_iter().all(all)
}

/// The different labels of the action table's label nodes.
fn own_labels(case: &Case) -> BTreeSet<usize> {
    case.actions.iter().filter(|x| x.kind == action::LABEL).map(|x| x.argument).collect()
}

/// What the names of a case may bring up.
pub const BROUGHT_UP: [&str; 4] = ["permuted", "repeated", "silent", "unused"];

/// Which of them a case does: a label node that accepts a transition's label with its names in another order; one that
/// does not accept a transition's label which has the same names, but not each as often; one that accepts another
/// silent label than its own on a transition; a label that no node and no transition has.
pub fn brought_up(case: &Case) -> [bool; 4] {
    let Labels::Named(records) = &case.labels else { return [false; 4] };
    let (own, on) = (own_labels(case), case.transitions.iter().map(|t| t.label).collect::<BTreeSet<_>>());
    let found = |shows: &dyn Fn(usize, usize) -> bool| own.iter().any(|&i| on.iter().any(|&j| shows(i, j)));
    let same = |i: usize, j: usize| alike(&case.labels, i, j);
    let same_set = |i: usize, j: usize| {
        let within = |a: &Names, b: &Names| present(a).iter().all(|name| b.contains(name));
        within(&records[i], &records[j]) && within(&records[j], &records[i])
    };
    let unused = |label: usize| !own.contains(&label) && !on.contains(&label);
    [
        found(&|i, j| same(i, j) && records[i] != records[j]),
        found(&|i, j| !same(i, j) && same_set(i, j)),
        found(&|i, j| i != j && same(i, j) && records[i] == [0; NAMES]),
        (0..records.len()).any(unused),
    ]
}
