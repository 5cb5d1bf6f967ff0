//! Transition tables with many copies and with none, up to the limits, and how many of their records are distinct, worked
//! out by hand. In version 2 all labels have the same names, which makes no two records equal.

use crate::formats::*;
use crate::text::case;

type Triple = (usize, usize, usize);

/// A table by name, and its distinct records.
pub struct Table {
    pub name: &'static str,
    pub triples: Vec<Triple>,
    pub distinct: usize,
}

impl Table {
    /// Cases over the table: version 1, and version 2 with silent labels only and with two names in both orders.
    pub fn cases(&self) -> [Case; 3] {
        let case = case(STATES, LABELS, &self.triples, "label 0", "mu X or box 0 false dia 0 X");
        let named = |record: fn(usize) -> Names| Labels::Named((0..LABELS).map(record).collect());
        let silent = Case { labels: named(|_| [0; NAMES]), ..case.clone() };
        let pairs = Case { labels: named(|label| [[3, 5, 0, 0], [5, 3, 0, 0]][label % 2]), ..case.clone() };
        [case, silent, pairs]
    }
}

/// So many different records of the last state, up to all that a table has room for.
fn from_last(count: usize) -> Vec<Triple> {
    (0..count).map(|i| (STATES - 1, i % LABELS, i / LABELS)).collect()
}

/// Each record so many times, one after another.
fn each(times: usize, triples: &[Triple]) -> Vec<Triple> {
    triples.iter().flat_map(|&triple| vec![triple; times]).collect()
}

pub fn tables() -> Vec<Table> {
    let table = |name, triples, distinct| Table { name, triples, distinct };
    let half = from_last(TRANSITIONS / 2);
    let backwards: Vec<Triple> = half.iter().rev().copied().collect();
    let mut last_is_first = from_last(TRANSITIONS - 1);
    last_is_first.push(last_is_first[0]);
    let ends = [(1, 0, 2), (2, 0, 1), (1, 0, 2), (1, 0, 1), (2, 0, 1), (2, 0, 2), (1, 0, 2)];
    let orders = [(1, 2, 3), (1, 3, 2), (2, 1, 3), (2, 3, 1), (3, 1, 2), (3, 2, 1), (2, 3, 1)];
    vec![
        table("no records", Vec::new(), 0),
        table("one record", vec![(0, 0, 0)], 1),
        table("one record as often as there is room", vec![(0, 0, 0); TRANSITIONS], 1),
        table("all different, from one state", from_last(TRANSITIONS), TRANSITIONS),
        table("each twice, side by side", each(2, &half), TRANSITIONS / 2),
        table("each twice, one list after the other", [half.clone(), half.clone()].concat(), TRANSITIONS / 2),
        table("each twice, the second list backwards", [half, backwards].concat(), TRANSITIONS / 2),
        table("a table's first record at its end", last_is_first, TRANSITIONS - 1),
        table("only sources differ", (0..STATES).map(|s| (s, 5, 9)).collect(), STATES),
        table("only labels differ", (0..LABELS).map(|l| (7, l, 9)).collect(), LABELS),
        table("only targets differ", (0..STATES).map(|t| (7, 5, t)).collect(), STATES),
        table("every pair of two ends", ends.to_vec(), 4),
        table("three numbers in every order", orders.to_vec(), 6),
        table("three times, apart", vec![(0, 0, 1), (1, 0, 0), (0, 0, 1), (1, 1, 0), (0, 0, 1)], 3),
    ]
}
