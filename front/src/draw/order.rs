//! Untangles the rows: each is sorted by where its neighbours stand, down and up again, and the order with the fewest
//! crossings is kept.

use super::net::Net;

const SWEEPS: usize = 24;

pub(super) fn untangle(net: &mut Net) {
    let (above, below) = net.neighbours();
    let mut best = net.rows.clone();
    let mut fewest = crossings(&best, &below);
    for sweep in 0..SWEEPS {
        if fewest == 0 {
            break;
        }
        if sweep % 2 == 0 {
            (1..net.rows.len()).for_each(|row| sort(&mut net.rows, row, row - 1, &above));
        } else {
            (1..net.rows.len()).rev().for_each(|row| sort(&mut net.rows, row - 1, row, &below));
        }
        let now = crossings(&net.rows, &below);
        if now < fewest {
            fewest = now;
            best = net.rows.clone();
        }
    }
    net.rows = best;
}

/// Sorts a row by the mean place of each item's neighbours in a fixed row; an item without any keeps its own place.
fn sort(rows: &mut [Vec<usize>], row: usize, fixed: usize, neighbours: &[Vec<usize>]) {
    let place = places(&rows[fixed], neighbours.len());
    let mean = |(own, &item): (usize, &usize)| {
        let near = &neighbours[item];
        let sum: usize = near.iter().map(|&other| place[other]).sum();
        let mean = if near.is_empty() { own as f64 } else { sum as f64 / near.len() as f64 };
        (mean, item)
    };
    let mut sorted: Vec<(f64, usize)> = rows[row].iter().enumerate().map(mean).collect();
    sorted.sort_by(|a, b| a.0.total_cmp(&b.0));
    rows[row] = sorted.into_iter().map(|(_, item)| item).collect();
}

/// The place of each item in its row; zero for items of other rows.
fn places(row: &[usize], items: usize) -> Vec<usize> {
    let mut places = vec![0; items];
    row.iter().enumerate().for_each(|(place, &item)| places[item] = place);
    places
}

/// How many pairs of lines between a row and the next cross, in all rows together.
fn crossings(rows: &[Vec<usize>], below: &[Vec<usize>]) -> usize {
    rows.windows(2).map(|pair| crossings_between(&pair[0], &pair[1], below)).sum()
}

/// Goes through the lines from left to right and counts those before each that end further right.
fn crossings_between(upper: &[usize], lower: &[usize], below: &[Vec<usize>]) -> usize {
    let place = places(lower, below.len());
    let mut seen = Counter::new(lower.len());
    let mut all = 0;
    for &item in upper {
        let mut ends: Vec<usize> = below[item].iter().map(|&other| place[other]).collect();
        ends.sort_unstable();
        all += ends.iter().map(|&end| seen.total - seen.up_to(end)).sum::<usize>();
        ends.iter().for_each(|&end| seen.add(end));
    }
    all
}

/// Counts places and says how many are up to one (a Fenwick tree).
struct Counter {
    total: usize,
    tree: Vec<usize>,
}

impl Counter {
    fn new(places: usize) -> Counter {
        Counter { total: 0, tree: vec![0; places + 1] }
    }

    fn add(&mut self, place: usize) {
        self.total += 1;
        let mut at = place + 1;
        while at < self.tree.len() {
            self.tree[at] += 1;
            at += at & at.wrapping_neg();
        }
    }

    fn up_to(&self, place: usize) -> usize {
        let (mut at, mut sum) = (place + 1, 0);
        while at > 0 {
            sum += self.tree[at];
            at -= at & at.wrapping_neg();
        }
        sum
    }
}
