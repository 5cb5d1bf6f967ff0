//! The rows of the drawing: states by their distance from the initial state.

use super::graph::Graph;

/// More states than this at the same distance are drawn in several rows.
const WIDEST: usize = 8;

/// The states of each row. Those that are not reached come last.
pub(super) fn rows(graph: &Graph) -> Vec<Vec<usize>> {
    ranks(graph).into_iter().flat_map(parted).collect()
}

/// The states by their distance from the initial state, then those not reached by their distance from where these begin.
fn ranks(graph: &Graph) -> Vec<Vec<usize>> {
    let targets = targets(graph);
    let mut found = vec![false; graph.states.len()];
    let mut ranks = distances(graph.initial.into_iter().collect(), &targets, &mut found);
    while found.contains(&false) {
        let begin = beginnings(&targets, &found);
        ranks.extend(distances(begin, &targets, &mut found));
    }
    ranks
}

/// The states not found yet at each distance from some of them, in the order they are found.
fn distances(begin: Vec<usize>, targets: &[Vec<usize>], found: &mut [bool]) -> Vec<Vec<usize>> {
    let mut ranks = Vec::new();
    let mut rank = begin;
    rank.iter().for_each(|&state| found[state] = true);
    while !rank.is_empty() {
        let mut next = Vec::new();
        for &target in rank.iter().flat_map(|&state| &targets[state]) {
            if !std::mem::replace(&mut found[target], true) {
                next.push(target);
            }
        }
        ranks.push(std::mem::replace(&mut rank, next));
    }
    ranks
}

/// Of the states not found, those to which no other of them leads; if there is none, the first.
fn beginnings(targets: &[Vec<usize>], found: &[bool]) -> Vec<usize> {
    let waiting = || (0..found.len()).filter(|&state| !found[state]);
    let mut led_to = vec![false; found.len()];
    for source in waiting() {
        targets[source].iter().filter(|&&target| target != source).for_each(|&target| led_to[target] = true);
    }
    let begin: Vec<usize> = waiting().filter(|&state| !led_to[state]).collect();
    if begin.is_empty() {
        waiting().take(1).collect()
    } else {
        begin
    }
}

fn targets(graph: &Graph) -> Vec<Vec<usize>> {
    let mut targets = vec![Vec::new(); graph.states.len()];
    for edge in &graph.edges {
        targets[edge.source].push(edge.target);
    }
    targets
}

/// A rank in as few rows as can be, all of about the same length.
fn parted(rank: Vec<usize>) -> Vec<Vec<usize>> {
    let count = rank.len().div_ceil(WIDEST).max(1);
    let length = rank.len().div_ceil(count).max(1);
    rank.chunks(length).map(|row| row.to_vec()).collect()
}
