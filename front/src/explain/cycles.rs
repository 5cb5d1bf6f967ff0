//! Which positions lie on a cycle.

use super::game::Position;
use super::graph::Graph;
use std::ops::Range;

/// Which positions of a graph lie on a cycle that stays within a range: those of a component (in which each reaches each)
/// of more than one position, or with a way to itself. The components are found by two searches: the first puts the
/// positions in the order in which it leaves them, the second goes backward from the last of them on.
pub fn on_cycles(graph: &Graph, backward: &Graph, within: &Range<Position>) -> Vec<bool> {
    let mut seen = vec![false; graph.len()];
    let mut left = Vec::new();
    for start in within.clone() {
        search(graph, start, within, &mut seen, &mut left);
    }
    let mut seen = vec![false; graph.len()];
    let mut cyclic = vec![false; graph.len()];
    for &start in left.iter().rev() {
        let mut component = Vec::new();
        search(backward, start, within, &mut seen, &mut component);
        let turns = component.len() > 1 || graph[start].iter().any(|way| way.to == start);
        component.into_iter().for_each(|position| cyclic[position] = turns);
    }
    cyclic
}

/// Goes on from a position to all that were not seen yet, and adds them in the order in which it leaves them.
fn search(graph: &Graph, start: Position, within: &Range<Position>, seen: &mut [bool], left: &mut Vec<Position>) {
    if std::mem::replace(&mut seen[start], true) {
        return;
    }
    let mut path = vec![(start, 0)];
    while let Some((position, next)) = path.pop() {
        match graph[position].get(next) {
            None => left.push(position),
            Some(way) => {
                path.push((position, next + 1));
                if within.contains(&way.to) && !std::mem::replace(&mut seen[way.to], true) {
                    path.push((way.to, 0));
                }
            }
        }
    }
}
