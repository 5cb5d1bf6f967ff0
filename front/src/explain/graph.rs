//! Shortest runs in a graph of positions.

use super::game::{Game, Position, Turn, Way};
use std::collections::VecDeque;
use std::ops::Range;

/// The ways on from each position.
pub type Graph = Vec<Vec<Way>>;

/// The positions that can be reached from one, with their turns, and the ways between them.
pub struct Explored {
    pub turns: Vec<Option<Turn>>,
    pub ways: Graph,
}

/// Goes all ways of the one who explains from a position.
pub fn explore(game: &Game, from: Position) -> Explored {
    let mut turns = vec![None; game.positions()];
    let mut ways = vec![Vec::new(); game.positions()];
    let mut waiting = vec![from];
    while let Some(position) = waiting.pop() {
        if turns[position].is_some() {
            continue;
        }
        let turn = game.turn(position);
        if let Turn::Ways(on) = &turn {
            waiting.extend(on.iter().map(|way| way.to));
            ways[position] = on.clone();
        }
        turns[position] = Some(turn);
    }
    Explored { turns, ways }
}

/// The same ways, to be gone backward.
pub fn reversed(graph: &Graph) -> Graph {
    let mut back = vec![Vec::new(); graph.len()];
    for (from, ways) in graph.iter().enumerate() {
        for way in ways {
            back[way.to].push(Way { to: from, ..*way });
        }
    }
    back
}

/// The runs of fewest steps from one position to others.
pub struct Runs {
    /// The positions that are reached, the nearest first.
    pub order: Vec<Position>,
    /// How many steps of the model each takes.
    pub steps: Vec<Option<usize>>,
    /// The position before each, and the way from there.
    last: Vec<Option<(Position, Way)>>,
}

/// Runs from a position of at most so many steps that stay within a range. Ways that take no step are gone at once, the
/// first of them first.
pub fn shortest(graph: &Graph, from: Position, within: &Range<Position>, most: usize) -> Runs {
    let count = graph.len();
    let mut runs = Runs { order: Vec::new(), steps: vec![None; count], last: vec![None; count] };
    let mut done = vec![false; count];
    let mut waiting = VecDeque::from([from]);
    runs.steps[from] = Some(0);
    while let Some(position) = waiting.pop_front() {
        if std::mem::replace(&mut done[position], true) {
            continue;
        }
        runs.order.push(position);
        let better = |way: &&Way| within.contains(&way.to) && runs.shorten(position, way, most);
        let (steps, at_once): (Vec<&Way>, Vec<&Way>) =
            graph[position].iter().filter(better).partition(|way| way.step.is_some());
        waiting.extend(steps.into_iter().map(|way| way.to));
        at_once.into_iter().rev().for_each(|way| waiting.push_front(way.to));
    }
    runs
}

impl Runs {
    /// Goes a way from a position, and says whether the run by it is shorter than what was known.
    fn shorten(&mut self, from: Position, way: &Way, most: usize) -> bool {
        let steps = self.steps[from].unwrap_or(0) + way.steps();
        let better = steps <= most && steps < self.steps[way.to].unwrap_or(usize::MAX);
        if better {
            self.steps[way.to] = Some(steps);
            self.last[way.to] = Some((from, *way));
        }
        better
    }

    /// The ways of the run to a position.
    pub fn to(&self, position: Position) -> Vec<Way> {
        let mut ways = self.back_from(position);
        ways.reverse();
        ways
    }

    /// The ways of the run to a position, the last one first: where the graph is reversed, the way on from there.
    pub fn back_from(&self, position: Position) -> Vec<Way> {
        let mut ways = Vec::new();
        let mut at = position;
        while let Some((before, way)) = self.last[at] {
            ways.push(way);
            at = before;
        }
        ways
    }
}
