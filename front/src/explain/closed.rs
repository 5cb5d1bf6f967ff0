//! Parts that are shown by all that can happen: from some positions on the one who explains has nothing to choose, so the
//! states that come are the whole proof. No loop among them counts against it: if one did, the other could go round in it
//! for ever, and the part would not be as its value says.

use super::game::{Game, Position, Way};
use super::graph::{reversed, shortest, Graph};
use crate::table::Kind;
use std::collections::BTreeSet;

/// Where the game goes on from a position if the other may choose freely.
enum Next {
    /// To these positions; those beside them are facts.
    On { to: Vec<Way>, facts: Vec<Position> },
    /// The one who explains has to choose.
    Choice,
}

/// The states that can come from a position, and the closed parts that are facts there.
pub struct Region {
    pub states: Vec<usize>,
    pub facts: Vec<Position>,
}

impl Region {
    /// Does each state have a fact other than `true` or `false`?
    fn has_facts_everywhere(&self, game: &Game) -> bool {
        let facts = self.facts.iter().filter(|&&fact| !matches!(game.kind(fact), Kind::False | Kind::True));
        let states: BTreeSet<usize> = facts.map(|&fact| game.state(fact)).collect();
        self.states.iter().all(|state| states.contains(state))
    }
}

/// The part of the game in which the one who explains has nothing to choose.
pub struct Regions {
    graph: Graph,
    facts: Vec<Vec<Position>>,
    /// From which positions is there no choice ahead?
    proved: Vec<bool>,
}

impl Regions {
    pub fn of(game: &Game) -> Regions {
        let mut regions = Regions {
            graph: vec![Vec::new(); game.positions()],
            facts: vec![Vec::new(); game.positions()],
            proved: Vec::new(),
        };
        let mut choices = Vec::new();
        for position in (0..game.positions()).filter(|&position| game.is_so(position)) {
            match next(game, position) {
                Next::On { to, facts } => {
                    regions.graph[position] = to;
                    regions.facts[position] = facts;
                }
                Next::Choice => choices.push(position),
            }
        }
        let backward = reversed(&regions.graph);
        let reaches_choice = all_reached(&backward, choices);
        regions.proved = (0..game.positions()).map(|at| game.is_so(at) && !reaches_choice[at]).collect();
        regions
    }

    /// Does all that can come show a position? Not where that would only lead on to a single fact, for then it is that fact
    /// that is to be shown, in its own state.
    pub fn proves(&self, position: Position) -> bool {
        self.proved[position] && !self.leads_on(position)
    }

    /// Does it show a position by a fact in each state?
    pub fn tell_by_facts(&self, game: &Game, position: Position) -> bool {
        self.proves(position) && self.from(game, position).has_facts_everywhere(game)
    }

    /// Is a single fact all that counts: a side that is taken, or a closed part behind the only step?
    fn leads_on(&self, position: Position) -> bool {
        let mut at = position;
        for _ in 0..self.graph.len() {
            match (self.graph[at].as_slice(), self.facts[at].as_slice()) {
                ([], [_]) => return true,
                ([way], []) if way.step.is_none() => at = way.to,
                _ => return false,
            }
        }
        false
    }

    /// What can come from a position, in the order of the states' numbers.
    pub fn from(&self, game: &Game, position: Position) -> Region {
        let order = shortest(&self.graph, position, &(0..game.positions()), usize::MAX).order;
        let states: BTreeSet<usize> = order.iter().map(|&at| game.state(at)).collect();
        let facts: BTreeSet<Position> = order.iter().flat_map(|&at| self.facts[at].iter().copied()).collect();
        Region { states: states.into_iter().collect(), facts: facts.into_iter().collect() }
    }
}

fn next(game: &Game, position: Position) -> Next {
    match game.kind(position) {
        Kind::False | Kind::True => Next::On { to: Vec::new(), facts: vec![position] },
        Kind::Variable(binder) => only(game.position(binder, game.state(position))),
        Kind::Mu | Kind::Nu => only(position + game.model.states),
        Kind::And | Kind::Or if game.chooses(position) => own_sides(game, position),
        _ if game.chooses(position) => Next::Choice,
        Kind::And | Kind::Or => parted(game, game.operands(position).into_iter().map(Way::on).collect()),
        Kind::Box(_) | Kind::Diamond(_) => parted(game, game.targets(position)),
    }
}

fn only(to: Position) -> Next {
    Next::On { to: vec![Way::on(to)], facts: Vec::new() }
}

/// All ways have to be shown: closed parts are facts, the others go on.
fn parted(game: &Game, ways: Vec<Way>) -> Next {
    let (closed, to): (Vec<Way>, Vec<Way>) = ways.into_iter().partition(|way| game.is_closed(way.to));
    Next::On { to, facts: closed.into_iter().map(|way| way.to).collect() }
}

/// One side is enough. There is nothing to choose if one of the two is closed: it is taken if it is a fact.
fn own_sides(game: &Game, position: Position) -> Next {
    let (closed, open): (Vec<_>, Vec<_>) = game.operands(position).into_iter().partition(|&side| game.is_closed(side));
    match (closed.into_iter().find(|&side| game.is_so(side)), open.as_slice()) {
        (Some(fact), _) => Next::On { to: Vec::new(), facts: vec![fact] },
        (None, &[to]) => only(to),
        _ => Next::Choice,
    }
}

/// Which positions are reached from some of these?
fn all_reached(graph: &Graph, mut waiting: Vec<Position>) -> Vec<bool> {
    let mut reached = vec![false; graph.len()];
    while let Some(position) = waiting.pop() {
        if !std::mem::replace(&mut reached[position], true) {
            waiting.extend(graph[position].iter().map(|way| way.to));
        }
    }
    reached
}
