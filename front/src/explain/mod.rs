//! Why a verdict is what it is: a run to where a part fails, a loop in which something never comes, a witness.
//!
//! For a part that fails the one who explains chooses at `&&` and `[R]`, for a part that holds at `||` and `<R>`; at the
//! other connectives all sides count. So a single run shows the verdict only where those are no choice (one side, one
//! transition), and an explanation says so where they are.

mod closed;
mod cycles;
mod game;
mod graph;
mod lasso;
mod naming;
mod parts;
mod reasons;
mod sentences;
mod words;

use crate::check::Checked;
use crate::model::Model;
use crate::table::Kind;
use closed::{Region, Regions};
use game::{Game, Position, Turn, Way};
use graph::{explore, shortest, Explored};
use lasso::{shortest_lasso, Lasso};
use std::collections::HashSet;

/// That a part holds, or fails, in a state.
#[derive(Clone, Copy, Debug, PartialEq, Eq)]
pub struct Claim {
    /// The node of the formula's table.
    pub node: usize,
    pub state: usize,
    pub holds: bool,
}

/// A transition of a run: its place in the model's list.
pub type Step = usize;

/// A run from a claim's state to a claim about a part, and what is to say about that.
#[derive(Clone, Debug, PartialEq, Eq)]
pub struct Explanation {
    pub claim: Claim,
    /// The steps from the claim's state on.
    pub run: Vec<Step>,
    /// The part that fails (holds) in the state where the run ends.
    pub end: Claim,
    /// Sides that were passed by along the run, since they fail (hold) by themselves.
    pub beside: Vec<Claim>,
    pub ending: Ending,
}

/// Why the claim at the end of a run is so.
#[derive(Clone, Debug, PartialEq, Eq)]
pub enum Ending {
    /// It says `true` or `false`.
    Constant,
    /// No transition from there is accepted: `<a>` fails, `[a]` holds.
    NoTransition,
    /// From there the run goes on by these steps back to the same state and part, again and again: what `mu` asks to come
    /// never comes, what `nu` asks to last lasts. `binder` is the outermost one that the loop goes through.
    Loop { steps: Vec<Step>, binder: usize },
    /// All sides of an `||` fail, of an `&&` hold: each is explained by itself.
    Sides(Vec<Explanation>),
    /// Each transition that is accepted leads to a state where the operand fails (holds); the operand is closed.
    Each(Vec<Step>),
    /// Whatever is done, only these states come, and in none (all) of them are the parts true: the claims, all of closed
    /// parts.
    Closed { states: Vec<usize>, parts: Vec<Claim> },
    /// It rests on choices of both players. No single run shows it, and none is given.
    NoSingleRun,
}

/// Explains the verdict at the initial state.
pub fn explain(model: &Model, checked: &Checked) -> Explanation {
    let claim = Claim { node: 0, state: model.initial, holds: checked.verdict };
    if model.initial >= model.states || checked.table.nodes.is_empty() {
        return Explanation { claim, run: Vec::new(), end: claim, beside: Vec::new(), ending: Ending::NoSingleRun };
    }
    let game = Game::new(model, checked, checked.verdict);
    explained(&game, game.position(0, model.initial))
}

/// The explanation in sentences, a line each.
pub fn lines(model: &Model, checked: &Checked, explanation: &Explanation) -> Vec<String> {
    sentences::all(model, checked, explanation)
}

/// Explains a position: by a run to an end, else by a loop, else by all that can come, else not by a single run. Where there
/// is nothing to choose and each state that can come has its fact, these tell more than a run or a loop through them.
fn explained(game: &Game, from: Position) -> Explanation {
    let Explored { turns, ways } = explore(game, from);
    let runs = shortest(&ways, from, &(0..game.positions()), usize::MAX);
    let nearest = |fits: &dyn Fn(&Turn) -> bool| {
        runs.order.iter().copied().find(|&position| turns[position].as_ref().is_some_and(fits))
    };
    let (end, regions) = (nearest(&is_end), Regions::of(game));
    let at_once = end.is_some_and(|end| runs.steps[end] == Some(0));
    if !at_once && regions.tell_by_facts(game, from) {
        return explanation(game, from, &[], from, closed(game, regions.from(game, from)));
    }
    if let Some(end) = end {
        let ending = turns[end].as_ref().map_or(Ending::NoSingleRun, |turn| ending(game, end, turn));
        return explanation(game, from, &runs.to(end), end, ending);
    }
    if let Some(lasso) = shortest_lasso(game, &ways, &runs) {
        if regions.tell_by_facts(game, lasso.end) {
            return explanation(game, from, &lasso.run, lasso.end, closed(game, regions.from(game, lasso.end)));
        }
        return in_a_loop(game, from, lasso);
    }
    if let Some(end) = runs.order.iter().copied().find(|&position| regions.proves(position)) {
        return explanation(game, from, &runs.to(end), end, closed(game, regions.from(game, end)));
    }
    let end = nearest(&|turn| matches!(turn, Turn::Several)).unwrap_or(from);
    explanation(game, from, &runs.to(end), end, Ending::NoSingleRun)
}

/// Explains a claim of a closed part.
fn explained_claim(model: &Model, checked: &Checked, claim: &Claim) -> Explanation {
    let game = Game::new(model, checked, claim.holds);
    explained(&game, game.position(claim.node, claim.state))
}

/// Is nothing left to be shown but facts?
fn is_end(turn: &Turn) -> bool {
    !matches!(turn, Turn::Ways(_) | Turn::Several)
}

/// The ending of a run to a position where only facts are left. They are explained by themselves if they are of that
/// state; a side is a smaller part, so this comes to an end.
fn ending(game: &Game, end: Position, turn: &Turn) -> Ending {
    match turn {
        Turn::Constant => Ending::Constant,
        Turn::NoTransition => Ending::NoTransition,
        Turn::Sides => Ending::Sides(game.operands(end).into_iter().map(|side| explained(game, side)).collect()),
        Turn::Each(steps) => Ending::Each(steps.clone()),
        Turn::Ways(_) | Turn::Several => Ending::NoSingleRun,
    }
}

fn in_a_loop(game: &Game, from: Position, lasso: Lasso) -> Explanation {
    let ending = Ending::Loop { steps: steps(&lasso.turn), binder: lasso.binder };
    let mut explanation = explanation(game, from, &lasso.run, lasso.end, ending);
    explanation.beside = beside(game, lasso.run.iter().chain(&lasso.turn));
    explanation
}

fn closed(game: &Game, region: Region) -> Ending {
    let parts = region.facts.into_iter().map(|fact| game.claim(fact)).collect();
    Ending::Closed { states: region.states, parts }
}

fn explanation(game: &Game, from: Position, run: &[Way], end: Position, ending: Ending) -> Explanation {
    let beside = beside(game, run.iter());
    Explanation { claim: game.claim(from), run: steps(run), end: game.claim(end), beside, ending }
}

/// The transitions of a run.
fn steps(ways: &[Way]) -> Vec<Step> {
    ways.iter().filter_map(|way| way.step).collect()
}

/// The facts beside a run, each once. What `true` and `false` say needs no mention.
fn beside<'a>(game: &Game, ways: impl Iterator<Item = &'a Way>) -> Vec<Claim> {
    let mut seen = HashSet::new();
    let facts = ways.filter_map(|way| way.beside).filter(|&fact| !matches!(game.kind(fact), Kind::False | Kind::True));
    facts.filter(|&fact| seen.insert(fact)).map(|fact| game.claim(fact)).collect()
}
