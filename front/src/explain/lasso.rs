//! Runs that go round in a loop for ever, which shows that what mu asks to come never comes, or that what nu asks to last
//! lasts.

use super::cycles::on_cycles;
use super::game::{Game, Position, Way};
use super::graph::{reversed, shortest, Graph, Runs};

/// A run to a position, and a loop from there back to it.
pub struct Lasso {
    pub run: Vec<Way>,
    pub end: Position,
    pub turn: Vec<Way>,
    /// The outermost binder that the loop passes.
    pub binder: usize,
    steps: usize,
}

/// The lasso of fewest steps whose loop is decided as the one who explains wants: it passes a binder of the right kind
/// and none further out.
pub fn shortest_lasso(game: &Game, graph: &Graph, runs: &Runs) -> Option<Lasso> {
    let backward = reversed(graph);
    let mut best: Option<Lasso> = None;
    for binder in game.binders() {
        let within = game.subtree(binder);
        let cyclic = on_cycles(graph, &backward, &within);
        let turns = game.everywhere(binder).filter(|&at| cyclic[at] && runs.steps[at].is_some());
        for through in turns {
            let most = best.as_ref().map_or(usize::MAX, |lasso| lasso.steps);
            let found = lasso_through(game, graph, &backward, runs, through, most);
            best = found.filter(|lasso| lasso.steps < most).or(best);
        }
    }
    best
}

/// The lasso of fewest steps, at most so many, whose loop passes a binder in a state, and nothing outside that binder.
fn lasso_through(
    game: &Game,
    graph: &Graph,
    backward: &Graph,
    runs: &Runs,
    through: Position,
    most: usize,
) -> Option<Lasso> {
    let binder = game.node(through);
    let within = game.subtree(binder);
    let (on, back) = (shortest(graph, through, &within, most), shortest(backward, through, &within, most));
    let steps = |at: &Position| Some(runs.steps[*at]? + on.steps[*at]? + back.steps[*at]?);
    let inside = on.order.iter().copied().filter(|&at| at != through);
    let (steps, end) = inside.filter_map(|at| Some((steps(&at)?, at))).min_by_key(|(steps, _)| *steps)?;
    // A loop that may as well begin at the binder begins there, and not behind it.
    let body = *graph[through].first()?;
    if steps_equal(runs, &back, through, body, steps) {
        let turn = std::iter::once(body).chain(back.back_from(body.to)).collect();
        return Some(Lasso { run: runs.to(through), end: through, turn, binder, steps });
    }
    let turn = back.back_from(end).into_iter().chain(on.to(end)).collect();
    Some(Lasso { run: runs.to(end), end, turn, binder, steps })
}

/// Does the lasso that begins at the binder take just so many steps?
fn steps_equal(runs: &Runs, back: &Runs, through: Position, body: Way, steps: usize) -> bool {
    match (runs.steps[through], back.steps[body.to]) {
        (Some(run), Some(turn)) => run + turn == steps,
        _ => false,
    }
}
