//! What a formula means and what solves an equation file, without rounds: by a parity game, and for tiny ones literally
//! as the paper says, trying all sets of states.

use crate::formats::*;
use crate::game::{Game, Player, NEUTRAL};
use crate::names::alike;

/// Does the action formula at a node of a case accept a label?
pub fn accepts(case: &Case, at: usize, label: usize) -> bool {
    let operand = |i: usize| accepts(case, operands_of(&case.actions, at, action::operands)[i], label);
    match case.actions[at].kind {
        action::FALSE => false,
        action::TRUE => true,
        action::LABEL => alike(&case.labels, case.actions[at].argument, label),
        action::NOT => !operand(0),
        action::AND => operand(0) && operand(1),
        action::OR => operand(0) || operand(1),
        action::IMPLIES => !operand(0) || operand(1),
        kind => unreachable!("action kind {kind}"),
    }
}

/// The labels that a modal node's action formula accepts.
pub fn accepted_labels(case: &Case, at: usize) -> Vec<bool> {
    (0..case.labels.count()).map(|label| accepts(case, case.formula[at].argument, label)).collect()
}

/// The accepted labels of each modal node; an empty list for other nodes.
pub fn accepted_by_node(case: &Case) -> Vec<Vec<bool>> {
    let modal = |i: usize| formula::is_modal(case.formula[i].kind);
    (0..case.formula.len()).map(|i| if modal(i) { accepted_labels(case, i) } else { Vec::new() }).collect()
}

/// The least priority of the right parity (even for nu, odd for mu) that is not below another.
fn priority_from(greatest: bool, outer: usize) -> usize {
    outer + (outer % 2 != !greatest as usize) as usize
}

/// The formula's set of states by a parity game on pairs of node and state.
pub fn states_by_game(case: &Case) -> Vec<bool> {
    let n = case.states;
    let mut game = Game::new(case.formula.len() * n);
    add_subtree(case, 0, 0, &mut game);
    game.won_by_even()[..n].to_vec()
}

/// Adds the positions of a subtree; an outer binder's priority is handed down.
fn add_subtree(case: &Case, at: usize, outer: usize, game: &mut Game) {
    let n = case.states;
    let kind = case.formula[at].kind;
    let operands = operands_of(&case.formula, at, formula::operands);
    let position = |i: usize, s: usize| i * n + s;
    let mut inner = outer;
    match kind {
        formula::BOX | formula::DIAMOND => {
            let accepted = accepted_labels(case, at);
            let mut moves = vec![Vec::new(); n];
            for t in case.transitions.iter().filter(|t| accepted[t.label]) {
                moves[t.source].push(position(at + 1, t.target));
            }
            let owner = if kind == formula::BOX { Player::Odd } else { Player::Even };
            for (s, to) in moves.iter().enumerate() {
                game.set(position(at, s), owner, NEUTRAL, to);
            }
        }
        _ => {
            let (owner, to) = match kind {
                formula::TRUE | formula::AND => (Player::Odd, operands.clone()),
                formula::VARIABLE => (Player::Odd, vec![case.formula[at].argument]),
                _ => (Player::Even, operands.clone()),
            };
            let mut priority = NEUTRAL;
            if formula::is_binder(kind) {
                inner = priority_from(kind == formula::NU, outer);
                priority = inner;
            }
            for s in 0..n {
                let to: Vec<usize> = to.iter().map(|&i| position(i, s)).collect();
                game.set(position(at, s), owner, priority, &to);
            }
        }
    }
    for operand in operands {
        add_subtree(case, operand, inner, game);
    }
}

/// The values of all cells under the standard solution, and the blocks' sets, by a parity game on cells.
pub fn solution_by_game(equations: &Equations) -> (Vec<bool>, Vec<Vec<bool>>) {
    let (n, c) = (equations.states, equations.cells.len());
    let mut game = Game::new(c + equations.blocks.len() * n);
    for (i, cell) in equations.cells.iter().enumerate() {
        match cell {
            Cell::And(list) => game.set(i, Player::Odd, NEUTRAL, list),
            Cell::Or(list) => game.set(i, Player::Even, NEUTRAL, list),
            Cell::Variable { block, state } => game.set(i, Player::Odd, NEUTRAL, &[c + block * n + state]),
        }
    }
    let mut priority = 0;
    for (k, block) in equations.blocks.iter().enumerate() {
        priority = priority_from(block.greatest, priority);
        for s in 0..n {
            game.set(c + k * n + s, Player::Odd, priority, &[block.first + s]);
        }
    }
    let won = game.won_by_even();
    let sets = (0..equations.blocks.len()).map(|k| won[c + k * n..c + (k + 1) * n].to_vec()).collect();
    (won[..c].to_vec(), sets)
}

/// A set of few states as bits.
type Bits = u32;

/// How many sets of states a brute-force search may try, all nestings multiplied.
const MOST_TRIED: u64 = 600;

/// Is a nesting of this depth small enough to try all sets?
fn tiny(states: usize, depth: usize) -> bool {
    states <= 3 && (1u64 << states).checked_pow(depth as u32).is_some_and(|tried| tried <= MOST_TRIED)
}

/// The least or greatest of the sets equal to their image.
fn extreme(states: usize, greatest: bool, image: &mut dyn FnMut(Bits) -> Bits) -> Bits {
    let equal: Vec<Bits> = (0..1 << states).filter(|&v| image(v) == v).collect();
    let below = |v: Bits, w: Bits| v & !w == 0;
    let best = |v: Bits| equal.iter().all(|&w| if greatest { below(w, v) } else { below(v, w) });
    equal.iter().copied().find(|&v| best(v)).expect("a monotone image has such a set")
}

fn to_states(set: Bits, states: usize) -> Vec<bool> {
    (0..states).map(|s| set >> s & 1 == 1).collect()
}

/// The formula's set of states by trying all sets for each binder; none if there are too many.
pub fn states_by_search(case: &Case) -> Option<Vec<bool>> {
    tiny(case.states, binder_depth(case, 0)).then(|| {
        let held = vec![0; case.formula.len()];
        let accepted = accepted_by_node(case);
        to_states(Search { case, accepted, held }.set(0), case.states)
    })
}

/// How deep binders are nested at a node.
fn binder_depth(case: &Case, at: usize) -> usize {
    let inner = operands_of(&case.formula, at, formula::operands).into_iter().map(|i| binder_depth(case, i)).max();
    inner.unwrap_or(0) + formula::is_binder(case.formula[at].kind) as usize
}

struct Search<'a> {
    case: &'a Case,
    accepted: Vec<Vec<bool>>,
    /// The set that stands for each binder, by its node number.
    held: Vec<Bits>,
}

impl Search<'_> {
    /// The set of a node, with the sets of the binders around it held.
    fn set(&mut self, at: usize) -> Bits {
        let n = self.case.states;
        let kind = self.case.formula[at].kind;
        let operands = operands_of(&self.case.formula, at, formula::operands);
        match kind {
            formula::FALSE => 0,
            formula::TRUE => (1 << n) - 1,
            formula::AND => self.set(operands[0]) & self.set(operands[1]),
            formula::OR => self.set(operands[0]) | self.set(operands[1]),
            formula::BOX | formula::DIAMOND => {
                let operand = self.set(operands[0]);
                (0..n).map(|s| (self.modal(at, s, operand) as Bits) << s).sum()
            }
            formula::VARIABLE => self.held[self.case.formula[at].argument],
            _ => extreme(n, kind == formula::NU, &mut |v| {
                self.held[at] = v;
                self.set(operands[0])
            }),
        }
    }

    /// Does a box or diamond hold in a state, given its operand's set?
    fn modal(&self, at: usize, state: usize, operand: Bits) -> bool {
        let leaving = self.case.transitions.iter().filter(|t| t.source == state && self.accepted[at][t.label]);
        let mut inside = leaving.map(|t| operand >> t.target & 1 == 1);
        if self.case.formula[at].kind == formula::BOX {
            inside.all(|x| x)
        } else {
            inside.any(|x| x)
        }
    }
}

/// The values of all cells under the standard solution by trying all sets for each block; none if there are too many.
pub fn solution_by_search(equations: &Equations) -> Option<(Vec<bool>, Vec<Vec<bool>>)> {
    tiny(equations.states, equations.blocks.len()).then(|| {
        let sets = search_from(equations, 0, &vec![0; equations.blocks.len()]);
        let sets: Vec<Vec<bool>> = sets.into_iter().map(|set| to_states(set, equations.states)).collect();
        (cell_values(equations, &sets), sets)
    })
}

/// The standard solution from a block on, with the sets of the blocks before it held.
fn search_from(equations: &Equations, k: usize, held: &[Bits]) -> Vec<Bits> {
    if k == equations.blocks.len() {
        return held.to_vec();
    }
    let n = equations.states;
    let with = |v: Bits| {
        let mut held = held.to_vec();
        held[k] = v;
        search_from(equations, k + 1, &held)
    };
    let set = extreme(n, equations.blocks[k].greatest, &mut |v| {
        let sets: Vec<Vec<bool>> = with(v).into_iter().map(|set| to_states(set, n)).collect();
        let values = cell_values(equations, &sets);
        (0..n).map(|s| (values[equations.blocks[k].first + s] as Bits) << s).sum()
    });
    with(set)
}

/// The values of all cells when the blocks have these sets.
pub fn cell_values(equations: &Equations, sets: &[Vec<bool>]) -> Vec<bool> {
    let mut values = vec![false; equations.cells.len()];
    for (i, cell) in equations.cells.iter().enumerate().rev() {
        values[i] = match cell {
            Cell::And(list) => list.iter().all(|&j| values[j]),
            Cell::Or(list) => list.iter().any(|&j| values[j]),
            Cell::Variable { block, state } => sets[*block][*state],
        };
    }
    values
}
