//! The rules by which a run may go on, written anew from what an explanation is: where the one who explains chooses, any
//! way; where the other chooses, only a single way, or the side beside a closed one that is a fact.

use crate::truth::is_closed;
use bithrowy_front::explain::Claim;
use bithrowy_tests::formats::*;
use bithrowy_tests::meaning::accepts;
use std::collections::BTreeSet;

/// A part that a run may be at, and the outermost binder whose variable it has passed.
pub type Thread = (usize, Option<usize>);

/// Says of a part that is settled in a state whether it may be passed by as a fact.
pub type Facts<'f> = &'f mut dyn FnMut(usize, usize) -> bool;

/// The parts that are reached from some without a step, and those that are reached by at least one move.
pub fn at_once(
    case: &Case,
    holds: bool,
    start: &BTreeSet<Thread>,
    state: usize,
    facts: Facts,
) -> (BTreeSet<Thread>, BTreeSet<Thread>) {
    let mut waiting: Vec<Thread> = start.iter().copied().collect();
    let (mut all, mut moved) = (start.clone(), BTreeSet::new());
    while let Some(thread) = waiting.pop() {
        for next in moves(case, holds, thread, state, facts) {
            if moved.insert(next) {
                all.insert(next);
                waiting.push(next);
            }
        }
    }
    (all, moved)
}

fn moves(case: &Case, holds: bool, (node, passed): Thread, state: usize, facts: Facts) -> Vec<Thread> {
    let Node { kind, argument } = case.formula[node];
    let operands = operands_of(&case.formula, node, formula::operands);
    match kind {
        formula::VARIABLE => vec![(argument, Some(passed.map_or(argument, |outer| outer.min(argument))))],
        formula::MU | formula::NU => vec![(node + 1, passed)],
        formula::AND | formula::OR if others_choice(case, &Claim { node, state, holds }) => {
            let other = |operand: usize| operands[0] + operands[1] - operand;
            let mut fact = |node: usize| is_settled(case, &Claim { node, state, holds }) && facts(node, state);
            operands.iter().filter(|&&operand| fact(other(operand))).map(|&operand| (operand, passed)).collect()
        }
        formula::AND | formula::OR => operands.into_iter().map(|operand| (operand, passed)).collect(),
        _ => Vec::new(),
    }
}

/// The parts that are reached by a transition.
pub fn by_step(case: &Case, holds: bool, threads: &BTreeSet<Thread>, transition: Transition) -> BTreeSet<Thread> {
    let goes = |node: usize| {
        let accepted = accepted(case, node, transition.source);
        let claim = Claim { node, state: transition.source, holds };
        let only = accepted.iter().all(|t| t.target == transition.target);
        accepted.contains(&transition) && (only || !others_choice(case, &claim))
    };
    let modal = threads.iter().filter(|(node, _)| formula::is_modal(case.formula[*node].kind) && goes(*node));
    modal.map(|&(node, passed)| (node + 1, passed)).collect()
}

/// The distinct transitions from a state that a modality accepts.
pub fn accepted(case: &Case, node: usize, state: usize) -> BTreeSet<Transition> {
    let action = case.formula[node].argument;
    let leaving = case.transitions.iter().copied().filter(|t| t.source == state);
    leaving.filter(|t| accepts(case, action, t.label)).collect()
}

/// Is it the other who chooses, and not the one who explains?
pub fn others_choice(case: &Case, claim: &Claim) -> bool {
    match case.formula[claim.node].kind {
        formula::AND | formula::BOX => claim.holds,
        formula::OR | formula::DIAMOND => !claim.holds,
        _ => false,
    }
}

/// Does a claim rest on nothing that a run goes on to: a closed part, or a modality of the other without a transition?
pub fn is_settled(case: &Case, claim: &Claim) -> bool {
    let is_modal = formula::is_modal(case.formula[claim.node].kind);
    let is_stuck = || is_modal && others_choice(case, claim) && accepted(case, claim.node, claim.state).is_empty();
    is_closed(case, claim.node) || is_stuck()
}

/// Is it a binder whose variable may come back for ever, for a part that holds or fails?
pub fn right_binder(case: &Case, binder: usize, holds: bool) -> bool {
    case.formula[binder].kind == if holds { formula::NU } else { formula::MU }
}
