//! Whether all that can come proves a part, by rules of their own.

use crate::replay::ensure;
use crate::rules::{accepted, others_choice, right_binder};
use crate::truth::{is_closed, Truths};
use bithrowy_front::explain::Claim;
use bithrowy_tests::formats::*;
use std::collections::btree_map::{BTreeMap, Entry};
use std::collections::BTreeSet;

/// A part in a state.
type Pair = (usize, usize);

/// Where the game goes on from a pair, and the facts beside.
struct Next {
    on: BTreeSet<Pair>,
    facts: BTreeSet<Pair>,
}

/// Are these just the states that can come, these the facts, is nothing left to choose, and does no loop count against it?
pub fn check(case: &Case, end: &Claim, states: &[usize], parts: &[Claim]) -> Result<(), String> {
    let mut pairs: BTreeMap<Pair, Next> = BTreeMap::new();
    let mut waiting = vec![(end.node, end.state)];
    let mut truths = Truths::of(case);
    while let Some(pair) = waiting.pop() {
        if let Entry::Vacant(new) = pairs.entry(pair) {
            let next = new.insert(next(case, &mut truths, pair, end.holds)?);
            waiting.extend(&next.on);
        }
    }
    let came: BTreeSet<usize> = pairs.keys().map(|pair| pair.1).collect();
    ensure(states.len() == came.len() && states.iter().all(|state| came.contains(state)), "other states come")?;
    let facts: BTreeSet<Pair> = pairs.values().flat_map(|next| next.facts.iter().copied()).collect();
    let told: BTreeSet<Pair> = parts.iter().map(|part| (part.node, part.state)).collect();
    ensure(told == facts && parts.len() == facts.len(), "other facts")?;
    ensure(parts.iter().all(|part| part.holds == end.holds && is_closed(case, part.node)), "no facts")?;
    ensure(pairs.keys().all(|&pair| !comes_back_wrongly(case, &pairs, pair, end.holds)), "a loop counts against it")
}

fn next(case: &Case, truths: &mut Truths, (node, state): Pair, holds: bool) -> Result<Next, String> {
    let Node { kind, argument } = case.formula[node];
    let here = |nodes: Vec<usize>| nodes.into_iter().map(|node| (node, state)).collect::<BTreeSet<Pair>>();
    let none = BTreeSet::new();
    let operands = operands_of(&case.formula, node, formula::operands);
    let others = others_choice(case, &Claim { node, state, holds });
    match kind {
        formula::FALSE | formula::TRUE => Ok(Next { on: none, facts: here(vec![node]) }),
        formula::VARIABLE => Ok(Next { on: here(vec![argument]), facts: none }),
        formula::MU | formula::NU => Ok(Next { on: here(operands), facts: none }),
        formula::AND | formula::OR if others => Ok(parted(case, here(operands))),
        formula::BOX | formula::DIAMOND if others => {
            Ok(parted(case, accepted(case, node, state).iter().map(|t| (node + 1, t.target)).collect()))
        }
        formula::AND | formula::OR => {
            let Next { on: open, facts: closed } = parted(case, here(operands));
            let fact = closed.iter().copied().find(|&(node, state)| truths.holds(node, state) == Some(holds));
            match fact {
                Some(fact) => Ok(Next { on: none, facts: [fact].into() }),
                None if open.len() == 1 => Ok(Next { on: open, facts: none }),
                None => Err("something is left to choose".to_string()),
            }
        }
        _ => Err("a step is left to choose".to_string()),
    }
}

fn parted(case: &Case, pairs: BTreeSet<Pair>) -> Next {
    let (facts, on) = pairs.into_iter().partition(|&(node, _)| is_closed(case, node));
    Next { on, facts }
}

/// Does a binder of the wrong kind come back to itself without a binder further out?
fn comes_back_wrongly(case: &Case, pairs: &BTreeMap<Pair, Next>, pair: Pair, holds: bool) -> bool {
    let binder = pair.0;
    if !formula::is_binder(case.formula[binder].kind) || right_binder(case, binder, holds) {
        return false;
    }
    let mut seen = BTreeSet::new();
    let mut waiting = vec![pair];
    while let Some(at) = waiting.pop() {
        for &next in pairs[&at].on.iter().filter(|next| next.0 >= binder) {
            if next == pair {
                return true;
            }
            if seen.insert(next) {
                waiting.push(next);
            }
        }
    }
    false
}
