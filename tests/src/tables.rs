//! The equation file of a case, from the tables E and RHS, and how many of its records are distinct.

use crate::calls::Recorded;
use crate::formats::*;
use crate::meaning::accepted_by_node;
use std::collections::HashSet;

/// The distinct transitions in order of first appearance.
pub fn distinct(transitions: &[Transition]) -> Vec<Transition> {
    let mut seen = HashSet::new();
    transitions.iter().copied().filter(|&t| seen.insert(t)).collect()
}

/// The table's records and the distinct ones, counted by bringing equal ones together.
pub fn recorded(transitions: &[Transition]) -> Recorded {
    let mut triples: Vec<_> = transitions.iter().map(|t| (t.source, t.label, t.target)).collect();
    triples.sort_unstable();
    triples.dedup();
    Recorded { records: transitions.len() as u64, distinct: triples.len() as u64 }
}

/// The case with a root that binds: if it does not, a nu that binds nothing used stands before it.
fn with_binding_root(case: &Case) -> Case {
    let mut whole = case.clone();
    if !case.root_binds() {
        for x in whole.formula.iter_mut().filter(|x| x.kind == formula::VARIABLE) {
            x.argument += 1;
        }
        whole.formula.insert(0, node(formula::NU, 0));
    }
    whole
}

/// The equations of a case.
pub fn equations(case: &Case) -> Equations {
    equations_over(case, &distinct(&case.transitions))
}

/// The equations of a case whose distinct transitions are given.
pub fn equations_over(case: &Case, transitions: &[Transition]) -> Equations {
    let case = with_binding_root(case);
    let n = case.states;
    let binders = case.binders();
    let block_of = |binder: usize| binders.iter().position(|&i| i == binder).expect("a binder");
    let accepted = accepted_by_node(&case);
    let mut cells = Vec::new();
    for (i, x) in case.formula.iter().enumerate() {
        let operands = operands_of(&case.formula, i, formula::operands);
        let mut ends = vec![Vec::new(); n];
        if formula::is_modal(x.kind) {
            for t in transitions.iter().filter(|t| accepted[i][t.label]) {
                ends[t.source].push((i + 1) * n + t.target);
            }
        }
        for (s, ends) in ends.into_iter().enumerate() {
            let both = || operands.iter().map(|j| j * n + s).collect();
            cells.push(match x.kind {
                formula::FALSE => Cell::Or(Vec::new()),
                formula::TRUE => Cell::And(Vec::new()),
                formula::AND => Cell::And(both()),
                formula::OR => Cell::Or(both()),
                formula::BOX => Cell::And(ends),
                formula::DIAMOND => Cell::Or(ends),
                formula::VARIABLE => Cell::Variable { block: block_of(x.argument), state: s },
                _ => Cell::Variable { block: block_of(i), state: s },
            });
        }
    }
    let blocks =
        binders.iter().map(|&i| Block { greatest: case.formula[i].kind == formula::NU, first: (i + 1) * n }).collect();
    Equations { states: n, initial: case.initial, blocks, cells }
}
