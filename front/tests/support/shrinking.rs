//! Makes a trial in which something differs small enough to read.

use super::comparison::{compare, Way};
use super::difference::Difference;
use super::systems::System;
use super::trees::{regular, state};
use super::trial::Trial;
use bithrowy_front::formula::{Regular, RegularFormula, State, StateFormula};

/// How many smaller trials are looked at, at most.
const MOST_TRIED: usize = 3_000;

/// A small trial in which the same still differs, as a text to read.
pub fn report(trial: &Trial, way: &Way, difference: Difference) -> String {
    let fails = |trial: &Trial| compare(trial, way).err().filter(|found| found.what == difference.what);
    let plain = Trial { noise: None, ..trial.clone() };
    let mut best = if fails(&plain).is_some() { plain } else { trial.clone() };
    let mut tried = 0;
    'again: while tried < MOST_TRIED {
        for next in smaller_trials(&best) {
            tried += 1;
            if fails(&next).is_some() {
                best = next;
                continue 'again;
            }
        }
        break;
    }
    let found = fails(&best).unwrap_or(difference);
    format!("{}: {}\n{}\n{}\nsilent: {}", found.what, found.how, best.aut(), best.mcf(way.grammar), best.system.silent)
}

fn smaller_trials(trial: &Trial) -> Vec<Trial> {
    let with_system = |system| Trial { system, ..trial.clone() };
    let with_formula = |formula| Trial { formula, ..trial.clone() };
    let systems = smaller_systems(&trial.system).into_iter().map(with_system);
    systems.chain(smaller_states(&trial.formula).into_iter().map(with_formula)).collect()
}

/// A transition less, or the last state less if nothing is there.
fn smaller_systems(system: &System) -> Vec<System> {
    let mut all = Vec::new();
    let last = system.states - 1;
    if last > 0 && system.initial < last && system.transitions.iter().all(|t| t.0 < last && t.2 < last) {
        all.push(System { states: last, ..system.clone() });
    }
    for gone in 0..system.transitions.len() {
        let mut next = system.clone();
        next.transitions.remove(gone);
        all.push(next);
    }
    all
}

/// Formulas with an operand in place of the whole, or with a smaller part.
fn smaller_states(formula: &StateFormula) -> Vec<StateFormula> {
    let wrap = |build: &dyn Fn(Box<StateFormula>) -> State, a: &StateFormula| -> Vec<StateFormula> {
        smaller_states(a).into_iter().map(|a| state(build(Box::new(a)))).collect()
    };
    let pair = |build: fn(Box<StateFormula>, Box<StateFormula>) -> State, a: &StateFormula, b: &StateFormula| {
        let left = wrap(&|a| build(a, Box::new(b.clone())), a);
        let right = wrap(&|b| build(Box::new(a.clone()), b), b);
        [vec![a.clone(), b.clone()], left, right].concat()
    };
    let modal = |build: fn(RegularFormula, Box<StateFormula>) -> State, r: &RegularFormula, a: &StateFormula| {
        let runs = smaller_runs(r).into_iter().map(|r| state(build(r, Box::new(a.clone())))).collect();
        [vec![a.clone()], runs, wrap(&|a| build(r.clone(), a), a)].concat()
    };
    match &formula.kind {
        State::False | State::True => Vec::new(),
        State::Variable(_) => vec![state(State::True), state(State::False)],
        State::Not(a) => [vec![(**a).clone()], wrap(&State::Not, a)].concat(),
        State::And(a, b) => pair(State::And, a, b),
        State::Or(a, b) => pair(State::Or, a, b),
        State::Implies(a, b) => pair(State::Implies, a, b),
        State::Must(r, a) => modal(State::Must, r, a),
        State::May(r, a) => modal(State::May, r, a),
        State::Mu(name, a) => [vec![(**a).clone()], wrap(&|a| State::Mu(name.clone(), a), a)].concat(),
        State::Nu(name, a) => [vec![(**a).clone()], wrap(&|a| State::Nu(name.clone(), a), a)].concat(),
    }
}

/// Regular formulas with an operand in place of the whole, or with a smaller part.
fn smaller_runs(run: &RegularFormula) -> Vec<RegularFormula> {
    let wrap = |build: &dyn Fn(Box<RegularFormula>) -> Regular, r: &RegularFormula| -> Vec<RegularFormula> {
        smaller_runs(r).into_iter().map(|r| regular(build(Box::new(r)))).collect()
    };
    let pair =
        |build: fn(Box<RegularFormula>, Box<RegularFormula>) -> Regular, r: &RegularFormula, s: &RegularFormula| {
            let left = wrap(&|r| build(r, Box::new(s.clone())), r);
            let right = wrap(&|s| build(Box::new(r.clone()), s), s);
            [vec![r.clone(), s.clone()], left, right].concat()
        };
    match &run.kind {
        Regular::Step(_) => Vec::new(),
        Regular::Sequence(r, s) => pair(Regular::Sequence, r, s),
        Regular::Choice(r, s) => pair(Regular::Choice, r, s),
        Regular::Star(r) => [vec![(**r).clone()], wrap(&Regular::Star, r)].concat(),
        Regular::Plus(r) => [vec![(**r).clone()], wrap(&Regular::Plus, r)].concat(),
    }
}
