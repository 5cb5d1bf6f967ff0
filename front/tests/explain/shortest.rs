//! The shortest runs and lassos by trying all runs, the short ones first.

use crate::rules::{accepted, at_once, by_step, others_choice, right_binder, Thread};
use crate::truth::{is_closed, Truths};
use bithrowy_front::explain::{Claim, Ending, Explanation, Step};
use bithrowy_tests::formats::*;
use std::collections::BTreeSet;

/// A run with the parts that it may be at, before it and after each of its steps.
#[derive(Clone)]
struct Run {
    steps: Vec<Step>,
    states: Vec<usize>,
    threads: Vec<BTreeSet<Thread>>,
}

pub struct Trial<'a> {
    case: &'a Case,
    claim: Claim,
    truths: Truths<'a>,
    /// All runs of each number of steps.
    runs: Vec<Vec<Run>>,
}

impl<'a> Trial<'a> {
    /// All runs from a claim of at most so many steps.
    pub fn of(case: &'a Case, claim: Claim, most: usize) -> Trial<'a> {
        let mut trial = Trial { case, claim, truths: Truths::of(case), runs: Vec::new() };
        let start = trial.closure(&BTreeSet::from([(claim.node, None)]), claim.state).0;
        trial.runs.push(vec![Run { steps: Vec::new(), states: vec![claim.state], threads: vec![start] }]);
        for length in 0..most {
            let runs = trial.runs[length].clone();
            let longer = runs.iter().flat_map(|run| trial.longer(run)).collect();
            trial.runs.push(longer);
        }
        trial
    }

    /// All parts reached without a step, and those by at least one move. Settled sides are facts if they are true.
    fn closure(&mut self, threads: &BTreeSet<Thread>, state: usize) -> (BTreeSet<Thread>, BTreeSet<Thread>) {
        let (truths, holds) = (&mut self.truths, self.claim.holds);
        let mut facts = |node: usize, state: usize| truths.holds(node, state) == Some(holds);
        at_once(self.case, holds, threads, state, &mut facts)
    }

    fn step(&mut self, threads: &BTreeSet<Thread>, step: Step) -> (BTreeSet<Thread>, BTreeSet<Thread>) {
        let transition = self.case.transitions[step];
        let reached = by_step(self.case, self.claim.holds, threads, transition);
        let (all, mut moved) = self.closure(&reached, transition.target);
        moved.extend(reached);
        (all, moved)
    }

    /// A run with one more step, in all ways.
    fn longer(&mut self, run: &Run) -> Vec<Run> {
        let last = run.states[run.steps.len()];
        let mut all = Vec::new();
        for step in (0..self.case.transitions.len()).filter(|&step| self.case.transitions[step].source == last) {
            let threads = self.step(&run.threads[run.steps.len()], step).0;
            if !threads.is_empty() {
                let mut longer = run.clone();
                longer.steps.push(step);
                longer.states.push(self.case.transitions[step].target);
                longer.threads.push(threads);
                all.push(longer);
            }
        }
        all
    }

    /// The fewest steps to a part where only facts are left.
    pub fn steps_to_an_end(&mut self) -> Option<usize> {
        (0..self.runs.len()).find(|&length| {
            let runs = self.runs[length].clone();
            runs.iter().any(|run| {
                let state = run.states[length];
                run.threads[length].iter().any(|&(node, _)| self.is_end(node, state))
            })
        })
    }

    fn is_end(&mut self, node: usize, state: usize) -> bool {
        let (case, holds) = (self.case, self.claim.holds);
        let others = others_choice(case, &Claim { node, state, holds });
        let facts = match case.formula[node].kind {
            formula::FALSE => return !holds,
            formula::TRUE => return holds,
            formula::AND | formula::OR if others => {
                operands_of(&case.formula, node, formula::operands).into_iter().map(|node| (node, state)).collect()
            }
            formula::BOX | formula::DIAMOND if others => {
                let facts: BTreeSet<_> = accepted(case, node, state).iter().map(|t| (node + 1, t.target)).collect();
                // By a single way the run goes on.
                if facts.len() == 1 {
                    return false;
                }
                facts
            }
            _ => return false,
        };
        facts.into_iter().all(|(node, state)| is_closed(case, node) && self.truths.holds(node, state) == Some(holds))
    }

    /// A lasso of fewest steps with an outermost binder of the right kind, or of the wrong one.
    pub fn lasso(&mut self, right: bool) -> Option<Explanation> {
        let runs: Vec<Run> = self.runs.concat();
        runs.iter().find_map(|run| (0..=run.steps.len()).find_map(|split| self.lasso_of(run, split, right)))
    }

    /// The run up to a place, and the rest of it as a loop, if it is one.
    fn lasso_of(&mut self, run: &Run, split: usize, right: bool) -> Option<Explanation> {
        let state = run.states[split];
        if run.states[run.steps.len()] != state {
            return None;
        }
        let nodes: BTreeSet<usize> = run.threads[split].iter().map(|thread| thread.0).collect();
        nodes.into_iter().find_map(|node| {
            let binder = self.binder_of_loop(node, state, &run.steps[split..], right)?;
            Some(Explanation {
                claim: self.claim,
                run: run.steps[..split].to_vec(),
                end: Claim { node, state, ..self.claim },
                beside: Vec::new(),
                ending: Ending::Loop { steps: run.steps[split..].to_vec(), binder },
            })
        })
    }

    /// The outermost binder that a loop passes, if there is one of the right (or wrong) kind.
    fn binder_of_loop(&mut self, node: usize, state: usize, steps: &[Step], right: bool) -> Option<usize> {
        let (mut threads, mut moved) = self.closure(&BTreeSet::from([(node, None)]), state);
        for &step in steps {
            (threads, moved) = self.step(&threads, step);
        }
        let binders = moved.into_iter().filter(|thread| thread.0 == node).filter_map(|thread| thread.1);
        binders.into_iter().find(|&binder| right_binder(self.case, binder, self.claim.holds) == right)
    }
}

/// How many steps an explanation prints, loops included.
pub fn printed_steps(explanation: &Explanation) -> usize {
    let turn = match &explanation.ending {
        Ending::Loop { steps, .. } => steps.len(),
        _ => 0,
    };
    explanation.run.len() + turn
}
