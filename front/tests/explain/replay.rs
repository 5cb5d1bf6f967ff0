//! Replays an explanation by the rules of the game, written anew: each step exists and the steps connect, each claim is
//! true by a run of its own, the run is one that the other cannot leave, and its end is an end.
//!
//! Which parts a run passes is not printed, so the replay follows all of them at once.

use crate::region;
use crate::rules::{accepted, at_once, by_step, is_settled, others_choice, right_binder, Thread};
use crate::truth::{is_closed, Truths};
use bithrowy_front::explain::{Claim, Ending, Explanation, Step};
use bithrowy_tests::formats::*;
use std::collections::BTreeSet;

pub struct Replay<'a> {
    case: &'a Case,
    truths: Truths<'a>,
    /// How many claims there were, and how many of them were found true by a run of their own.
    pub claims: usize,
    pub confirmed: usize,
}

impl<'a> Replay<'a> {
    pub fn of(case: &'a Case) -> Replay<'a> {
        Replay { case, truths: Truths::of(case), claims: 0, confirmed: 0 }
    }

    /// Goes through an explanation; an error says what is wrong in it.
    pub fn check(&mut self, explanation: &Explanation) -> Result<(), String> {
        let Explanation { claim, run, end, beside, ending } = explanation;
        self.claims([claim, end].into_iter().chain(beside))?;
        let reached = self.follow(*claim, run, explanation)?;
        ensure(reached.state == end.state, "the run ends in another state")?;
        ensure(reached.threads.iter().any(|thread| thread.0 == end.node), "the run does not lead to that part")?;
        ensure(beside.iter().all(|fact| is_settled(self.case, fact)), "a side that is no fact")?;
        self.ending(explanation, ending)
    }

    fn claims<'c>(&mut self, claims: impl Iterator<Item = &'c Claim>) -> Result<(), String> {
        for claim in claims {
            self.claims += 1;
            if let Some(holds) = self.truths.holds(claim.node, claim.state) {
                ensure(holds == claim.holds, &format!("{claim:?} is not so"))?;
                self.confirmed += 1;
            }
        }
        Ok(())
    }

    fn ending(&mut self, explanation: &Explanation, ending: &Ending) -> Result<(), String> {
        let end = &explanation.end;
        let (node, case) = (self.case.formula[end.node], self.case);
        let accepted = || accepted(case, end.node, end.state);
        match ending {
            Ending::Constant => {
                ensure(node.kind == if end.holds { formula::TRUE } else { formula::FALSE }, "no constant")
            }
            Ending::NoTransition => {
                ensure(others_choice(case, end) && formula::is_modal(node.kind), "no modality of the other")?;
                ensure(accepted().is_empty(), "there is a transition")
            }
            Ending::Each(steps) => self.each(end, steps),
            Ending::Sides(sides) => self.sides(end, sides),
            Ending::Loop { steps, binder } => self.turn(explanation, steps, *binder),
            Ending::Closed { states, parts } => {
                self.claims(parts.iter())?;
                region::check(case, end, states, parts)
            }
            Ending::NoSingleRun => self.several(end),
        }
    }

    /// All distinct transitions that are accepted, to a closed part.
    fn each(&mut self, end: &Claim, steps: &[Step]) -> Result<(), String> {
        let case = self.case;
        ensure(others_choice(case, end), "no choice of the other")?;
        ensure(is_closed(case, end.node + 1), "the operand is open")?;
        let listed: BTreeSet<Transition> = steps.iter().map(|&step| case.transitions[step]).collect();
        ensure(listed.len() == steps.len(), "a copy is listed")?;
        ensure(listed == accepted(case, end.node, end.state), "other transitions")?;
        let claims: Vec<Claim> =
            listed.iter().map(|t| Claim { node: end.node + 1, state: t.target, holds: end.holds }).collect();
        self.claims(claims.iter())
    }

    /// Both operands, closed, each explained in the same state.
    fn sides(&mut self, end: &Claim, sides: &[Explanation]) -> Result<(), String> {
        ensure(others_choice(self.case, end), "no choice of the other")?;
        let operands = operands_of(&self.case.formula, end.node, formula::operands);
        ensure(sides.len() == 2 && operands.len() == 2, "not two sides")?;
        for (side, operand) in sides.iter().zip(operands) {
            ensure(side.claim == Claim { node: operand, ..*end }, "not that side")?;
            ensure(is_closed(self.case, operand), "an open side")?;
            self.check(side)?;
        }
        Ok(())
    }

    /// Back to the same part and state, by a binder of the right kind and none further out.
    fn turn(&mut self, explanation: &Explanation, steps: &[Step], binder: usize) -> Result<(), String> {
        let end = &explanation.end;
        ensure(right_binder(self.case, binder, end.holds), "a loop of the wrong binder")?;
        let reached = self.follow(*end, steps, explanation)?;
        ensure(reached.state == end.state, "the loop does not come back")?;
        ensure(reached.moved.contains(&(end.node, Some(binder))), "no loop by that binder")
    }

    /// A choice of the other between more than one open part.
    fn several(&self, end: &Claim) -> Result<(), String> {
        let case = self.case;
        ensure(others_choice(case, end), "no choice of the other")?;
        if formula::is_modal(case.formula[end.node].kind) {
            let targets: BTreeSet<usize> = accepted(case, end.node, end.state).iter().map(|t| t.target).collect();
            ensure(targets.len() > 1 && !is_closed(case, end.node + 1), "a single way")
        } else {
            let mut operands = operands_of(&case.formula, end.node, formula::operands).into_iter();
            ensure(operands.all(|node| !is_settled(case, &Claim { node, ..*end })), "a side that is a fact")
        }
    }

    /// Follows all parts that a run may be at, from one part on. At the end only those count that have moved.
    fn follow(&self, from: Claim, steps: &[Step], explanation: &Explanation) -> Result<End, String> {
        let (case, holds) = (self.case, explanation.claim.holds);
        let mut facts = |node: usize, state: usize| {
            let constant = case.formula[node].kind == if holds { formula::TRUE } else { formula::FALSE };
            constant || explanation.beside.contains(&Claim { node, state, holds })
        };
        let mut state = from.state;
        let start = BTreeSet::from([(from.node, None)]);
        let (mut threads, mut moved) = at_once(case, holds, &start, state, &mut facts);
        for &step in steps {
            let transition = *case.transitions.get(step).ok_or("a step that does not exist")?;
            ensure(transition.source == state, "steps that do not connect")?;
            state = transition.target;
            let reached = by_step(case, holds, &threads, transition);
            (threads, moved) = at_once(case, holds, &reached, state, &mut facts);
            moved.extend(reached);
        }
        Ok(End { state, threads, moved })
    }
}

/// Where a run ends: the parts that it may be at, and those of them that it is at after at least one move.
struct End {
    state: usize,
    threads: BTreeSet<Thread>,
    moved: BTreeSet<Thread>,
}

pub fn ensure(so: bool, what: &str) -> Result<(), String> {
    if so {
        Ok(())
    } else {
        Err(what.to_string())
    }
}
