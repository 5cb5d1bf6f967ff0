//! The set of transitions that a list of calls holds, as a plain set beside the case that was opened.

use super::rules::in_range;
use crate::formats::*;
use crate::random::Random;
use std::collections::BTreeSet;

#[derive(Clone)]
pub struct Held {
    opened: Case,
    set: BTreeSet<Transition>,
}

impl Held {
    /// The set of a case, in which copies are one.
    pub fn new(opened: Case) -> Held {
        let set = opened.transitions.iter().copied().collect();
        Held { opened, set }
    }

    /// Adds a transition; answers the refusal number or 0.
    pub fn add(&mut self, t: Transition) -> u64 {
        if !in_range(&self.opened, t) {
            return 6;
        }
        if !self.set.contains(&t) && self.set.len() == TRANSITIONS {
            return 16;
        }
        self.set.insert(t);
        0
    }

    /// Drops a transition; answers the refusal number or 0.
    pub fn drop(&mut self, t: Transition) -> u64 {
        if !in_range(&self.opened, t) {
            6
        } else if self.set.remove(&t) {
            0
        } else {
            17
        }
    }

    /// The opened case with the set in the place of its transition table, each one once, in ascending order.
    pub fn case(&self) -> Case {
        Case { transitions: self.set.iter().copied().collect(), ..self.opened.clone() }
    }

    pub fn opened(&self) -> &Case {
        &self.opened
    }

    pub fn set(&self) -> &BTreeSet<Transition> {
        &self.set
    }

    /// A transition that is held, by chance.
    pub fn any(&self, random: &mut Random) -> Option<Transition> {
        let i = random.below(self.set.len().max(1));
        self.set.iter().nth(i).copied()
    }
}
