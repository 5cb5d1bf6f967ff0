//! A model: a finite labelled transition system, with names of states for people.

use crate::label::Label;
use crate::source::{shown, Source, Span};
use std::collections::{BTreeMap, HashSet};
use std::sync::Arc;

/// A case file has 16 bits for a state: no state with a number from here on can be checked, and none is looked at.
const NUMBERED: usize = 1 << 16;

/// A record of the model: from a state, by a label (its place in the model's list), to a state.
#[derive(Clone, Copy, Debug, PartialEq, Eq)]
pub struct Transition {
    pub source: usize,
    pub label: usize,
    pub target: usize,
    /// The line that it was read from, without the blanks around it.
    pub span: Span,
}

/// A model as it was read. Numbers may be beyond the checker's limits: the library decides on those.
#[derive(Clone, Debug, PartialEq, Eq)]
pub struct Model {
    pub source: Arc<Source>,
    /// The header line, at which faults about counts point.
    pub header: Span,
    pub states: usize,
    pub initial: usize,
    /// The labels in order of first appearance, each text once.
    pub labels: Vec<Label>,
    pub transitions: Vec<Transition>,
    /// Names of states, of those that have one.
    pub names: BTreeMap<usize, String>,
    /// How the silent step is written.
    pub silent: String,
}

impl Model {
    /// A state as people read it: its name, or `state 3`. A terminal can show it as it is.
    pub fn state(&self, state: usize) -> String {
        match self.names.get(&state) {
            Some(name) => shown(name),
            None => unnamed(state),
        }
    }

    /// For each state, whether the initial state reaches it by zero or more transitions. A model whose numbers are out of
    /// range has an answer too, in which what is out of range reaches nothing and is not reached.
    pub fn reachable(&self) -> Vec<bool> {
        let leaving = self.leaving();
        let mut reached = vec![false; leaving.len()];
        let mut waiting = vec![self.initial];
        while let Some(state) = waiting.pop() {
            if let Some(place) = reached.get_mut(state).filter(|place| !**place) {
                *place = true;
                waiting.extend(leaving[state].iter().map(|&step| self.transitions[step].target));
            }
        }
        reached
    }

    /// For each state the places of the transitions that leave it, in order, without recorded copies and without those
    /// whose states are out of range.
    pub fn leaving(&self) -> Vec<Vec<usize>> {
        let mut seen = HashSet::new();
        let mut leaving = vec![Vec::new(); self.states.min(NUMBERED)];
        for (place, transition) in self.transitions.iter().enumerate() {
            let Transition { source, label, target, .. } = *transition;
            let in_range = source.max(target) < leaving.len();
            if in_range && seen.insert((source, label, target)) {
                leaving[source].push(place);
            }
        }
        leaving
    }

    /// Where a label, by its number, first stands: the line of its first transition, or the header if it has none.
    pub fn label_place(&self, number: usize) -> Span {
        let first = self.transitions.iter().find(|transition| transition.label == number);
        first.map_or(self.header, |transition| transition.span)
    }
}

/// What a state is called that has no name.
pub fn unnamed(state: usize) -> String {
    format!("state {state}")
}
