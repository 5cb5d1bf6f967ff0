//! What both drawings show: the states with their marks, and one edge for all transitions between the same two states.

use crate::amount::of;
use crate::check::Checked;
use crate::limits;
use crate::model::Model;
use std::collections::{BTreeMap, BTreeSet};

pub(super) struct Graph {
    pub states: Vec<State>,
    /// None if the initial state is not drawn.
    pub initial: Option<usize>,
    /// In order of their states.
    pub edges: Vec<Edge>,
    /// What the marks mean, and what is left out.
    pub notes: Vec<String>,
}

pub(super) struct State {
    pub name: String,
    /// Does the formula hold here? None without an answer.
    pub holds: Option<bool>,
    pub reached: bool,
}

pub(super) struct Edge {
    pub source: usize,
    pub target: usize,
    /// The labels of its transitions, each once, in the model's order.
    pub labels: Vec<String>,
}

/// The tick and the cross that stand for "holds" and "fails".
pub(super) fn mark(holds: bool) -> &'static str {
    if holds {
        "✓"
    } else {
        "✗"
    }
}

impl Graph {
    /// Draws no more states than the checker takes; what is left out is noted.
    pub fn new(model: &Model, answer: Option<&Checked>) -> Graph {
        let count = model.states.min(limits::STATES);
        let reached = model.reachable();
        let state = |s: usize| State {
            name: model.state(s),
            holds: answer.and_then(|answer| answer.holds.get(s).copied()),
            reached: reached.get(s).copied().unwrap_or(false),
        };
        let states: Vec<State> = (0..count).map(state).collect();
        let notes = notes(model, &states);
        Graph { states, initial: Some(model.initial).filter(|&s| s < count), edges: edges(model, count), notes }
    }
}

/// The transitions between the first states, those between the same two together.
fn edges(model: &Model, count: usize) -> Vec<Edge> {
    let mut together: BTreeMap<(usize, usize), BTreeSet<usize>> = BTreeMap::new();
    for t in model.transitions.iter().filter(|t| t.source < count && t.target < count) {
        together.entry((t.source, t.target)).or_default().insert(t.label);
    }
    let text = |label: usize| model.labels.get(label).map_or_else(String::new, |label| label.text.clone());
    let edge = |((source, target), labels): ((usize, usize), BTreeSet<usize>)| Edge {
        source,
        target,
        labels: labels.into_iter().map(text).collect(),
    };
    together.into_iter().map(edge).collect()
}

/// The legend of the marks that the states have, and a word on states that are not drawn.
fn notes(model: &Model, states: &[State]) -> Vec<String> {
    let mut notes = Vec::new();
    if states.iter().any(|state| state.holds.is_some()) {
        notes.push(format!("{} holds", mark(true)));
        notes.push(format!("{} fails", mark(false)));
    }
    if states.iter().any(|state| !state.reached) {
        notes.push("dashed: cannot be reached".to_string());
    }
    if model.states > states.len() {
        notes.push(format!("{} of {} are drawn", states.len(), of(model.states, "state")));
    }
    notes
}
