//! The words for states and transitions.

use super::{Ending, Explanation, Step};
use crate::amount;
use crate::check::Checked;
use crate::model::Model;
use crate::table::{Kind, Table};

/// How many things a list names before it says how many more there are.
const LISTED: usize = 8;

/// The first things of a list, and how many more there are.
pub fn listed(things: impl IntoIterator<Item = String>) -> String {
    amount::listed(things, LISTED)
}

/// What is spoken of.
pub struct Words<'a> {
    pub(super) model: &'a Model,
    pub(super) table: &'a Table,
    pub(super) values: &'a [Vec<bool>],
    reached: &'a [bool],
    /// For each state the distinct transitions that leave it.
    leaving: Vec<Vec<Step>>,
}

impl<'a> Words<'a> {
    pub fn new(model: &'a Model, checked: &'a Checked) -> Words<'a> {
        let Checked { table, values, reached, .. } = checked;
        Words { model, table, values, reached, leaving: model.leaving() }
    }

    pub fn kind(&self, node: usize) -> Kind {
        self.table.nodes[node].kind
    }

    pub fn operands(&self, node: usize) -> Vec<usize> {
        self.table.operands(node)
    }

    pub fn state(&self, state: usize) -> String {
        self.model.state(state)
    }

    pub fn states(&self, states: &[usize]) -> String {
        listed(states.iter().map(|&state| self.state(state)))
    }

    /// Are these all the states that can be reached?
    pub fn are_all_reached(&self, states: &[usize]) -> bool {
        let count = self.reached.iter().filter(|&&reached| reached).count();
        states.len() == count && states.iter().all(|&state| self.reached.get(state) == Some(&true))
    }

    /// The distinct transitions that leave a state.
    pub fn leaving(&self, state: usize) -> Vec<Step> {
        self.leaving.get(state).cloned().unwrap_or_default()
    }

    pub fn target(&self, step: Step) -> usize {
        self.model.transitions[step].target
    }

    fn label(&self, step: Step) -> String {
        self.model.labels[self.model.transitions[step].label].quoted()
    }

    /// `open -- click --> closing`.
    pub fn step(&self, step: Step) -> String {
        let source = self.state(self.model.transitions[step].source);
        format!("{source} -- {} --> {}", self.label(step), self.state(self.target(step)))
    }

    /// `click to closing`.
    pub fn label_and_target(&self, step: Step) -> String {
        format!("{} to {}", self.label(step), self.state(self.target(step)))
    }

    /// The labels of the transitions from a state, each once.
    pub fn labels_from(&self, state: usize) -> Vec<String> {
        let mut labels: Vec<String> = self.leaving(state).into_iter().map(|step| self.label(step)).collect();
        labels.sort_unstable();
        labels.dedup();
        labels
    }

    /// Does each state of a run, loop included, have no other transition than the run's? And does it go on as long as it
    /// can?
    pub fn is_only_run(&self, explanation: &Explanation) -> bool {
        let turn = match &explanation.ending {
            Ending::Loop { steps, .. } if !steps.is_empty() => steps.as_slice(),
            Ending::NoTransition if self.leaving(explanation.end.state).is_empty() => &[],
            _ => return false,
        };
        let only = |&step: &Step| self.leaving(self.model.transitions[step].source).len() == 1;
        explanation.run.iter().chain(turn).all(only)
    }

    /// The action formula of a modality.
    pub fn action(&self, node: usize) -> Option<usize> {
        match self.kind(node) {
            Kind::Box(action) | Kind::Diamond(action) => Some(action),
            _ => None,
        }
    }

    pub fn action_words(&self, action: usize) -> String {
        self.table.action_text(action)
    }

    /// The text of a modality's action formula.
    pub fn action_text(&self, node: usize) -> String {
        self.action(node).map_or(String::new(), |action| self.action_words(action))
    }

    pub fn accepts(&self, action: usize, step: Step) -> bool {
        self.table.accepts(action, &self.model.labels[self.model.transitions[step].label])
    }

    /// The distinct transitions from a state that an action formula accepts.
    pub fn accepted_from(&self, state: usize, action: usize) -> Vec<Step> {
        self.leaving(state).into_iter().filter(|&step| self.accepts(action, step)).collect()
    }
}
