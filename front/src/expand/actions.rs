//! The action table: equal action formulas stand in it once, in the order of their first use.

use crate::formula::{Action, ActionFormula, Regular, RegularFormula};
use crate::label::Label;
use crate::source::Span;
use crate::table::ActionNode;
use std::collections::HashMap;

#[derive(Default)]
pub(super) struct Actions {
    pub(super) nodes: Vec<ActionNode>,
    pub(super) labels: Vec<(Label, Span)>,
    /// Where each action formula begins.
    starts: HashMap<Vec<ActionNode>, usize>,
    /// Where each label's text stands in the list.
    places: HashMap<String, usize>,
}

impl Actions {
    /// The action node of a single step, which a choice between single steps is too.
    pub(super) fn node(&mut self, step: &RegularFormula) -> usize {
        let mut nodes = Vec::new();
        self.step(step, &mut nodes);
        if let Some(&start) = self.starts.get(&nodes) {
            return start;
        }
        let start = self.nodes.len();
        self.nodes.extend(&nodes);
        self.starts.insert(nodes, start);
        start
    }

    fn step(&mut self, step: &RegularFormula, nodes: &mut Vec<ActionNode>) {
        match &step.kind {
            Regular::Step(formula) => self.formula(formula, nodes),
            Regular::Choice(one, other) => {
                nodes.push(ActionNode::Or);
                self.step(one, nodes);
                self.step(other, nodes);
            }
            Regular::Sequence(..) | Regular::Star(_) | Regular::Plus(_) => {}
        }
    }

    fn formula(&mut self, formula: &ActionFormula, nodes: &mut Vec<ActionNode>) {
        match &formula.kind {
            Action::False => nodes.push(ActionNode::False),
            Action::True => nodes.push(ActionNode::True),
            Action::Label(label) => nodes.push(ActionNode::Label(self.place(label, formula.span))),
            Action::Not(operand) => {
                nodes.push(ActionNode::Not);
                self.formula(operand, nodes);
            }
            Action::And(left, right) => self.joined(ActionNode::And, left, right, nodes),
            Action::Or(left, right) => self.joined(ActionNode::Or, left, right, nodes),
            Action::Implies(left, right) => self.joined(ActionNode::Implies, left, right, nodes),
        }
    }

    fn joined(&mut self, kind: ActionNode, left: &ActionFormula, right: &ActionFormula, nodes: &mut Vec<ActionNode>) {
        nodes.push(kind);
        self.formula(left, nodes);
        self.formula(right, nodes);
    }

    fn place(&mut self, label: &Label, span: Span) -> usize {
        if let Some(&place) = self.places.get(&label.text) {
            return place;
        }
        let place = self.labels.len();
        self.labels.push((label.clone(), span));
        self.places.insert(label.text.clone(), place);
        place
    }
}
