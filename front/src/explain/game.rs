//! The game in which one explains a verdict to another. A position is a part of the formula in a state, of which the one
//! who explains says that it holds there, or that it fails.

use super::{Claim, Step};
use crate::check::Checked;
use crate::model::Model;
use crate::table::{Kind, Table};
use std::collections::HashSet;
use std::ops::Range;

/// The game for one of the two verdicts: all positions in it hold, or all fail.
pub struct Game<'a> {
    pub model: &'a Model,
    pub table: &'a Table,
    values: &'a [Vec<bool>],
    /// What the one who explains says of each position.
    pub holds: bool,
    /// The operands of each node.
    operands: Vec<Vec<usize>>,
    /// Is each node closed?
    closed: Vec<bool>,
    /// For each state the transitions that leave it, a recorded copy left out.
    leaving: Vec<Vec<Step>>,
    /// For each node that is a modality the labels that it accepts; nothing for other nodes.
    accepted: Vec<Vec<bool>>,
}

/// A part of the formula in a state, as one number: the positions of a subtree follow one another.
pub type Position = usize;

/// A way on from a position.
#[derive(Clone, Copy, Debug)]
pub struct Way {
    pub to: Position,
    /// The transition that is gone, if it is a step of the model.
    pub step: Option<Step>,
    /// The other side, which is passed by since its value is a fact.
    pub beside: Option<Position>,
}

/// What a position is to the one who explains.
#[derive(Clone, Debug)]
pub enum Turn {
    /// These are the ways on, to be chosen from; where the other chooses, there is only this way.
    Ways(Vec<Way>),
    /// Nothing is left to show: it says `true` or `false`.
    Constant,
    /// Nothing is left to show: the other has no transition.
    NoTransition,
    /// Both sides are to be shown, and both are closed.
    Sides,
    /// These transitions are to be shown, and all lead to a closed part.
    Each(Vec<Step>),
    /// The other has several ways to open parts.
    Several,
}

impl<'a> Game<'a> {
    pub fn new(model: &'a Model, checked: &'a Checked, holds: bool) -> Game<'a> {
        let table = &checked.table;
        let nodes = 0..table.nodes.len();
        Game {
            model,
            table,
            values: &checked.values,
            holds,
            operands: nodes.clone().map(|node| table.operands(node)).collect(),
            closed: nodes.clone().map(|node| table.is_closed(node)).collect(),
            leaving: model.leaving(),
            accepted: nodes.map(|node| accepted_labels(model, table, node)).collect(),
        }
    }

    pub fn positions(&self) -> usize {
        self.table.nodes.len() * self.model.states
    }

    pub fn position(&self, node: usize, state: usize) -> Position {
        node * self.model.states + state
    }

    pub fn node(&self, position: Position) -> usize {
        position / self.model.states
    }

    pub fn state(&self, position: Position) -> usize {
        position % self.model.states
    }

    pub fn kind(&self, position: Position) -> Kind {
        self.table.nodes[self.node(position)].kind
    }

    pub fn claim(&self, position: Position) -> Claim {
        Claim { node: self.node(position), state: self.state(position), holds: self.holds }
    }

    /// The positions of a node.
    pub fn everywhere(&self, node: usize) -> Range<Position> {
        self.position(node, 0)..self.position(node + 1, 0)
    }

    /// The positions of a node's subtree.
    pub fn subtree(&self, node: usize) -> Range<Position> {
        self.position(node, 0)..self.position(self.table.end(node), 0)
    }

    /// Is it as the one who explains says?
    pub fn is_so(&self, position: Position) -> bool {
        let values = self.values.get(self.node(position));
        values.and_then(|values| values.get(self.state(position))) == Some(&self.holds)
    }

    pub fn is_closed(&self, position: Position) -> bool {
        self.closed[self.node(position)]
    }

    /// Is it the one who explains that chooses here?
    pub fn chooses(&self, position: Position) -> bool {
        match self.kind(position) {
            Kind::And | Kind::Box(_) => !self.holds,
            Kind::Or | Kind::Diamond(_) => self.holds,
            _ => false,
        }
    }

    /// The binders that may come round for ever as the one who explains wants: mu for a part that fails, nu for one that
    /// holds. A loop is decided by the outermost binder that it passes.
    pub fn binders(&self) -> Vec<usize> {
        let kind = if self.holds { Kind::Nu } else { Kind::Mu };
        (0..self.table.nodes.len()).filter(|&node| self.table.nodes[node].kind == kind).collect()
    }

    /// Where the operands of a node stand, in the same state.
    pub fn operands(&self, position: Position) -> Vec<Position> {
        let state = self.state(position);
        self.operands[self.node(position)].iter().map(|&node| self.position(node, state)).collect()
    }

    /// The transitions that a modality accepts.
    pub fn accepted(&self, position: Position) -> Vec<Step> {
        let accepted = &self.accepted[self.node(position)];
        let label = |step: Step| self.model.transitions[step].label;
        let leaving = self.leaving[self.state(position)].iter().copied();
        leaving.filter(|&step| accepted.get(label(step)) == Some(&true)).collect()
    }

    /// A modality's ways on: one for each state that an accepted transition leads to.
    pub fn targets(&self, position: Position) -> Vec<Way> {
        let operand = self.node(position) + 1;
        let mut seen = HashSet::new();
        let way = |step: Step| {
            let target = self.model.transitions[step].target;
            Way { to: self.position(operand, target), step: Some(step), beside: None }
        };
        self.accepted(position).into_iter().map(way).filter(|way| seen.insert(way.to)).collect()
    }

    /// What a position of the game is.
    pub fn turn(&self, position: Position) -> Turn {
        match self.kind(position) {
            Kind::False | Kind::True => Turn::Constant,
            Kind::Variable(binder) => only(self.position(binder, self.state(position))),
            Kind::Mu | Kind::Nu => only(position + self.model.states),
            _ if self.chooses(position) => Turn::Ways(self.choices(position)),
            Kind::And | Kind::Or => self.sides(position),
            Kind::Box(_) | Kind::Diamond(_) => self.steps(position),
        }
    }

    /// The ways on of the one who explains.
    fn choices(&self, position: Position) -> Vec<Way> {
        let ways = match self.kind(position) {
            Kind::And | Kind::Or => self.operands(position).into_iter().map(Way::on).collect(),
            _ => self.targets(position),
        };
        ways.into_iter().filter(|way| self.is_so(way.to)).collect()
    }

    /// Two sides between which the other chooses. The way on leads by a closed one, or else by one that ends at once.
    fn sides(&self, position: Position) -> Turn {
        let sides = self.operands(position);
        let (closed, open): (Vec<_>, Vec<_>) = sides.iter().copied().partition(|&side| self.is_closed(side));
        let fact = closed.first().or_else(|| open.iter().find(|&&side| self.is_without_transition(side)));
        match (fact, open.iter().find(|&side| Some(side) != fact)) {
            (Some(&fact), Some(&to)) => Turn::Ways(vec![Way { beside: Some(fact), ..Way::on(to) }]),
            (Some(_), None) => Turn::Sides,
            (None, _) => Turn::Several,
        }
    }

    /// Is it a modality of the other that accepts no transition?
    fn is_without_transition(&self, position: Position) -> bool {
        let is_modality = matches!(self.kind(position), Kind::Box(_) | Kind::Diamond(_));
        is_modality && !self.chooses(position) && self.accepted(position).is_empty()
    }

    /// Transitions between which the other chooses.
    fn steps(&self, position: Position) -> Turn {
        let ways = self.targets(position);
        match ways.len() {
            0 => Turn::NoTransition,
            1 => Turn::Ways(ways),
            _ if self.is_closed(ways[0].to) => Turn::Each(self.accepted(position)),
            _ => Turn::Several,
        }
    }
}

impl Way {
    /// A way to another part in the same state.
    pub fn on(to: Position) -> Way {
        Way { to, step: None, beside: None }
    }

    /// How many steps of the model it takes.
    pub fn steps(&self) -> usize {
        self.step.is_some() as usize
    }
}

fn only(to: Position) -> Turn {
    Turn::Ways(vec![Way::on(to)])
}

/// For each label of the model: does the modality at a node accept it? Nothing for another node.
fn accepted_labels(model: &Model, table: &Table, node: usize) -> Vec<bool> {
    match table.nodes[node].kind {
        Kind::Box(action) | Kind::Diamond(action) => {
            model.labels.iter().map(|label| table.accepts(action, label)).collect()
        }
        _ => Vec::new(),
    }
}
