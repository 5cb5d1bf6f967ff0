//! What a formula costs of the checker's limits when it is written out, and what is wrong with its variables: counted on
//! the formula as it is written.

use super::trees::action_shape;
use bithrowy_front::formula::{Action, ActionFormula, Regular, RegularFormula, State, StateFormula};
use std::collections::BTreeMap;

/// Nodes, and how many of them are binders.
#[derive(Clone, Copy, Debug, PartialEq, Eq)]
pub struct Size {
    pub nodes: u64,
    pub binders: u64,
}

const NODE: Size = Size { nodes: 1, binders: 0 };
const BINDER: Size = Size { nodes: 1, binders: 1 };

impl Size {
    fn and(self, other: Size) -> Size {
        let Size { nodes, binders } = other;
        Size { nodes: self.nodes.saturating_add(nodes), binders: self.binders.saturating_add(binders) }
    }
}

/// A formula's size when it is written out. A negation costs nothing, since it is pushed inward; an implication is a node.
pub fn size(formula: &StateFormula) -> Size {
    match &formula.kind {
        State::False | State::True | State::Variable(_) => NODE,
        State::Not(a) => size(a),
        State::And(a, b) | State::Or(a, b) | State::Implies(a, b) => NODE.and(size(a)).and(size(b)),
        State::Must(r, a) | State::May(r, a) => before(r, size(a)),
        State::Mu(_, a) | State::Nu(_, a) => BINDER.and(size(a)),
    }
}

/// The size of a modality over a run, before an operand of a known size.
fn before(run: &RegularFormula, operand: Size) -> Size {
    if single(run).is_some() {
        return NODE.and(operand);
    }
    match &run.kind {
        Regular::Step(_) => NODE.and(operand),
        Regular::Sequence(r, s) => before(r, before(s, operand)),
        Regular::Choice(r, s) => NODE.and(before(r, operand)).and(before(s, operand)),
        Regular::Star(r) => repeated(r, operand),
        Regular::Plus(r) => before(r, repeated(r, operand)),
    }
}

/// A binder, a connective, the operand, and the modality back to the binder's variable.
fn repeated(run: &RegularFormula, operand: Size) -> Size {
    BINDER.and(NODE).and(operand).and(before(run, NODE))
}

/// The action formula of a run that is a single step, or a choice of such.
fn single(run: &RegularFormula) -> Option<String> {
    match &run.kind {
        Regular::Step(a) => Some(action_shape(a)),
        Regular::Choice(r, s) => Some(format!("(or {} {})", single(r)?, single(s)?)),
        _ => None,
    }
}

/// The equation file's blocks: one for each binder, and one more if the root is none.
pub fn blocks(formula: &StateFormula) -> u64 {
    size(formula).binders + !root_binds(formula) as u64
}

fn root_binds(formula: &StateFormula) -> bool {
    match &formula.kind {
        State::Mu(..) | State::Nu(..) => true,
        State::Not(a) => root_binds(a),
        State::Must(r, _) | State::May(r, _) => begins_with_star(r),
        _ => false,
    }
}

fn begins_with_star(run: &RegularFormula) -> bool {
    match &run.kind {
        Regular::Star(_) => true,
        Regular::Sequence(r, _) | Regular::Plus(r) => begins_with_star(r),
        Regular::Step(_) | Regular::Choice(..) => false,
    }
}

/// The different action formulas with their numbers of nodes. A case needs no more nodes than all of them together.
pub fn action_nodes(formula: &StateFormula) -> usize {
    let mut found = BTreeMap::new();
    add_actions(formula, &mut found);
    found.values().sum()
}

fn add_actions(formula: &StateFormula, found: &mut BTreeMap<String, usize>) {
    if let State::Must(r, _) | State::May(r, _) = &formula.kind {
        add_steps(r, found);
    }
    for operand in operands(formula) {
        add_actions(operand, found);
    }
}

fn add_steps(run: &RegularFormula, found: &mut BTreeMap<String, usize>) {
    match (single(run), &run.kind) {
        (Some(shape), _) => drop(found.insert(shape, steps_size(run))),
        (None, Regular::Sequence(r, s) | Regular::Choice(r, s)) => {
            add_steps(r, found);
            add_steps(s, found);
        }
        (None, Regular::Star(r) | Regular::Plus(r)) => add_steps(r, found),
        (None, Regular::Step(_)) => {}
    }
}

fn steps_size(run: &RegularFormula) -> usize {
    match &run.kind {
        Regular::Step(a) => action_size(a),
        Regular::Sequence(r, s) | Regular::Choice(r, s) => 1 + steps_size(r) + steps_size(s),
        Regular::Star(r) | Regular::Plus(r) => steps_size(r),
    }
}

fn action_size(formula: &ActionFormula) -> usize {
    match &formula.kind {
        Action::False | Action::True | Action::Label(_) => 1,
        Action::Not(a) => 1 + action_size(a),
        Action::And(a, b) | Action::Or(a, b) | Action::Implies(a, b) => 1 + action_size(a) + action_size(b),
    }
}

/// A formula's direct operands that are state formulas.
pub fn operands(formula: &StateFormula) -> Vec<&StateFormula> {
    match &formula.kind {
        State::False | State::True | State::Variable(_) => Vec::new(),
        State::Not(a) | State::Must(_, a) | State::May(_, a) | State::Mu(_, a) | State::Nu(_, a) => vec![a],
        State::And(a, b) | State::Or(a, b) | State::Implies(a, b) => vec![a, b],
    }
}

/// The variables that no binder around them binds, and those under an odd number of negations below their binder.
#[derive(Debug, Default)]
pub struct Wrong {
    pub unbound: Vec<String>,
    pub negative: Vec<String>,
}

impl Wrong {
    pub fn of(formula: &StateFormula) -> Wrong {
        let mut wrong = Wrong::default();
        wrong.look(formula, &mut Vec::new(), true);
        wrong
    }

    pub fn is_none(&self) -> bool {
        self.unbound.is_empty() && self.negative.is_empty()
    }

    fn look(&mut self, formula: &StateFormula, scope: &mut Vec<(String, bool)>, even: bool) {
        match &formula.kind {
            State::Variable(name) => match scope.iter().rev().find(|binder| binder.0 == *name) {
                None => self.unbound.push(name.clone()),
                Some(&(_, bound)) if bound != even => self.negative.push(name.clone()),
                Some(_) => {}
            },
            State::Not(a) => self.look(a, scope, !even),
            State::Implies(a, b) => {
                self.look(a, scope, !even);
                self.look(b, scope, even);
            }
            State::Mu(name, a) | State::Nu(name, a) => {
                scope.push((name.text.clone(), even));
                self.look(a, scope, even);
                scope.pop();
            }
            _ => operands(formula).into_iter().for_each(|a| self.look(a, scope, even)),
        }
    }
}

/// The labels that a formula names, each as often as it is written.
pub fn labels(formula: &StateFormula) -> Vec<&str> {
    let mut found: Vec<&str> = operands(formula).into_iter().flat_map(labels).collect();
    if let State::Must(r, _) | State::May(r, _) = &formula.kind {
        found.extend(labels_of_run(r));
    }
    found
}

fn labels_of_run(run: &RegularFormula) -> Vec<&str> {
    match &run.kind {
        Regular::Step(a) => labels_of_action(a),
        Regular::Sequence(r, s) | Regular::Choice(r, s) => [labels_of_run(r), labels_of_run(s)].concat(),
        Regular::Star(r) | Regular::Plus(r) => labels_of_run(r),
    }
}

fn labels_of_action(formula: &ActionFormula) -> Vec<&str> {
    match &formula.kind {
        Action::False | Action::True => Vec::new(),
        Action::Label(label) => vec![&label.text],
        Action::Not(a) => labels_of_action(a),
        Action::And(a, b) | Action::Or(a, b) | Action::Implies(a, b) => {
            [labels_of_action(a), labels_of_action(b)].concat()
        }
    }
}

/// How many regular formulas are repeated, by a star or a plus.
pub fn repetitions(formula: &StateFormula) -> usize {
    let own = match &formula.kind {
        State::Must(r, _) | State::May(r, _) => repetitions_of_run(r),
        _ => 0,
    };
    own + operands(formula).into_iter().map(repetitions).sum::<usize>()
}

fn repetitions_of_run(run: &RegularFormula) -> usize {
    match &run.kind {
        Regular::Step(_) => 0,
        Regular::Sequence(r, s) | Regular::Choice(r, s) => repetitions_of_run(r) + repetitions_of_run(s),
        Regular::Star(r) | Regular::Plus(r) => 1 + repetitions_of_run(r),
    }
}

/// How many negations and implications a formula has.
pub fn negations(formula: &StateFormula) -> usize {
    let own = matches!(formula.kind, State::Not(_) | State::Implies(..)) as usize;
    own + operands(formula).into_iter().map(negations).sum::<usize>()
}

/// How deep binders that are written are nested.
pub fn nesting(formula: &StateFormula) -> usize {
    let own = matches!(formula.kind, State::Mu(..) | State::Nu(..)) as usize;
    own + operands(formula).into_iter().map(nesting).max().unwrap_or(0)
}
