//! What a part of a formula looks like: the one description of how formulas and tables are written.

use super::{regular, Brackets};
use crate::formula::{Action, ActionFormula, Regular, RegularFormula, State, StateFormula};
use crate::precedence::{state as levels, steps as step_levels};
use crate::table::{ActionNode, Kind, Table};

/// A part of a formula, or of a table, that can be written.
#[derive(Clone, Copy)]
pub(super) enum Part<'a> {
    State(&'a StateFormula),
    Regular(&'a RegularFormula),
    Action(&'a ActionFormula),
    Node(&'a Table, usize),
    ActionNode(&'a Table, usize),
}

/// How a part is put together. The number is its level.
pub(super) enum Shape<'a> {
    Word(String),
    Prefix(u8, String, Part<'a>),
    Postfix(u8, &'static str, Part<'a>),
    Infix(u8, &'static str, Part<'a>, Part<'a>),
    Binder(String, Part<'a>),
}

impl Shape<'_> {
    /// Does it need brackets where nothing looser than a level can stand?
    pub(super) fn needs_brackets(&self, wanted: u8, followed: bool) -> bool {
        match self {
            Shape::Word(_) => false,
            Shape::Binder(..) => followed,
            Shape::Prefix(level, ..) | Shape::Postfix(level, ..) | Shape::Infix(level, ..) => *level < wanted,
        }
    }
}

impl<'a> Part<'a> {
    pub(super) fn shape(self, brackets: Brackets) -> Shape<'a> {
        match self {
            Part::State(formula) => state(formula, brackets),
            Part::Regular(formula) => steps(formula),
            Part::Action(formula) => action(formula),
            Part::Node(table, node) => table_node(table, node),
            Part::ActionNode(table, node) => table_action(table, node),
        }
    }
}

fn word<'a>(text: &str) -> Shape<'a> {
    Shape::Word(text.to_string())
}

fn state(formula: &StateFormula, brackets: Brackets) -> Shape<'_> {
    match &formula.kind {
        State::False => word("false"),
        State::True => word("true"),
        State::Variable(name) => word(name),
        State::Not(operand) => Shape::Prefix(levels::PREFIX, "!".to_string(), Part::State(operand)),
        State::And(left, right) => Shape::Infix(levels::AND, "&&", Part::State(left), Part::State(right)),
        State::Or(left, right) => Shape::Infix(levels::OR, "||", Part::State(left), Part::State(right)),
        State::Implies(left, right) => Shape::Infix(levels::IMPLIES, "=>", Part::State(left), Part::State(right)),
        State::Must(steps, operand) => must(&regular(steps, brackets), Part::State(operand)),
        State::May(steps, operand) => may(&regular(steps, brackets), Part::State(operand)),
        State::Mu(name, body) => binder("mu", &name.text, Part::State(body)),
        State::Nu(name, body) => binder("nu", &name.text, Part::State(body)),
    }
}

fn must<'a>(steps: &str, operand: Part<'a>) -> Shape<'a> {
    Shape::Prefix(levels::PREFIX, format!("[{steps}] "), operand)
}

fn may<'a>(steps: &str, operand: Part<'a>) -> Shape<'a> {
    Shape::Prefix(levels::PREFIX, format!("<{steps}> "), operand)
}

fn binder<'a>(word: &str, name: &str, body: Part<'a>) -> Shape<'a> {
    Shape::Binder(format!("{word} {name}. "), body)
}

fn steps(formula: &RegularFormula) -> Shape<'_> {
    match &formula.kind {
        Regular::Step(step) => action(step),
        Regular::Sequence(left, right) => {
            Shape::Infix(step_levels::SEQUENCE, ".", Part::Regular(left), Part::Regular(right))
        }
        Regular::Choice(left, right) => {
            Shape::Infix(step_levels::CHOICE, "+", Part::Regular(left), Part::Regular(right))
        }
        Regular::Star(operand) => Shape::Postfix(step_levels::REPETITION, "*", Part::Regular(operand)),
        Regular::Plus(operand) => Shape::Postfix(step_levels::REPETITION, "+", Part::Regular(operand)),
    }
}

fn action(formula: &ActionFormula) -> Shape<'_> {
    match &formula.kind {
        Action::False => word("false"),
        Action::True => word("true"),
        Action::Label(label) => Shape::Word(label.quoted()),
        Action::Not(operand) => not_action(Part::Action(operand)),
        Action::And(left, right) => Shape::Infix(step_levels::AND, "&&", Part::Action(left), Part::Action(right)),
        Action::Or(left, right) => Shape::Infix(step_levels::OR, "||", Part::Action(left), Part::Action(right)),
        Action::Implies(left, right) => {
            Shape::Infix(step_levels::IMPLIES, "=>", Part::Action(left), Part::Action(right))
        }
    }
}

fn not_action(operand: Part) -> Shape {
    Shape::Prefix(step_levels::NOT, "!".to_string(), operand)
}

/// A number that is no node of the table is written as a question mark.
fn table_node(table: &Table, at: usize) -> Shape<'_> {
    let Some(node) = table.nodes.get(at) else { return word("?") };
    let parts: Vec<Part> = table.operands(at).into_iter().map(|operand| Part::Node(table, operand)).collect();
    match (node.kind, parts.as_slice()) {
        (Kind::False, _) => word("false"),
        (Kind::True, _) => word("true"),
        (Kind::Variable(binder), _) => word(table.nodes.get(binder).map_or("?", |binder| &binder.name)),
        (Kind::And, &[left, right]) => Shape::Infix(levels::AND, "&&", left, right),
        (Kind::Or, &[left, right]) => Shape::Infix(levels::OR, "||", left, right),
        (Kind::Box(action), &[operand]) => must(&table.action_text(action), operand),
        (Kind::Diamond(action), &[operand]) => may(&table.action_text(action), operand),
        (Kind::Mu, &[body]) => binder("mu", &node.name, body),
        (Kind::Nu, &[body]) => binder("nu", &node.name, body),
        _ => word("?"),
    }
}

fn table_action(table: &Table, at: usize) -> Shape<'_> {
    let Some(node) = table.actions.get(at) else { return word("?") };
    let parts: Vec<Part> = table.action_operands(at).into_iter().map(|part| Part::ActionNode(table, part)).collect();
    match (node, parts.as_slice()) {
        (ActionNode::False, _) => word("false"),
        (ActionNode::True, _) => word("true"),
        (ActionNode::Label(place), _) => match table.labels.get(*place) {
            Some((label, _)) => Shape::Word(label.quoted()),
            None => word("?"),
        },
        (ActionNode::Not, &[operand]) => not_action(operand),
        (ActionNode::And, &[left, right]) => Shape::Infix(step_levels::AND, "&&", left, right),
        (ActionNode::Or, &[left, right]) => Shape::Infix(step_levels::OR, "||", left, right),
        (ActionNode::Implies, &[left, right]) => Shape::Infix(step_levels::IMPLIES, "=>", left, right),
        _ => word("?"),
    }
}
