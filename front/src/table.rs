//! The checker's own form of a formula: a table of nodes in prefix order, and a table of action nodes, with the names
//! and labels that they came from.

use crate::label::Label;
use crate::lexer;
use crate::print;
use crate::source::{Source, Span};
use std::sync::Arc;

/// The kinds of a case file's formula nodes, with their arguments.
#[derive(Clone, Copy, Debug, PartialEq, Eq)]
pub enum Kind {
    False,
    True,
    And,
    Or,
    /// Its action formula's node.
    Box(usize),
    Diamond(usize),
    /// Its binder's node.
    Variable(usize),
    Mu,
    Nu,
}

impl Kind {
    /// How many operands such a node has.
    pub(crate) fn operands(self) -> usize {
        match self {
            Kind::False | Kind::True | Kind::Variable(_) => 0,
            Kind::Box(_) | Kind::Diamond(_) | Kind::Mu | Kind::Nu => 1,
            Kind::And | Kind::Or => 2,
        }
    }

    fn is_binder(self) -> bool {
        matches!(self, Kind::Mu | Kind::Nu)
    }
}

/// A node, and where it came from.
#[derive(Clone, Debug, PartialEq, Eq)]
pub struct Node {
    pub kind: Kind,
    /// A binder's name, different from the names of the binders around it; empty for other nodes. A star's binder gets a
    /// name that the formula does not use.
    pub name: String,
    /// The part of the text that it came from.
    pub span: Span,
    /// Does that part say just what the node's subtree says, by the same names? Not so below a negation, and inside a
    /// modality that was taken apart.
    pub literal: bool,
    /// Is that part what stands in a modality, or a piece of it, and no state formula?
    pub inside_modality: bool,
}

/// The kinds of a case file's action nodes; a label by its place in the table's list.
#[derive(Clone, Copy, Debug, PartialEq, Eq, Hash)]
pub enum ActionNode {
    False,
    True,
    Label(usize),
    Not,
    And,
    Or,
    Implies,
}

impl ActionNode {
    /// How many operands such a node has.
    pub(crate) fn operands(self) -> usize {
        match self {
            ActionNode::False | ActionNode::True | ActionNode::Label(_) => 0,
            ActionNode::Not => 1,
            ActionNode::And | ActionNode::Or | ActionNode::Implies => 2,
        }
    }
}

/// A formula as two tables in prefix order. Equal action formulas stand once.
#[derive(Clone, Debug)]
pub struct Table {
    pub source: Arc<Source>,
    pub nodes: Vec<Node>,
    pub actions: Vec<ActionNode>,
    /// The labels that the action nodes name, each text once, with the first place where it stands.
    pub labels: Vec<(Label, Span)>,
    /// For each node, the first node behind its subtree.
    ends: Vec<usize>,
    /// The same for each action node.
    action_ends: Vec<usize>,
    /// For each node, the outermost binder of the variables in its subtree, if it has variables.
    outermost: Vec<Option<usize>>,
}

impl Table {
    pub fn new(source: Arc<Source>, nodes: Vec<Node>, actions: Vec<ActionNode>, labels: Vec<(Label, Span)>) -> Table {
        let ends = ends(&nodes, |node| node.kind.operands());
        let action_ends = ends_of_actions(&actions);
        let outermost = outermost_binders(&nodes, &ends);
        Table { source, nodes, actions, labels, ends, action_ends, outermost }
    }

    /// The operands of a node, which are none, one or two.
    pub fn operands(&self, node: usize) -> Vec<usize> {
        let count = self.nodes.get(node).map_or(0, |node| node.kind.operands());
        starts(node, count, &self.ends)
    }

    /// The operands of an action node.
    pub fn action_operands(&self, action: usize) -> Vec<usize> {
        let count = self.actions.get(action).map_or(0, |action| action.operands());
        starts(action, count, &self.action_ends)
    }

    /// The first node behind a node's subtree.
    pub fn end(&self, node: usize) -> usize {
        self.ends.get(node).copied().unwrap_or(self.nodes.len())
    }

    /// The first action node behind an action node's subtree.
    pub fn action_end(&self, action: usize) -> usize {
        self.action_ends.get(action).copied().unwrap_or(self.actions.len())
    }

    /// The binders in prefix order.
    pub fn binders(&self) -> Vec<usize> {
        (0..self.nodes.len()).filter(|&node| self.nodes[node].kind.is_binder()).collect()
    }

    /// How many blocks the equation file has: one for each binder, and one more if the root is none.
    pub fn blocks(&self) -> usize {
        let root_binds = self.nodes.first().is_some_and(|root| root.kind.is_binder());
        self.binders().len() + usize::from(!root_binds)
    }

    /// Are all variables in a node's subtree bound in it?
    pub fn is_closed(&self, node: usize) -> bool {
        match self.outermost.get(node) {
            Some(Some(binder)) => *binder >= node,
            _ => true,
        }
    }

    /// Does the action formula at an action node accept a label?
    pub fn accepts(&self, action: usize, label: &Label) -> bool {
        let mut values = Vec::new();
        for node in self.actions.get(action..self.action_end(action)).unwrap_or_default().iter().rev() {
            let mut operand = || values.pop().unwrap_or(false);
            let value = match node {
                ActionNode::False => false,
                ActionNode::True => true,
                ActionNode::Label(place) => self.labels.get(*place).is_some_and(|(own, _)| own.alike(label)),
                ActionNode::Not => !operand(),
                ActionNode::And => operand() & operand(),
                ActionNode::Or => operand() | operand(),
                ActionNode::Implies => !operand() | operand(),
            };
            values.push(value);
        }
        values.pop().unwrap_or(false)
    }

    /// A node's subtree as text, with no more brackets than the reading needs.
    pub fn text(&self, node: usize) -> String {
        print::node(self, node)
    }

    /// An action node's subtree as text.
    pub fn action_text(&self, action: usize) -> String {
        print::action_node(self, action)
    }

    /// What to call the part at a node when speaking to people: its own words from the text, without brackets around
    /// them and with blanks made single, if they say just what the node says, else `text`.
    pub fn part(&self, node: usize) -> String {
        let literal = self.nodes.get(node).filter(|node| node.literal);
        literal.and_then(|node| own_words(&self.source, node.span)).unwrap_or_else(|| self.text(node))
    }
}

/// The words of a part of a formula's text, with one blank where there are blanks or comments.
pub(crate) fn own_words(source: &Source, part: Span) -> Option<String> {
    let source = Source::new("", source.slice(lexer::unbracketed(source, part)));
    let mut single = String::new();
    let mut end = 0;
    for (_, span) in lexer::words(&source).ok()? {
        if end < span.start && !single.is_empty() {
            single.push(' ');
        }
        single.push_str(source.slice(span));
        end = span.end;
    }
    (!single.is_empty()).then_some(single)
}

/// Where the subtree of each node of a table in prefix order ends.
fn ends<T>(table: &[T], operands: impl Fn(&T) -> usize) -> Vec<usize> {
    let mut ends = vec![table.len(); table.len()];
    for at in (0..table.len()).rev() {
        let mut end = at + 1;
        for _ in 0..operands(&table[at]) {
            end = ends.get(end).copied().unwrap_or(table.len());
        }
        ends[at] = end;
    }
    ends
}

fn ends_of_actions(actions: &[ActionNode]) -> Vec<usize> {
    ends(actions, |action| action.operands())
}

/// The starts of a node's operands: the first one follows the node, and each one begins where the one before it ends.
fn starts(node: usize, count: usize, ends: &[usize]) -> Vec<usize> {
    let next = |start: &usize| ends.get(*start).copied();
    std::iter::successors(Some(node + 1), next).take(count).collect()
}

fn outermost_binders(nodes: &[Node], ends: &[usize]) -> Vec<Option<usize>> {
    let mut outermost: Vec<Option<usize>> = vec![None; nodes.len()];
    for at in (0..nodes.len()).rev() {
        let below = starts(at, nodes[at].kind.operands(), ends);
        outermost[at] = match nodes[at].kind {
            Kind::Variable(binder) => Some(binder),
            _ => below.iter().filter_map(|&operand| *outermost.get(operand)?).min(),
        };
    }
    outermost
}
