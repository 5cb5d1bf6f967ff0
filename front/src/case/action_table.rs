//! The action table of a case: of equal action formulas one, and none that stands within another.

use super::label_numbers::LabelNumbers;
use crate::table::{ActionNode, Table};
use std::collections::{HashMap, HashSet};

/// A node's kind and argument, a label by its number in the case.
type Numbers = [usize; 2];

/// A node with the shapes of its operands: two subtrees of one shape are equal.
type Shape = (Numbers, Vec<usize>);

/// The nodes that are written, and where each node of the formula's own table stands among them.
pub struct ActionTable {
    pub nodes: Vec<Numbers>,
    places: Vec<usize>,
}

impl ActionTable {
    pub fn new(table: &Table, labels: &LabelNumbers) -> ActionTable {
        let nodes: Vec<Numbers> = table.actions.iter().map(|&node| numbers(node, labels)).collect();
        let shapes = shapes(table, &nodes);
        let within = within(table, &shapes);
        let mut written = Vec::new();
        // For each shape, where its subtree is written first.
        let mut places: HashMap<usize, usize> = HashMap::new();
        for root in roots(table) {
            if within.contains(&shapes[root]) || places.contains_key(&shapes[root]) {
                continue;
            }
            for at in root..table.action_end(root) {
                places.entry(shapes[at]).or_insert(written.len());
                written.push(nodes[at]);
            }
        }
        let place = |shape| places.get(shape).copied().unwrap_or(usize::MAX);
        ActionTable { nodes: written, places: shapes.iter().map(place).collect() }
    }

    /// Where the action formula at a node of the formula's own table is written.
    pub fn place(&self, action: usize) -> usize {
        self.places.get(action).copied().unwrap_or(usize::MAX)
    }
}

/// The nodes at which whole action formulas begin, in order.
fn roots(table: &Table) -> impl Iterator<Item = usize> + '_ {
    let within = |at: &usize| *at < table.actions.len();
    std::iter::successors(Some(0).filter(within), move |&root| Some(table.action_end(root)).filter(within))
}

/// For each node the number of its subtree's shape: from the last node to the first, so that the operands' are known.
fn shapes(table: &Table, nodes: &[Numbers]) -> Vec<usize> {
    let mut known: HashMap<Shape, usize> = HashMap::new();
    let mut shapes = vec![0; nodes.len()];
    for at in (0..nodes.len()).rev() {
        let operands = table.action_operands(at).into_iter().filter_map(|operand| shapes.get(operand).copied());
        let shape = (nodes[at], operands.collect());
        let next = known.len();
        shapes[at] = *known.entry(shape).or_insert(next);
    }
    shapes
}

/// The shapes that stand within a larger action formula.
fn within(table: &Table, shapes: &[usize]) -> HashSet<usize> {
    let roots: HashSet<usize> = roots(table).collect();
    (0..shapes.len()).filter(|at| !roots.contains(at)).map(|at| shapes[at]).collect()
}

/// An action node's kind and argument.
fn numbers(node: ActionNode, labels: &LabelNumbers) -> Numbers {
    match node {
        ActionNode::False => [0, 0],
        ActionNode::True => [1, 0],
        ActionNode::Label(label) => [2, labels.of_formula(label)],
        ActionNode::Not => [3, 0],
        ActionNode::And => [4, 0],
        ActionNode::Or => [5, 0],
        ActionNode::Implies => [6, 0],
    }
}
