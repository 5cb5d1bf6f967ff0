//! Which parts of the text say just what their nodes say, by the names of the table.

use crate::table::{Kind, Node};

/// How a binder, and so its variables, differ from what the text says.
#[derive(Clone, Copy, Default)]
pub(super) struct Difference {
    /// It has another name, so a text with the binder or a variable of it says another name.
    pub(super) renamed: bool,
    /// It is the dual of the text's binder: its set has the states that the other one's has not. So a text with a
    /// variable of it, and without the binder, says the opposite of what the variable is in the table.
    pub(super) dual: bool,
}

/// What there is in a subtree.
#[derive(Default)]
struct Found {
    renamed: bool,
    /// How many variables in it have a dual binder outside of it.
    dual: usize,
}

/// Takes the mark of a literal part from each part that a difference spoils. There is one difference for each node, of
/// which those of binders count.
pub(super) fn mark(nodes: &mut [Node], differences: &[Difference]) {
    let bound = variables(nodes);
    let difference = |node: usize| differences.get(node).copied().unwrap_or_default();
    let mut subtrees: Vec<Found> = Vec::new();
    for (at, node) in nodes.iter_mut().enumerate().rev() {
        let mut found = Found::default();
        for operand in (0..node.kind.operands()).filter_map(|_| subtrees.pop()) {
            found.renamed |= operand.renamed;
            found.dual += operand.dual;
        }
        match node.kind {
            Kind::Variable(binder) => {
                found.renamed |= difference(binder).renamed;
                found.dual += usize::from(difference(binder).dual);
            }
            Kind::Mu | Kind::Nu => {
                found.renamed |= difference(at).renamed;
                let own = if difference(at).dual { bound[at] } else { 0 };
                found.dual = found.dual.saturating_sub(own);
            }
            _ => {}
        }
        node.literal &= !found.renamed && found.dual == 0;
        subtrees.push(found);
    }
}

/// How many variables each binder has, by its node.
fn variables(nodes: &[Node]) -> Vec<usize> {
    let mut bound = vec![0; nodes.len()];
    for node in nodes {
        if let Kind::Variable(binder) = node.kind {
            bound[binder] += 1;
        }
    }
    bound
}
