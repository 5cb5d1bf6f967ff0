//! From a case file back to text, so that every accepted case can be read.

mod case_reader;
mod equation_reader;
mod equation_writer;
mod labels;

use crate::amount;
use crate::aut;
use crate::library;
use crate::table::{ActionNode, Kind, Table};
use case_reader::CaseFile;
use std::collections::HashSet;

/// A case as text.
#[derive(Clone, Debug)]
pub struct Texts {
    pub aut: String,
    pub mcf: String,
}

/// The model and the formula of a case file, or the library's refusal number. Read again they are a case with equal
/// answers (a formula that names a label without a transition needs the flag that allows it, and says so in a comment).
///
/// Label 3 of version 1 is `label3`. The name with number 5 is `name5`, and `tau` is the silent step. A label of version 2
/// that would have the text of an earlier one gets `|tau` behind it, which adds nothing: transitions by labels with
/// different numbers are different ones.
pub fn texts(bytes: &[u8]) -> Result<Texts, u64> {
    // The library answers whether the case is accepted before it writes.
    library::translate(bytes)?;
    // What is accepted has all its tables; nothing is read from a file that is not.
    let case = case_reader::read(bytes).ok_or(NOT_READ)?;
    let model = case.model();
    let table = case.table();
    let mcf = format!("{}{}\n", comments(&case, &table), table.text(0));
    Ok(Texts { aut: aut::write(&model), mcf })
}

/// The number of a file whose tables are not where they should be, which the library refuses itself.
const NOT_READ: u64 = 5;

/// What the formula's text says about the case, and the line that allows labels without a transition if it needs that.
fn comments(case: &CaseFile, table: &Table) -> String {
    let mut text = format!(
        "% From a case file of version {}: {}, {}, {}.\n",
        case.version,
        amount::of(case.states, "state"),
        amount::of(case.transitions.len(), "transition"),
        amount::of(case.labels.len(), "label"),
    );
    text.push_str(match case.version {
        1 => "% label0 is the label with number 0, and so on.\n",
        _ => "% name1 is the name with number 1, and so on; tau is the silent step.\n",
    });
    if names_unknown_label(case, table) {
        text.push_str("% No transition has some of the labels below.\n% unknown labels: allow\n");
    }
    text
}

/// Does the formula name a label that no transition is alike?
fn names_unknown_label(case: &CaseFile, table: &Table) -> bool {
    let names = |label: usize| case.labels.get(label).map(|label| label.names.as_slice());
    let known: HashSet<_> = case.transitions.iter().map(|&[_, label, _]| names(label)).collect();
    named_labels(table).any(|label| !known.contains(&names(label)))
}

/// The labels in the action formulas of a formula's modalities.
fn named_labels(table: &Table) -> impl Iterator<Item = usize> + '_ {
    let modalities = table.nodes.iter().filter_map(|node| match node.kind {
        Kind::Box(action) | Kind::Diamond(action) => Some(action),
        _ => None,
    });
    modalities.flat_map(|action| action..table.action_end(action)).filter_map(|action| {
        match table.actions.get(action) {
            Some(ActionNode::Label(label)) => Some(*label),
            _ => None,
        }
    })
}

/// An equation file as equations that people read: `mu X0`, then `X0(1) = X0(2) && X1(1)` and so on, a block after the
/// other. An error says what is not an equation file.
pub fn equations(file: &[u8]) -> Result<String, String> {
    equation_reader::read(file).map(|equations| equation_writer::write(&equations))
}
