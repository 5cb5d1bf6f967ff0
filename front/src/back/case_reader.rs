//! Reads a case file that the library accepts.

use super::labels;
use crate::label::{Label, SILENT};
use crate::model::{Model, Transition};
use crate::source::{Source, Span};
use crate::table::{ActionNode, Kind, Node, Table};
use std::collections::BTreeMap;

/// The content of a case file.
pub struct CaseFile {
    pub version: usize,
    pub states: usize,
    pub initial: usize,
    pub labels: Vec<Label>,
    /// Source, label and target of each.
    pub transitions: Vec<[usize; 3]>,
    /// Kind and argument of each, as those of the formula.
    actions: Vec<[usize; 2]>,
    formula: Vec<[usize; 2]>,
}

/// The tables of a case file; none if one of them is not all there.
pub fn read(bytes: &[u8]) -> Option<CaseFile> {
    let numbers: Vec<usize> =
        bytes.chunks_exact(2).map(|pair| usize::from(u16::from_le_bytes([pair[0], pair[1]]))).collect();
    let header: [usize; 10] = entries(&numbers, 0, 1)?.into_iter().next()?;
    let [version, states, transitions, labels, initial, actions, formula, transitions_at, actions_at, formula_at] =
        header;
    Some(CaseFile {
        version,
        states,
        initial,
        labels: match version {
            1 => labels::numbered(labels),
            _ => labels::named(&entries(&numbers, *numbers.get(RECORDS_AT)?, labels)?),
        },
        transitions: entries(&numbers, transitions_at, transitions)?,
        actions: entries(&numbers, actions_at, actions)?,
        formula: entries(&numbers, formula_at, formula)?,
    })
}

/// Where the offset of the label records stands among the numbers of version 2.
const RECORDS_AT: usize = 10;

/// So many entries of a table that starts at a byte offset.
fn entries<const LENGTH: usize>(numbers: &[usize], offset: usize, count: usize) -> Option<Vec<[usize; LENGTH]>> {
    let table = numbers.get(offset / 2..)?.get(..count.checked_mul(LENGTH)?)?;
    table.chunks_exact(LENGTH).map(|entry| entry.try_into().ok()).collect()
}

/// A place in no text.
const NOWHERE: Span = Span { start: 0, end: 0 };

impl CaseFile {
    pub fn model(&self) -> Model {
        let transition = |&[source, label, target]: &[usize; 3]| Transition { source, label, target, span: NOWHERE };
        Model {
            source: Source::new("", ""),
            header: NOWHERE,
            states: self.states,
            initial: self.initial,
            labels: self.labels.clone(),
            transitions: self.transitions.iter().map(transition).collect(),
            names: BTreeMap::new(),
            silent: SILENT.to_string(),
        }
    }

    pub fn table(&self) -> Table {
        let nodes = self.formula.iter().enumerate().map(|(at, &entry)| node(at, entry)).collect();
        let actions = self.actions.iter().map(|&entry| action(entry)).collect();
        let labels = self.labels.iter().map(|label| (label.clone(), NOWHERE)).collect();
        Table::new(Source::new("", ""), nodes, actions, labels)
    }
}

/// A formula node; a binder is named by its number.
fn node(at: usize, [kind, argument]: [usize; 2]) -> Node {
    let kind = match kind {
        0 => Kind::False,
        1 => Kind::True,
        2 => Kind::And,
        3 => Kind::Or,
        4 => Kind::Box(argument),
        5 => Kind::Diamond(argument),
        6 => Kind::Variable(argument),
        7 => Kind::Mu,
        _ => Kind::Nu,
    };
    let name = if matches!(kind, Kind::Mu | Kind::Nu) { format!("X{at}") } else { String::new() };
    Node { kind, name, span: NOWHERE, literal: false, inside_modality: false }
}

fn action([kind, argument]: [usize; 2]) -> ActionNode {
    match kind {
        0 => ActionNode::False,
        1 => ActionNode::True,
        2 => ActionNode::Label(argument),
        3 => ActionNode::Not,
        4 => ActionNode::And,
        5 => ActionNode::Or,
        _ => ActionNode::Implies,
    }
}
