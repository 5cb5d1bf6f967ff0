//! A model and a formula as the bytes of a case file.

mod action_table;
mod label_numbers;
mod unknown_label;

use crate::expand::Expansion;
use crate::label::Label;
use crate::model::Model;
use crate::source::{Fault, Source, Span};
use crate::table::{Kind, Table};
use action_table::ActionTable;
use label_numbers::LabelNumbers;
use std::sync::Arc;

/// A case file, with what it was written from.
#[derive(Clone, Debug)]
pub struct Case {
    pub model: Model,
    pub expansion: Expansion,
    pub bytes: Vec<u8>,
}

/// How many entries each of the case's tables has, in the order of the header, however many they are.
#[derive(Clone, Copy, Debug, PartialEq, Eq)]
pub struct Counts {
    pub states: usize,
    pub transitions: usize,
    pub labels: usize,
    pub action_nodes: usize,
    pub formula_nodes: usize,
}

impl Case {
    /// The case's counts, whether its tables were written out or not. A formula that is too large to be written out counts
    /// as one without action nodes: it is refused for its own nodes.
    pub fn counts(&self) -> Counts {
        let labels = self.label_numbers();
        let (action_nodes, formula_nodes) = match &self.expansion {
            Expansion::Table(table) => (action_nodes(table), table.nodes.len()),
            // Equal action formulas are one, and how many differ is known of a formula only that is written out.
            Expansion::TooLarge { nodes, .. } => (0, *nodes),
        };
        let (states, transitions) = (self.model.states, self.model.transitions.len());
        Counts { states, transitions, labels: labels.count(), action_nodes, formula_nodes }
    }

    /// How many different names the labels of the case have.
    pub fn names(&self) -> usize {
        self.label_numbers().names()
    }

    /// The labels that only the formula names, in the order of their numbers, with the first place of each.
    pub fn formula_labels(&self) -> Vec<(&Label, Span)> {
        self.label_numbers().of_formula_alone()
    }

    /// The text that the formula is in, and its part.
    pub fn formula(&self) -> (&Arc<Source>, Span) {
        match &self.expansion {
            Expansion::Table(table) => (&table.source, table.nodes.first().map_or(Span::new(0, 0), |root| root.span)),
            Expansion::TooLarge { source, span, .. } => (source, *span),
        }
    }

    fn label_numbers(&self) -> LabelNumbers<'_> {
        LabelNumbers::new(&self.model.labels, self.table())
    }

    /// The formula's table, if it is written out.
    pub fn table(&self) -> Option<&Table> {
        match &self.expansion {
            Expansion::Table(table) => Some(table),
            Expansion::TooLarge { .. } => None,
        }
    }
}

/// How many action nodes a case file has for a formula, whatever the model: of equal action formulas one is written, and
/// none that stands within another.
pub fn action_nodes(table: &Table) -> usize {
    ActionTable::new(table, &LabelNumbers::new(&[], Some(table))).nodes.len()
}

/// Writes the case file: of version 2 if a label of the model or the formula is written with `|`, else of version 1. The
/// model's labels come first, then those that only the formula names. Numbers above 16 bits become 65,535, which the
/// library refuses in their place; a table that is too large to be written out is left out, and its count says so.
///
/// A label of the formula that is alike to a label of the model has that label's number. Of equal action formulas one is
/// written, and none that stands within another.
///
/// Faults: a label with more names than a record holds; a label of the formula that no transition of the model is alike,
/// unless that is allowed (help: `did you mean`, and the labels there are).
pub fn write(model: &Model, expansion: &Expansion, unknown_labels: bool) -> Result<Case, Fault> {
    let mut case = Case { model: model.clone(), expansion: expansion.clone(), bytes: Vec::new() };
    label_numbers::check_names(model, case.table())?;
    if let (Some(table), false) = (case.table(), unknown_labels) {
        unknown_label::check(model, table)?;
    }
    case.bytes = bytes(&case);
    Ok(case)
}

/// The lengths of a header, in numbers, and of the entries of the tables.
const HEADER: usize = 10;
const NAMED_HEADER: usize = 11;
const RECORD: usize = 4;
const TRANSITION: usize = 3;
const NODE: usize = 2;

/// The length of a number in bytes.
const NUMBER: usize = 2;

/// The case file of a case that has none yet.
fn bytes(case: &Case) -> Vec<u8> {
    let labels = case.label_numbers();
    let (actions, formula) = node_tables(case.table(), &labels);
    let records = if labels.joined { written_out(labels.records(), RECORD) } else { Vec::new() };
    let tables = [records, transition_table(&case.model), actions, formula];
    let mut numbers = header(case, &labels);
    numbers.extend(tables.into_iter().flatten());
    numbers.into_iter().flat_map(|number| narrow(number).to_le_bytes()).collect()
}

/// The header's numbers: the counts, and the offsets that follow from them.
fn header(case: &Case, labels: &LabelNumbers) -> Vec<usize> {
    let counts = case.counts();
    let start = NUMBER * if labels.joined { NAMED_HEADER } else { HEADER };
    let records = if labels.joined { RECORD } else { 0 };
    let behind = |start: usize, count: usize, entry: usize| start.saturating_add(count.saturating_mul(NUMBER * entry));
    let transitions_at = behind(start, counts.labels, records);
    let actions_at = behind(transitions_at, counts.transitions, TRANSITION);
    let formula_at = behind(actions_at, counts.action_nodes, NODE);
    let mut numbers = vec![
        if labels.joined { 2 } else { 1 },
        counts.states,
        counts.transitions,
        counts.labels,
        case.model.initial,
        counts.action_nodes,
        counts.formula_nodes,
        transitions_at,
        actions_at,
        formula_at,
    ];
    if labels.joined {
        numbers.push(start);
    }
    numbers
}

/// A number of 16 bits; larger ones become the largest, which is outside every range of the library.
fn narrow(number: usize) -> u16 {
    u16::try_from(number).unwrap_or(u16::MAX)
}

/// A table as it is written out, or nothing of a table whose count no longer fits: the library refuses that count first.
fn written_out(table: Vec<usize>, entry: usize) -> Vec<usize> {
    if table.len() / entry > usize::from(u16::MAX) {
        return Vec::new();
    }
    table
}

fn transition_table(model: &Model) -> Vec<usize> {
    let numbers = model.transitions.iter().flat_map(|t| [t.source, t.label, t.target]).collect();
    written_out(numbers, TRANSITION)
}

/// The action table and the formula table, both empty if the formula is too large.
fn node_tables(table: Option<&Table>, labels: &LabelNumbers) -> (Vec<usize>, Vec<usize>) {
    let Some(table) = table else { return (Vec::new(), Vec::new()) };
    let actions = ActionTable::new(table, labels);
    let formula = table.nodes.iter().flat_map(|node| formula_node(node.kind, &actions)).collect();
    (written_out(actions.nodes.concat(), NODE), written_out(formula, NODE))
}

/// A formula node's kind and argument.
fn formula_node(kind: Kind, actions: &ActionTable) -> [usize; NODE] {
    match kind {
        Kind::False => [0, 0],
        Kind::True => [1, 0],
        Kind::And => [2, 0],
        Kind::Or => [3, 0],
        Kind::Box(action) => [4, actions.place(action)],
        Kind::Diamond(action) => [5, actions.place(action)],
        Kind::Variable(binder) => [6, binder],
        Kind::Mu => [7, 0],
        Kind::Nu => [8, 0],
    }
}
