//! The numbers of a case's labels and of their names.

use crate::amount;
use crate::label::Label;
use crate::limits;
use crate::model::Model;
use crate::source::{shown, Fault, Source, Span};
use crate::table::Table;
use std::collections::HashMap;
use std::sync::Arc;

/// The labels of a case in the order of their numbers: the model's, then those that only the formula names.
pub struct LabelNumbers<'a> {
    labels: Vec<&'a Label>,
    /// The labels that only the formula names, which are the last ones, with the first place of each.
    of_formula_alone: Vec<(&'a Label, Span)>,
    /// For each label of the formula's list, its number.
    of_formula: Vec<usize>,
    /// Is a label written with `|`? Then the case has version 2.
    pub joined: bool,
}

impl<'a> LabelNumbers<'a> {
    /// From the labels of a model, and the formula's table if it is written out.
    pub fn new(of_model: &'a [Label], table: Option<&'a Table>) -> LabelNumbers<'a> {
        let mut labels: Vec<&Label> = of_model.iter().collect();
        let mut numbers: HashMap<&[String], usize> = HashMap::new();
        for (number, label) in labels.iter().enumerate() {
            numbers.entry(&label.names).or_insert(number);
        }
        let (mut of_formula, mut of_formula_alone) = (Vec::new(), Vec::new());
        for (label, span) in table.iter().flat_map(|table| &table.labels) {
            let number = *numbers.entry(&label.names).or_insert(labels.len());
            if number == labels.len() {
                labels.push(label);
                of_formula_alone.push((label, *span));
            }
            of_formula.push(number);
        }
        let joined = labels.iter().any(|label| label.is_joined())
            || table.is_some_and(|table| table.labels.iter().any(|(label, _)| label.is_joined()));
        LabelNumbers { labels, of_formula_alone, of_formula, joined }
    }

    /// How many labels the case has, which is one at least, used or not.
    pub fn count(&self) -> usize {
        self.labels.len().max(1)
    }

    /// The number of a label of the formula's list.
    pub fn of_formula(&self, label: usize) -> usize {
        self.of_formula.get(label).copied().unwrap_or(usize::MAX)
    }

    pub fn of_formula_alone(self) -> Vec<(&'a Label, Span)> {
        self.of_formula_alone
    }

    /// How many different names the labels have.
    pub fn names(&self) -> usize {
        self.name_numbers().len()
    }

    /// The label records of version 2: four numbers each, zeros behind the names.
    pub fn records(&self) -> Vec<usize> {
        let numbers = self.name_numbers();
        self.labels.iter().flat_map(|label| record(label, &numbers)).collect()
    }

    /// The names from 1 in order of first appearance.
    fn name_numbers(&self) -> HashMap<&'a str, usize> {
        let mut numbers = HashMap::new();
        for name in self.labels.iter().flat_map(|label| written_names(label)) {
            let next = numbers.len() + 1;
            numbers.entry(name).or_insert(next);
        }
        numbers
    }
}

/// A label's names in the order in which they are written, without the silent step's.
fn written_names(label: &Label) -> impl Iterator<Item = &str> {
    label.text.split('|').filter(|&name| label.names.iter().any(|own| own == name))
}

/// A label's record, whose names are at most four: others were a fault before.
fn record(label: &Label, numbers: &HashMap<&str, usize>) -> [usize; limits::NAMES_OF_A_LABEL] {
    let mut record = [0; limits::NAMES_OF_A_LABEL];
    for (place, name) in record.iter_mut().zip(written_names(label)) {
        *place = numbers.get(name).copied().unwrap_or(0);
    }
    record
}

/// A label with more names than a record holds is a fault at the first place where it stands.
pub fn check_names(model: &Model, table: Option<&Table>) -> Result<(), Fault> {
    let too_long = |label: &Label| label.names.len() > limits::NAMES_OF_A_LABEL;
    if let Some(number) = model.labels.iter().position(too_long) {
        return Err(too_many_names(&model.source, model.label_place(number), &model.labels[number]));
    }
    match table.and_then(|table| Some((table, table.labels.iter().find(|(label, _)| too_long(label))?))) {
        Some((table, (label, span))) => Err(too_many_names(&table.source, *span, label)),
        None => Ok(()),
    }
}

fn too_many_names(source: &Arc<Source>, span: Span, label: &Label) -> Fault {
    let (text, names, most) = (shown(&label.text), amount::of(label.names.len(), "name"), limits::NAMES_OF_A_LABEL);
    let message = format!("the label `{text}` has {names}: the checker takes at most {most} that happen together");
    Fault::new(source, span, message).with_help(
        "give several of the events one name together, in the model and in the formula, for instance `focus_and_blur`",
    )
}
