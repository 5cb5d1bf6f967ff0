//! The labels of a case file as text.

use crate::label::{Label, SILENT};
use std::collections::HashSet;

/// The labels of version 1, which have numbers only.
pub fn numbered(count: usize) -> Vec<Label> {
    (0..count).map(|number| label(format!("label{number}"))).collect()
}

/// The labels of version 2 from their records, each with a text of its own.
pub fn named(records: &[[usize; 4]]) -> Vec<Label> {
    let mut seen = HashSet::new();
    records.iter().map(|record| label(fresh(text(record), &mut seen))).collect()
}

/// A record's names joined by `|`; the silent step's word if it has none.
fn text(record: &[usize]) -> String {
    let names: Vec<String> = record.iter().filter(|&&name| name != 0).map(|name| format!("name{name}")).collect();
    if names.is_empty() {
        return SILENT.to_string();
    }
    names.join("|")
}

/// The text with the silent step behind it as often as it takes to differ from those before.
fn fresh(mut text: String, seen: &mut HashSet<String>) -> String {
    while !seen.insert(text.clone()) {
        text.push('|');
        text.push_str(SILENT);
    }
    text
}

/// The label of such a text, which is none that reading refuses.
fn label(text: String) -> Label {
    Label::read(&text, SILENT).unwrap_or(Label { text, names: Vec::new() })
}
