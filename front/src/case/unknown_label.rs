//! Labels of a formula that no transition has. A misspelt label would make a box hold.

use crate::amount;
use crate::label::{Label, SILENT, SILENT_OF_CADP};
use crate::model::Model;
use crate::source::{shown, Fault, Span};
use crate::suggest;
use crate::table::Table;
use std::collections::HashSet;

/// How many labels a help lists.
const LISTED: usize = 12;

/// A label that no label of the model is alike is a fault at the first place where it stands. A model that was read has
/// the labels of its transitions and no others.
pub fn check(model: &Model, table: &Table) -> Result<(), Fault> {
    let known: HashSet<&[String]> = model.labels.iter().map(|label| label.names.as_slice()).collect();
    match table.labels.iter().find(|(label, _)| !known.contains(label.names.as_slice())) {
        Some((label, span)) => Err(fault(table, label, *span, model)),
        None => Ok(()),
    }
}

fn fault(table: &Table, label: &Label, span: Span, model: &Model) -> Fault {
    let message = format!("no transition has the label `{}`", shown(&label.text));
    Fault::new(&table.source, span, message).with_help(help(label, &model.labels, &model.silent))
}

/// A line each for what may be wrong, the labels that there are, and the way to have it all the same.
fn help(label: &Label, labels: &[Label], silent: &str) -> String {
    let there_are = match labels.len() {
        0 => "the model has no transitions".to_string(),
        _ => {
            let texts = labels.iter().map(|label| format!("`{}`", shown(&label.text)));
            format!("the model's labels: {}", amount::listed(texts, LISTED))
        }
    };
    let way_out =
        "to check it all the same: --allow-unknown-labels, or the line `% unknown labels: allow` in the formula's file";
    [&may_be(label, labels, silent), &there_are, way_out].join("\n")
}

/// What may have been meant.
fn may_be(label: &Label, labels: &[Label], silent: &str) -> String {
    let other = if silent == SILENT { SILENT_OF_CADP } else { SILENT };
    if label.is_silent() {
        return match labels.iter().any(|there| there.text == other) {
            true => format!("is it called `{other}` in the model? Then say so: {}", silent_word(other)),
            false => "the model has no silent step".to_string(),
        };
    }
    if label.text == other && labels.iter().any(Label::is_silent) {
        return format!("the silent step is called `{}` here", shown(silent));
    }
    let nearest =
        suggest::nearest(&label.text, labels.iter().map(|label| label.text.as_str()).chain(["true", "false"]));
    if let Some(nearest) = nearest {
        return format!("did you mean `{}`?", shown(nearest));
    }
    if let Some(with_others) = labels.iter().find(|there| has_more(there, label)) {
        return format!("it happens only together with others, as in `{}`", shown(&with_others.text));
    }
    if each_is_there(label, labels) {
        let one_of = label.names.iter().map(|name| shown(name)).collect::<Vec<String>>().join(" || ");
        return format!("it is one step with all of these names; for a step with any of them write `{one_of}`");
    }
    "if some step should have it, the component or its recording lacks that step".to_string()
}

/// How to say what the silent step is called.
fn silent_word(word: &str) -> String {
    format!("--silent {word}, or the line `% silent: {word}` in the formula's file")
}

/// Does a label have all names of another, each as often or more, and others too?
fn has_more(there: &Label, label: &Label) -> bool {
    let count = |names: &[String], wanted: &String| names.iter().filter(|name| *name == wanted).count();
    let has_all = label.names.iter().all(|name| count(&label.names, name) <= count(&there.names, name));
    has_all && there.names.len() > label.names.len()
}

/// Are its names several different ones, each of which is a label of the model by itself?
fn each_is_there(label: &Label, labels: &[Label]) -> bool {
    let is_label = |name: &String| labels.iter().any(|there| there.names.as_slice() == std::slice::from_ref(name));
    let differ = label.names.windows(2).all(|pair| pair[0] != pair[1]);
    label.names.len() > 1 && differ && label.names.iter().all(is_label)
}
