//! Refusal 15: more different names than a case has numbers for. And where a label of a case stands in the texts.

use crate::amount;
use crate::case::Case;
use crate::label::Label;
use crate::limits;
use crate::source::Fault;
use std::collections::HashSet;

/// A fault at the label that brings the first name too many.
pub fn fault(case: &Case) -> Option<Fault> {
    let (count, most) = (case.names(), limits::NAMES);
    if count <= most {
        return None;
    }
    let message = format!("{}: the checker takes at most {most}", amount::of(count, "different name"));
    let mut seen = HashSet::new();
    let fault = label_fault(case, message, |_, label| {
        seen.extend(label.names.iter().cloned());
        seen.len() > most
    });
    Some(fault.with_help(
        "give events that the formula does not tell apart one name; the marked label has the first too many",
    ))
}

/// A fault at the first label of the case, by its number, of which something is true: where it first stands in the model,
/// or else in the formula; at the model's header if there is none.
pub fn label_fault(case: &Case, message: String, mut is: impl FnMut(usize, &Label) -> bool) -> Fault {
    let model = &case.model;
    if let Some(number) = (0..model.labels.len()).find(|&number| is(number, &model.labels[number])) {
        return Fault::new(&model.source, model.label_place(number), message);
    }
    let places = case.formula_labels();
    match places.iter().enumerate().find(|(place, (label, _))| is(model.labels.len() + place, label)) {
        Some((_, (_, span))) => Fault::new(case.formula().0, *span, message),
        None => Fault::new(&model.source, model.header, message),
    }
}
