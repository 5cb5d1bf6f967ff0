//! Refusal 3: a count outside its range.

use super::model_numbers::{header_number, HeaderNumber};
use super::names::label_fault;
use super::written_twice;
use crate::amount;
use crate::case::Case;
use crate::limits;
use crate::source::{Fault, Span};
use crate::table::{Kind, Table};
use std::collections::HashSet;

/// A fault for the first count that is outside its range, in the order of the case file's header.
pub fn fault(case: &Case) -> Option<Fault> {
    let counts = case.counts();
    states(case, counts.states)
        .or_else(|| transitions(case, counts.transitions))
        .or_else(|| labels(case, counts.labels))
        .or_else(|| action_nodes(case, counts.action_nodes))
        .or_else(|| formula_nodes(case, counts.formula_nodes))
}

const MERGE: &str = "leave out what the formula does not speak of, or merge states that behave alike, as `ltsconvert \
                     --equivalence=bisim` of mCRL2 does";

fn states(case: &Case, count: usize) -> Option<Fault> {
    let help = match count {
        0 => "a model has at least its initial state: write how many states there are",
        _ if count > limits::STATES => MERGE,
        _ => return None,
    };
    let message = format!("{}: the checker takes 1 to {}", amount::of(count, "state"), limits::STATES);
    Some(Fault::new(&case.model.source, header_number(&case.model, HeaderNumber::States), message).with_help(help))
}

fn transitions(case: &Case, count: usize) -> Option<Fault> {
    let most = limits::TRANSITIONS;
    if count <= most {
        return None;
    }
    let different: HashSet<_> = case.model.transitions.iter().map(|t| (t.source, t.label, t.target)).collect();
    let help = match different.len() {
        1 => "leave out the copies: without them there is 1".to_string(),
        few if few <= most => format!("leave out the copies: without them there are {}", amount::thousands(few)),
        _ => MERGE.to_string(),
    };
    let message = format!("{}: {}", amount::of(count, "transition"), at_most(most));
    Some(Fault::new(&case.model.source, header_number(&case.model, HeaderNumber::Transitions), message).with_help(help))
}

fn labels(case: &Case, count: usize) -> Option<Fault> {
    let most = limits::LABELS;
    if count <= most {
        return None;
    }
    let of_formula = match count.saturating_sub(case.model.labels.len()) {
        0 => String::new(),
        more => format!(" ({} of them named by the formula alone)", amount::thousands(more)),
    };
    let message = format!("{}{of_formula}: {}", amount::of(count, "label"), at_most(most));
    let fault = label_fault(case, message, |number, _| number >= most);
    Some(
        fault.with_help(
            "give labels that the formula does not tell apart one name; the marked one is the first too many",
        ),
    )
}

fn action_nodes(case: &Case, count: usize) -> Option<Fault> {
    let most = limits::ACTION_NODES;
    if count <= most {
        return None;
    }
    let message = format!("{}: {}", amount::of(count, "action node"), at_most(most));
    let (source, whole) = case.formula();
    let place = case.table().and_then(largest_action).unwrap_or(whole);
    Some(Fault::new(source, place, message).with_help(
        "each `!`, `&&`, `||`, `=>` and each label between [ ] or < > is a node; `!a` is shorter than a list of all the \
         labels but `a`. The largest one is marked",
    ))
}

/// The first modality with an action formula that none is larger than.
fn largest_action(table: &Table) -> Option<Span> {
    let size = |kind: Kind| match kind {
        Kind::Box(action) | Kind::Diamond(action) => table.action_end(action).saturating_sub(action),
        _ => 0,
    };
    table.nodes.iter().rev().max_by_key(|node| size(node.kind)).map(|node| node.span)
}

fn formula_nodes(case: &Case, count: usize) -> Option<Fault> {
    let most = limits::FORMULA_NODES;
    if (1..=most).contains(&count) {
        return None;
    }
    let message = format!("{}: the checker takes 1 to {most}", amount::of(count, "formula node"));
    let (source, whole) = case.formula();
    let (place, help) = match case.table().and_then(|table| table.nodes.get(most)) {
        Some(node) => {
            (node.span, format!("node {} begins at the mark; check the parts of the formula one by one", most + 1))
        }
        None => (whole, written_twice::help(source)),
    };
    Some(Fault::new(source, place, message).with_help(help))
}

fn at_most(most: usize) -> String {
    format!("the checker takes at most {}", amount::thousands(most))
}
