//! Refusal 6: a number of the model that is no state. And where a model's numbers stand in its text.

use crate::amount;
use crate::limits;
use crate::model::{Model, Transition};
use crate::source::{Fault, Span};

/// The numbers of a model's header, in the order in which they stand there.
#[derive(Clone, Copy)]
pub enum HeaderNumber {
    Initial,
    Transitions,
    States,
}

/// A fault for the first number that is no state: the initial state's, then those of the transitions.
pub fn fault(model: &Model) -> Option<Fault> {
    if model.initial >= model.states {
        let span = header_number(model, HeaderNumber::Initial);
        return Some(no_state(model, span, model.initial, "the initial state is"));
    }
    model.transitions.iter().find_map(|transition| transition_fault(model, transition))
}

fn transition_fault(model: &Model, transition: &Transition) -> Option<Fault> {
    let numbers = digits(model, transition.span);
    let span = |place: Option<&Span>| place.copied().unwrap_or(transition.span);
    if transition.source >= model.states {
        return Some(no_state(model, span(numbers.first()), transition.source, "the transition begins in state"));
    }
    let ends_outside = transition.target >= model.states;
    ends_outside.then(|| no_state(model, span(numbers.last()), transition.target, "the transition ends in state"))
}

fn no_state(model: &Model, span: Span, number: usize, what: &str) -> Fault {
    let (which, state) = match model.states.saturating_sub(1) {
        0 => ("which is 0".to_string(), "0".to_string()),
        last => (format!("which are 0 to {last}"), format!("a state from 0 to {last}")),
    };
    let message = format!("{what} {number}, but the header says {}, {which}", amount::of(model.states, "state"));
    let help = match number < limits::STATES {
        true => format!("write {state} here, or {} as the last number of the header", number + 1),
        false => format!("write {state} here"),
    };
    Fault::new(&model.source, span, message).with_help(help)
}

/// Where a number of the header stands; the whole header if it is not found.
pub fn header_number(model: &Model, which: HeaderNumber) -> Span {
    digits(model, model.header).get(which as usize).copied().unwrap_or(model.header)
}

/// The parts of a span that are decimal digits.
fn digits(model: &Model, span: Span) -> Vec<Span> {
    let text = model.source.text.get(span.start..span.end).unwrap_or("");
    let mut found: Vec<Span> = Vec::new();
    for (at, _) in text.char_indices().filter(|(_, sign)| sign.is_ascii_digit()) {
        let at = span.start + at;
        match found.last_mut() {
            Some(last) if last.end == at => last.end = at + 1,
            _ => found.push(Span::new(at, at + 1)),
        }
    }
    found
}
