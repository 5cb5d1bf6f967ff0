//! The sentences of the page.

use crate::amount::of;
use crate::check::Checked;
use crate::draw::xml::Element;
use crate::model::Model;
use crate::table::Kind;

/// The verdict at the initial state.
pub(super) fn verdict(model: &Model, answer: &Checked) -> Element {
    let words = if answer.verdict {
        "✓ The formula holds in the initial state, "
    } else {
        "✗ The formula fails in the initial state, "
    };
    Element::new("p")
        .with("class", if answer.verdict { "verdict holds" } else { "verdict" })
        .text(words)
        .child(name(model, model.initial))
        .text(".")
}

/// In how many of the states that can be reached the formula holds.
pub(super) fn count(answer: &Checked) -> Element {
    let reached = answer.reached.iter().filter(|&&reached| reached).count();
    let words = match (reached, answer.count) {
        (1, _) => "No other state can be reached.".to_string(),
        (_, 0) => format!("It holds in none of the {reached} states that can be reached."),
        (_, count) => format!("It holds in {count} of the {reached} states that can be reached."),
    };
    Element::new("p").text(&words)
}

/// A sentence for each part of the formula, of which the one that is chosen is shown.
pub(super) fn all_parts(model: &Model, answer: &Checked) -> Element {
    let sentences = (0..answer.table.nodes.len()).map(|node| part(model, answer, node));
    Element::new("div").with("class", "says").with("aria-live", "polite").lines(sentences)
}

/// `close` holds in 3 of 5 states: open, closing, closed.
fn part(model: &Model, answer: &Checked, node: usize) -> Element {
    let values = answer.values.get(node).map_or(&[][..], |values| values);
    let holding: Vec<usize> = (0..values.len()).filter(|&state| values[state]).collect();
    let mut sentence = Element::new("p")
        .with("id", format!("says-{node}"))
        .with_some("hidden", (node != 0).then_some("hidden"))
        .child(code(&answer.table.text(node)))
        .text(&share(holding.len(), values.len()));
    let mut separator = ": ";
    for state in holding {
        let unreached = (answer.reached.get(state) != Some(&true)).then_some("unreached");
        sentence = sentence.text(separator).child(name(model, state).with_some("class", unreached));
        separator = ", ";
    }
    sentence.text(".").lines(about_variables(answer, node))
}

fn share(holding: usize, all: usize) -> String {
    if holding == 0 {
        format!(" holds in none of {}", of(all, "state"))
    } else {
        format!(" holds in {holding} of {}", of(all, "state"))
    }
}

/// What a variable that the part does not bind itself stands for.
fn about_variables(answer: &Checked, node: usize) -> Option<Element> {
    let (table, note) = (&answer.table, Element::new("span").with("class", "note"));
    match table.nodes.get(node)?.kind {
        Kind::Variable(binder) => {
            Some(note.text("It stands for the states of ").child(code(&table.text(binder))).text("."))
        }
        _ if table.is_closed(node) => None,
        _ => Some(note.text("Each variable stands for the states of its binder.")),
    }
}

/// A state's name, which keeps its own direction of writing.
pub(super) fn name(model: &Model, state: usize) -> Element {
    Element::new("bdi").text(&model.state(state))
}

fn code(text: &str) -> Element {
    Element::new("code").text(text)
}

/// A text in which formulas stand between backquotes.
pub(super) fn with_code(element: Element, text: &str) -> Element {
    if text.matches('`').count() % 2 == 1 {
        return element.text(text);
    }
    let add = |element: Element, (place, piece): (usize, &str)| {
        if place % 2 == 0 {
            element.text(piece)
        } else {
            element.child(code(piece))
        }
    };
    text.split('`').enumerate().fold(element, add)
}
