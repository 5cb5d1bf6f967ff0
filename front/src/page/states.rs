//! The table of states: the same as the drawing, in words.

use super::section;
use super::words::name;
use crate::check::Checked;
use crate::draw::xml::Element;
use crate::model::{Model, Transition};

pub(super) fn states(model: &Model, answer: &Checked) -> Element {
    let heads = ["State", "The chosen part", "Can be reached", "Steps"];
    let head = Element::new("tr").lines(heads.map(|head| Element::new("th").with("scope", "col").text(head)));
    let leaving = model.leaving();
    let rows = leaving.iter().enumerate().map(|(state, steps)| row(model, answer, state, steps));
    let table = Element::new("table").lines([Element::new("thead").lines([head]), Element::new("tbody").lines(rows)]);
    section("states", "The states").lines([Element::new("div").with("class", "scroll").lines([table])])
}

fn row(model: &Model, answer: &Checked, state: usize, steps: &[usize]) -> Element {
    let holds = answer.holds.get(state) == Some(&true);
    let reached = answer.reached.get(state) == Some(&true);
    Element::new("tr").with("id", format!("row-{state}")).with("class", if holds { "holds" } else { "" }).lines([
        Element::new("th").with("scope", "row").child(name(model, state)),
        Element::new("td").with("class", "value").text(if holds { "✓ holds" } else { "✗ fails" }),
        Element::new("td").text(if reached { "yes" } else { "no" }),
        Element::new("td").lines(steps.iter().map(|&place| step(model, &model.transitions[place]))),
    ])
}

fn step(model: &Model, transition: &Transition) -> Element {
    let text = model.labels.get(transition.label).map_or("", |label| &label.text);
    Element::new("span")
        .with("class", "step")
        .child(Element::new("bdi").with("class", "label").text(text))
        .text(" → ")
        .child(name(model, transition.target))
}
