//! A model as a drawing: the DOT text of graphviz, and an SVG that needs no graphviz.
//!
//! Both show the same `graph`. The SVG is laid out in four steps: `rows` puts the states in rows, `net` leads the edges
//! from row to row, `order` untangles the rows, and `place` gives each thing its position; `curves` and `svg` write it.

mod curves;
mod dot;
mod graph;
mod measure;
mod net;
mod order;
mod place;
mod rows;
mod svg;
pub(crate) mod xml;

use crate::check::Checked;
use crate::model::Model;
use graph::Graph;

/// The model in DOT. With an answer, states where the formula holds are filled and ticked, and those that cannot be
/// reached are dashed: no colour says anything alone.
pub fn dot(model: &Model, answer: Option<&Checked>) -> String {
    dot::write(&Graph::new(model, answer))
}

/// The model as SVG, laid out without graphviz: states in ranks by their distance from the initial state.
pub fn svg(model: &Model, answer: Option<&Checked>) -> String {
    svg::write(&Graph::new(model, answer))
}
