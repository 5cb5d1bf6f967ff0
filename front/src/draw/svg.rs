//! The SVG text. Colours are attributes of the elements, so that a page's own style can set others.

use super::curves::{curves, Point};
use super::graph::{mark, Edge, Graph, State};
use super::measure::width;
use super::net::{self, Kind, Net};
use super::order::untangle;
use super::place::place;
use super::xml::Element;
use crate::amount::of;

const MARGIN: f64 = 16.0;

/// The room for the arrow to the initial state, above all rows.
const ENTRY: f64 = 26.0;

/// The height of the line with the notes, below all rows.
const FOOT: f64 = 34.0;

const INK: &str = "#1d232b";
const LINES: &str = "#5b6472";
const GROUND: &str = "#ffffff";
const HOLDS: &str = "#cdebd6";

/// The graph as SVG, always the same text for the same graph.
pub(super) fn write(graph: &Graph) -> String {
    let mut net = Net::new(graph);
    untangle(&mut net);
    place(&mut net);
    let size = move_into_view(&mut net, graph);
    let widths: Vec<f64> = graph.states.iter().map(net::state_width).collect();
    let drawing = root(size)
        .lines(words(graph))
        .lines([arrowhead(), ground(0.0, 0.0, size.x, size.y)])
        .lines(graph.edges.iter().zip(curves(&net, &widths)).map(|(edge, path)| line(edge, &path)))
        .lines(graph.edges.iter().zip(&net.routes).filter_map(|(edge, route)| label(edge, route, &net, &widths)))
        .lines(graph.initial.map(|state| entry(&net, state)))
        .lines(graph.states.iter().enumerate().map(|(number, state)| node(number, state, &net)))
        .lines(foot(graph, size));
    format!("{drawing}\n")
}

/// Moves all items so that the drawing begins at zero; returns its width and height.
fn move_into_view(net: &mut Net, graph: &Graph) -> Point {
    let left = net.items.iter().map(|item| item.x - item.left).reduce(f64::min).unwrap_or(0.0);
    for item in &mut net.items {
        item.x += MARGIN - left;
        item.y += MARGIN + ENTRY;
    }
    let right = net.items.iter().map(|item| item.x + item.right).fold(0.0, f64::max);
    let bottom = net.items.iter().map(|item| item.y + item.height / 2.0).fold(0.0, f64::max);
    let notes = width(&notes(graph), net::LABEL_SIZE) + 2.0 * MARGIN;
    let foot = if graph.notes.is_empty() { 0.0 } else { FOOT };
    Point { x: (right + MARGIN).max(notes).ceil(), y: (bottom + MARGIN + foot).ceil() }
}

fn notes(graph: &Graph) -> String {
    graph.notes.join(" · ")
}

fn root(size: Point) -> Element {
    Element::new("svg")
        .with("xmlns", "http://www.w3.org/2000/svg")
        .with("viewBox", format!("0 0 {} {}", size.x, size.y))
        .with("width", size.x)
        .with("height", size.y)
        .with("role", "img")
        .with("aria-labelledby", "model-title model-description")
        .with("font-family", "system-ui, sans-serif")
        .with("class", "model")
}

/// The words for people who do not see the drawing.
fn words(graph: &Graph) -> [Element; 2] {
    [
        Element::new("title").with("id", "model-title").text("The model"),
        Element::new("desc").with("id", "model-description").text(&description(graph)),
    ]
}

fn description(graph: &Graph) -> String {
    let states = of(graph.states.len(), "state");
    let transitions = of(graph.edges.iter().map(|edge| edge.labels.len()).sum::<usize>(), "transition");
    let initial = graph.initial.and_then(|state| graph.states.get(state));
    let begins = initial.map_or(String::new(), |state| format!(" It begins in {}.", state.name));
    format!("{states}, {transitions}.{begins}{}", holding(graph))
}

/// Where the formula holds, if there is an answer.
fn holding(graph: &Graph) -> String {
    let names: Vec<&str> = graph.states.iter().filter(|s| s.holds == Some(true)).map(|s| s.name.as_str()).collect();
    match (graph.states.iter().any(|state| state.holds.is_some()), names.is_empty()) {
        (false, _) => String::new(),
        (true, true) => " The formula holds in none of them.".to_string(),
        (true, false) => format!(" The formula holds in {}.", names.join(", ")),
    }
}

fn arrowhead() -> Element {
    let head = Element::new("path").with("d", "M0,1 L10,5 L0,9 Z").with("fill", LINES).with("class", "arrow");
    let marker = Element::new("marker")
        .with("id", "model-arrow")
        .with("viewBox", "0 0 10 10")
        .with("refX", "9.5")
        .with("refY", "5")
        .with("markerWidth", "8")
        .with("markerHeight", "8")
        .with("markerUnits", "userSpaceOnUse")
        .with("orient", "auto");
    Element::new("defs").child(marker.child(head))
}

/// A box in the colour of the ground: it keeps lines away from what stands on it.
fn ground(x: f64, y: f64, wide: f64, high: f64) -> Element {
    rectangle(x, y, wide, high).with("fill", GROUND).with("class", "ground")
}

fn rectangle(x: f64, y: f64, wide: f64, high: f64) -> Element {
    Element::new("rect").at("x", x).at("y", y).at("width", wide).at("height", high)
}

/// An edge's curve. All its labels are its title, for those that are cut.
fn line(edge: &Edge, path: &str) -> Element {
    arrow(path).child(title(&edge.labels.join(", ")))
}

fn arrow(path: &str) -> Element {
    Element::new("path")
        .with("d", path)
        .with("fill", "none")
        .with("stroke", LINES)
        .with("stroke-width", "1.2")
        .with("marker-end", "url(#model-arrow)")
        .with("class", "edge")
}

fn title(text: &str) -> Element {
    Element::new("title").text(text)
}

/// An edge's label, on its bend, or right of its loop.
fn label(edge: &Edge, route: &[usize], net: &Net, widths: &[f64]) -> Option<Element> {
    let lines = net::lines(&edge.labels);
    let high = net::LINE * lines.len() as f64;
    let wide = lines.iter().map(|line| width(line, net::LABEL_SIZE)).fold(0.0, f64::max) + 6.0;
    let group = Element::new("g").with("class", "label").child(title(&edge.labels.join(", ")));
    if let [state] = route {
        let item = &net.items[*state];
        let x = item.x + widths[*state] / 2.0 + net::LOOP;
        return Some(group.child(label_text(&lines, x, item.y - high / 2.0, "start")));
    }
    let bend = route.iter().map(|&item| &net.items[item]).find(|item| item.kind == Kind::Bend { labelled: true })?;
    let top = bend.y - high / 2.0;
    let behind = ground(bend.x - wide / 2.0, top, wide, high);
    Some(group.child(behind).child(label_text(&lines, bend.x, top, "middle")))
}

/// The lines of a label, one below the other.
fn label_text(lines: &[String], x: f64, top: f64, anchor: &str) -> Element {
    let mut text = words_at(net::LABEL_SIZE, anchor);
    for (at, line) in lines.iter().enumerate() {
        let baseline = top + net::LINE * (at as f64 + 0.75);
        text = text.child(Element::new("tspan").at("x", x).at("y", baseline).text(line));
    }
    text
}

fn words_at(size: f64, anchor: &str) -> Element {
    Element::new("text").with("text-anchor", anchor).with("font-size", size).with("fill", INK)
}

/// The arrow from a point to the initial state.
fn entry(net: &Net, state: usize) -> Element {
    let item = &net.items[state];
    let bottom = item.y - net::state_height() / 2.0 - 1.5;
    let top = bottom - ENTRY + 4.0;
    let point = Element::new("circle").at("cx", item.x).at("cy", top).with("r", 4).with("fill", LINES);
    let path = format!("M{0:.1},{top:.1} L{0:.1},{bottom:.1}", item.x);
    Element::new("g").child(point.with("class", "arrow")).child(arrow(&path))
}

/// A state: its box, its mark and its name, with the whole name as its title.
fn node(number: usize, state: &State, net: &Net) -> Element {
    let item = &net.items[number];
    let holds = state.holds == Some(true);
    let (name_at, mark_at) = net::name_and_mark(state);
    let baseline = item.y + net::NAME_SIZE * 0.35;
    let text = |x: f64| words_at(net::NAME_SIZE, "middle").at("x", item.x + x).at("y", baseline);
    Element::new("g")
        .with("class", if holds { "state holds" } else { "state" })
        .with("id", format!("state-{number}"))
        .child(title(&state.name))
        .child(state_box(state, item.x, item.y))
        .lines(state.holds.map(|holds| text(mark_at).with("class", "mark").text(mark(holds))))
        .child(text(name_at).text(&net::name(state)))
}

fn state_box(state: &State, x: f64, y: f64) -> Element {
    let (wide, high) = (net::state_width(state), net::state_height());
    rectangle(x - wide / 2.0, y - high / 2.0, wide, high)
        .with("rx", 9)
        .with("fill", if state.holds == Some(true) { HOLDS } else { GROUND })
        .with("stroke", LINES)
        .with("stroke-width", "1.4")
        .with_some("stroke-dasharray", (!state.reached).then_some("5 4"))
        .with("class", "box")
}

/// The line below the drawing that says what the marks mean.
fn foot(graph: &Graph, size: Point) -> Option<Element> {
    let notes = Some(notes(graph)).filter(|notes| !notes.is_empty())?;
    let line = words_at(net::LABEL_SIZE, "start").at("x", MARGIN).at("y", size.y - MARGIN);
    Some(line.with("class", "notes").text(&notes))
}
