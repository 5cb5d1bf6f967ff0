//! The drawing as a net: states and bends in rows, and the edges as routes over them.
//!
//! Rows of states are even. An edge bends in each row that it crosses, and its label stands at a bend in an odd row, so
//! that labels have places of their own as states have.

use super::graph::{Edge, Graph, State};
use super::measure::{cut, two_lines, width};
use super::rows::rows;

/// Sizes of fonts, in the drawing's units.
pub(super) const NAME_SIZE: f64 = 14.0;
pub(super) const LABEL_SIZE: f64 = 12.0;

/// The height of a line of a label.
pub(super) const LINE: f64 = 15.0;

/// Longer names are cut in the drawing, longer labels broken into two lines, and long lists of labels cut too.
const NAME_CHARACTERS: usize = 32;
const LABEL_CHARACTERS: usize = 22;
const LABELS: usize = 6;

const STATE_HEIGHT: f64 = 34.0;
/// The room between two states of a row.
pub(super) const STATE_GAP: f64 = 36.0;

const PADDING: f64 = 12.0;
const MARK: f64 = 20.0;

/// How far a loop goes out to the right of its state.
pub(super) const LOOP: f64 = 26.0;

/// With more bends than this, edges are led straight from their label to the target.
const MOST_BENDS: usize = 4000;

/// A thing with a place of its own.
pub(super) struct Item {
    pub kind: Kind,
    pub row: usize,
    /// How far it reaches from its middle to the left and to the right.
    pub left: f64,
    pub right: f64,
    pub height: f64,
    pub x: f64,
    pub y: f64,
}

#[derive(Clone, Copy, PartialEq, Eq)]
pub(super) enum Kind {
    /// The states come first, so a state's item has its number.
    State,
    /// A bend of an edge, with its label or not.
    Bend { labelled: bool },
}

pub(super) struct Net {
    pub items: Vec<Item>,
    /// The items of each row from left to right.
    pub rows: Vec<Vec<usize>>,
    /// For each edge, its items from the source to the target; for a loop its state alone.
    pub routes: Vec<Vec<usize>>,
}

impl Net {
    pub fn new(graph: &Graph) -> Net {
        let state_rows = rows(graph);
        let mut net = Net { items: Vec::new(), rows: vec![Vec::new(); 2 * state_rows.len()], routes: Vec::new() };
        net.items.extend(graph.states.iter().map(state_item));
        for (number, row) in state_rows.into_iter().enumerate() {
            row.iter().for_each(|&state| net.items[state].row = 2 * number);
            net.rows[2 * number] = row;
        }
        let bends: usize = graph.edges.iter().map(|edge| net.distance(edge)).sum();
        for edge in &graph.edges {
            let route = if edge.source == edge.target {
                net.make_room_for_loop(edge)
            } else {
                net.route(edge, bends <= MOST_BENDS)
            };
            net.routes.push(route);
        }
        net
    }

    /// The items of a row, and of the row above (below), that routes lead to, for each item.
    pub fn neighbours(&self) -> (Vec<Vec<usize>>, Vec<Vec<usize>>) {
        let mut above = vec![Vec::new(); self.items.len()];
        let mut below = above.clone();
        for pair in self.routes.iter().flat_map(|route| route.windows(2)) {
            let (mut upper, mut lower) = (pair[0], pair[1]);
            if self.items[upper].row > self.items[lower].row {
                std::mem::swap(&mut upper, &mut lower);
            }
            if self.items[upper].row + 1 == self.items[lower].row {
                below[upper].push(lower);
                above[lower].push(upper);
            }
        }
        (above, below)
    }

    fn distance(&self, edge: &Edge) -> usize {
        self.items[edge.source].row.abs_diff(self.items[edge.target].row)
    }

    /// Leads an edge over new bends: of the same row, by one below it; else by one in each row between, or by its label's
    /// alone.
    fn route(&mut self, edge: &Edge, all_bends: bool) -> Vec<usize> {
        let (from, to) = (self.items[edge.source].row, self.items[edge.target].row);
        let distance = from.abs_diff(to);
        // The odd row nearest to the middle, seen from the source.
        let labelled = if distance < 2 || !all_bends { 1 } else { (distance / 2 - 1) | 1 };
        let mut route = vec![edge.source];
        for step in 1..distance.max(2) {
            if step == labelled || all_bends {
                let row = if from <= to { from + step } else { from - step };
                route.push(self.add_bend(edge, row, step == labelled));
            }
        }
        route.push(edge.target);
        route
    }

    fn add_bend(&mut self, edge: &Edge, row: usize, labelled: bool) -> usize {
        let lines = if labelled { lines(&edge.labels) } else { Vec::new() };
        let half = widest(&lines) / 2.0 + if labelled { 5.0 } else { 2.0 };
        let height = LINE * lines.len() as f64;
        self.items.push(Item { kind: Kind::Bend { labelled }, row, left: half, right: half, height, x: 0.0, y: 0.0 });
        self.rows[row].push(self.items.len() - 1);
        self.items.len() - 1
    }

    fn make_room_for_loop(&mut self, edge: &Edge) -> Vec<usize> {
        let lines = lines(&edge.labels);
        let state = &mut self.items[edge.source];
        state.right += LOOP + 6.0 + widest(&lines);
        state.height = state.height.max(LINE * lines.len() as f64);
        vec![edge.source]
    }
}

fn state_item(state: &State) -> Item {
    let half = state_width(state) / 2.0;
    Item { kind: Kind::State, row: 0, left: half, right: half, height: STATE_HEIGHT, x: 0.0, y: 0.0 }
}

/// The width of a state's box.
pub(super) fn state_width(state: &State) -> f64 {
    let mark = if state.holds.is_some() { MARK } else { 0.0 };
    (2.0 * PADDING + mark + width(&name(state), NAME_SIZE)).max(44.0)
}

pub(super) fn state_height() -> f64 {
    STATE_HEIGHT
}

/// The middle of a state's name and of its mark, seen from the middle of its box.
pub(super) fn name_and_mark(state: &State) -> (f64, f64) {
    if state.holds.is_some() {
        (MARK / 2.0, PADDING + MARK / 2.0 - 3.0 - state_width(state) / 2.0)
    } else {
        (0.0, 0.0)
    }
}

/// A state's name as it is drawn.
pub(super) fn name(state: &State) -> String {
    cut(&state.name, NAME_CHARACTERS)
}

/// The lines of an edge's label as they are drawn: a comma stands between labels, since a label may have two lines.
pub(super) fn lines(labels: &[String]) -> Vec<String> {
    let drawn = if labels.len() > LABELS { LABELS - 1 } else { labels.len() };
    let mut lines = Vec::new();
    for (place, label) in labels[..drawn].iter().enumerate() {
        lines.extend(two_lines(label, LABEL_CHARACTERS));
        if let Some(last) = lines.last_mut().filter(|_| place + 1 < labels.len()) {
            last.push(',');
        }
    }
    lines.extend((drawn < labels.len()).then(|| format!("and {} more", labels.len() - drawn)));
    lines
}

fn widest(lines: &[String]) -> f64 {
    lines.iter().map(|line| width(line, LABEL_SIZE)).fold(0.0, f64::max)
}
