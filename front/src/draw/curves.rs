//! The edges as curves: where they leave and enter the states, and the way over their bends.

use super::net::{state_height, Kind, Net, LOOP};
use std::collections::BTreeMap;

/// A position on the drawing.
#[derive(Clone, Copy, Debug, PartialEq)]
pub(super) struct Point {
    pub x: f64,
    pub y: f64,
}

/// The room between two ends of edges at the same side of a state, where there is enough.
const PORT: f64 = 16.0;

/// An arrowhead's tip stands so far from the box.
const TIP: f64 = 1.5;

/// For each edge the data of an SVG path, whose end is at the border of the target.
pub(super) fn curves(net: &Net, widths: &[f64]) -> Vec<String> {
    let ports = Ports::new(net, widths);
    let curve = |(edge, route): (usize, &Vec<usize>)| match route[..] {
        [state] => around(net, state, widths[state]),
        _ => along(&points(net, route, edge, &ports)),
    };
    net.routes.iter().enumerate().map(curve).collect()
}

/// A loop at the right side of a state.
fn around(net: &Net, state: usize, width: f64) -> String {
    let item = &net.items[state];
    let (x, out) = (item.x + width / 2.0, item.x + width / 2.0 + LOOP * 1.25);
    let (upper, lower) = (item.y - 8.0, item.y + 8.0);
    format!("M{x:.1},{upper:.1} C{out:.1},{:.1} {out:.1},{:.1} {:.1},{lower:.1}", upper - 6.0, lower + 6.0, x + TIP)
}

/// The ends of a route at its states' borders, and its bends between them.
fn points(net: &Net, route: &[usize], edge: usize, ports: &Ports) -> Vec<Point> {
    let mut points: Vec<Point> =
        route.iter().map(|&item| Point { x: net.items[item].x, y: net.items[item].y }).collect();
    let last = points.len() - 1;
    for (at, next, target) in [(0, 1, false), (last, last - 1, true)] {
        let away = if points[next].y > points[at].y { 1.0 } else { -1.0 };
        points[at].y += away * (state_height() / 2.0 + if target { TIP } else { 0.0 });
        points[at].x += ports.shift(edge, target);
    }
    points
}

/// A smooth way through points: upright at each, or level where it turns back.
fn along(points: &[Point]) -> String {
    let mut path = format!("M{:.1},{:.1}", points[0].x, points[0].y);
    for at in 1..points.len() {
        let (from, to) = (points[at - 1], points[at]);
        let (first, second) = (control(points, at - 1, to), control(points, at, from));
        let way = format!(" C{:.1},{:.1} {:.1},{:.1} {:.1},{:.1}", first.x, first.y, second.x, second.y, to.x, to.y);
        path.push_str(&way);
    }
    path
}

/// The control point next to a point, on the side of a neighbour.
fn control(points: &[Point], at: usize, neighbour: Point) -> Point {
    let point = points[at];
    let turns = at > 0 && at + 1 < points.len() && (points[at - 1].y - point.y) * (points[at + 1].y - point.y) > 0.0;
    if turns {
        Point { x: (point.x + neighbour.x) / 2.0, y: point.y }
    } else {
        Point { x: point.x, y: (point.y + neighbour.y) / 2.0 }
    }
}

/// How far each end of an edge is moved from its state's middle, so that ends at the same side of a state are apart.
struct Ports {
    shifts: BTreeMap<(usize, bool), f64>,
}

impl Ports {
    fn new(net: &Net, widths: &[f64]) -> Ports {
        let mut shifts = BTreeMap::new();
        for ((state, _), mut ends) in sides(net) {
            ends.sort_by(|a, b| a.0.total_cmp(&b.0));
            let room = (widths[state] - 14.0).max(0.0);
            let apart = (room / ends.len() as f64).min(PORT);
            let middle = (ends.len() - 1) as f64 / 2.0;
            for (place, &(_, edge, target)) in ends.iter().enumerate() {
                shifts.insert((edge, target), (place as f64 - middle) * apart);
            }
        }
        Ports { shifts }
    }

    fn shift(&self, edge: usize, target: bool) -> f64 {
        self.shifts.get(&(edge, target)).copied().unwrap_or(0.0)
    }
}

/// An end of an edge at a state: where its next bend is, the edge, and whether it is the end with the arrowhead.
type End = (f64, usize, bool);

/// The ends at the lower side (true) and the upper side of each state.
fn sides(net: &Net) -> BTreeMap<(usize, bool), Vec<End>> {
    let mut sides: BTreeMap<(usize, bool), Vec<End>> = BTreeMap::new();
    for (edge, route) in net.routes.iter().enumerate().filter(|(_, route)| route.len() > 1) {
        let last = route.len() - 1;
        for (at, next, target) in [(0, 1, false), (last, last - 1, true)] {
            let (state, bend) = (&net.items[route[at]], &net.items[route[next]]);
            debug_assert!(state.kind == Kind::State);
            sides.entry((route[at], bend.row > state.row)).or_default().push((bend.x, edge, target));
        }
    }
    sides
}
