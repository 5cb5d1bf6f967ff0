//! The drawings: DOT and SVG texts worked out by hand, what graphviz and another XML reader make of them, and where things
//! stand in the SVG.

#[path = "support/case_texts.rs"]
mod case_texts;
mod drawing;

use bithrowy_front::aut;
use bithrowy_front::check::Checked;
use bithrowy_front::draw::{dot, svg};
use bithrowy_front::model::Model;
use bithrowy_tests::random::Random;
use drawing::programs::{installed, python, run};
use drawing::xml::{self, Element};
use drawing::{model_of, random_model, HOSTILE};
use std::collections::{BTreeMap, BTreeSet};
use std::process::Command;

/// A dialog whose click was recorded twice, and which cannot be lost.
fn dialog() -> Model {
    let transitions =
        [(0, "click", 1), (0, "click", 1), (1, "close", 0), (0, "hover", 0), (1, "escape", 0), (2, "close", 0)];
    model_of(3, &transitions, "0 closed\n1 open\n")
}

/// A model with each hostile text as a label and as a name.
fn hostile() -> Model {
    let transitions: Vec<(usize, &str, usize)> =
        HOSTILE.iter().enumerate().map(|(place, &(text, _))| (place, text, (place + 1) % HOSTILE.len())).collect();
    let mut model = model_of(HOSTILE.len(), &transitions, "");
    for (state, (text, _)) in HOSTILE.iter().enumerate() {
        model.names.insert(state, format!("{state} {text}"));
    }
    model
}

/// How the hostile texts are shown as labels.
fn hostile_labels() -> BTreeSet<String> {
    HOSTILE.iter().map(|(_, shown)| shown.to_string()).collect()
}

/// How the hostile texts are shown as names, in the order of the states.
fn hostile_names() -> Vec<String> {
    HOSTILE.iter().enumerate().map(|(state, (_, shown))| format!("{state} {shown}")).collect()
}

/// By hand: the copy of the click is one line, `close` and `escape` are one edge, and state 2 has no name and is not
/// reached.
#[test]
fn dot_by_hand() {
    let expected = r#"digraph model {
  graph [fontname="sans-serif", fontsize=11];
  node [fontname="sans-serif", fontsize=13, shape=box, style="rounded"];
  edge [fontname="sans-serif", fontsize=11];
  label="dashed: cannot be reached";
  start [shape=point, style=""];
  start -> s0;
  s0 [label="closed", style="rounded"];
  s1 [label="open", style="rounded"];
  s2 [label="state 2", style="rounded,dashed"];
  s0 -> s0 [label="hover"];
  s0 -> s1 [label="click"];
  s1 -> s0 [label="close\nescape"];
  s2 -> s0 [label="close"];
}
"#;
    assert_eq!(dot(&dialog(), None), expected);
}

#[test]
fn dot_escapes_by_hand() {
    let model = model_of(1, &[(0, r#"say "no" \N &amp;"#, 0)], "");
    assert!(dot(&model, None).contains(r#"s0 -> s0 [label="say \"no\" \\N &amp;amp;"];"#));
}

/// The dialog's answer for `<close>true`: by hand it holds in state 1 and in state 2.
fn answer() -> Checked {
    let model = aut::write(&dialog());
    case_texts::checked(&case_texts::case(&model, "<close>true"), 100)
}

/// By hand: where it holds a state is filled and ticked, elsewhere crossed; state 2 is dashed too.
#[test]
fn dot_with_an_answer_by_hand() {
    let text = dot(&dialog(), Some(&answer()));
    let states: Vec<&str> = text.lines().filter(|line| line.contains("style=\"rounded")).skip(1).collect();
    let expected = [
        "  s0 [label=\"✗ closed\", style=\"rounded\"];",
        "  s1 [label=\"✓ open\", style=\"rounded,filled\", fillcolor=\"#cdebd6\"];",
        "  s2 [label=\"✓ state 2\", style=\"rounded,filled,dashed\", fillcolor=\"#cdebd6\"];",
    ];
    assert_eq!(states, expected);
    assert!(text.contains("  label=\"✓ holds   ✗ fails   dashed: cannot be reached\";\n"));
}

#[test]
fn svg_with_an_answer_by_hand() {
    let root = xml::read(&svg(&dialog(), Some(&answer())));
    let marks: Vec<&str> = root.all("text", "mark").iter().map(|mark| mark.text.as_str()).collect();
    assert_eq!(marks, ["✗", "✓", "✓"]);
    let holding: Vec<&str> = root.all("g", "holds").iter().map(|state| state.attribute("id")).collect();
    assert_eq!(holding, ["state-1", "state-2"]);
    let fills: Vec<bool> = root.all("rect", "box").iter().map(|area| area.attribute("fill") != "#ffffff").collect();
    assert_eq!(fills, [false, true, true]);
    let description = "3 states, 5 transitions. It begins in closed. The formula holds in open, state 2.";
    assert_eq!(root.child_text("desc"), [description]);
}

/// Graphviz draws each hostile text as it is shown, and nothing else.
#[test]
fn dot_is_read_by_graphviz() {
    let test = "that graphviz reads the DOT texts";
    let Some(program) = installed(&["dot"], test) else { return };
    let ended = run(Command::new(program).arg("-Tsvg"), &dot(&hostile(), None), 60).expect("graphviz ends");
    // It may complain of fonts that are missing.
    assert!(ended.well, "{}", ended.complained);
    let script = "import sys, xml.etree.ElementTree as tree\n\
        for text in tree.fromstring(sys.stdin.buffer.read()).iter('{http://www.w3.org/2000/svg}text'):\n\
        \x20   print(text.text.replace('\\u00a0', ' '))\n";
    let Some(texts) = python(script, &ended.printed, test) else { return };
    let drawn: BTreeSet<String> = texts.lines().map(str::to_string).collect();
    assert_eq!(drawn, hostile_labels().into_iter().chain(hostile_names()).collect());
}

/// The states' titles are their whole names, and the edges' titles all their labels.
#[test]
fn svg_keeps_texts_in_their_place() {
    let text = svg(&hostile(), None);
    let root = xml::read(&text);
    let names: Vec<&str> = root.all("g", "state").iter().flat_map(|state| state.child_text("title")).collect();
    assert_eq!(names, hostile_names());
    let edges = root.all("path", "edge");
    let labels: BTreeSet<String> = edges.iter().flat_map(|edge| edge.child_text("title")).map(str::to_string).collect();
    assert_eq!(labels, hostile_labels());
}

#[test]
fn svg_is_read_by_another_reader() {
    let test = "that another XML reader reads the SVG";
    let script = "import sys, xml.etree.ElementTree as tree\n\
        root = tree.fromstring(sys.stdin.buffer.read())\n\
        print(root.tag, root.get('role'))\n\
        for title in root.iter('{http://www.w3.org/2000/svg}title'): print(title.text)\n";
    let Some(printed) = python(script, &svg(&hostile(), None), test) else { return };
    let mut lines = printed.lines();
    assert_eq!(lines.next(), Some("{http://www.w3.org/2000/svg}svg img"));
    let titles: BTreeSet<String> = lines.map(str::to_string).collect();
    let expected = hostile_labels().into_iter().chain(hostile_names()).chain(["The model".to_string()]);
    assert_eq!(titles, expected.collect());
}

#[test]
fn svg_says_in_words_what_it_shows() {
    let root = xml::read(&svg(&dialog(), None));
    assert_eq!(root.attribute("role"), "img");
    assert_eq!(root.attribute("aria-labelledby"), "model-title model-description");
    assert_eq!(root.child_text("title"), ["The model"]);
    // By hand: the copy of the click counts once.
    assert_eq!(root.child_text("desc"), ["3 states, 5 transitions. It begins in closed."]);
    let notes: Vec<&str> = root.all("text", "notes").iter().map(|text| text.text.as_str()).collect();
    assert_eq!(notes, ["dashed: cannot be reached"]);
}

#[test]
fn svg_dashes_what_is_not_reached() {
    let root = xml::read(&svg(&dialog(), None));
    let dashed: Vec<bool> =
        root.all("rect", "box").iter().map(|b| !b.attribute("stroke-dasharray").is_empty()).collect();
    assert_eq!(dashed, [false, false, true]);
}

/// A box on the drawing.
#[derive(Clone, Copy, Debug)]
struct Area {
    left: f64,
    top: f64,
    right: f64,
    bottom: f64,
}

impl Area {
    fn of(rectangle: &Element) -> Area {
        let (left, top) = (rectangle.number("x"), rectangle.number("y"));
        Area { left, top, right: left + rectangle.number("width"), bottom: top + rectangle.number("height") }
    }

    fn meets(&self, other: &Area) -> bool {
        self.left < other.right && other.left < self.right && self.top < other.bottom && other.top < self.bottom
    }

    /// Is a point at the border, or at most so far from it?
    fn has_at_border(&self, (x, y): (f64, f64), far: f64) -> bool {
        let wide = |by: f64| Area {
            left: self.left - by,
            top: self.top - by,
            right: self.right + by,
            bottom: self.bottom + by,
        };
        wide(far).contains((x, y)) && !wide(-far).contains((x, y))
    }

    fn contains(&self, (x, y): (f64, f64)) -> bool {
        self.left <= x && x <= self.right && self.top <= y && y <= self.bottom
    }
}

/// The boxes of the states, in their order.
fn boxes(root: &Element) -> Vec<Area> {
    root.all("rect", "box").into_iter().map(Area::of).collect()
}

/// The grounds behind the labels.
fn grounds(root: &Element) -> Vec<Area> {
    root.all("g", "label").iter().flat_map(|label| label.all("rect", "ground")).map(Area::of).collect()
}

/// Where the lines of loops' labels stand at least, if letters are wider than a third of their size; they have no grounds.
fn loop_labels(root: &Element) -> Vec<Area> {
    let lines = root.all("g", "label").into_iter().filter(|label| label.all("rect", "ground").is_empty());
    let line = |line: &Element| {
        let (left, bottom) = (line.number("x"), line.number("y"));
        let wide = line.text.chars().count() as f64 * 12.0 / 3.0;
        Area { left, top: bottom - 9.0, right: left + wide, bottom }
    };
    lines.flat_map(|label| label.all("tspan", "")).map(line).collect()
}

/// The first and the last point of a path.
fn ends(path: &Element) -> ((f64, f64), (f64, f64)) {
    let data = path.attribute("d").replace(['M', 'C', 'L'], "");
    let points: Vec<(f64, f64)> = data
        .split_whitespace()
        .map(|point| point.split_once(',').expect("two numbers"))
        .map(|(x, y)| (x.parse().expect("a number"), y.parse().expect("a number")))
        .collect();
    (points[0], points[points.len() - 1])
}

/// The two states of each edge, in order.
fn pairs(model: &Model) -> BTreeSet<(usize, usize)> {
    model.transitions.iter().map(|transition| (transition.source, transition.target)).collect()
}

/// Numbers are rounded to a tenth in the drawing.
const ROUNDED: f64 = 0.11;

/// No box and no label is on another one, all is in view, and each edge goes from its source's border to its target's.
fn check_places(model: &Model) {
    let root = xml::read(&svg(model, None));
    let (boxes, grounds) = (boxes(&root), grounds(&root));
    let all: Vec<Area> = boxes.iter().chain(&grounds).copied().chain(loop_labels(&root)).collect();
    assert_eq!(boxes.len(), model.states);
    for (place, area) in all.iter().enumerate() {
        assert!(all[..place].iter().all(|other| !area.meets(other)), "{area:?} is on another one");
    }
    let view = Area { left: 0.0, top: 0.0, right: root.number("width"), bottom: root.number("height") };
    let corners = |area: &Area| view.contains((area.left, area.top)) && view.contains((area.right, area.bottom));
    assert!(all.iter().all(corners), "something is out of view");
    let edges = root.all("path", "edge");
    let pairs = pairs(model);
    assert_eq!(edges.len(), pairs.len() + 1, "an edge for each pair, and the arrow to the initial state");
    for ((source, target), edge) in pairs.into_iter().zip(edges) {
        let (start, end) = ends(edge);
        assert!(boxes[source].has_at_border(start, ROUNDED), "{source} to {target} begins at {start:?}");
        assert!(boxes[target].has_at_border(end, 1.5 + ROUNDED), "{source} to {target} ends at {end:?}");
    }
}

#[test]
fn svg_places_are_apart() {
    let labels = ["click", "focus|blur", "a label with many words, more than two lines hold of it", "i"];
    let mut random = Random::new(18);
    check_places(&dialog());
    check_places(&hostile());
    for (states, transitions) in [(1, 1), (3, 5), (10, 30), (10, 60), (30, 50), (40, 80), (100, 300), (256, 600)] {
        check_places(&random_model(&mut random, states, transitions, &labels));
    }
}

/// With so many long edges they are led straight.
#[test]
fn svg_of_the_largest_models() {
    let mut random = Random::new(18);
    check_places(&random_model(&mut random, 256, 2048, &["click", "close"]));
    let chain: Vec<(usize, &str, usize)> =
        (0..2048).map(|t| (t % 256, "next", (t % 256 + t / 256 + 1) % 256)).collect();
    check_places(&model_of(256, &chain, ""));
    check_places(&model_of(256, &[], ""));
}

/// The distance of each state from the initial one, by passes over all transitions.
fn distances(model: &Model) -> Vec<usize> {
    let mut far = vec![usize::MAX; model.states];
    far[0] = 0;
    for _ in 0..model.states {
        for t in &model.transitions {
            far[t.target] = far[t.target].min(far[t.source].saturating_add(1));
        }
    }
    far
}

/// Nearer states stand higher, and those not reached stand below all others.
#[test]
fn svg_rows_go_by_distance() {
    let mut random = Random::new(5);
    for _ in 0..20 {
        let model = random_model(&mut random, 12, 20, &["a"]);
        let boxes = boxes(&xml::read(&svg(&model, None)));
        let mut rows: BTreeMap<usize, Vec<f64>> = BTreeMap::new();
        for (state, &distance) in distances(&model).iter().enumerate() {
            rows.entry(distance).or_default().push(boxes[state].top);
        }
        let rows: Vec<Vec<f64>> = rows.into_values().collect();
        for pair in rows.windows(2) {
            let lowest = pair[0].iter().copied().fold(0.0, f64::max);
            assert!(pair[1].iter().all(|&top| top > lowest), "{pair:?}");
        }
    }
}

#[test]
fn drawings_are_always_the_same() {
    let model = random_model(&mut Random::new(1), 20, 50, &["a", "b"]);
    assert_eq!(svg(&model, None), svg(&model.clone(), None));
    assert_eq!(dot(&model, None), dot(&model.clone(), None));
}

/// What is beyond the checker's limits is not drawn, and a note says so.
#[test]
fn numbers_out_of_range() {
    let mut model = dialog();
    model.states = usize::MAX;
    model.initial = usize::MAX;
    model.transitions[1].target = usize::MAX - 1;
    model.transitions[2].source = usize::MAX / 2;
    let root = xml::read(&svg(&model, None));
    assert_eq!(boxes(&root).len(), 256);
    let notes: Vec<&str> = root.all("text", "notes").iter().map(|text| text.text.as_str()).collect();
    assert_eq!(notes, ["dashed: cannot be reached · 256 of 18,446,744,073,709,551,615 states are drawn"]);
    assert!(dot(&model, None).contains("  s255 [label=\"state 255\", style=\"rounded,dashed\"];\n"));
    model.states = 0;
    assert_eq!(boxes(&xml::read(&svg(&model, None))).len(), 0);
    assert!(dot(&model, None).starts_with("digraph model {"));
}
