//! The DOT text of graphviz.

use super::graph::{mark, Edge, Graph, State};
use super::xml::visible;

/// The graph in DOT, always the same text for the same graph.
pub(super) fn write(graph: &Graph) -> String {
    let mut lines = vec![
        "digraph model {".to_string(),
        "  graph [fontname=\"sans-serif\", fontsize=11];".to_string(),
        "  node [fontname=\"sans-serif\", fontsize=13, shape=box, style=\"rounded\"];".to_string(),
        "  edge [fontname=\"sans-serif\", fontsize=11];".to_string(),
    ];
    if !graph.notes.is_empty() {
        lines.push(format!("  label={};", text(graph.notes.join("   "))));
    }
    if let Some(initial) = graph.initial {
        lines.push("  start [shape=point, style=\"\"];".to_string());
        lines.push(format!("  start -> s{initial};"));
    }
    lines.extend(graph.states.iter().enumerate().map(|(number, state)| node(number, state)));
    lines.extend(graph.edges.iter().map(edge));
    lines.push("}\n".to_string());
    lines.join("\n")
}

fn node(number: usize, state: &State) -> String {
    let words = match state.holds {
        Some(holds) => format!("{} {}", mark(holds), state.name),
        None => state.name.clone(),
    };
    let mut styles = vec!["rounded"];
    styles.extend((state.holds == Some(true)).then_some("filled"));
    styles.extend((!state.reached).then_some("dashed"));
    let fill = if state.holds == Some(true) { ", fillcolor=\"#cdebd6\"" } else { "" };
    format!("  s{number} [label={}, style=\"{}\"{fill}];", text(words), styles.join(","))
}

/// All transitions between two states are one edge, with a line for each label.
fn edge(edge: &Edge) -> String {
    let lines: Vec<String> = edge.labels.iter().map(|label| escaped(label)).collect();
    format!("  s{} -> s{} [label=\"{}\"];", edge.source, edge.target, lines.join("\\n"))
}

fn text(words: String) -> String {
    format!("\"{}\"", escaped(&words))
}

/// A text within the quotes of a DOT label: graphviz reads backslashes there, and `&` as XML does.
fn escaped(text: &str) -> String {
    let mut all = String::new();
    for character in text.chars().map(visible) {
        match character {
            '"' => all.push_str("\\\""),
            '\\' => all.push_str("\\\\"),
            '&' => all.push_str("&amp;"),
            _ => all.push(character),
        }
    }
    all
}
