//! The formula as the checker's own table, each node with a button.
//!
//! A part is a span with the text of its subtree. What a node itself is written by is its button: `[a]`, `&&`, `mu X.`;
//! brackets and blanks stay plain. So no button stands in another one.

use crate::check::Checked;
use crate::draw::xml::{escaped, Element};
use crate::print::{node_in_pieces, Written};

/// The formula in parts.
pub(super) fn formula(answer: &Checked) -> Element {
    Element::new("p").with("class", "parts").with("id", "parts").markup(&parts(answer))
}

fn parts(answer: &Checked) -> String {
    let mut markup = String::new();
    let mut around = Vec::new();
    for piece in node_in_pieces(&answer.table, 0) {
        match piece {
            Written::Begin(node) => {
                around.push(node);
                markup.push_str(if node == 0 { "<span class=\"part chosen\">" } else { "<span class=\"part\">" });
            }
            Written::End => {
                around.pop();
                markup.push_str("</span>");
            }
            Written::Bracket(bracket) => markup.push_str(&escaped(bracket)),
            Written::Words(words) => markup.push_str(&own(answer, around.last().copied().unwrap_or(0), &words)),
        }
    }
    markup
}

/// A node's own words: a button, with the blanks around it outside.
fn own(answer: &Checked, node: usize, words: &str) -> String {
    let before = &words[..words.len() - words.trim_start().len()];
    let after = &words[words.trim_end().len()..];
    format!("{before}{}{after}", button(answer, node, words.trim()))
}

/// A node's button. It carries the states where the node holds, a digit each.
fn button(answer: &Checked, node: usize, words: &str) -> Element {
    let values = answer.values.get(node).into_iter().flatten();
    let digits: String = values.map(|&holds| if holds { '1' } else { '0' }).collect();
    Element::new("button")
        .with("type", "button")
        .with("id", format!("part-{node}"))
        .with("aria-pressed", node == 0)
        .with("aria-controls", format!("says-{node}"))
        .with("aria-label", answer.table.text(node))
        .with("data-node", node)
        .with("data-holds", digits)
        .text(words)
}
