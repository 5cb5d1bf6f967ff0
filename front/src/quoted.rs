//! Labels in quotes, in which `\"` and `\\` stand for a quote and a backslash.

use crate::source::{Fault, Source, Span};
use std::sync::Arc;

/// The label in the quotes that begin at an offset, and how many bytes it has with them. The advice is what to do about a
/// backslash before another character.
pub(crate) fn read(source: &Arc<Source>, at: usize, advice: &str) -> Result<(String, usize), Fault> {
    let inside = at + 1;
    let mut label = String::new();
    let mut letters = source.text[inside..].char_indices();
    while let Some((offset, letter)) = letters.next() {
        match letter {
            '"' => return Ok((label, inside + offset + 1 - at)),
            '\\' => match letters.next() {
                Some((_, escaped @ ('"' | '\\'))) => label.push(escaped),
                _ => return Err(stray_backslash(source, inside + offset).with_help(advice)),
            },
            '\n' => break,
            _ => label.push(letter),
        }
    }
    let line = source.text[inside..].lines().next().unwrap_or("");
    let message = "the label begins with a quote, and no quote ends it";
    Err(Fault::new(source, Span::new(at, inside + line.len()), message)
        .with_help("write \"click\"; inside a label, \\\" stands for a quote"))
}

fn stray_backslash(source: &Arc<Source>, at: usize) -> Fault {
    let message = "a backslash in quotes stands before a quote or a backslash";
    Fault::new(source, Span::new(at, at + 1), message)
}
