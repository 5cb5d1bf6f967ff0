//! The words of a formula's text.

use crate::amount;
use crate::label;
use crate::limits;
use crate::quoted;
use crate::source::{Fault, Source, Span};
use std::collections::HashMap;
use std::sync::Arc;

#[derive(Clone, Debug, PartialEq, Eq)]
pub enum Word {
    /// A name, a variable's or a label's, or a word of the language.
    Name(String),
    /// A label in quotes, without them.
    Quoted(String),
    /// A number, which no formula has: data are refused by name.
    Number(String),
    /// One of `SIGNS`.
    Sign(&'static str),
    /// A character that begins none of these.
    Other(char),
    End,
}

/// The signs of the language, and those of other languages that are refused by name. Each one stands behind those that
/// begin with it and are longer.
const SIGNS: [&str; 26] = [
    "<=>", "==>", "-->", "&&", "||", "=>", "==", "=<", "<=", "->", "/\\", "\\/", "[", "]", "<", ">", "(", ")", "!",
    ".", "+", "*", "|", "&", "=", "~",
];

/// So many words and signs are read at most, brackets among them: what is longer is no formula that somebody wrote.
pub const WORDS: usize = 500_000;

/// Begins a comment, which the end of the line ends.
const COMMENT: char = '%';

/// The words in order with their places, the last of them `End`, which stands right behind the word before it. Blanks and
/// comments (`%` to the end of the line) are left out.
pub fn words(source: &Arc<Source>) -> Result<Vec<(Word, Span)>, Fault> {
    let mut words = Vec::new();
    let mut end = 0;
    loop {
        let start = behind_blanks(&source.text, end);
        let (word, length) = word(source, start)?;
        if word == Word::End {
            words.push((word, Span::new(end, end)));
            return Ok(words);
        }
        end = start + length;
        if words.len() >= WORDS {
            return Err(too_many_words(source, Span::new(start, end)));
        }
        words.push((word, Span::new(start, end)));
    }
}

fn too_many_words(source: &Arc<Source>, word: Span) -> Fault {
    let message = format!("more than {} words and signs are in the formula", amount::thousands(WORDS));
    Fault::new(source, word, message)
        .with_help(format!("is it a formula? The checker takes at most {} formula nodes", limits::FORMULA_NODES))
}

/// A part of a text without the round brackets that stand around all of it.
pub(crate) fn unbracketed(source: &Source, part: Span) -> Span {
    let Ok(words) = words(&Source::new("", source.slice(part))) else { return part };
    let closing = closing_brackets(&words);
    let (mut first, mut last) = (0, words.len().saturating_sub(2));
    while last > first && closing.get(&first) == Some(&last) {
        (first, last) = (first + 1, last - 1);
    }
    match (words.get(first), words.get(last)) {
        (Some((_, first)), Some((_, last))) => Span::new(part.start + first.start, part.start + last.end),
        _ => part,
    }
}

/// For each opening round bracket among some words, the place of the one that closes it.
fn closing_brackets(words: &[(Word, Span)]) -> HashMap<usize, usize> {
    let mut open = Vec::new();
    let mut closing = HashMap::new();
    for (place, (word, _)) in words.iter().enumerate() {
        match word {
            Word::Sign("(") => open.push(place),
            Word::Sign(")") => closing.extend(open.pop().map(|opening| (opening, place))),
            _ => {}
        }
    }
    closing
}

/// The first place, from an offset on, that is neither blank nor in a comment.
fn behind_blanks(text: &str, from: usize) -> usize {
    let mut in_comment = false;
    for (offset, letter) in text[from..].char_indices() {
        in_comment = letter != '\n' && (in_comment || letter == COMMENT);
        if !in_comment && !letter.is_whitespace() {
            return from + offset;
        }
    }
    text.len()
}

/// The word that begins at an offset, and how many bytes it has.
fn word(source: &Arc<Source>, at: usize) -> Result<(Word, usize), Fault> {
    let rest = &source.text[at..];
    let Some(first) = rest.chars().next() else { return Ok((Word::End, 0)) };
    if first == '"' {
        let (text, length) = quoted::read(source, at, "write \\\\ for one backslash")?;
        return Ok((Word::Quoted(text), length));
    }
    if label::begins_name(first) {
        let name = &rest[..name_length(rest)];
        return Ok((Word::Name(name.to_string()), name.len()));
    }
    if first.is_ascii_digit() {
        let number = &rest[..name_length(rest)];
        return Ok((Word::Number(number.to_string()), number.len()));
    }
    match SIGNS.iter().find(|sign| rest.starts_with(**sign)) {
        Some(sign) => Ok((Word::Sign(sign), sign.len())),
        None => Ok((Word::Other(first), first.len_utf8())),
    }
}

/// The length of the longest name that a text begins with: a `-` belongs to it between two of its other characters.
fn name_length(text: &str) -> usize {
    let mut length = 0;
    for (at, letter) in text.char_indices() {
        if label::continues_name(letter) {
            length = at + letter.len_utf8();
        } else if letter != '-' || length < at {
            break;
        }
    }
    length
}
