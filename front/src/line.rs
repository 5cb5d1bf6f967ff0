//! Reads the words of one line, for formats that have a record on each line.

use crate::source::{shown, Fault, Source, Span};
use std::sync::Arc;

/// What is left to read of a line.
pub struct Line<'a> {
    source: &'a Arc<Source>,
    /// The line without the blanks around it.
    pub span: Span,
    at: usize,
}

/// Why no number could be read.
pub enum NoNumber {
    /// No digit stands here.
    Missing,
    /// Its digits are here, and they say more than a number can hold.
    Large(Span),
}

/// The lines that hold more than blanks.
pub fn lines(source: &Arc<Source>) -> impl Iterator<Item = Line<'_>> {
    let starts = source.text.split_inclusive('\n').scan(0, |next, line| {
        let start = *next;
        *next += line.len();
        Some((start, line))
    });
    starts.filter(|(_, line)| !line.trim().is_empty()).map(|(start, line)| {
        let at = start + line.len() - line.trim_start().len();
        Line { source, span: Span::new(at, at + line.trim().len()), at }
    })
}

impl<'a> Line<'a> {
    /// The rest of the line, from the next word on.
    pub fn rest(&mut self) -> &'a str {
        let rest = self.source.slice(Span::new(self.at, self.span.end));
        let word = rest.trim_start();
        self.at += rest.len() - word.len();
        word
    }

    /// Where the rest of the line stands, from the next word on.
    pub fn rest_span(&mut self) -> Span {
        self.rest();
        Span::new(self.at, self.span.end)
    }

    /// Reads so many bytes of the rest, and says where they stand.
    pub fn take(&mut self, length: usize) -> Span {
        let start = self.rest_span().start;
        self.at = (start + length).min(self.span.end);
        Span::new(start, self.at)
    }

    /// Reads a sign, if it comes next.
    pub fn skip(&mut self, sign: &str) -> bool {
        let is_next = self.rest().starts_with(sign);
        if is_next {
            self.take(sign.len());
        }
        is_next
    }

    /// Reads a number in decimal digits, and says where it stands.
    pub fn number(&mut self) -> Result<(usize, Span), NoNumber> {
        let rest = self.rest();
        let digits = rest.len() - rest.trim_start_matches(|letter: char| letter.is_ascii_digit()).len();
        if digits == 0 {
            return Err(NoNumber::Missing);
        }
        let span = self.take(digits);
        self.source.slice(span).parse().map(|number| (number, span)).map_err(|_| NoNumber::Large(span))
    }

    /// A fault at the next word, which the message then names: `..., found "]"`. At the end of the line it names nothing.
    pub fn fault(&mut self, message: impl Into<String>) -> Fault {
        let word = next_word(self.rest());
        let start = self.rest_span().start;
        let found = match word {
            "" => String::new(),
            "\"" => ", found a quote".to_string(),
            _ => format!(", found \"{}\"", shown(word)),
        };
        Fault::new(self.source, Span::new(start, start + word.len()), message.into() + &found)
    }
}

/// A sign of the format, or what stands before the next sign or blank.
fn next_word(text: &str) -> &str {
    let is_sign = |letter: char| matches!(letter, '(' | ')' | ',' | '"');
    let first = text.chars().next().map_or(0, char::len_utf8);
    let end = text.find(|letter: char| letter.is_whitespace() || is_sign(letter)).unwrap_or(text.len());
    &text[..end.max(first)]
}
