//! The place in the words that are read, and how much was read so far.

use super::foreign::Operands;
use super::refused;
use super::{NESTED, PARTS};
use crate::amount;
use crate::lexer::{self, Word};
use crate::limits;
use crate::source::{shown, Fault, Source, Span};
use std::sync::Arc;

/// A part that was read, and how many parts of it stand one inside the other.
pub(super) struct Read<T> {
    pub(super) part: T,
    pub(super) height: usize,
}

pub(super) struct Cursor<'a> {
    pub(super) source: &'a Arc<Source>,
    pub(super) silent: &'a str,
    words: Vec<(Word, Span)>,
    next: usize,
    parts: usize,
}

impl<'a> Cursor<'a> {
    pub(super) fn new(source: &'a Arc<Source>, silent: &'a str) -> Result<Cursor<'a>, Fault> {
        Ok(Cursor { source, silent, words: lexer::words(source)?, next: 0, parts: 0 })
    }

    pub(super) fn word(&self) -> &Word {
        self.word_after(0)
    }

    /// The word so many words further on.
    pub(super) fn word_after(&self, further: usize) -> &Word {
        self.words.get(self.next + further).map_or(&Word::End, |(word, _)| word)
    }

    /// Where the next word stands.
    pub(super) fn span(&self) -> Span {
        let length = self.source.text.len();
        self.words.get(self.next).map_or(Span::new(length, length), |(_, span)| *span)
    }

    /// Where the word before the next one stands.
    pub(super) fn last(&self) -> Option<Span> {
        self.next.checked_sub(1).and_then(|last| self.words.get(last)).map(|(_, span)| *span)
    }

    pub(super) fn is_at(&self, sign: &str) -> bool {
        matches!(self.word(), Word::Sign(found) if *found == sign)
    }

    pub(super) fn advance(&mut self) -> Span {
        let span = self.span();
        self.next = (self.next + 1).min(self.words.len());
        span
    }

    pub(super) fn take(&mut self, sign: &str) -> Option<Span> {
        self.is_at(sign).then(|| self.advance())
    }

    /// The closing bracket of a modality's opening one.
    pub(super) fn close(&mut self, opening: Span, sign: &str) -> Result<Span, Fault> {
        self.take(sign).ok_or_else(|| self.unclosed(opening, sign, Operands::Labels))
    }

    /// Nothing but the end may follow.
    pub(super) fn end(&self) -> Result<(), Fault> {
        match self.word() {
            Word::End => Ok(()),
            _ => Err(refused::behind_formula(self)),
        }
    }

    /// A part around others, of which the highest is so high. The place is for the fault.
    pub(super) fn around<T>(&mut self, part: T, height: usize, span: Span) -> Result<Read<T>, Fault> {
        self.parts += 1;
        if height >= NESTED {
            return Err(self.too_much(span, NESTED, "parts of the formula stand one inside the other"));
        }
        if self.parts > PARTS {
            return Err(self.too_much(span, PARTS, "parts are in the formula"));
        }
        Ok(Read { part, height: height + 1 })
    }

    fn too_much(&self, span: Span, most: usize, what: &str) -> Fault {
        let message = format!("more than {} {what}", amount::thousands(most as u64));
        let help = format!(
            "make the formula shorter: the checker takes at most {} formula nodes and {} action nodes",
            limits::FORMULA_NODES,
            limits::ACTION_NODES
        );
        Fault::new(self.source, span, message).with_help(help)
    }

    /// The next word is not what has to stand behind the text of a place.
    pub(super) fn expected(&self, what: &str, after: Option<Span>, help: &str) -> Fault {
        let behind = match after {
            Some(span) => format!(" after \"{}\"", self.text(span)),
            None => String::new(),
        };
        let message = format!("expected {what}{behind}, found {}", self.found());
        refused::word(self).unwrap_or_else(|| Fault::new(self.source, self.span(), message).with_help(help))
    }

    /// An opening bracket's closing one is not the next word.
    pub(super) fn unclosed(&self, opening: Span, sign: &str, operands: Operands) -> Fault {
        let expected = format!("\"{sign}\"");
        refused::meant(self, &expected, operands)
            .unwrap_or_else(|| self.expected(&expected, self.last(), &self.needed(opening, sign)))
    }

    /// What an opening bracket needs.
    fn needed(&self, opening: Span, sign: &str) -> String {
        let place = self.source.place(opening.start);
        let bracket = self.source.slice(opening);
        let mut help =
            format!("the \"{bracket}\" in line {}, column {} needs its \"{sign}\"", place.line, place.column);
        match self.word() {
            Word::End | Word::Sign(")" | "]" | ">") => {}
            Word::Name(_) | Word::Other(_) if bracket != "(" => {
                help.push_str("; a label with blanks or other signs in it stands in quotes");
            }
            _ => help.push_str(&format!(", or an operator is missing before {}", self.found())),
        }
        help
    }

    /// Does a `mu` or `nu` anywhere in the text bind this name?
    pub(super) fn binds(&self, name: &str) -> bool {
        self.words.windows(2).any(|pair| match pair {
            [(Word::Name(binder), _), (Word::Name(bound), _)] => {
                matches!(binder.as_str(), "mu" | "nu") && bound == name
            }
            _ => false,
        })
    }

    /// A part of the text in one line, as messages show it.
    pub(super) fn text(&self, span: Span) -> String {
        let words: Vec<&str> = self.source.slice(span).split_whitespace().collect();
        shown(&words.join(" "))
    }

    /// Where the bracket that the next word opens is closed.
    pub(super) fn closing(&self) -> Option<Span> {
        let mut open = 0usize;
        for (word, span) in self.words.iter().skip(self.next) {
            match word {
                Word::Sign("(") => open += 1,
                Word::Sign(")") if open == 1 => return Some(*span),
                Word::Sign(")") => open = open.saturating_sub(1),
                _ => {}
            }
        }
        None
    }

    /// The next word, as messages show it.
    fn found(&self) -> String {
        match self.word() {
            Word::End => "the end of the text".to_string(),
            Word::Quoted(_) => format!("the label {}", self.text(self.span())),
            _ => format!("\"{}\"", self.text(self.span())),
        }
    }
}
