//! Texts with their names, places in them, and faults that point at a place.

use std::fmt;
use std::sync::Arc;

/// Stands at the start of some files, and is no part of their text.
const BYTE_ORDER_MARK: char = '\u{feff}';

/// A name in a message is cut behind so many characters.
const NAME_SHOWN: usize = 80;

/// So many characters of a line are shown, those around the place.
const LINE_SHOWN: usize = 160;

/// Stands for what is cut out.
const CUT: char = '…';

/// A text that is read, with the name that faults give it: a file's path, or what stands for it.
#[derive(Debug, PartialEq, Eq)]
pub struct Source {
    pub name: String,
    pub text: String,
}

/// A part of a source: from one byte offset up to, and without, another.
#[derive(Clone, Copy, Debug, PartialEq, Eq, Hash)]
pub struct Span {
    pub start: usize,
    pub end: usize,
}

/// A line and a column, both from 1; columns count characters.
#[derive(Clone, Copy, Debug, PartialEq, Eq)]
pub struct Place {
    pub line: usize,
    pub column: usize,
}

/// What is wrong in a source, where, and what to do about it.
#[derive(Clone, Debug, PartialEq, Eq)]
pub struct Fault {
    pub source: Arc<Source>,
    pub span: Span,
    pub message: String,
    pub help: Option<String>,
    /// The library's refusal number, where the library refused.
    pub refusal: Option<u64>,
}

impl Span {
    pub fn new(start: usize, end: usize) -> Span {
        Span { start, end }
    }

    /// From the start of this part to the end of another.
    pub fn to(self, other: Span) -> Span {
        Span { start: self.start, end: other.end }
    }
}

impl Source {
    /// A byte order mark at the start is left out.
    pub fn new(name: impl Into<String>, text: impl Into<String>) -> Arc<Source> {
        let text = text.into();
        let text = match text.strip_prefix(BYTE_ORDER_MARK) {
            Some(rest) => rest.to_string(),
            None => text,
        };
        Arc::new(Source { name: name.into(), text })
    }

    /// The text in a file's bytes; a fault at the first byte that is no UTF-8. The fault's text has U+FFFD in place of
    /// each such byte.
    pub fn from_bytes(name: impl Into<String>, bytes: Vec<u8>) -> Result<Arc<Source>, Fault> {
        match String::from_utf8(bytes) {
            Ok(text) => Ok(Source::new(name, text)),
            Err(error) => Err(no_utf8(name.into(), error.as_bytes(), error.utf8_error().valid_up_to())),
        }
    }

    /// The text of a part. Offsets that are beyond the text, or inside a character, are taken as the nearest before them.
    pub fn slice(&self, span: Span) -> &str {
        let end = self.clamp(span.end);
        &self.text[self.clamp(span.start).min(end)..end]
    }

    pub fn place(&self, offset: usize) -> Place {
        let line = self.line_around(offset);
        let at = self.clamp(offset).min(line.end);
        let lines_before = self.text.as_bytes()[..line.start].iter().filter(|&&byte| byte == b'\n').count();
        Place { line: lines_before + 1, column: self.text[line.start..at].chars().count() + 1 }
    }

    /// The text of a line, counted from 1, without its end. A line that there is not has no text.
    pub fn line(&self, line: usize) -> &str {
        let text = line.checked_sub(1).and_then(|before| self.text.split('\n').nth(before));
        without_return(text.unwrap_or(""))
    }

    /// The nearest offset, at or before this one, at which a character begins or the text ends.
    fn clamp(&self, offset: usize) -> usize {
        let mut at = offset.min(self.text.len());
        while !self.text.is_char_boundary(at) {
            at -= 1;
        }
        at
    }

    /// The line in which an offset is, without its end.
    fn line_around(&self, offset: usize) -> Span {
        let at = self.clamp(offset);
        let start = self.text[..at].rfind('\n').map_or(0, |end| end + 1);
        let end = self.text[at..].find('\n').map_or(self.text.len(), |end| at + end);
        Span::new(start, start + without_return(&self.text[start..end]).len())
    }
}

fn without_return(line: &str) -> &str {
    line.strip_suffix('\r').unwrap_or(line)
}

fn no_utf8(name: String, bytes: &[u8], valid: usize) -> Fault {
    let source = Source::new(name, String::from_utf8_lossy(bytes));
    let left_out = if bytes.starts_with("\u{feff}".as_bytes()) { BYTE_ORDER_MARK.len_utf8() } else { 0 };
    let start = valid.saturating_sub(left_out);
    let span = Span::new(start, start + char::REPLACEMENT_CHARACTER.len_utf8());
    let help = match bytes {
        [0xff, 0xfe, ..] | [0xfe, 0xff, ..] => "it begins as UTF-16 text does: save it as UTF-8",
        _ => "save it as UTF-8",
    };
    Fault::new(&source, span, "the file is not UTF-8 text from here on").with_help(help)
}

impl Fault {
    pub fn new(source: &Arc<Source>, span: Span, message: impl Into<String>) -> Fault {
        Fault { source: source.clone(), span, message: message.into(), help: None, refusal: None }
    }

    pub fn with_help(mut self, help: impl Into<String>) -> Fault {
        self.help = Some(help.into());
        self
    }

    pub fn with_refusal(mut self, number: u64) -> Fault {
        self.refusal = Some(number);
        self
    }
}

/// File, line, column and message; the line with carets below the place; the help. The refusal number stands behind the
/// message: `dialog.aut:1:12: 300 states: the checker takes 1 to 256 (refusal 3)`.
impl fmt::Display for Fault {
    fn fmt(&self, f: &mut fmt::Formatter) -> fmt::Result {
        let Place { line, column } = self.source.place(self.span.start);
        write!(f, "{}:{line}:{column}: {}", visible(&self.source.name), visible(&self.message))?;
        if let Some(number) = self.refusal {
            write!(f, " (refusal {number})")?;
        }
        let (text, carets) = excerpt(&self.source, self.span);
        let shown = format!("{line} | {text}");
        let margin = " ".repeat(line.to_string().len());
        write!(f, "\n{margin} |\n{}\n{margin} | {carets}", shown.trim_end())?;
        if let Some(help) = &self.help {
            let lines: Vec<String> = help.lines().map(visible).collect();
            write!(f, "\n{margin} = help: {}", lines.join(&format!("\n{margin}         ")))?;
        }
        Ok(())
    }
}

impl std::error::Error for Fault {}

/// The line in which a part begins, as it is shown, and the carets that stand below what the part has of it.
pub fn excerpt(source: &Source, span: Span) -> (String, String) {
    let line = source.line_around(span.start);
    let start = source.clamp(span.start).min(line.end);
    let end = source.clamp(span.end).min(line.end).max(start);
    let text = &source.text[line.start..line.end];
    let before = source.text[line.start..start].chars().count();
    let is_long = text.chars().nth(LINE_SHOWN).is_some();
    let first = if is_long { before.saturating_sub(LINE_SHOWN / 2) } else { 0 };
    let window = || text.chars().skip(first).take(LINE_SHOWN);

    let mut shown = String::from_iter((first > 0).then_some(CUT));
    shown.extend(window().map(|letter| if letter == '\t' { letter } else { visible_letter(letter) }));
    shown.extend(text.chars().nth(first + LINE_SHOWN).map(|_| CUT));

    let mut carets = String::from_iter((first > 0).then_some(' '));
    carets.extend(window().take(before - first).map(|letter| if letter == '\t' { letter } else { ' ' }));
    let there = source.text[start..end].chars().count().min(LINE_SHOWN - (before - first));
    carets.push_str(&"^".repeat(there.max(1)));
    (shown, carets)
}

/// A text from a file as messages show it: nothing in it steers a terminal, and a very long one is cut.
pub fn shown(text: &str) -> String {
    shown_up_to(NAME_SHOWN, text)
}

/// The same, but cut behind so many letters.
pub fn shown_up_to(most: usize, text: &str) -> String {
    let mut letters = text.chars();
    let mut shown: String = letters.by_ref().take(most).map(visible_letter).collect();
    shown.extend(letters.next().map(|_| CUT));
    shown
}

/// The text with another character in place of each that a terminal would obey or hide.
fn visible(text: &str) -> String {
    text.chars().map(visible_letter).collect()
}

/// The character itself, or another in place of one that a terminal would obey or hide.
pub fn visible_letter(letter: char) -> char {
    if letter.is_control() || is_hidden(letter) {
        char::REPLACEMENT_CHARACTER
    } else {
        letter
    }
}

/// Marks that turn the direction of a line, end it, or have no width: a text with them looks like another one.
fn is_hidden(letter: char) -> bool {
    matches!(letter, '\u{61c}' | '\u{200b}' | '\u{200e}' | '\u{200f}' | '\u{2028}'..='\u{202e}')
        || matches!(letter, '\u{2060}'..='\u{2069}' | BYTE_ORDER_MARK)
}
