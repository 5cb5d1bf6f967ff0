//! Faults as people see them: what is wrong, the line with a caret, and what to do.

use crate::exit::Exit;
use crate::output::{broken, is_dumb, visible};
use crate::trouble::Trouble;
use bithrowy_front::source::{excerpt, Fault};
use codespan_reporting::diagnostic::{Diagnostic, Label};
use codespan_reporting::files::{Error, Files};
use codespan_reporting::term::termcolor::Buffer;
use codespan_reporting::term::{emit, Chars, Config};
use std::env;
use std::io::{self, IsTerminal, Write};
use std::ops::Range;

/// Says on standard error what is wrong, in colour where a person looks at a terminal and has not asked for none; gives
/// the exit that it leads to.
pub fn report(trouble: &Trouble) -> Exit {
    let out = if wants_colours() { Buffer::ansi() } else { Buffer::no_color() };
    // Where standard error is closed nobody can be told.
    let _ = writeln!(io::stderr(), "{}", written(out, trouble));
    trouble.exit()
}

/// The same as text without colours.
pub fn text(trouble: &Trouble) -> String {
    written(Buffer::no_color(), trouble)
}

fn wants_colours() -> bool {
    let unwanted = env::var_os("NO_COLOR").is_some_and(|value| !value.is_empty());
    io::stderr().is_terminal() && !unwanted && !is_dumb()
}

fn written(mut out: Buffer, trouble: &Trouble) -> String {
    // A buffer takes all that is written.
    let _ = write(&mut out, trouble);
    String::from_utf8_lossy(&out.into_inner()).trim_end().to_string()
}

fn write(out: &mut Buffer, trouble: &Trouble) -> Result<(), Error> {
    let config = Config { chars: Chars::ascii(), ..Config::default() };
    let notes = trouble.help().map(|help| note(&visible(&help))).into_iter().collect();
    let said = Diagnostic::error().with_message(visible(&trouble.message())).with_notes(notes);
    let (said, excerpt) = match trouble {
        Trouble::Fault(fault) => at_place(said, fault),
        _ => (said, Excerpt::default()),
    };
    emit(out, &config, &excerpt, &said)
}

/// The help, whose further lines begin below its first word.
fn note(help: &str) -> String {
    let start = "help: ";
    let margin = " ".repeat(start.len());
    let lines = help.lines().enumerate();
    lines.map(|(number, line)| broken(if number == 0 { start } else { &margin }, start.len(), line)).collect()
}

fn at_place(said: Diagnostic<()>, fault: &Fault) -> (Diagnostic<()>, Excerpt) {
    let excerpt = Excerpt::new(fault);
    let said = said.with_labels(vec![Label::primary((), excerpt.marked.clone())]);
    let said = match fault.refusal {
        Some(number) => said.with_code(format!("refusal {number}")),
        None => said,
    };
    (said, excerpt)
}

/// The one line at which a fault points, as it is shown.
#[derive(Default)]
struct Excerpt {
    name: String,
    line: usize,
    column: usize,
    text: String,
    /// The bytes of the text that are marked.
    marked: Range<usize>,
}

impl Excerpt {
    fn new(fault: &Fault) -> Excerpt {
        let place = fault.source.place(fault.span.start);
        let (text, carets) = excerpt(&fault.source, fault.span);
        let before = carets.chars().take_while(|&c| c != '^').count();
        let marked = byte_at(&text, before)..byte_at(&text, carets.chars().count());
        Excerpt { name: visible(&fault.source.name), line: place.line, column: place.column, text, marked }
    }
}

/// Where a character begins; the end of a text that has no more characters.
fn byte_at(text: &str, character: usize) -> usize {
    text.char_indices().nth(character).map_or(text.len(), |(byte, _)| byte)
}

impl<'a> Files<'a> for Excerpt {
    type FileId = ();
    type Name = &'a str;
    type Source = &'a str;

    fn name(&'a self, _: ()) -> Result<&'a str, Error> {
        Ok(&self.name)
    }

    fn source(&'a self, _: ()) -> Result<&'a str, Error> {
        Ok(&self.text)
    }

    fn line_index(&'a self, _: (), _: usize) -> Result<usize, Error> {
        Ok(0)
    }

    fn line_number(&'a self, _: (), _: usize) -> Result<usize, Error> {
        Ok(self.line)
    }

    fn column_number(&'a self, _: (), _: usize, _: usize) -> Result<usize, Error> {
        Ok(self.column)
    }

    fn line_range(&'a self, _: (), line: usize) -> Result<Range<usize>, Error> {
        match line {
            0 => Ok(0..self.text.len()),
            _ => Err(Error::LineTooLarge { given: line, max: 0 }),
        }
    }
}
