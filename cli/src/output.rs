//! What goes to standard output, and how text from files is made safe to look at.

use crate::files::reason;
use crate::trouble::Trouble;
use bithrowy_front::source::visible_letter;
use std::env;
use std::io::{self, ErrorKind, IsTerminal, Write};

/// What is longer is broken into lines of about this many characters.
const WIDTH: usize = 100;

/// Does the terminal say that it can do no more than print?
pub fn is_dumb() -> bool {
    env::var_os("TERM").is_some_and(|name| name == "dumb")
}

/// Writes text for people: control characters that came from files are replaced.
pub fn text(text: &str) -> Result<(), Trouble> {
    bytes(visible(text).as_bytes())
}

/// Writes text that another program reads again: into a file or a pipe as it is, on a terminal as text for people.
pub fn exact(content: &str) -> Result<(), Trouble> {
    if io::stdout().is_terminal() {
        return text(content);
    }
    bytes(content.as_bytes())
}

/// Writes bytes. A reader who has gone away is no fault: what was asked is done, and nobody looks at the rest.
pub fn bytes(bytes: &[u8]) -> Result<(), Trouble> {
    let mut out = io::stdout().lock();
    match out.write_all(bytes).and_then(|()| out.flush()) {
        Err(error) if error.kind() != ErrorKind::BrokenPipe => {
            Err(Trouble::plain(format!("the output cannot be written: {}", reason(&error))))
        }
        _ => Ok(()),
    }
}

/// The text with another character in place of each that a terminal would obey or hide; ends of lines and tabs stay.
pub fn visible(text: &str) -> String {
    text.chars().map(|c| if is_obeyed(c) { visible_letter(c) } else { c }).collect()
}

/// Would a terminal obey or hide this character instead of showing it?
pub fn is_obeyed(c: char) -> bool {
    c != '\n' && c != '\t' && visible_letter(c) != c
}

/// Words behind a start, broken into lines; all but the first begin behind a margin.
pub fn broken(start: &str, margin: usize, words: &str) -> String {
    let mut text = start.to_string();
    let mut column = start.chars().count();
    for (number, word) in words.split(' ').enumerate() {
        let length = word.chars().count();
        if number > 0 && column + 1 + length > WIDTH {
            text += &format!("\n{:margin$}", "");
            column = margin;
        } else if number > 0 {
            text.push(' ');
            column += 1;
        }
        text += word;
        column += length;
    }
    text + "\n"
}
