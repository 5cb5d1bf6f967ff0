//! Files that are read and written.

use crate::output::{self, visible};
use crate::trouble::Trouble;
use bithrowy_front::amount::thousands;
use bithrowy_front::source::Source;
use std::env;
use std::fs::{self, File};
use std::io::{self, ErrorKind, Read};
use std::path::{Path, PathBuf};
use std::sync::Arc;

/// Larger files are not read: the checker's limits are reached long before.
const LARGEST: u64 = 64 << 20;

/// What a file holds.
#[derive(Clone, Copy, Debug, PartialEq, Eq)]
pub enum Kind {
    Text,
    Case,
    Equations,
}

/// What the bytes of a file are. An equation file begins with its version in 32 bits, and so with three zeros behind the 1;
/// a case file has its states there, and at least one. Text has no zero byte, unless it is UTF-16, which says so at its
/// start and is refused as text.
pub fn kind(bytes: &[u8]) -> Kind {
    match bytes {
        [1, 0, 0, 0, ..] => Kind::Equations,
        _ if is_utf16(bytes) => Kind::Text,
        _ if bytes.contains(&0) => Kind::Case,
        _ => Kind::Text,
    }
}

/// Does a text begin as a model does? One in UTF-16 may, and reading it as a model says what is wrong with it.
pub fn may_be_model(bytes: &[u8]) -> bool {
    let text = bytes.strip_prefix(b"\xef\xbb\xbf").unwrap_or(bytes);
    let mut text = text.iter().skip_while(|byte| byte.is_ascii_whitespace());
    is_utf16(bytes) || b"des".iter().all(|letter| text.next() == Some(letter))
}

fn is_utf16(bytes: &[u8]) -> bool {
    matches!(bytes, [0xff, 0xfe, ..] | [0xfe, 0xff, ..])
}

/// A path as people read it.
pub fn shown(path: &Path) -> String {
    visible(&path.display().to_string()).replace(['\n', '\t'], "\u{fffd}")
}

/// Is this `-`, which stands for standard input or standard output?
pub fn is_standard(path: &Path) -> bool {
    path == Path::new("-")
}

/// What is read from standard input is one text, and so is what is written to standard output.
pub fn one_standard(stream: &str, paths: &[Option<&PathBuf>]) -> Result<(), Trouble> {
    if paths.iter().flatten().filter(|path| is_standard(path)).count() < 2 {
        return Ok(());
    }
    Err(Trouble::plain(format!("- is standard {stream}, and stands here twice"))
        .with_help("name a file in place of one of the two"))
}

/// What is read, as people know it.
pub fn input(path: &Path) -> String {
    if is_standard(path) {
        "standard input".to_string()
    } else {
        shown(path)
    }
}

/// The bytes of a file, or of standard input for `-`.
pub fn bytes(path: &Path) -> Result<Vec<u8>, Trouble> {
    let read = if is_standard(path) { read_some(io::stdin().lock()) } else { read_file(path) };
    let bytes = read.map_err(|error| unread(path, &error))?;
    if bytes.len() as u64 > LARGEST {
        let message = format!("{} is not read: it has more than {} bytes", input(path), thousands(LARGEST));
        let help = "all that the checker takes is far smaller: is it another file that is meant?";
        return Err(Trouble::plain(message).with_help(help));
    }
    Ok(bytes)
}

/// What cannot be read, and why.
pub fn unread(path: &Path, error: &io::Error) -> Trouble {
    let trouble = Trouble::plain(format!("{} cannot be read: {}", input(path), reason(error)));
    match error.kind() {
        ErrorKind::NotFound => trouble.with_help(lookup(path)),
        ErrorKind::PermissionDenied => trouble.with_help("ask its owner for the permission to read it"),
        _ if path.is_dir() => trouble.with_help("this is a folder: name a file in it"),
        _ => trouble.with_help("see that it is a file that this program may read to its end"),
    }
}

/// From where a name that does not exist was looked up.
fn lookup(path: &Path) -> String {
    match env::current_dir() {
        Ok(folder) if path.is_relative() => format!("names are looked up from the folder {}", shown(&folder)),
        _ => "see that the name is written as that of the file".to_string(),
    }
}

fn read_file(path: &Path) -> io::Result<Vec<u8>> {
    read_some(File::open(path)?)
}

fn read_some(from: impl Read) -> io::Result<Vec<u8>> {
    let mut bytes = Vec::new();
    from.take(LARGEST + 1).read_to_end(&mut bytes)?;
    Ok(bytes)
}

/// A text file.
pub fn source(path: &Path) -> Result<Arc<Source>, Trouble> {
    text(path, bytes(path)?)
}

/// The bytes of a text file as text.
pub fn text(path: &Path, bytes: Vec<u8>) -> Result<Arc<Source>, Trouble> {
    Ok(Source::from_bytes(input(path), bytes)?)
}

/// Writes a file.
pub fn write(path: &Path, content: &[u8]) -> Result<(), Trouble> {
    fs::write(path, content).map_err(|error| unwritten(path, &error))
}

/// Writes a text into a file, or to standard output for `-`.
pub fn write_text(path: &Path, content: &str) -> Result<(), Trouble> {
    if is_standard(path) {
        return output::exact(content);
    }
    write(path, content.as_bytes())
}

/// What cannot be written, and why.
fn unwritten(path: &Path, error: &io::Error) -> Trouble {
    let trouble = Trouble::plain(format!("{} cannot be written: {}", shown(path), reason(error)));
    match error.kind() {
        ErrorKind::NotFound => trouble.with_help("the folder is not there: make it first, or name another"),
        ErrorKind::PermissionDenied => trouble.with_help("name a file in a folder that you may write to"),
        _ if path.is_dir() => trouble.with_help("this is a folder: name a file in it"),
        _ => trouble.with_help("name a file in another folder"),
    }
}

/// The system's words for an error, without its number.
pub fn reason(error: &io::Error) -> String {
    let words = error.to_string();
    words.split(" (os error").next().unwrap_or(&words).to_string()
}
