//! The values of options, and what is said of those that are none.

use crate::files::is_standard;
use bithrowy_front::amount::thousands;
use bithrowy_front::directives;
use clap::builder::{PathBufValueParser, TypedValueParser};
use std::num::NonZeroUsize;
use std::path::PathBuf;

/// By the rule of the line `% silent:` in a formula's file.
pub fn silent_word(text: &str) -> Result<String, &'static str> {
    match directives::is_silent_word(text) {
        true => Ok(text.to_string()),
        false => Err("write one word, without blanks, quotes and |"),
    }
}

/// By the rule of the line `% limit:` in a formula's file.
pub fn rounds(text: &str) -> Result<u64, String> {
    let words = || format!("write a whole number of rounds in digits, up to {}", thousands(u64::MAX));
    directives::rounds(text).ok_or_else(words)
}

pub fn jobs(text: &str) -> Result<NonZeroUsize, &'static str> {
    text.parse().map_err(|_| "write a whole number from 1 on, in digits")
}

/// The file of a report: standard output has the lines for people.
pub fn report_file() -> impl TypedValueParser<Value = PathBuf> {
    PathBufValueParser::new().try_map(|path| match is_standard(&path) {
        true => Err("write the name of a file: standard output has the lines for people"),
        false => Ok(path),
    })
}
