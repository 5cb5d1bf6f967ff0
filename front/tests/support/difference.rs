//! What differs in a trial.

use bithrowy_front::source::Fault;
use std::fmt::Debug;

/// What differs, and how.
#[derive(Debug)]
pub struct Difference {
    pub what: &'static str,
    pub how: String,
}

pub type Compared<T> = Result<T, Difference>;

pub fn differs<T>(what: &'static str, how: impl Into<String>) -> Compared<T> {
    Err(Difference { what, how: how.into() })
}

pub fn same<T: PartialEq + Debug>(what: &'static str, read: T, expected: T) -> Compared<()> {
    if read == expected {
        return Ok(());
    }
    differs(what, format!("{read:?}, expected {expected:?}"))
}

/// A fault where there should be none.
pub fn fine<T>(what: &'static str, read: Result<T, Fault>) -> Compared<T> {
    read.or_else(|fault| differs(what, fault.to_string()))
}
