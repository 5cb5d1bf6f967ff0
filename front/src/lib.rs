//! Models and formulas as text, and answers that people read.
//!
//! The proved library does the checking, and the proof begins at the bytes of a case file. Everything here is plain Rust
//! around it: it reads a model and a formula, writes the case file, asks the library and says what the answer means.
//!
//! The way from text to answer: `aut` and `names` read a `Model`, `parser` a `StateFormula`; `expand` turns the formula
//! into the checker's node table (`Table`); `case` writes both as a case file; `check` asks the library by both routes;
//! `explain` says why the verdict is what it is, and `back` turns a case file into text again.

pub mod amount;
pub mod aut;
pub mod back;
pub mod case;
pub mod check;
pub mod directives;
pub mod draw;
pub mod expand;
pub mod explain;
pub mod formula;
pub mod label;
pub mod lexer;
pub mod library;
pub mod limits;
mod line;
pub mod model;
pub mod names;
pub mod page;
pub mod parser;
mod precedence;
pub mod print;
mod quoted;
pub mod refusal;
pub mod source;
pub mod suggest;
pub mod table;
