//! The procedures of the proved crates in plain Rust: same scans, same arrays of words, bytes read where they stand.

pub mod cases;
pub mod editor;
pub mod price;
pub mod program;
pub mod reach;
pub mod routes;
pub mod sets;
pub mod solver;
pub mod translate;
