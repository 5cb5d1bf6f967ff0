//! Readable listings of files, for the report of a failure.

use crate::formats::*;
use crate::reader::{read_case, read_equations};
use std::fmt::Write;

/// A case file in words; a refused one as its numbers.
pub fn case(bytes: &[u8]) -> String {
    let case = match read_case(bytes) {
        Ok(case) => case,
        Err(number) => return refused(bytes, number, 2),
    };
    let labels = case.labels.count();
    let mut text = format!("states {}, labels {labels}, initial state {}\n", case.states, case.initial);
    if let Labels::Named(records) = &case.labels {
        let records: Vec<String> = records.iter().map(record_text).collect();
        writeln!(text, "version 2, names {}", records.join(" ")).unwrap();
    }
    let transitions: Vec<String> =
        case.transitions.iter().map(|t| format!("({},{},{})", t.source, t.label, t.target)).collect();
    writeln!(text, "transitions {}", transitions.join(" ")).unwrap();
    write!(text, "formula {}", formula_text(&case, 0)).unwrap();
    text
}

/// The names of a label, such as (3,5); those of the silent step are ().
fn record_text(record: &Names) -> String {
    let names: Vec<String> = record.iter().filter(|&&name| name != 0).map(usize::to_string).collect();
    format!("({})", names.join(","))
}

fn formula_text(case: &Case, at: usize) -> String {
    let x = case.formula[at];
    let of = |i: usize| formula_text(case, operands_of(&case.formula, at, formula::operands)[i]);
    match x.kind {
        formula::FALSE => "false".to_string(),
        formula::TRUE => "true".to_string(),
        formula::AND => format!("({} and {})", of(0), of(1)),
        formula::OR => format!("({} or {})", of(0), of(1)),
        formula::BOX => format!("[{}] {}", action_text(&case.actions, x.argument), of(0)),
        formula::DIAMOND => format!("<{}> {}", action_text(&case.actions, x.argument), of(0)),
        formula::VARIABLE => format!("X{}", x.argument),
        formula::MU => format!("mu X{at}. {}", of(0)),
        _ => format!("nu X{at}. {}", of(0)),
    }
}

fn action_text(actions: &[Node], at: usize) -> String {
    let x = actions[at];
    let of = |i: usize| action_text(actions, operands_of(actions, at, action::operands)[i]);
    match x.kind {
        action::FALSE => "false".to_string(),
        action::TRUE => "true".to_string(),
        action::LABEL => x.argument.to_string(),
        action::NOT => format!("not {}", of(0)),
        action::AND => format!("({} and {})", of(0), of(1)),
        action::OR => format!("({} or {})", of(0), of(1)),
        _ => format!("({} implies {})", of(0), of(1)),
    }
}

/// An equation file in words; a refused one as its numbers.
pub fn file(bytes: &[u8]) -> String {
    let equations = match read_equations(bytes) {
        Ok(equations) => equations,
        Err(number) => return refused(bytes, number, 4),
    };
    let mut text = format!("states {}, initial state {}\n", equations.states, equations.initial);
    for (k, block) in equations.blocks.iter().enumerate() {
        let sign = if block.greatest { "nu" } else { "mu" };
        writeln!(text, "block {k}: {sign}, cells from {}", block.first).unwrap();
    }
    for (i, cell) in equations.cells.iter().enumerate() {
        match cell {
            Cell::And(list) => writeln!(text, "cell {i}: and {list:?}").unwrap(),
            Cell::Or(list) => writeln!(text, "cell {i}: or {list:?}").unwrap(),
            Cell::Variable { block, state } => writeln!(text, "cell {i}: block {block} state {state}").unwrap(),
        }
    }
    text
}

/// The numbers of a refused file, `width` bytes each, low byte first, and what is left over.
fn refused(bytes: &[u8], number: u64, width: usize) -> String {
    let chunks = bytes.chunks_exact(width);
    let left = chunks.remainder().to_vec();
    let numbers: Vec<u64> = chunks.map(|x| x.iter().rev().fold(0, |sum, &byte| 256 * sum + byte as u64)).collect();
    format!("{} bytes, refused with {number}: numbers {numbers:?}, left over {left:?}", bytes.len())
}
