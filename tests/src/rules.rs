//! Files that break a rule of a condition, with the number they must be refused with, and files that break two: what
//! they are made with, and for each rule of 11 and 12 an equation file.

use crate::case_rules::right_case;
use crate::damage::{number_at, with_number};
use crate::formats::*;
use crate::tables;

/// A file, the rule it breaks, and its refusal (0: none).
pub struct Broken {
    pub rule: String,
    pub refusal: u64,
    pub bytes: Vec<u8>,
}

/// One number of a right file to change, and the refusal that this gives.
pub struct Edit {
    pub rule: &'static str,
    pub refusal: u64,
    pub at: usize,
    pub number: u64,
}

/// A number of a right file changed.
pub fn edit(rule: &'static str, refusal: u64, at: usize, number: u64) -> Edit {
    Edit { rule, refusal, at, number }
}

/// A file by its rule and refusal.
pub fn broken(rule: &str, refusal: u64, bytes: Vec<u8>) -> Broken {
    Broken { rule: rule.to_string(), refusal, bytes }
}

/// A file for each edit.
pub fn single(right: &[u8], width: usize, edits: &[Edit]) -> Vec<Broken> {
    let broken = |edit: &Edit| {
        let before = number_at(right, edit.at, width);
        assert_ne!(before, edit.number, "{}: nothing changed", edit.rule);
        let rule = format!("{}: {before} at byte {} made {}", edit.rule, edit.at, edit.number);
        Broken { rule, refusal: edit.refusal, bytes: with_number(right, edit.at, width, edit.number) }
    };
    edits.iter().map(broken).collect()
}

/// A file for every two edits at different places.
pub fn pairs(right: &[u8], width: usize, edits: &[Edit]) -> Vec<Vec<u8>> {
    let mut all = Vec::new();
    for (i, first) in edits.iter().enumerate() {
        for second in edits[i + 1..].iter().filter(|second| second.at != first.at) {
            let once = with_number(right, first.at, width, first.number);
            all.push(with_number(&once, second.at, width, second.number));
        }
    }
    all
}

/// An equation file with lists of two, one and no operands and variables of two blocks.
fn right_equations() -> Equations {
    tables::equations(&right_case(1))
}

fn file_edits() -> Vec<Edit> {
    let (n, d, c, p) = (3, 2, 27, right_equations().operand_count());
    let header = |i: usize| 4 * i;
    let block = |k: usize, part: usize| 36 + 8 * k + 4 * part;
    let cell = |i: usize, part: usize| 36 + 8 * d + 12 * i + 4 * part;
    let operand = |j: usize| 36 + 8 * d + 12 * c + 4 * j;
    let largest = 0xffff_ffff;
    let (sign, first, kind, list, count) = (0, 1, 0, 1, 2);
    // Cell 0 is a variable, 3 an or with operands, 20 a box without transitions.
    vec![
        edit("version", 11, header(0), 0),
        edit("version, low bytes 1", 11, header(0), 0x1_0001),
        edit("no states", 11, header(1), 0),
        edit("states above 256", 11, header(1), 257),
        edit("no blocks", 11, header(2), 0),
        edit("blocks above 6", 11, header(2), 7),
        edit("no cells", 11, header(3), 0),
        edit("cells above 16,640", 11, header(3), 16_641),
        edit("operands above 133,120", 11, header(4), 133_121),
        edit("operands far above", 11, header(4), largest),
        edit("initial state", 11, header(5), n),
        edit("initial state, far", 11, header(5), largest),
        edit("blocks' offset", 11, header(6), 35),
        edit("cells' offset", 11, header(7), 53),
        edit("operands' offset", 11, header(8), largest),
        edit("fewer blocks than the offsets say", 11, header(2), d as u64 - 1),
        edit("more cells than the offsets say", 11, header(3), c as u64 + 1),
        edit("more operands than the length says", 11, header(4), p as u64 + 1),
        edit("fewer operands than the length says", 11, header(4), p as u64 - 1),
        edit("fewer states than the cells use", 12, header(1), n - 1),
        edit("sign", 12, block(0, sign), 2),
        edit("sign, far", 12, block(1, sign), 0x8000_0001),
        edit("first cell", 12, block(0, first), c as u64 - n + 1),
        edit("first cell, far", 12, block(1, first), largest),
        edit("first cell that wraps", 12, block(1, first), largest - n + 1),
        edit("cell kind", 12, cell(0, kind), 3),
        edit("cell kind, far", 12, cell(3, kind), largest),
        edit("a variable made an and", 12, cell(26, kind), 0),
        edit("block of a variable", 12, cell(0, 1), d as u64),
        edit("block of a variable, far", 12, cell(26, 1), largest),
        edit("state of a variable", 12, cell(0, 2), n),
        edit("state of a variable, far", 12, cell(1, 2), largest),
        edit("first operand", 12, cell(3, list), 1),
        edit("first operand of an empty list", 12, cell(20, list), 0),
        edit("count too large", 12, cell(3, count), 3),
        edit("count too small", 12, cell(3, count), 1),
        edit("count that wraps", 12, cell(3, count), largest),
        edit("count of an empty list that wraps", 12, cell(20, count), largest),
        edit("operand its own cell", 12, operand(0), 3),
        edit("operand below its cell", 12, operand(p - 1), 2),
        edit("operand no cell", 12, operand(1), c as u64),
        edit("operand far", 12, operand(1), largest),
    ]
}

/// An equation file for each rule of conditions 11 and 12.
pub fn broken_files() -> Vec<Broken> {
    let equations = right_equations();
    let right = equations.bytes();
    let mut all = single(&right, 4, &file_edits());
    let mut add = |rule: &str, refusal: u64, bytes: Vec<u8>| all.push(broken(rule, refusal, bytes));
    add("nothing", 0, right.clone());
    add("empty", 11, Vec::new());
    add("35 bytes", 11, right[..35].to_vec());
    add("a header only", 11, right[..36].to_vec());
    add("a byte short", 11, right[..right.len() - 1].to_vec());
    add("a byte extra", 11, [&right[..], &[0]].concat());
    let longer = with_number(&right, 16, 4, equations.operand_count() as u64 + 1);
    add("an operand in no list", 12, [&longer[..], &26u32.to_le_bytes()].concat());
    let few =
        Equations { blocks: vec![Block { greatest: true, first: 0 }], cells: vec![Cell::And(vec![]); 2], ..equations };
    add("fewer cells than states", 12, few.bytes());
    all
}

/// Equation files that break two rules.
pub fn twice_broken_files() -> Vec<Vec<u8>> {
    pairs(&right_equations().bytes(), 4, &file_edits())
}
