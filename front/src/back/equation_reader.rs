//! Reads an equation file of any bytes, and says in words what is wrong with one that is none.

use crate::amount;
use crate::limits;

/// The content of an equation file.
pub struct Equations {
    pub states: usize,
    pub initial: usize,
    pub blocks: Vec<Block>,
    pub cells: Vec<Cell>,
}

/// A block: the right side of its variable in state s is cell `first + s`.
pub struct Block {
    pub greatest: bool,
    pub first: usize,
}

/// A cell, with the cells that it is made of, whose numbers are above its own.
#[derive(Clone, Debug, PartialEq, Eq)]
pub enum Cell {
    And(Vec<usize>),
    Or(Vec<usize>),
    Variable { block: usize, state: usize },
}

/// The numbers of a file's header, whose ranges are checked.
struct Header {
    states: usize,
    blocks: usize,
    cells: usize,
    operands: usize,
    initial: usize,
}

/// Lengths in numbers.
const HEADER: usize = 9;
const BLOCK: usize = 2;
const CELL: usize = 3;

/// The length of a number in bytes.
const NUMBER: usize = 4;

pub fn read(file: &[u8]) -> Result<Equations, String> {
    let numbers: Vec<usize> = file.chunks_exact(NUMBER).map(number).collect();
    let header = read_header(file.len(), &numbers)?;
    let (blocks, rest) = numbers[HEADER..].split_at(BLOCK * header.blocks);
    let (cells, operands) = rest.split_at(CELL * header.cells);
    Ok(Equations {
        states: header.states,
        initial: header.initial,
        blocks: read_blocks(&header, blocks)?,
        cells: read_cells(&header, cells, operands)?,
    })
}

/// A number, low byte first. One that does not fit becomes the largest, which is outside every range.
fn number(bytes: &[u8]) -> usize {
    let bytes = bytes.try_into().unwrap_or([u8::MAX; NUMBER]);
    usize::try_from(u32::from_le_bytes(bytes)).unwrap_or(usize::MAX)
}

/// The header, if the file has the length that follows from it.
fn read_header(length: usize, numbers: &[usize]) -> Result<Header, String> {
    let &[version, states, blocks, cells, operands, initial, blocks_at, cells_at, operands_at, ..] = numbers else {
        return Err(format!("its header needs {} bytes, and it has {}", HEADER * NUMBER, amount::thousands(length)));
    };
    if version != 1 {
        return Err(format!("its version is {version} in place of 1"));
    }
    in_range("state", states, 1, limits::STATES)?;
    in_range("block", blocks, 1, limits::BLOCKS)?;
    in_range("cell", cells, 1, limits::CELLS)?;
    in_range("operand", operands, 0, limits::OPERANDS)?;
    if initial >= states {
        return Err(format!("its initial state is {initial}, and it has {}", amount::of(states, "state")));
    }
    let places = [HEADER, HEADER + BLOCK * blocks, HEADER + BLOCK * blocks + CELL * cells].map(|place| place * NUMBER);
    if [blocks_at, cells_at, operands_at] != places {
        return Err("an offset differs from what its counts say".to_string());
    }
    let expected = places[2] + operands * NUMBER;
    if length != expected {
        return Err(format!(
            "its counts say {} bytes, and it has {}",
            amount::thousands(expected),
            amount::thousands(length)
        ));
    }
    Ok(Header { states, blocks, cells, operands, initial })
}

fn in_range(thing: &str, count: usize, least: usize, most: usize) -> Result<(), String> {
    if (least..=most).contains(&count) {
        return Ok(());
    }
    Err(format!("it has {}, and an equation file has {least} to {}", amount::of(count, thing), amount::thousands(most)))
}

fn read_blocks(header: &Header, numbers: &[usize]) -> Result<Vec<Block>, String> {
    let block = |(place, entry): (usize, &[usize])| match *entry {
        [sign @ (0 | 1), first] if first.saturating_add(header.states) <= header.cells => {
            Ok(Block { greatest: sign == 1, first })
        }
        [0 | 1, _] => Err(format!("block {place} has no cell for each state")),
        _ => Err(format!("the sign of block {place} is neither 0 (mu) nor 1 (nu)")),
    };
    numbers.chunks_exact(BLOCK).enumerate().map(block).collect()
}

/// The cells, whose lists of operands follow one another and fill the table of operands.
fn read_cells(header: &Header, numbers: &[usize], operands: &[usize]) -> Result<Vec<Cell>, String> {
    let mut used = 0;
    let mut cells = Vec::new();
    for (place, entry) in numbers.chunks_exact(CELL).enumerate() {
        cells.push(match *entry {
            [0, first, count] => Cell::And(read_list(header, place, operands, &mut used, [first, count])?),
            [1, first, count] => Cell::Or(read_list(header, place, operands, &mut used, [first, count])?),
            [2, block, state] if block < header.blocks && state < header.states => Cell::Variable { block, state },
            [2, ..] => return Err(format!("cell {place} names a block or a state that is not there")),
            _ => return Err(format!("the kind of cell {place} is not 0 (and), 1 (or) or 2 (variable)")),
        });
    }
    if used != header.operands {
        return Err(format!("{} in no cell's list", amount::of(header.operands - used, "operand")));
    }
    Ok(cells)
}

/// A cell's list of operands, which starts where the list before it ended.
fn read_list(
    header: &Header,
    place: usize,
    operands: &[usize],
    used: &mut usize,
    [first, count]: [usize; 2],
) -> Result<Vec<usize>, String> {
    if first != *used {
        return Err(format!("the operands of cell {place} do not follow those of the cells before it"));
    }
    let list = operands.get(first..first.saturating_add(count));
    let list = list.ok_or_else(|| format!("cell {place} has more operands than there are"))?;
    if let Some(operand) = list.iter().find(|&&operand| operand <= place || operand >= header.cells) {
        return Err(format!("cell {place} has the operand {operand}, which is no later cell"));
    }
    *used += count;
    Ok(list.to_vec())
}
