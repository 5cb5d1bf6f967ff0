//! Models that something else wrote: bytes of any content and length, files cut or damaged, tables with copies, tables
//! that hold anything, and models without room. No open comes before the edits.

use super::compare::{Call, List};
use super::lists::{bytes_by_chance, Chosen};
use super::rules::case_of;
use crate::damage::{damaged, number_at, other_numbers, with_number};
use crate::formats::*;
use crate::generate::{self, Size};
use crate::random::Random;
use crate::reader::read_tables;
use crate::text::case;

/// A list on such a model, by chance.
pub fn list(random: &mut Random) -> List {
    let model = match random.below(40) {
        0 => full(random),
        1..=6 => any_bytes(random),
        7..=12 => cut(random),
        13..=18 => with_beyond(random, |random, bytes| damaged(random, &bytes, 2)),
        19..=25 => with_beyond(random, one_byte_changed),
        26..=31 => with_beyond(random, |_, bytes| bytes),
        32..=35 => with_beyond(random, any_tables),
        36 => with_beyond(random, far_end),
        _ => with_beyond(random, other_counts),
    };
    list_on(random, model)
}

/// Calls by chance on a model: all four, in any order. Transitions are chosen by its table if its layout is right.
pub fn list_on(random: &mut Random, model: Vec<u8>) -> List {
    let small = || case(3, 2, &[(0, 0, 1), (1, 1, 2)], "true", "mu X box 0 X");
    let table = read_tables(case_of(&model)).unwrap_or_else(|_| small());
    let mut chosen = Chosen::new(&table);
    chosen.by_chance(random, 7, 5);
    let opened = generate::case_of(random, Size::Tiny).bytes();
    let mut calls = chosen.calls;
    calls.insert(random.below(calls.len() + 1), Call::Open(opened));
    calls.insert(random.below(calls.len() + 1), Call::Want { words: 4, limit: 2 });
    List { model, calls }
}

/// A small file of either version, for which damage is tried at each place.
pub fn file(seed: u64) -> Vec<u8> {
    let mut random = Random::new(seed);
    loop {
        let bytes = generate::case_in(&mut random, Size::Tiny, VERSIONS[seed as usize % 2]).bytes();
        if (60..130).contains(&bytes.len()) {
            return bytes;
        }
    }
}

/// The file with each byte in turn changed to three others, and room for one record behind it or none.
pub fn every_byte(random: &mut Random, file: &[u8]) -> Vec<List> {
    let mut all = Vec::new();
    for at in 0..file.len() {
        for change in [1, 0x80, random.between(1, 255) as u8] {
            let mut model = file.to_vec();
            model[at] ^= change;
            model.extend(beyond(random));
            all.push(list_on(random, model));
        }
    }
    all
}

/// The file with each number of its header in turn changed to others, with noise behind it.
pub fn every_header_number(random: &mut Random, file: &[u8]) -> Vec<List> {
    let header = if number_at(file, 0, 2) == 2 { NAMED_HEADER } else { CASE_HEADER };
    let mut all = Vec::new();
    for at in (0..header).step_by(2) {
        for other in other_numbers(number_at(file, at, 2), 2) {
            let mut model = with_number(file, at, 2, other);
            model.extend(beyond(random));
            all.push(list_on(random, model));
        }
    }
    all
}

/// The file cut at each length, and with up to 13 bytes behind it.
pub fn every_length(random: &mut Random, file: &[u8]) -> Vec<List> {
    let longer = [file, &[0xa5; 13]].concat();
    (0..=longer.len()).map(|length| list_on(random, longer[..length].to_vec())).collect()
}

/// Noise behind a file: none, less than a record, just a record, or more.
fn beyond(random: &mut Random) -> Vec<u8> {
    let size = random.pick(&[0, 0, 1, 5, 6, 6, 6, 7, 11, 12, 30]);
    bytes_by_chance(random, size)
}

/// A case of up to eight states, with recorded copies in many, changed, with noise behind it.
fn with_beyond(random: &mut Random, change: fn(&mut Random, Vec<u8>) -> Vec<u8>) -> Vec<u8> {
    let size = random.pick(&[Size::Tiny, Size::Small]);
    let bytes = generate::case_of(random, size).bytes();
    let mut model = change(random, bytes);
    model.extend(beyond(random));
    model
}

/// Bytes by chance, in half of them behind a version from 0 to 3.
fn any_bytes(random: &mut Random) -> Vec<u8> {
    let count = random.below(90);
    let mut bytes = bytes_by_chance(random, count);
    if bytes.len() >= 2 && random.chance(1, 2) {
        bytes = with_number(&bytes, 0, 2, random.between(0, 3) as u64);
    }
    bytes
}

fn cut(random: &mut Random) -> Vec<u8> {
    let mut bytes = generate::case_of(random, Size::Tiny).bytes();
    bytes.truncate(random.below(bytes.len()));
    bytes
}

fn one_byte_changed(random: &mut Random, mut bytes: Vec<u8>) -> Vec<u8> {
    let at = random.below(bytes.len());
    bytes[at] ^= random.between(1, 255) as u8;
    bytes
}

/// The layout of a case with other numbers in its tables and in the place of the initial state.
fn any_tables(random: &mut Random, mut bytes: Vec<u8>) -> Vec<u8> {
    let named = number_at(&bytes, 0, 2) == 2;
    let tables_at = if named { NAMED_HEADER } else { CASE_HEADER };
    let part = random.pick(&[1, 2, 4]);
    for at in (tables_at..bytes.len()).step_by(2).chain([8]) {
        if random.chance(part, 4) {
            let any = random.below(0x1_0000) as u64;
            bytes = with_number(&bytes, at, 2, random.pick(&[0, 1, 2, 3, 255, 256, 0xffff, any]));
        }
    }
    bytes
}

/// Other counts of transitions and nodes, and the offsets that belong to them: the tables stand elsewhere, and the file
/// ends earlier or later.
fn other_counts(random: &mut Random, bytes: Vec<u8>) -> Vec<u8> {
    let mut count = |at: usize, least: u64| {
        let number = number_at(&bytes, at, 2);
        random.pick(&[number, number + 1, number.saturating_sub(1).max(least), least])
    };
    let (m, a, f) = (count(4, 0), count(10, 0), count(12, 1));
    let first = number_at(&bytes, 14, 2);
    let numbers = [(4, m), (10, a), (12, f), (16, first + 6 * m), (18, first + 6 * m + 4 * a)];
    numbers.into_iter().fold(bytes, |bytes, (at, number)| with_number(&bytes, at, 2, number))
}

/// So many formula nodes that the file ends beyond 65,535 bytes, at a place that would be 0 or 2 in 16 bits.
fn far_end(_: &mut Random, bytes: Vec<u8>) -> Vec<u8> {
    let before = bytes.len() - 4 * number_at(&bytes, 12, 2) as usize;
    with_number(&bytes, 12, 2, (0x1_0000 - before).div_ceil(4) as u64)
}

/// A table of 2,048 records, or of one less, with copies in half of them, and little room behind it.
fn full(random: &mut Random) -> Vec<u8> {
    let mut case = generate::case_of(random, Size::Full);
    case.transitions.truncate(TRANSITIONS - random.below(2));
    case.formula = vec![node(formula::TRUE, 0)];
    let mut model = case.bytes();
    model.extend(beyond(random));
    model
}
