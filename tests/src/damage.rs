//! Files damaged at a number, cut, or made longer. Numbers are `width` bytes, low byte first: 2 in a case, 4 in an equation file.

use crate::formats::{CASE_HEADER, LARGEST_NAME, NAMED_HEADER, NAMES};
use crate::random::Random;
use std::ops::Range;

/// The number at a place of a file.
pub fn number_at(bytes: &[u8], at: usize, width: usize) -> u64 {
    bytes[at..at + width].iter().rev().fold(0, |sum, &byte| 256 * sum + byte as u64)
}

/// The file with another number at a place.
pub fn with_number(bytes: &[u8], at: usize, width: usize, number: u64) -> Vec<u8> {
    let mut changed = bytes.to_vec();
    changed[at..at + width].copy_from_slice(&number.to_le_bytes()[..width]);
    changed
}

/// Numbers to put in place of another: its neighbours, small ones, limits and their neighbours, the largest.
pub fn other_numbers(number: u64, width: usize) -> Vec<u64> {
    let mut all = vec![0, 1, 2, 3, 6, 7, 8, 9, 36, 64, 65, 128, 129, 255, 256, 257, 2048, 2049, 0x8000, 0xffff];
    all.extend([number.wrapping_sub(1), number + 1, number + 256, number ^ 0x8000]);
    if width == 4 {
        all.extend([16_640, 16_641, 133_120, 133_121, 0x8000_0000, 0xffff_ffff, 0xffff_fffe, 0xffff_ff00]);
        all.extend([number + 0x1_0000, number ^ 0x8000_0000, 0x4000_0000 + number]);
    }
    let largest = (1u64 << (8 * width)) - 1;
    all.iter_mut().for_each(|x| *x &= largest);
    all.sort_unstable();
    all.dedup();
    all.retain(|&x| x != number);
    all
}

/// Does a file say that it is a case of version 2?
fn says_named(bytes: &[u8], width: usize) -> bool {
    width == 2 && bytes.len() >= 2 && number_at(bytes, 0, 2) == 2
}

/// How many numbers of the header a file has.
fn header_numbers(bytes: &[u8], width: usize) -> usize {
    let whole = match width {
        2 if says_named(bytes, width) => NAMED_HEADER / 2,
        2 => CASE_HEADER / 2,
        _ => 9,
    };
    whole.min(bytes.len() / width)
}

/// Which of a file's numbers are names of labels.
fn name_numbers(bytes: &[u8], width: usize) -> Range<usize> {
    let first = NAMED_HEADER / 2;
    if !says_named(bytes, width) || bytes.len() < NAMED_HEADER {
        return first..first;
    }
    let end = first + NAMES * number_at(bytes, 6, 2) as usize;
    first..end.min(bytes.len() / 2)
}

/// A case of version 2 with a name changed to one that may be no name, or to a zero that may stand before names.
pub fn with_other_name(random: &mut Random, bytes: &[u8]) -> Vec<u8> {
    let names = name_numbers(bytes, 2);
    let at = 2 * random.between(names.start, names.end - 1);
    let largest = LARGEST_NAME as u64;
    let other = random.pick(&[0, 0, 1, 2, largest, largest + 1, largest + 2, 0x7fff, 0x8000, 0xffff]);
    with_number(bytes, at, 2, other)
}

/// A file damaged by chance: a number changed, an entry's number moved, cut or made longer.
pub fn damaged(random: &mut Random, bytes: &[u8], width: usize) -> Vec<u8> {
    let numbers = bytes.len() / width;
    let header = header_numbers(bytes, width);
    match random.below(10) {
        0 => bytes[..random.below(bytes.len())].to_vec(),
        1 => {
            let mut longer = bytes.to_vec();
            longer.extend((0..random.between(1, 2 * width)).map(|_| random.below(256) as u8));
            longer
        }
        2 => {
            let at = width * random.below(header);
            let choices = other_numbers(number_at(bytes, at, width), width);
            with_number(bytes, at, width, random.pick(&choices))
        }
        3 => {
            let mut changed = bytes.to_vec();
            changed[random.below(bytes.len())] ^= 1 << random.below(8);
            changed
        }
        4 => {
            let (from, to) = (width * random.below(numbers), width * random.below(numbers));
            with_number(bytes, to, width, number_at(bytes, from, width))
        }
        5 if !name_numbers(bytes, width).is_empty() => with_other_name(random, bytes),
        _ => {
            // Twice as often in the last tables as by chance, where most rules are.
            let low = if random.chance(1, 2) { numbers / 2 } else { 0 };
            let at = width * random.between(low, numbers - 1);
            let number = number_at(bytes, at, width);
            let near = [number ^ 1, number + 1, number.saturating_sub(1), random.below(12) as u64];
            with_number(bytes, at, width, random.pick(&near) & ((1 << (8 * width)) - 1))
        }
    }
}
