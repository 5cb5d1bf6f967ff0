//! Gives each item its position: rows one below the other, and in each row the items as near to their neighbours as the
//! order and the room between them allow.

use super::net::{Kind, Net, STATE_GAP};

const SWEEPS: usize = 40;

/// The room between two items of a row, and between two rows.
const APART: f64 = 14.0;
const BETWEEN_ROWS: f64 = 34.0;

/// Lines between two bends are kept straight before others.
const STRAIGHT: f64 = 16.0;

pub(super) fn place(net: &mut Net) {
    pack(net);
    let (above, below) = net.neighbours();
    let (both, count) = ([&above, &below], net.rows.len());
    for _ in 0..SWEEPS {
        (0..count).for_each(|row| settle(net, row, &both[..1]));
        (0..count).rev().for_each(|row| settle(net, row, &both[1..]));
    }
    (0..count).for_each(|row| settle(net, row, &both));
    set_heights(net);
}

/// Puts the items of each row side by side, with the row's middle at zero.
fn pack(net: &mut Net) {
    for row in net.rows.clone() {
        let offsets = offsets(net, &row);
        let middle = offsets.last().copied().unwrap_or(0.0) / 2.0;
        row.iter().zip(&offsets).for_each(|(&item, &offset)| net.items[item].x = offset - middle);
    }
}

/// Where the middles of a row's items are at least, seen from the first.
fn offsets(net: &Net, row: &[usize]) -> Vec<f64> {
    let mut offset = 0.0;
    let mut offsets = Vec::with_capacity(row.len());
    for (at, &item) in row.iter().enumerate() {
        if at > 0 {
            let (before, after) = (&net.items[row[at - 1]], &net.items[item]);
            let states = before.kind == Kind::State && after.kind == Kind::State;
            offset += before.right + after.left + if states { STATE_GAP } else { APART };
        }
        offsets.push(offset);
    }
    offsets
}

/// Moves the items of a row to the mean of their neighbours, as far as their order and the room between them allow.
fn settle(net: &mut Net, row: usize, sides: &[&Vec<Vec<usize>>]) {
    let row = net.rows[row].clone();
    let offsets = offsets(net, &row);
    let wishes: Vec<(f64, f64)> =
        row.iter().zip(&offsets).map(|(&item, &offset)| wish(net, item, sides, offset)).collect();
    for ((&item, offset), x) in row.iter().zip(&offsets).zip(rising(&wishes)) {
        net.items[item].x = x + offset;
    }
}

/// Where an item wants to be, without its offset, and how much.
fn wish(net: &Net, item: usize, sides: &[&Vec<Vec<usize>>], offset: f64) -> (f64, f64) {
    let is_bend = |item: usize| net.items[item].kind != Kind::State;
    // A little of the wish is to stay.
    let (mut sum, mut weight) = (net.items[item].x * 0.05, 0.05);
    for &other in sides.iter().flat_map(|side| &side[item]) {
        let pull = if is_bend(item) && is_bend(other) { STRAIGHT } else { 1.0 };
        sum += net.items[other].x * pull;
        weight += pull;
    }
    (sum / weight - offset, weight)
}

/// The rising sequence nearest to the wishes by the sum of weighted squares: neighbours that are out of order are put
/// together at their mean, until none is.
fn rising(wishes: &[(f64, f64)]) -> Vec<f64> {
    let mut groups: Vec<(f64, f64, usize)> = Vec::new();
    for &(mean, weight) in wishes {
        let mut group = (mean, weight, 1);
        while let Some(&(before, before_weight, count)) = groups.last().filter(|before| before.0 > group.0) {
            let weight = before_weight + group.1;
            group = ((before * before_weight + group.0 * group.1) / weight, weight, count + group.2);
            groups.pop();
        }
        groups.push(group);
    }
    groups.iter().flat_map(|&(mean, _, count)| vec![mean; count]).collect()
}

/// Sets the rows one below the other, each as high as its highest item.
fn set_heights(net: &mut Net) {
    let mut top = 0.0;
    for row in &net.rows {
        let height = row.iter().map(|&item| net.items[item].height).fold(0.0, f64::max);
        row.iter().for_each(|&item| net.items[item].y = top + height / 2.0);
        if !row.is_empty() {
            top += height + BETWEEN_ROWS;
        }
    }
}
