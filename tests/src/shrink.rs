//! Makes a failing file smaller while it still fails.

use crate::formats::*;
use crate::reader::{read_case, read_equations};
use std::collections::BTreeSet;

/// How many smaller files are tried at most.
const MOST_TRIED: usize = 20_000;

/// The smallest file found by taking any of the smaller ones that still fails, again and again.
pub fn smallest(bytes: &[u8], smaller: fn(&[u8]) -> Vec<Vec<u8>>, fails: &mut dyn FnMut(&[u8]) -> bool) -> Vec<u8> {
    let mut best = bytes.to_vec();
    let mut tried = 0;
    'again: while tried < MOST_TRIED {
        for next in smaller(&best) {
            tried += 1;
            if fails(&next) {
                best = next;
                continue 'again;
            }
        }
        break;
    }
    best
}

/// Cases a step smaller: transitions, nodes, states, labels, names or action formulas dropped.
pub fn smaller_cases(bytes: &[u8]) -> Vec<Vec<u8>> {
    let Ok(case) = read_case(bytes) else { return shorter(bytes, 2) };
    let mut all = Vec::new();
    let mut add = |change: &dyn Fn(&mut Case)| {
        let mut next = case.clone();
        change(&mut next);
        all.push(next);
    };
    smaller_models(&case, &mut add);
    smaller_labels(&case, &mut add);
    smaller_formulas(&case, &mut add);
    smaller_actions(&case, &mut add);
    let size = |c: &Case| c.bytes().len() + c.states + c.labels.count() + names_size(c);
    let before = size(&case);
    all.iter().filter(|next| read_case(&next.bytes()).is_ok() && size(next) < before).map(Case::bytes).collect()
}

/// A change that may make a case smaller is handed to this.
type Add<'a> = dyn FnMut(&dyn Fn(&mut Case)) + 'a;

/// How many names a case has, and how large they are.
fn names_size(case: &Case) -> usize {
    case.labels.records().iter().flatten().map(|&name| (name > 0) as usize + name).sum()
}

fn smaller_models(case: &Case, add: &mut Add) {
    let m = case.transitions.len();
    for part in [m / 2, m / 4, 1].into_iter().filter(|&part| part > 0) {
        for start in (0..m).step_by(part) {
            add(&|next| drop(next.transitions.drain(start..(start + part).min(m))));
        }
    }
    if case.states > 1 {
        for gone in 0..case.states {
            add(&|next| drop_state(next, gone));
        }
    }
}

fn smaller_labels(case: &Case, add: &mut Add) {
    add(&|next| next.labels = Labels::Numbered(next.labels.count()));
    for gone in 0..case.labels.count().saturating_sub(1) {
        add(&|next| drop_label(next, gone));
    }
    add(&|next| next.labels = ranked(&next.labels));
    for (i, record) in case.labels.records().iter().enumerate() {
        for place in (0..NAMES).filter(|&place| record[place] != 0) {
            add(&|next| drop_name(&mut next.labels, i, place));
        }
    }
}

/// The labels with the smallest names: each is replaced by its place among the different ones, from 1.
fn ranked(labels: &Labels) -> Labels {
    let different: BTreeSet<usize> = labels.records().iter().flatten().copied().filter(|&name| name != 0).collect();
    let rank = |name: usize| different.range(..name).count() + (name != 0) as usize;
    match labels {
        Labels::Numbered(count) => Labels::Numbered(*count),
        Labels::Named(records) => Labels::Named(records.iter().map(|record| record.map(rank)).collect()),
    }
}

/// Takes a name out of a record; those behind it move up.
fn drop_name(labels: &mut Labels, label: usize, place: usize) {
    if let Labels::Named(records) = labels {
        records[label][place..].rotate_left(1);
        records[label][NAMES - 1] = 0;
    }
}

fn smaller_formulas(case: &Case, add: &mut Add) {
    for i in 0..case.formula.len() {
        let end = subtree_end(&case.formula, i, formula::operands).unwrap();
        for operand in operands_of(&case.formula, i, formula::operands) {
            let operand_end = subtree_end(&case.formula, operand, formula::operands).unwrap();
            add(&|next| replace(next, i, end, operand, operand_end));
        }
        for kind in [formula::TRUE, formula::FALSE] {
            add(&|next| {
                next.formula[i] = node(kind, 0);
                replace(next, i, end, i, i + 1);
            });
        }
    }
}

fn smaller_actions(case: &Case, add: &mut Add) {
    for i in 0..case.actions.len() {
        add(&|next| {
            next.actions = vec![node(action::TRUE, 0)];
            next.formula.iter_mut().filter(|x| formula::is_modal(x.kind)).for_each(|x| x.argument = 0);
        });
        let end = subtree_end(&case.actions, i, action::operands).unwrap();
        for operand in operands_of(&case.actions, i, action::operands) {
            let operand_end = subtree_end(&case.actions, operand, action::operands).unwrap();
            add(&|next| {
                let kept = case.actions[operand..operand_end].to_vec();
                next.actions.splice(i..end, kept);
                let cut = (end - i) - (operand_end - operand);
                for x in next.formula.iter_mut().filter(|x| formula::is_modal(x.kind) && x.argument >= end) {
                    x.argument -= cut;
                }
            });
        }
    }
}

/// Puts a part of a subtree in its place and renumbers the binders of the variables behind.
fn replace(case: &mut Case, start: usize, end: usize, kept_start: usize, kept_end: usize) {
    let moved = |j: usize| {
        if j >= end {
            j - (end - start) + (kept_end - kept_start)
        } else if j >= kept_start && j < kept_end {
            j - (kept_start - start)
        } else {
            j
        }
    };
    let kept = case.formula[kept_start..kept_end].to_vec();
    case.formula.splice(start..end, kept);
    for x in case.formula.iter_mut().filter(|x| x.kind == formula::VARIABLE) {
        x.argument = moved(x.argument);
    }
}

fn drop_state(case: &mut Case, gone: usize) {
    let moved = |s: usize| if s > gone { s - 1 } else { s };
    case.states -= 1;
    case.initial = moved(case.initial).min(case.states - 1);
    case.transitions.retain(|t| t.source != gone && t.target != gone);
    for t in &mut case.transitions {
        t.source = moved(t.source);
        t.target = moved(t.target);
    }
}

/// Makes a label one with the last, which takes its number.
fn drop_label(case: &mut Case, gone: usize) {
    let last = case.labels.count() - 1;
    match &mut case.labels {
        Labels::Numbered(count) => *count -= 1,
        Labels::Named(records) => drop(records.swap_remove(gone)),
    }
    for t in case.transitions.iter_mut().filter(|t| t.label == last) {
        t.label = gone;
    }
    for x in case.actions.iter_mut().filter(|x| x.kind == action::LABEL && x.argument == last) {
        x.argument = gone;
    }
}

/// Equation files a step smaller: operands, the last cell or the last block dropped, variables made constant.
pub fn smaller_files(bytes: &[u8]) -> Vec<Vec<u8>> {
    let Ok(equations) = read_equations(bytes) else { return shorter(bytes, 4) };
    let mut all = Vec::new();
    for i in 0..equations.cells.len() {
        for j in 0..equations.cells[i].operands().len() {
            let mut next = equations.clone();
            if let Cell::And(list) | Cell::Or(list) = &mut next.cells[i] {
                list.remove(j);
            }
            all.push(next);
        }
        if matches!(equations.cells[i], Cell::Variable { .. }) {
            for constant in [Cell::And(Vec::new()), Cell::Or(Vec::new())] {
                let mut next = equations.clone();
                next.cells[i] = constant;
                all.push(next);
            }
        }
    }
    let mut shorter = equations.clone();
    shorter.cells.pop();
    all.push(shorter.clone());
    shorter.blocks.iter_mut().for_each(|block| block.first = block.first.saturating_sub(1));
    all.push(shorter);
    let mut fewer = equations.clone();
    fewer.blocks.pop();
    all.push(fewer);
    let mut narrower = equations.clone();
    narrower.states -= 1;
    narrower.initial = 0;
    all.push(narrower);
    let variables = |e: &Equations| e.cells.iter().filter(|cell| matches!(cell, Cell::Variable { .. })).count();
    let size = |e: &Equations| e.bytes().len() + e.states + e.initial + variables(e);
    let before = size(&equations);
    all.iter()
        .filter(|next| read_equations(&next.bytes()).is_ok() && size(next) < before)
        .map(Equations::bytes)
        .collect()
}

/// A refused file cut at its end.
fn shorter(bytes: &[u8], width: usize) -> Vec<Vec<u8>> {
    let cuts = [bytes.len() / 2, width, 1];
    cuts.iter().filter(|&&cut| cut > 0 && cut <= bytes.len()).map(|&cut| bytes[..bytes.len() - cut].to_vec()).collect()
}
