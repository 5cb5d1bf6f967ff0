//! Writing the equation file of a case.

use super::cases::{
    self, action_masks, binders, is_binder, node_at, subtree_end, transition_at, Header, ACTIONS, TRANSITIONS,
};

const SHAPES: usize = cases::NODES + 1;

/// What the writers need of a node: its kind, the node of a second operand, its block, and the labels that it accepts.
#[derive(Clone, Copy)]
struct Shape {
    kind: usize,
    second: usize,
    block: usize,
    labels: u64,
}

/// What all writers read.
struct Source<'a> {
    records: &'a [u8],
    first: &'a [bool],
    transitions: usize,
    states: usize,
    shapes: &'a [Shape],
}

/// Which records are the first of their kind, and how many are.
pub struct First {
    flags: [bool; TRANSITIONS],
    pub count: usize,
}

impl First {
    pub fn of(records: &[u8], m: usize) -> First {
        let mut first = First { flags: [false; TRANSITIONS], count: 0 };
        cases::first_appearances(records, m, |j| {
            first.flags[j] = true;
            first.count += 1;
        });
        first
    }
}

fn is_pair(kind: usize) -> bool {
    kind == 2 || kind == 3
}

fn is_modal(kind: usize) -> bool {
    kind == 4 || kind == 5
}

/// What shapes are made of: the formula table and its count, the labels that the action formulas accept, and how many nodes are added
/// before the root.
struct Tables<'a> {
    formula: &'a [u8],
    f: usize,
    masks: [u64; ACTIONS],
    added: usize,
}

fn shape_at(tables: &Tables, i: usize) -> Shape {
    let Tables { formula: part, f, ref masks, added } = *tables;
    let x = node_at(part, i);
    Shape {
        kind: x.kind,
        second: if is_pair(x.kind) { subtree_end(part, f, i + 1) + added } else { 0 },
        block: match x.kind {
            6 => binders(part, x.arg) + added,
            7 | 8 => binders(part, i) + added,
            _ => 0,
        },
        labels: if is_modal(x.kind) { masks[x.arg] } else { 0 },
    }
}

fn put(out: &mut [u8], at: usize, x: usize) {
    out[at..at + 4].copy_from_slice(&(x as u32).to_le_bytes());
}

fn put_all(out: &mut [u8], numbers: &[usize]) {
    for (i, &x) in numbers.iter().enumerate() {
        put(out, 4 * i, x);
    }
}

impl Source<'_> {
    /// Whether record j is the first of its kind, from s, with its label in the mask.
    fn leaves(&self, j: usize, s: usize, labels: u64) -> bool {
        if !self.first[j] {
            return false;
        }
        let t = transition_at(self.records, j);
        t.source == s && t.label < 64 && labels >> t.label & 1 == 1
    }

    fn degree(&self, s: usize, labels: u64) -> usize {
        (0..self.transitions).filter(|&j| self.leaves(j, s, labels)).count()
    }

    /// How many operands a node of a shape has in state s.
    fn operand_count(&self, x: &Shape, s: usize) -> usize {
        match x.kind {
            2 | 3 => 2,
            4 | 5 => self.degree(s, x.labels),
            _ => 0,
        }
    }

    fn operand_total(&self) -> usize {
        self.shapes.iter().map(|x| (0..self.states).map(|s| self.operand_count(x, s)).sum::<usize>()).sum()
    }

    fn write_blocks(&self, out: &mut [u8]) {
        let mut done = 0;
        for (i, x) in self.shapes.iter().enumerate() {
            if x.kind >= 7 {
                put_all(&mut out[done..], &[(x.kind == 8) as usize, (i + 1) * self.states]);
                done += 8;
            }
        }
    }

    fn write_cells(&self, out: &mut [u8]) {
        const KINDS: [usize; 9] = [1, 0, 0, 1, 0, 1, 2, 2, 2];
        let mut used = 0;
        for (i, x) in self.shapes.iter().enumerate() {
            for s in 0..self.states {
                let cell = &mut out[12 * (i * self.states + s)..];
                let kind = KINDS[x.kind];
                if kind == 2 {
                    put_all(cell, &[2, x.block, s]);
                } else {
                    let count = self.operand_count(x, s);
                    put_all(cell, &[kind, used, count]);
                    used += count;
                }
            }
        }
    }

    /// The operands of a box or diamond in state s, behind `done` bytes: cells of the row that starts at `base`.
    fn write_targets(&self, out: &mut [u8], mut done: usize, base: usize, s: usize, labels: u64) -> usize {
        for j in 0..self.transitions {
            if self.leaves(j, s, labels) {
                put(out, done, base + transition_at(self.records, j).target);
                done += 4;
            }
        }
        done
    }

    fn write_operands(&self, out: &mut [u8]) {
        let n = self.states;
        let mut done = 0;
        for (i, x) in self.shapes.iter().enumerate() {
            for s in 0..n {
                if is_pair(x.kind) {
                    put_all(&mut out[done..], &[(i + 1) * n + s, x.second * n + s]);
                    done += 8;
                } else if is_modal(x.kind) {
                    done = self.write_targets(out, done, (i + 1) * n, s, x.labels);
                }
            }
        }
    }

    /// The file's length, if there is room.
    fn emit(&self, out: &mut [u8], initial: usize) -> Option<usize> {
        let n = self.states;
        let d = self.shapes.iter().filter(|x| x.kind >= 7).count();
        let c = self.shapes.len() * n;
        let p = self.operand_total();
        let cells = 36 + 8 * d;
        let operands = cells + 12 * c;
        let size = operands + 4 * p;
        if out.len() < size {
            return None;
        }
        put_all(out, &[1, n, d, c, p, initial, 36, cells, operands]);
        self.write_blocks(&mut out[36..]);
        self.write_cells(&mut out[cells..]);
        self.write_operands(&mut out[operands..]);
        Some(size)
    }
}

/// Writes the equation file of a case to the start of a buffer: its length, or the number of the refusal.
pub fn translate(case: &[u8], out: &mut [u8]) -> Result<usize, u8> {
    if let Some(cause) = cases::refusal(case) {
        return Err(cause);
    }
    let h = cases::header(case);
    write(case, &h, &First::of(&case[h.first..], h.transitions), out)
}

/// The same for an accepted case whose first appearances are found.
pub fn write(case: &[u8], h: &Header, first: &First, out: &mut [u8]) -> Result<usize, u8> {
    let formula = &case[h.third..];
    let added = if is_binder(&node_at(formula, 0)) { 0 } else { 1 };
    let tables = Tables { formula, f: h.nodes, masks: action_masks(case, h), added };
    let mut shapes = [Shape { kind: 8, second: 0, block: 0, labels: 0 }; SHAPES];
    for i in 0..h.nodes {
        shapes[added + i] = shape_at(&tables, i);
    }
    let source = Source {
        records: &case[h.first..],
        first: &first.flags,
        transitions: h.transitions,
        states: h.states,
        shapes: &shapes[..added + h.nodes],
    };
    source.emit(out, h.initial).ok_or(13)
}
