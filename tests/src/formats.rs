//! The two file formats as values, and how their bytes are written.

/// Limits of a case file.
pub const STATES: usize = 256;
pub const TRANSITIONS: usize = 2048;
pub const LABELS: usize = 64;
pub const ACTION_NODES: usize = 128;
pub const FORMULA_NODES: usize = 64;
pub const BLOCKS: usize = 6;

/// Limits of an equation file.
pub const CELLS: usize = 16_640;
pub const OPERANDS: usize = 133_120;

/// Names in a label record, and the largest name.
pub const NAMES: usize = 4;
pub const LARGEST_NAME: usize = 255;

/// The versions of a case file.
pub const VERSIONS: [usize; 2] = [1, 2];
/// Length of a case's header in version 1 and in version 2.
pub const CASE_HEADER: usize = 20;
pub const NAMED_HEADER: usize = 22;
/// Length of the largest case in version 1 and in version 2.
pub const LARGEST_CASE: usize = CASE_HEADER + 6 * TRANSITIONS + 4 * ACTION_NODES + 4 * FORMULA_NODES;
pub const LARGEST_NAMED_CASE: usize = LARGEST_CASE - CASE_HEADER + NAMED_HEADER + 8 * LABELS;
/// Length of an equation file's header.
pub const EQUATION_HEADER: usize = 36;

/// Kinds of action nodes.
pub mod action {
    pub const FALSE: usize = 0;
    pub const TRUE: usize = 1;
    pub const LABEL: usize = 2;
    pub const NOT: usize = 3;
    pub const AND: usize = 4;
    pub const OR: usize = 5;
    pub const IMPLIES: usize = 6;

    /// How many operands a kind has; none for a kind that does not exist.
    pub fn operands(kind: usize) -> Option<usize> {
        match kind {
            FALSE | TRUE | LABEL => Some(0),
            NOT => Some(1),
            AND | OR | IMPLIES => Some(2),
            _ => None,
        }
    }
}

/// Kinds of formula nodes.
pub mod formula {
    pub const FALSE: usize = 0;
    pub const TRUE: usize = 1;
    pub const AND: usize = 2;
    pub const OR: usize = 3;
    pub const BOX: usize = 4;
    pub const DIAMOND: usize = 5;
    pub const VARIABLE: usize = 6;
    pub const MU: usize = 7;
    pub const NU: usize = 8;

    /// How many operands a kind has; none for a kind that does not exist.
    pub fn operands(kind: usize) -> Option<usize> {
        match kind {
            FALSE | TRUE | VARIABLE => Some(0),
            BOX | DIAMOND | MU | NU => Some(1),
            AND | OR => Some(2),
            _ => None,
        }
    }

    pub fn is_modal(kind: usize) -> bool {
        kind == BOX || kind == DIAMOND
    }

    pub fn is_binder(kind: usize) -> bool {
        kind == MU || kind == NU
    }
}

#[derive(Clone, Copy, Debug, PartialEq, Eq, PartialOrd, Ord, Hash)]
pub struct Transition {
    pub source: usize,
    pub label: usize,
    pub target: usize,
}

#[derive(Clone, Copy, Debug, PartialEq, Eq)]
pub struct Node {
    pub kind: usize,
    pub argument: usize,
}

/// A node from its kind and argument.
pub fn node(kind: usize, argument: usize) -> Node {
    Node { kind, argument }
}

/// A label record: names, padded with zeros at its end. All zeros is the silent step.
pub type Names = [usize; NAMES];

/// The labels of a case, which say its version.
#[derive(Clone, Debug, PartialEq, Eq)]
pub enum Labels {
    /// Version 1: so many labels, which are their numbers.
    Numbered(usize),
    /// Version 2: the record of each label.
    Named(Vec<Names>),
}

impl Labels {
    pub fn version(&self) -> usize {
        match self {
            Labels::Numbered(_) => 1,
            Labels::Named(_) => 2,
        }
    }

    pub fn count(&self) -> usize {
        match self {
            Labels::Numbered(count) => *count,
            Labels::Named(records) => records.len(),
        }
    }

    /// The label records, of which version 1 has none.
    pub fn records(&self) -> &[Names] {
        match self {
            Labels::Numbered(_) => &[],
            Labels::Named(records) => records,
        }
    }
}

/// A case: a transition system as recorded, action formulas, a formula.
#[derive(Clone, Debug, PartialEq, Eq)]
pub struct Case {
    pub states: usize,
    pub labels: Labels,
    pub initial: usize,
    pub transitions: Vec<Transition>,
    pub actions: Vec<Node>,
    pub formula: Vec<Node>,
}

impl Case {
    /// The case file of its labels' version.
    pub fn bytes(&self) -> Vec<u8> {
        let (m, l, a, f) = (self.transitions.len(), self.labels.count(), self.actions.len(), self.formula.len());
        let transitions_at = match self.labels {
            Labels::Numbered(_) => CASE_HEADER,
            Labels::Named(_) => NAMED_HEADER + 8 * l,
        };
        let actions_at = transitions_at + 6 * m;
        let formula_at = actions_at + 4 * a;
        let version = self.labels.version();
        let mut numbers = vec![version, self.states, m, l, self.initial, a, f, transitions_at, actions_at, formula_at];
        if let Labels::Named(records) = &self.labels {
            numbers.push(NAMED_HEADER);
            numbers.extend(records.iter().flatten());
        }
        for t in &self.transitions {
            numbers.extend([t.source, t.label, t.target]);
        }
        for x in self.actions.iter().chain(&self.formula) {
            numbers.extend([x.kind, x.argument]);
        }
        numbers.iter().flat_map(|&x| (x as u16).to_le_bytes()).collect()
    }

    /// The binder nodes in prefix order.
    pub fn binders(&self) -> Vec<usize> {
        (0..self.formula.len()).filter(|&i| formula::is_binder(self.formula[i].kind)).collect()
    }

    /// Is the root a binder? If not, the equation file has a nu before it.
    pub fn root_binds(&self) -> bool {
        formula::is_binder(self.formula[0].kind)
    }
}

/// Where the subtree at `start` ends in a table in prefix order; none if the table ends before it.
pub fn subtree_end(table: &[Node], start: usize, operands: fn(usize) -> Option<usize>) -> Option<usize> {
    let mut end = start + 1;
    for _ in 0..operands(table.get(start)?.kind)? {
        end = subtree_end(table, end, operands)?;
    }
    Some(end)
}

/// The node numbers of a node's operands, in order.
pub fn operands_of(table: &[Node], at: usize, operands: fn(usize) -> Option<usize>) -> Vec<usize> {
    let mut next = at + 1;
    let mut all = Vec::new();
    for _ in 0..operands(table[at].kind).expect("a kind that exists") {
        all.push(next);
        next = subtree_end(table, next, operands).expect("a whole formula");
    }
    all
}

#[derive(Clone, Copy, Debug, PartialEq, Eq)]
pub struct Block {
    /// Nu, not mu.
    pub greatest: bool,
    /// The right side for state s is cell `first + s`.
    pub first: usize,
}

#[derive(Clone, Debug, PartialEq, Eq)]
pub enum Cell {
    And(Vec<usize>),
    Or(Vec<usize>),
    Variable { block: usize, state: usize },
}

impl Cell {
    /// The cells it is made of.
    pub fn operands(&self) -> &[usize] {
        match self {
            Cell::And(list) | Cell::Or(list) => list,
            Cell::Variable { .. } => &[],
        }
    }
}

/// The content of an equation file.
#[derive(Clone, Debug, PartialEq, Eq)]
pub struct Equations {
    pub states: usize,
    pub initial: usize,
    pub blocks: Vec<Block>,
    pub cells: Vec<Cell>,
}

impl Equations {
    /// How many operands all cells have together.
    pub fn operand_count(&self) -> usize {
        self.cells.iter().map(|cell| cell.operands().len()).sum()
    }

    /// The equation file.
    pub fn bytes(&self) -> Vec<u8> {
        let (d, c, p) = (self.blocks.len(), self.cells.len(), self.operand_count());
        let cells_at = EQUATION_HEADER + 8 * d;
        let operands_at = cells_at + 12 * c;
        let mut numbers = vec![1, self.states, d, c, p, self.initial, EQUATION_HEADER, cells_at, operands_at];
        for block in &self.blocks {
            numbers.extend([block.greatest as usize, block.first]);
        }
        let mut first = 0;
        for cell in &self.cells {
            match cell {
                Cell::And(list) => numbers.extend([0, first, list.len()]),
                Cell::Or(list) => numbers.extend([1, first, list.len()]),
                Cell::Variable { block, state } => numbers.extend([2, *block, *state]),
            }
            first += cell.operands().len();
        }
        for cell in &self.cells {
            numbers.extend(cell.operands());
        }
        numbers.iter().flat_map(|&x| (x as u32).to_le_bytes()).collect()
    }
}
