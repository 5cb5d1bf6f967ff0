//! Cases and equation files of all sizes, made by chance from a seed.

use crate::damage::{with_number, with_other_name};
use crate::formats::*;
use crate::names::{record_of, shuffled};
use crate::random::Random;
use crate::reader::{read_case, read_in_order};
use crate::rounds;

/// How large a case is.
#[derive(Clone, Copy, Debug, PartialEq, Eq)]
pub enum Size {
    /// At most three states.
    Tiny,
    /// Up to eight states and six nested binders.
    Small,
    /// Up to 24 states.
    Medium,
    /// States in two to four words, few binders.
    Wide,
    /// All tables near their limits.
    Full,
}

/// A case of any size but the largest, most often one whose formula holds in some states and not in others.
pub fn case(random: &mut Random) -> Case {
    let mut case = any_case(random);
    for _ in 0..3 {
        if read_case(&case.bytes()).is_err() || tells_apart(&case) {
            break;
        }
        case = any_case(random);
    }
    case
}

/// Does the formula hold in some states and not in others?
fn tells_apart(case: &Case) -> bool {
    rounds::direct(case, 300).is_ok_and(|(set, _)| set.contains(&true) && set.contains(&false))
}

fn any_case(random: &mut Random) -> Case {
    let size = match random.below(100) {
        0..=24 => Size::Tiny,
        25..=74 => Size::Small,
        75..=95 => Size::Medium,
        _ => Size::Wide,
    };
    case_of(random, size)
}

/// A case of a given size, as often of one version as of the other.
pub fn case_of(random: &mut Random, size: Size) -> Case {
    let version = random.pick(&VERSIONS);
    case_in(random, size, version)
}

/// A case of a given size and version.
pub fn case_in(random: &mut Random, size: Size, version: usize) -> Case {
    let states = match size {
        Size::Tiny => random.pick(&[1, 2, 2, 3, 3, 3]),
        Size::Small => random.between(2, 8),
        Size::Medium => random.between(6, 24),
        Size::Wide => random.pick(&[63, 64, 65, 127, 128, 129, 192, 193, 255, 256]),
        Size::Full => STATES,
    };
    let label_count = label_count(random, size, version);
    let action_nodes = match size {
        Size::Full => ACTION_NODES,
        _ if random.chance(1, 25) => 0,
        _ => random.between(1, 12),
    };
    let actions = actions(random, label_count, action_nodes);
    let binders = match size {
        Size::Tiny | Size::Small if random.chance(1, 40) => BLOCKS + 1,
        Size::Tiny | Size::Small => random.between(0, BLOCKS),
        Size::Medium => random.between(0, 3),
        Size::Wide | Size::Full => random.between(0, 2),
    };
    Case {
        states,
        initial: random.below(states),
        transitions: transitions(random, states, label_count, size),
        formula: formula_over(random, actions.len(), binders, size),
        actions,
        labels: match version {
            1 => Labels::Numbered(label_count),
            _ => Labels::Named(records(random, label_count)),
        },
    }
}

/// How many labels a case has: most often few; in version 2 more, for many are alike.
fn label_count(random: &mut Random, size: Size, version: usize) -> usize {
    match size {
        Size::Full => LABELS,
        _ if random.chance(1, 30) => random.pick(&[32, 63, 64]),
        _ if version == 1 => random.pick(&[1, 2, 2, 3, 4]),
        _ => random.pick(&[1, 2, 3, 4, 5, 6, 8]),
    }
}

/// Label records over few names: fresh ones and silent ones, and those before in another order or almost the same.
fn records(random: &mut Random, count: usize) -> Vec<Names> {
    let few = [0; 3].map(|_| random.pick(&[1, 1, 2, 127, 128, 254, 255]));
    let mut all: Vec<Names> = Vec::new();
    for i in 0..count {
        let before = if i > 0 { random.pick(&all) } else { [0; NAMES] };
        let record = match random.below(8) {
            0..=2 if i > 0 => shuffled(random, &before),
            3 | 4 if i > 0 => almost(random, before),
            5 => [0; NAMES],
            6 if random.chance(1, 4) => record_of(&[random.between(1, LARGEST_NAME)]),
            _ => {
                let length = random.between(1, NAMES);
                record_of(&[0; NAMES].map(|_| random.pick(&few))[..length])
            }
        };
        all.push(record);
    }
    all
}

/// A record with one name once more or less, or in the place of another, and shuffled.
fn almost(random: &mut Random, mut record: Names) -> Names {
    let length = record.iter().filter(|&&name| name != 0).count();
    match random.below(3) {
        _ if length == 0 => record[0] = 1,
        0 if length < NAMES => record[length] = record[random.below(length)],
        1 => record[length - 1] = 0,
        _ => record[length - 1] = record[0],
    }
    shuffled(random, &record)
}

/// A case of version 2 with a record that is refused, at least one, and by chance an action node that is refused too.
pub fn misnamed(random: &mut Random) -> Vec<u8> {
    let case = case_in(random, Size::Small, 2);
    let (mut bytes, labels) = (case.bytes(), &case.labels);
    while read_in_order(&bytes, &[15]).is_ok() {
        bytes = with_other_name(random, &bytes);
    }
    let actions_at = NAMED_HEADER + 8 * labels.count() + 6 * case.transitions.len();
    if !case.actions.is_empty() && random.chance(1, 3) {
        bytes = with_number(&bytes, actions_at + 4 * random.below(case.actions.len()), 2, 7);
    }
    bytes
}

/// Recorded transitions: paths, cycles or by chance, with copies and with other labels between equal ends.
fn transitions(random: &mut Random, states: usize, labels: usize, size: Size) -> Vec<Transition> {
    let mut all = Vec::new();
    let mut add = |random: &mut Random, source: usize, target: usize| {
        all.push(Transition { source, label: random.below(labels), target });
    };
    let shape = random.below(16);
    if shape <= 7 {
        let ends = if shape <= 2 { states } else { states - 1 };
        for s in 0..ends {
            add(random, s, (s + 1) % states);
        }
    }
    let more = match shape {
        0..=3 => random.below(3),
        4..=7 => random.below(states + 1),
        8..=12 => random.below(2 * states + 1),
        13 | 14 => random.below(4 * states + 1),
        _ => 0,
    };
    for _ in 0..more {
        let (source, target) = (random.below(states), random.below(states));
        add(random, source, target);
    }
    if random.chance(1, 3) {
        for i in 0..all.len() {
            if random.chance(1, 3) {
                let other = Transition { label: random.below(labels), ..all[i] };
                all.insert(random.below(all.len() + 1), other);
            }
        }
    }
    if !all.is_empty() && random.chance(1, 2) {
        for _ in 0..random.between(1, 4) {
            let copy = random.pick(&all);
            all.insert(random.below(all.len() + 1), copy);
        }
    }
    if size == Size::Full {
        fill(random, states, labels, &mut all);
    }
    all.truncate(TRANSITIONS);
    all
}

/// Fills a table to the limit. In half of the tables most records are copies.
fn fill(random: &mut Random, states: usize, labels: usize, all: &mut Vec<Transition>) {
    let copied = random.chance(1, 2);
    while all.len() < TRANSITIONS {
        let (source, label, target) = (random.below(states), random.below(labels), random.below(states));
        all.push(Transition { source, label, target });
        if copied {
            all.extend((0..random.below(4)).map(|_| random.pick(all)).collect::<Vec<_>>());
        }
    }
}

/// A table of so many action nodes, as whole formulas.
fn actions(random: &mut Random, labels: usize, count: usize) -> Vec<Node> {
    let mut table = Vec::new();
    while table.len() < count {
        let most = if random.chance(1, 4) { 9 } else { 3 };
        let size = random.between(1, (count - table.len()).min(most));
        add_action(random, labels, size, &mut table);
    }
    table
}

/// One action formula with so many nodes.
fn add_action(random: &mut Random, labels: usize, size: usize, table: &mut Vec<Node>) {
    match size {
        1 if random.chance(1, 4) => table.push(node(random.pick(&[action::FALSE, action::TRUE]), 0)),
        1 => table.push(node(action::LABEL, random.below(labels))),
        2 => {
            table.push(node(action::NOT, 0));
            add_action(random, labels, 1, table);
        }
        _ if random.chance(1, 5) => {
            table.push(node(action::NOT, 0));
            add_action(random, labels, size - 1, table);
        }
        _ => {
            table.push(node(random.pick(&[action::AND, action::OR, action::IMPLIES]), 0));
            let left = random.between(1, size - 2);
            add_action(random, labels, left, table);
            add_action(random, labels, size - 1 - left, table);
        }
    }
}

/// A formula with about so many binders: one in another, side by side, or by chance.
fn formula_over(random: &mut Random, actions: usize, binders: usize, size: Size) -> Vec<Node> {
    loop {
        let mut tree = Tree { random, actions, table: Vec::new(), scope: Vec::new(), binders };
        match tree.random.below(5) {
            _ if size == Size::Full => tree.grow(FORMULA_NODES),
            0 | 1 => tree.nested(binders),
            2 => tree.beside(binders),
            3 if binders > 1 => {
                tree.open();
                tree.beside(binders - 1);
                tree.scope.pop();
            }
            _ => {
                let nodes = tree.random.between(1, 24);
                tree.grow(nodes);
            }
        }
        if tree.table.len() <= FORMULA_NODES {
            return tree.table;
        }
    }
}

/// A formula table under construction.
struct Tree<'a> {
    random: &'a mut Random,
    actions: usize,
    table: Vec<Node>,
    /// The binders around the place where the next node goes.
    scope: Vec<usize>,
    /// How many binders `grow` may still add.
    binders: usize,
}

impl Tree<'_> {
    fn push(&mut self, kind: usize, argument: usize) {
        self.table.push(node(kind, argument));
    }

    /// Adds a binder, most often of the other sign than the one around it.
    fn open(&mut self) {
        let kind = match self.scope.last().map(|&i| self.table[i].kind) {
            Some(formula::MU) if self.random.chance(3, 4) => formula::NU,
            Some(formula::NU) if self.random.chance(3, 4) => formula::MU,
            _ => self.random.pick(&[formula::MU, formula::NU]),
        };
        self.scope.push(self.table.len());
        self.push(kind, 0);
    }

    fn constant(&mut self) {
        let kind = self.random.pick(&[formula::FALSE, formula::TRUE]);
        self.push(kind, 0);
    }

    fn modal(&mut self) {
        let kind = self.random.pick(&[formula::BOX, formula::DIAMOND]);
        let argument = self.random.below(self.actions);
        self.push(kind, argument);
    }

    fn variable_or_constant(&mut self) {
        if self.scope.is_empty() || self.random.chance(1, 8) {
            self.constant();
        } else {
            let binder = self.random.pick(&self.scope);
            self.push(formula::VARIABLE, binder);
        }
    }

    /// What tells states apart: where an action can or cannot happen.
    fn test(&mut self) {
        let (kind, constant) = self.random.pick(&[(formula::BOX, formula::FALSE), (formula::DIAMOND, formula::TRUE)]);
        let argument = self.random.below(self.actions);
        self.push(kind, argument);
        self.push(constant, 0);
    }

    /// Ands and ors over leaves: most are a box or diamond over a variable, or a test.
    fn body(&mut self, leaves: usize) {
        if leaves > 1 {
            let kind = self.random.pick(&[formula::AND, formula::OR]);
            self.push(kind, 0);
            let left = self.random.between(1, leaves - 1);
            self.body(left);
            self.body(leaves - left);
        } else if self.actions > 0 && self.random.chance(if self.scope.is_empty() { 9 } else { 5 }, 10) {
            self.test();
        } else {
            if self.actions > 0 && self.random.chance(5, 6) {
                self.modal();
            }
            self.variable_or_constant();
        }
    }

    /// Binders one in another over a body that may use each of them or none.
    fn nested(&mut self, binders: usize) {
        for _ in 0..binders {
            if self.actions > 0 && self.random.chance(1, 4) {
                self.modal();
            }
            self.open();
            if self.actions > 0 && self.random.chance(1, 3) {
                let kind = self.random.pick(&[formula::AND, formula::OR]);
                self.push(kind, 0);
                self.test();
            }
        }
        let leaves = self.random.between(1, 2 * binders + 2);
        self.body(leaves);
        self.scope.truncate(self.scope.len() - binders);
    }

    /// So many binders in groups that stand side by side.
    fn beside(&mut self, binders: usize) {
        if binders <= 1 {
            return self.nested(binders);
        }
        let kind = self.random.pick(&[formula::AND, formula::OR]);
        self.push(kind, 0);
        let left = self.random.between(1, binders - 1);
        let left_nested = self.random.chance(1, 2);
        if left_nested {
            self.nested(left);
        } else {
            self.beside(left);
        }
        self.beside(binders - left);
    }

    /// Any formula with so many nodes.
    fn grow(&mut self, nodes: usize) {
        let modal = self.actions > 0;
        match self.random.below(4) {
            _ if nodes == 1 => self.variable_or_constant(),
            _ if nodes == 2 && modal && self.random.chance(1, 2) => self.test(),
            0 | 1 if nodes >= 3 => {
                let kind = self.random.pick(&[formula::AND, formula::OR]);
                self.push(kind, 0);
                let left = self.random.between(1, nodes - 2);
                self.grow(left);
                self.grow(nodes - 1 - left);
            }
            2 if self.binders > 0 => {
                self.binders -= 1;
                self.open();
                self.grow(nodes - 1);
                self.scope.pop();
            }
            _ if modal => {
                self.modal();
                self.grow(nodes - 1);
            }
            _ => {
                let kind = self.random.pick(&[formula::AND, formula::OR]);
                self.push(kind, 0);
                self.constant();
                self.grow((nodes - 1).saturating_sub(1).max(1));
            }
        }
    }
}

/// A well-formed equation file, mostly one that no case gives: blocks overlap, descend and share cells. Most often block 0
/// has some states and not others.
pub fn equations(random: &mut Random) -> Equations {
    let mut equations = any_equations(random);
    for _ in 0..3 {
        let mixed = |set: &Vec<bool>| set.contains(&true) && set.contains(&false);
        if rounds::equations(&equations, 300).is_ok_and(|solved| mixed(&solved.sets[0])) {
            break;
        }
        equations = any_equations(random);
    }
    equations
}

fn any_equations(random: &mut Random) -> Equations {
    let wide = random.chance(1, 40);
    let states = if wide { random.pick(&[63, 64, 65, 127, 129, 192, 255, 256]) } else { random.between(1, 6) };
    let blocks = random.between(1, if states > 4 { 4 } else { BLOCKS });
    let cells = states + random.below(if wide { 300 } else { 40 });
    let variables_from = random.below(cells + 1);
    equations_with(random, states, blocks, cells, variables_from, 4)
}

/// An equation file of given counts. Cells from `variables_from` on are most often variables.
pub fn equations_with(
    random: &mut Random,
    states: usize,
    blocks: usize,
    cells: usize,
    variables_from: usize,
    most_operands: usize,
) -> Equations {
    let low = random.below(cells - states + 1);
    let blocks = (0..blocks)
        .map(|_| {
            let first = if random.chance(1, 2) { random.below(low + 1) } else { random.below(cells - states + 1) };
            Block { greatest: random.chance(1, 2), first }
        })
        .collect::<Vec<_>>();
    let all = (0..cells)
        .map(|i| {
            if random.chance(if i >= variables_from { 7 } else { 1 }, 8) {
                return Cell::Variable { block: random.below(blocks.len()), state: random.below(states) };
            }
            let count = if i + 1 < cells { random.below(most_operands + 1) } else { 0 };
            let list = (0..count).map(|_| random.between(i + 1, cells - 1)).collect();
            if random.chance(1, 2) {
                Cell::And(list)
            } else {
                Cell::Or(list)
            }
        })
        .collect();
    Equations { states, initial: random.below(states), blocks, cells: all }
}
