//! Reads both file formats. A file that is not accepted gives the number of the first condition that holds.

use crate::formats::*;

/// The number of a refusal.
pub type Refusal = u64;

/// The refusal if its condition holds.
pub fn refuse_if(holds: bool, number: Refusal) -> Result<(), Refusal> {
    if holds {
        Err(number)
    } else {
        Ok(())
    }
}

/// The conditions on a case, in the order in which they are looked at. Their numbers are no order.
pub const CASE_CONDITIONS: [Refusal; 11] = [1, 2, 3, 4, 5, 6, 15, 7, 8, 9, 10];

/// A case file of either version, by all conditions in order.
pub fn read_case(bytes: &[u8]) -> Result<Case, Refusal> {
    read_in_order(bytes, &CASE_CONDITIONS[5..])
}

/// A case file by conditions 1 to 5 and then by those on what its tables hold, in a given order.
pub fn read_in_order(bytes: &[u8], order: &[Refusal]) -> Result<Case, Refusal> {
    let case = read_tables(bytes)?;
    match order.iter().find(|&&number| holds(&case, number)) {
        Some(&number) => Err(number),
        None => Ok(case),
    }
}

/// The tables of a case, whatever they hold, or the first of conditions 1 to 5.
pub fn read_tables(bytes: &[u8]) -> Result<Case, Refusal> {
    let number = |at: usize| bytes[at] as usize + 256 * bytes[at + 1] as usize;

    refuse_if(bytes.len() < CASE_HEADER, 1)?;
    let header: Vec<usize> = (0..10).map(|i| number(2 * i)).collect();
    let [version, n, m, l, initial, a, f, transitions_at, actions_at, formula_at] = header[..] else { unreachable!() };
    refuse_if(version == 2 && bytes.len() < NAMED_HEADER, 1)?;

    refuse_if(version != 1 && version != 2, 2)?;
    let in_range = (1..=STATES).contains(&n)
        && m <= TRANSITIONS
        && (1..=LABELS).contains(&l)
        && a <= ACTION_NODES
        && (1..=FORMULA_NODES).contains(&f);
    refuse_if(!in_range, 3)?;
    let labels_end = if version == 2 { NAMED_HEADER + 8 * l } else { CASE_HEADER };
    refuse_if(version == 2 && number(20) != NAMED_HEADER, 4)?;
    refuse_if(transitions_at != labels_end, 4)?;
    refuse_if(actions_at != labels_end + 6 * m || formula_at != labels_end + 6 * m + 4 * a, 4)?;
    refuse_if(bytes.len() != labels_end + 6 * m + 4 * a + 4 * f, 5)?;

    let names = |at: usize| [0, 2, 4, 6].map(|part| number(at + part));
    let records = || (0..l).map(|i| names(NAMED_HEADER + 8 * i)).collect();
    let labels = if version == 2 { Labels::Named(records()) } else { Labels::Numbered(l) };
    let transition = |at: usize| Transition { source: number(at), label: number(at + 2), target: number(at + 4) };
    let transitions = (0..m).map(|i| transition(transitions_at + 6 * i)).collect();
    let nodes = |at: usize, count: usize| -> Vec<Node> {
        (0..count).map(|i| node(number(at + 4 * i), number(at + 4 * i + 2))).collect()
    };
    let (actions, formula) = (nodes(actions_at, a), nodes(formula_at, f));
    Ok(Case { states: n, labels, initial, transitions, actions, formula })
}

/// Does a condition on what the tables hold, by its number, turn a case away?
fn holds(case: &Case, number: Refusal) -> bool {
    match number {
        6 => !model_right(case),
        15 => !case.labels.records().iter().all(names_right),
        7 => !actions_right(case),
        8 => !formula_right(case),
        9 => !variables_right(case),
        10 => case.binders().len() + !case.root_binds() as usize > BLOCKS,
        _ => unreachable!("no condition on tables: {number}"),
    }
}

/// The initial state and all sources, labels and targets are in range.
fn model_right(case: &Case) -> bool {
    let (n, l) = (case.states, case.labels.count());
    case.initial < n && case.transitions.iter().all(|t| t.source < n && t.label < l && t.target < n)
}

/// Names of 1 to 255, then zeros only.
fn names_right(record: &Names) -> bool {
    let end = record.iter().position(|&name| name == 0).unwrap_or(NAMES);
    record[..end].iter().all(|&name| name <= LARGEST_NAME) && record[end..].iter().all(|&name| name == 0)
}

/// The action table is zero or more whole formulas, with the right kinds and arguments.
fn actions_right(case: &Case) -> bool {
    let right = case.actions.iter().all(|x| match x.kind {
        action::LABEL => x.argument < case.labels.count(),
        kind => action::operands(kind).is_some() && x.argument == 0,
    });
    let mut at = 0;
    while right && at < case.actions.len() {
        match subtree_end(&case.actions, at, action::operands) {
            Some(end) => at = end,
            None => return false,
        }
    }
    right
}

/// The formula table is one whole formula, with the right kinds and arguments; a variable's argument is not looked at.
fn formula_right(case: &Case) -> bool {
    let right = case.formula.iter().all(|x| match x.kind {
        formula::BOX | formula::DIAMOND => x.argument < case.actions.len(),
        formula::VARIABLE => true,
        kind => formula::operands(kind).is_some() && x.argument == 0,
    });
    right && subtree_end(&case.formula, 0, formula::operands) == Some(case.formula.len())
}

/// Each variable stands in the subtree of the binder it names.
fn variables_right(case: &Case) -> bool {
    (0..case.formula.len()).filter(|&i| case.formula[i].kind == formula::VARIABLE).all(|i| {
        let binder = case.formula[i].argument;
        binder < i
            && formula::is_binder(case.formula[binder].kind)
            && subtree_end(&case.formula, binder, formula::operands).is_some_and(|end| i < end)
    })
}

/// Conditions 11 and 12 in order.
pub fn read_equations(bytes: &[u8]) -> Result<Equations, Refusal> {
    let number = |at: usize| u32::from_le_bytes(bytes[at..at + 4].try_into().unwrap()) as usize;

    refuse_if(bytes.len() < EQUATION_HEADER, 11)?;
    let header: Vec<usize> = (0..9).map(|i| number(4 * i)).collect();
    let [version, n, d, c, p, initial, blocks_at, cells_at, operands_at] = header[..] else { unreachable!() };
    refuse_if(version != 1, 11)?;
    let in_range = (1..=STATES).contains(&n) && (1..=BLOCKS).contains(&d) && (1..=CELLS).contains(&c) && p <= OPERANDS;
    refuse_if(!in_range || initial >= n, 11)?;
    refuse_if(blocks_at != EQUATION_HEADER || cells_at != blocks_at + 8 * d || operands_at != cells_at + 12 * c, 11)?;
    refuse_if(bytes.len() != operands_at + 4 * p, 11)?;

    let mut blocks = Vec::new();
    for at in (0..d).map(|k| blocks_at + 8 * k) {
        let (sign, first) = (number(at), number(at + 4));
        refuse_if(sign > 1 || first + n > c, 12)?;
        blocks.push(Block { greatest: sign == 1, first });
    }
    let mut cells = Vec::new();
    let mut used = 0;
    for i in 0..c {
        let at = cells_at + 12 * i;
        let (kind, second, third) = (number(at), number(at + 4), number(at + 8));
        match kind {
            0 | 1 => {
                refuse_if(second != used || used + third > p, 12)?;
                let list: Vec<usize> = (used..used + third).map(|j| number(operands_at + 4 * j)).collect();
                refuse_if(list.iter().any(|&operand| operand <= i || operand >= c), 12)?;
                used += third;
                cells.push(if kind == 0 { Cell::And(list) } else { Cell::Or(list) });
            }
            2 => {
                refuse_if(second >= d || third >= n, 12)?;
                cells.push(Cell::Variable { block: second, state: third });
            }
            _ => return Err(12),
        }
    }
    refuse_if(used != p, 12)?;
    Ok(Equations { states: n, initial, blocks, cells })
}
