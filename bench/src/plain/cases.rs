//! Case files of both versions: their tables, conditions 1 to 10 and 15, and the labels that action formulas accept.

use super::{sets, solver};

pub const LABELS: usize = 64;
pub const TRANSITIONS: usize = 2048;
pub const ACTIONS: usize = 128;
pub const NODES: usize = 64;

/// The length of the header in version 1 and in version 2.
const HEADER: usize = 20;
const NAMED_HEADER: usize = 22;

/// The length of a label record, which has four names.
const RECORD: usize = 8;

/// The length of the largest case.
pub const LARGEST: usize = NAMED_HEADER + RECORD * LABELS + 6 * TRANSITIONS + 4 * ACTIONS + 4 * NODES;

pub struct Header {
    /// Version 2, whose labels have names.
    pub named: bool,
    pub states: usize,
    pub transitions: usize,
    pub labels: usize,
    pub initial: usize,
    pub actions: usize,
    pub nodes: usize,
    pub first: usize,
    pub second: usize,
    pub third: usize,
}

pub struct Transition {
    pub source: usize,
    pub label: usize,
    pub target: usize,
}

pub struct Node {
    pub kind: usize,
    pub arg: usize,
}

/// The 16-bit number at a place, low byte first.
pub fn number_at(part: &[u8], at: usize) -> usize {
    let bytes = &part[at..at + 2];
    u16::from_le_bytes([bytes[0], bytes[1]]).into()
}

pub fn header(case: &[u8]) -> Header {
    Header {
        named: number_at(case, 0) == 2,
        states: number_at(case, 2),
        transitions: number_at(case, 4),
        labels: number_at(case, 6),
        initial: number_at(case, 8),
        actions: number_at(case, 10),
        nodes: number_at(case, 12),
        first: number_at(case, 14),
        second: number_at(case, 16),
        third: number_at(case, 18),
    }
}

pub fn transition_at(part: &[u8], i: usize) -> Transition {
    let record = &part[6 * i..6 * i + 6];
    Transition { source: number_at(record, 0), label: number_at(record, 2), target: number_at(record, 4) }
}

pub fn node_at(part: &[u8], i: usize) -> Node {
    let record = &part[4 * i..4 * i + 4];
    Node { kind: number_at(record, 0), arg: number_at(record, 2) }
}

fn bad_count(h: &Header) -> bool {
    !(1..=sets::STATES).contains(&h.states)
        || h.transitions > TRANSITIONS
        || !(1..=LABELS).contains(&h.labels)
        || h.actions > ACTIONS
        || !(1..=NODES).contains(&h.nodes)
}

/// Where the transitions start.
fn tables_from(h: &Header) -> usize {
    if h.named {
        NAMED_HEADER + RECORD * h.labels
    } else {
        HEADER
    }
}

fn bad_offset(case: &[u8], h: &Header) -> bool {
    h.named && number_at(case, HEADER) != NAMED_HEADER
        || h.first != tables_from(h)
        || h.second != h.first + 6 * h.transitions
        || h.third != h.second + 4 * h.actions
}

/// Where the file ends.
pub fn end(h: &Header) -> usize {
    tables_from(h) + 6 * h.transitions + 4 * h.actions + 4 * h.nodes
}

fn bad_length(case: &[u8], h: &Header) -> bool {
    case.len() != end(h)
}

fn bad_model(case: &[u8], h: &Header) -> bool {
    let part = &case[h.first..];
    let holds = |t: Transition| t.source < h.states && t.label < h.labels && t.target < h.states;
    h.initial >= h.states || !(0..h.transitions).all(|i| holds(transition_at(part, i)))
}

/// The label records, of which version 1 has none.
fn label_records<'a>(case: &'a [u8], h: &Header) -> &'a [u8] {
    if h.named {
        &case[NAMED_HEADER..NAMED_HEADER + RECORD * h.labels]
    } else {
        &[]
    }
}

/// Whether each name is at most 255 and each zero is followed by zeros.
fn names_hold(record: &[u8]) -> bool {
    let names = [0, 2, 4, 6].map(|at| number_at(record, at));
    names.iter().all(|&name| name <= 255) && names.windows(2).all(|pair| pair[0] != 0 || pair[1] == 0)
}

fn bad_names(case: &[u8], h: &Header) -> bool {
    !label_records(case, h).chunks_exact(RECORD).all(names_hold)
}

fn action_arity(kind: usize) -> usize {
    match kind {
        3 => 1,
        4..=6 => 2,
        _ => 0,
    }
}

fn bad_actions(case: &[u8], h: &Header) -> bool {
    let part = &case[h.second..];
    let holds = |x: Node| match x.kind {
        2 => x.arg < h.labels,
        0..=6 => x.arg == 0,
        _ => false,
    };
    if !(0..h.actions).all(|i| holds(node_at(part, i))) {
        return true;
    }
    let mut due = 0usize;
    for i in 0..h.actions {
        due = due.saturating_sub(1) + action_arity(node_at(part, i).kind);
    }
    due != 0
}

fn formula_arity(kind: usize) -> usize {
    match kind {
        2 | 3 => 2,
        4 | 5 | 7 | 8 => 1,
        _ => 0,
    }
}

fn one_formula(part: &[u8], f: usize) -> bool {
    let mut due = 1;
    for i in 0..f {
        if due == 0 {
            return false;
        }
        due = due - 1 + formula_arity(node_at(part, i).kind);
    }
    due == 0
}

fn bad_formula(actions: usize, part: &[u8], f: usize) -> bool {
    let holds = |x: Node| match x.kind {
        4 | 5 => x.arg < actions,
        6 => true,
        0..=8 => x.arg == 0,
        _ => false,
    };
    !(0..f).all(|i| holds(node_at(part, i))) || !one_formula(part, f)
}

/// The node after the subtree of a node.
pub fn subtree_end(part: &[u8], f: usize, at: usize) -> usize {
    let mut due = 1;
    for i in at..f {
        if due == 0 {
            return i;
        }
        due = due - 1 + formula_arity(node_at(part, i).kind);
    }
    f.max(at)
}

pub fn is_binder(x: &Node) -> bool {
    x.kind == 7 || x.kind == 8
}

fn variable_bound(part: &[u8], f: usize, i: usize) -> bool {
    let x = node_at(part, i);
    if x.kind != 6 {
        return true;
    }
    let j = x.arg;
    j < i && is_binder(&node_at(part, j)) && i < subtree_end(part, f, j)
}

fn bad_variable(part: &[u8], f: usize) -> bool {
    !(0..f).all(|i| variable_bound(part, f, i))
}

/// How many of the first f nodes are binders.
pub fn binders(part: &[u8], f: usize) -> usize {
    (0..f).filter(|&i| is_binder(&node_at(part, i))).count()
}

fn too_deep(part: &[u8], f: usize) -> bool {
    let added = if is_binder(&node_at(part, 0)) { 0 } else { 1 };
    binders(part, f) + added > solver::BLOCKS
}

/// Whether a case is shorter than the header of the version that it says.
pub fn too_short(case: &[u8]) -> bool {
    case.len() < HEADER || case.len() < NAMED_HEADER && number_at(case, 0) == 2
}

/// The header of a case, or the first condition on its layout that holds: 1 to 5.
pub fn layout(case: &[u8]) -> Result<Header, u8> {
    if too_short(case) {
        return Err(1);
    }
    if !(1..=2).contains(&number_at(case, 0)) {
        return Err(2);
    }
    let h = header(case);
    if bad_count(&h) {
        return Err(3);
    }
    if bad_offset(case, &h) {
        return Err(4);
    }
    if bad_length(case, &h) {
        return Err(5);
    }
    Ok(h)
}

/// The first condition that holds of a case: 1 to 6, 15, 7 to 10.
pub fn refusal(case: &[u8]) -> Option<u8> {
    let h = match layout(case) {
        Ok(h) => h,
        Err(cause) => return Some(cause),
    };
    if bad_model(case, &h) {
        return Some(6);
    }
    if bad_names(case, &h) {
        return Some(15);
    }
    if bad_actions(case, &h) {
        return Some(7);
    }
    let part = &case[h.third..];
    if bad_formula(h.actions, part, h.nodes) {
        return Some(8);
    }
    if bad_variable(part, h.nodes) {
        return Some(9);
    }
    if too_deep(part, h.nodes) {
        return Some(10);
    }
    None
}

/// For each label a mask.
type Masks = [u64; LABELS];

/// The names of a record of an accepted case, in ascending order, as one number.
fn names_key(record: &[u8]) -> u32 {
    let mut names = [record[0], record[2], record[4], record[6]];
    for (i, j) in [(0, 1), (2, 3), (0, 2), (1, 3), (1, 2)] {
        (names[i], names[j]) = (names[i].min(names[j]), names[i].max(names[j]));
    }
    u32::from_le_bytes(names)
}

/// The labels that a label node of each label accepts: in version 1 the label itself, in version 2 those with the same names.
fn alike_labels(case: &[u8], h: &Header) -> Masks {
    if h.named {
        with_same_names(label_records(case, h))
    } else {
        std::array::from_fn(|label| 1 << label)
    }
}

/// The same in version 2, with a table of the labels whose names are found first, which has two places for each label: such a label
/// stands at the first free place from the one that its names' hash gives.
fn with_same_names(records: &[u8]) -> Masks {
    const PLACES: usize = 2 * LABELS;
    const FREE: u8 = u8::MAX;
    let mut found = [FREE; PLACES];
    let mut keys = [0u32; LABELS];
    let mut firsts = [0u8; LABELS];
    let mut masks = [0; LABELS];
    let labels = records.len() / RECORD;
    for (label, record) in records.chunks_exact(RECORD).enumerate() {
        let key = names_key(record);
        let mut place = (key.wrapping_mul(0x9e37_79b1) >> 16) as usize % PLACES;
        while found[place] != FREE && keys[found[place] as usize] != key {
            place = (place + 1) % PLACES;
        }
        if found[place] == FREE {
            found[place] = label as u8;
            keys[label] = key;
        }
        firsts[label] = found[place];
        masks[found[place] as usize] |= 1 << label;
    }
    for label in 0..labels {
        masks[label] = masks[firsts[label] as usize];
    }
    masks
}

/// The labels that the action formula at each node of an accepted case accepts, as masks. The nodes are read from the last one down, and the masks of the
/// formulas that start at node i or after it stand from `at` on.
pub fn action_masks(case: &[u8], h: &Header) -> [u64; ACTIONS] {
    let part = &case[h.second..];
    let alike = alike_labels(case, h);
    let mut all = [0u64; ACTIONS];
    let mut masks = [0u64; ACTIONS];
    let mut at = ACTIONS;
    for i in (0..h.actions).rev() {
        let node = node_at(part, i);
        let x = masks.get(at).copied().unwrap_or(0);
        let y = masks.get(at + 1).copied().unwrap_or(0);
        at = at + action_arity(node.kind) - 1;
        masks[at] = match node.kind {
            0 => 0,
            1 => !0,
            2 => alike[node.arg],
            3 => !x,
            4 => x & y,
            5 => x | y,
            _ => !x | y,
        };
        all[i] = masks[at];
    }
    all
}

/// Calls `first` for each of the m records of an accepted case that no record before it equals, in order.
pub fn first_appearances(part: &[u8], m: usize, first: impl FnMut(usize)) {
    match m {
        0..=16 => found_in::<32>(part, m, first),
        17..=128 => found_in::<256>(part, m, first),
        _ => found_in::<{ 2 * TRANSITIONS }>(part, m, first),
    }
}

/// The same with a table of the records found, which has at least two places for each of the m: a record stands, as one number, at
/// the first free place from the one that its hash gives.
fn found_in<const PLACES: usize>(part: &[u8], m: usize, mut first: impl FnMut(usize)) {
    const FREE: u32 = u32::MAX;
    let mut found = [FREE; PLACES];
    for i in 0..m {
        let t = transition_at(part, i);
        let key = ((t.source * LABELS + t.label) * sets::STATES + t.target) as u32;
        let mut place = (key.wrapping_mul(0x9e37_79b1) >> 16) as usize % PLACES;
        while found[place] != FREE && found[place] != key {
            place = (place + 1) % PLACES;
        }
        if found[place] == FREE {
            found[place] = key;
            first(i);
        }
    }
}

/// How many of the m records of an accepted case are distinct.
pub fn distinct(part: &[u8], m: usize) -> usize {
    let mut count = 0;
    first_appearances(part, m, |_| count += 1);
    count
}
