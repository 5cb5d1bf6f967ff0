//! The cases that are timed: three of a catalogue's size, the largest of version 1, a deep alternation, two of version 2, one with many
//! marked states and little else, one in which the states are reached one by one, and one in which most are not.

/// An action formula.
enum Action {
    True,
    Label(u16),
    Not(Box<Action>),
    Or(Box<Action>, Box<Action>),
}

/// A formula; a variable names its binder.
enum Formula {
    False,
    True,
    And(Box<Formula>, Box<Formula>),
    Or(Box<Formula>, Box<Formula>),
    Box(Action, Box<Formula>),
    Diamond(Action, Box<Formula>),
    Variable(&'static str),
    Mu(&'static str, Box<Formula>),
    Nu(&'static str, Box<Formula>),
}

use Formula::{False, True, Variable};

fn label(x: u16) -> Action {
    Action::Label(x)
}

fn not(a: Action) -> Action {
    Action::Not(a.into())
}

fn either(a: Action, b: Action) -> Action {
    Action::Or(a.into(), b.into())
}

fn and(a: Formula, b: Formula) -> Formula {
    Formula::And(a.into(), b.into())
}

fn or(a: Formula, b: Formula) -> Formula {
    Formula::Or(a.into(), b.into())
}

fn all(a: Action, f: Formula) -> Formula {
    Formula::Box(a, f.into())
}

fn some(a: Action, f: Formula) -> Formula {
    Formula::Diamond(a, f.into())
}

fn mu(x: &'static str, f: Formula) -> Formula {
    Formula::Mu(x, f.into())
}

fn nu(x: &'static str, f: Formula) -> Formula {
    Formula::Nu(x, f.into())
}

/// The node tables of a formula, in prefix order.
#[derive(Default)]
struct Tables {
    actions: Vec<(u16, u16)>,
    formula: Vec<(u16, u16)>,
}

impl Tables {
    fn action(&mut self, a: &Action) {
        match a {
            Action::True => self.actions.push((1, 0)),
            Action::Label(x) => self.actions.push((2, *x)),
            Action::Not(a) => {
                self.actions.push((3, 0));
                self.action(a);
            }
            Action::Or(a, b) => {
                self.actions.push((5, 0));
                self.action(a);
                self.action(b);
            }
        }
    }

    fn modal(&mut self, kind: u16, a: &Action, f: &Formula, bound: &mut Vec<(&'static str, u16)>) {
        self.formula.push((kind, self.actions.len() as u16));
        self.action(a);
        self.formula(f, bound);
    }

    fn binder(&mut self, kind: u16, x: &'static str, f: &Formula, bound: &mut Vec<(&'static str, u16)>) {
        bound.push((x, self.formula.len() as u16));
        self.formula.push((kind, 0));
        self.formula(f, bound);
        bound.pop();
    }

    fn formula(&mut self, f: &Formula, bound: &mut Vec<(&'static str, u16)>) {
        match f {
            False => self.formula.push((0, 0)),
            True => self.formula.push((1, 0)),
            Formula::And(a, b) => {
                self.formula.push((2, 0));
                self.formula(a, bound);
                self.formula(b, bound);
            }
            Formula::Or(a, b) => {
                self.formula.push((3, 0));
                self.formula(a, bound);
                self.formula(b, bound);
            }
            Formula::Box(a, f) => self.modal(4, a, f, bound),
            Formula::Diamond(a, f) => self.modal(5, a, f, bound),
            Variable(x) => {
                let (_, binder) = bound.iter().rev().find(|(y, _)| x == y).expect("a bound variable");
                self.formula.push((6, *binder));
            }
            Formula::Mu(x, f) => self.binder(7, x, f, bound),
            Formula::Nu(x, f) => self.binder(8, x, f, bound),
        }
    }
}

/// Source, label and target.
type Transition = (u16, u16, u16);

/// The names of a label, padded with zeros.
type Names = [u16; 4];

/// The bytes of a case of version 1 that starts in state 0.
fn case(states: u16, labels: u16, transitions: &[Transition], formula: &Formula) -> Vec<u8> {
    written(1, states, labels, &[], transitions, formula)
}

/// The bytes of a case of version 2 that starts in state 0, with the names of each label.
fn named_case(states: u16, names: &[Names], transitions: &[Transition], formula: &Formula) -> Vec<u8> {
    written(2, states, names.len() as u16, &[&[22], names.as_flattened()].concat(), transitions, formula)
}

/// The same for both versions, given the numbers between the ten of the header and the transitions.
fn written(
    version: u16,
    states: u16,
    labels: u16,
    between: &[u16],
    transitions: &[Transition],
    formula: &Formula,
) -> Vec<u8> {
    let mut tables = Tables::default();
    tables.formula(formula, &mut Vec::new());
    let m = transitions.len() as u16;
    let a = tables.actions.len() as u16;
    let f = tables.formula.len() as u16;
    let first = 20 + 2 * between.len() as u16;
    let mut numbers = vec![version, states, m, labels, 0, a, f, first, first + 6 * m, first + 6 * m + 4 * a];
    numbers.extend(between);
    numbers.extend(transitions.iter().flat_map(|&(s, x, t)| [s, x, t]));
    numbers.extend(tables.actions.iter().chain(&tables.formula).flat_map(|&(kind, arg)| [kind, arg]));
    numbers.into_iter().flat_map(u16::to_le_bytes).collect()
}

/// A generator of numbers (xorshift), always from the same seed.
struct Random(u64);

impl Random {
    fn below(&mut self, bound: u16) -> u16 {
        self.0 ^= self.0 << 13;
        self.0 ^= self.0 >> 7;
        self.0 ^= self.0 << 17;
        ((self.0 >> 32) % u64::from(bound)) as u16
    }
}

/// A dialog that must close. Labels: 0 open, 1 type, 2 click, 3 confirm, 4 cancel, 5 close, 6 error.
/// Whatever happens, after each open the close event comes.
fn dialog() -> Vec<u8> {
    let transitions = [
        (0, 0, 1),
        (1, 1, 2),
        (1, 2, 3),
        (2, 2, 3),
        (1, 4, 6),
        (2, 4, 6),
        (3, 3, 4),
        (3, 4, 6),
        (4, 6, 5),
        (4, 5, 7),
        (5, 5, 7),
        (6, 5, 7),
        (7, 0, 1),
    ];
    let closes = mu("close", and(some(Action::True, True), all(not(label(5)), Variable("close"))));
    let formula = nu("always", and(all(Action::True, Variable("always")), all(label(0), closes)));
    case(8, 7, &transitions, &formula)
}

/// A menu with a submenu in each of four columns: state 4 * column + depth. Labels: 0 next, 1 down, 2 up, 3 choose, 4 leave.
/// Always, some way leads to a choice, and a step down or up leads to where a leave is closed or the same holds again.
fn menu() -> Vec<u8> {
    let mut transitions = Vec::new();
    for column in 0..4 {
        for depth in 0..4 {
            let state = 4 * column + depth;
            if depth < 3 {
                transitions.push((state, 1, state + 1));
            } else {
                transitions.push((state, 3, 4 * column));
            }
            if depth > 0 {
                transitions.push((state, 2, state - 1));
            } else {
                transitions.push((state, 0, 4 * ((column + 1) % 4)));
                transitions.push((state, 4, state));
            }
        }
    }
    let reaches = mu("reach", or(some(label(3), True), some(not(label(4)), Variable("reach"))));
    let held = nu(
        "held",
        and(
            all(label(4), Variable("held")),
            all(either(label(1), label(2)), or(all(label(4), False), Variable("held"))),
        ),
    );
    let formula = nu("always", and(all(Action::True, Variable("always")), and(reaches, held)));
    case(16, 5, &transitions, &formula)
}

/// A form in eight steps, whose requests may fail once: 32 states. Labels: 0 edit, 1 send, 2 fail, 3 answer, 4 wait.
/// On every run without end that does not edit or wait for ever, answers come again and again.
fn form() -> Vec<u8> {
    let mut transitions = Vec::new();
    for step in 0..8 {
        let state = 4 * step;
        let next = 4 * ((step + 1) % 8);
        transitions.extend([
            (state, 0, state + 1),
            (state + 1, 0, state + 1),
            (state + 1, 1, state + 2),
            (state + 2, 4, state + 2),
            (state + 2, 2, state + 3),
            (state + 2, 3, next),
            (state + 3, 4, state + 3),
            (state + 3, 3, next),
        ]);
    }
    let body = and(
        all(label(3), Variable("again")),
        and(
            all(either(label(4), label(0)), Variable("waits")),
            all(not(either(label(3), either(label(4), label(0)))), Variable("soon")),
        ),
    );
    case(32, 5, &transitions, &nu("again", mu("soon", nu("waits", body))))
}

/// The largest case: 256 states, 2,048 transitions, 64 labels, 64 nodes.
fn largest() -> Vec<u8> {
    let mut random = Random(0x36fb_efaa_6fb1_25e3);
    let mut transitions = Vec::new();
    for i in 0..2048 {
        let source = if i < 256 { i } else { random.below(256) };
        let target = if i < 256 { (i + 1) % 256 } else { (source + random.below(16)) % 256 };
        transitions.push((source, random.below(64), target));
    }
    let mut body = or(some(label(7), Variable("outer")), some(not(label(9)), Variable("inner")));
    for _ in 0..8 {
        let (x, y, z) = (random.below(64), random.below(64), random.below(64));
        let on = or(some(either(label(x), label(y)), Variable("outer")), all(not(label(y)), Variable("inner")));
        body = if random.below(2) == 0 { or(all(label(z), body), on) } else { and(some(not(label(z)), body), on) };
    }
    case(256, 64, &transitions, &nu("outer", mu("inner", all(not(label(11)), body))))
}

/// Six alternating binders, each with a chain of its own: in chain i the body steps along label i to variable i, so that each binder takes
/// eight rounds, each time it starts anew. Label 6 marks the ends of the mu chains; the end of a nu chain fails.
fn deep() -> Vec<u8> {
    const CHAIN: u16 = 7;
    let names = ["a", "b", "c", "d", "e", "f"];
    let mut transitions = Vec::new();
    let mut body = some(label(6), True);
    for (i, name) in (0..).zip(names) {
        let end = CHAIN * i;
        transitions.extend((end + 1..end + CHAIN).map(|s| (s, i, s - 1)));
        if i % 2 == 1 {
            transitions.push((end, 6, end));
        }
        body = or(body, some(label(i), Variable(name)));
    }
    let mut formula = and(all(label(7), False), body);
    for (i, name) in names.into_iter().enumerate().rev() {
        formula = if i % 2 == 1 { mu(name, formula) } else { nu(name, formula) };
    }
    case(6 * CHAIN, 8, &transitions, &formula)
}

/// The labels of the dialog with fields: 0 opens it; 1 and 2 move the focus, and 3 and 4 do so with a click; 5 and 6 edit a field; 7 and 8 close
/// the dialog; 9 is silent; 10 and 11 have one focus and two at once.
fn together_names() -> [Names; 12] {
    const FOCUS: u16 = 1;
    const BLUR: u16 = 2;
    const OPEN: u16 = 3;
    const CLOSE: u16 = 4;
    const KEY: u16 = 5;
    const CLICK: u16 = 6;
    const CHANGE: u16 = 7;
    [
        [OPEN, FOCUS, 0, 0],
        [BLUR, FOCUS, 0, 0],
        [FOCUS, BLUR, 0, 0],
        [CLICK, BLUR, FOCUS, 0],
        [BLUR, FOCUS, CLICK, 0],
        [KEY, CHANGE, 0, 0],
        [CHANGE, KEY, 0, 0],
        [CLICK, CLOSE, BLUR, 0],
        [CLOSE, BLUR, CLICK, 0],
        [0, 0, 0, 0],
        [FOCUS, 0, 0, 0],
        [FOCUS, FOCUS, 0, 0],
    ]
}

/// A dialog with four fields, where focus and blur fire together, recorded in either order. States: 0 closed, 1 to 4 a field has the focus,
/// 5 to 8 the same after an edit, 9 the button, 10 closing, 11 faded out. Always, once the focus has moved, some way without a silent step
/// leads to a close, and after an edit no focus comes twice at once until the focus moves.
fn together() -> Vec<u8> {
    let mut transitions = vec![(0, 0, 1), (9, 7, 10), (9, 8, 10), (9, 1, 1), (10, 9, 11), (11, 9, 0), (11, 10, 11)];
    for field in 1..=4 {
        let (edited, next) = (field + 4, field % 4 + 1);
        transitions.extend([
            (field, 1 + field % 2, next),
            (edited, 2 - field % 2, next),
            (field, 5 + field % 2, edited),
            (edited, 6 - field % 2, edited),
            (edited, 3 + field % 2, 9),
        ]);
    }
    let closes = mu("close", or(some(label(7), True), some(not(label(9)), Variable("close"))));
    let moves = either(label(1), label(3));
    let settled = nu("settled", and(all(label(11), False), all(not(moves), Variable("settled"))));
    let after = and(all(label(2), closes), all(label(6), settled));
    let formula = nu("always", and(all(Action::True, Variable("always")), after));
    named_case(12, &together_names(), &transitions, &formula)
}

/// A board of 8 times 8 places with 64 labels: 16 steps, each under four labels with the same four names in different orders. A step to the
/// right is recorded in two orders and numbered by its column; the one from the last column back to the first is from 12 on, in row 3 it is 7.
/// A step down is 8 to 11, and in five rows of the first column there is one more from 12 on. On every run without end of steps below 8 and from 12
/// on, those from 12 on come again and again: not in row 3, nor in the two rows from which it is reached.
fn crowded() -> Vec<u8> {
    let names: Vec<Names> = (0..64)
        .map(|i| {
            let mut names = [1 + i / 16, 10 + i / 4 % 4, 10 + i / 4 % 4, 20];
            names.rotate_left(usize::from(i % 4));
            names
        })
        .collect();
    let mut transitions = Vec::new();
    for place in 0..64 {
        let (row, column) = (place / 8, place % 8);
        let (right, below) = (8 * row + (column + 1) % 8, (place + 8) % 64);
        let step = if column < 7 || row == 3 { column } else { 12 + row % 4 };
        let order = row % 4;
        transitions.extend([(place, 4 * step + order, right), (place, 4 * step + 3 - order, right)]);
        transitions.push((place, 4 * (8 + column % 4) + order, below));
        if column == 0 && [1, 2, 4, 5, 6].contains(&row) {
            transitions.push((place, 4 * 12 + order, below));
        }
    }
    let any = |steps: [u16; 4]| steps.map(|step| label(4 * step + 3)).into_iter().reduce(either).expect("four steps");
    let early = either(any([0, 1, 2, 3]), any([4, 5, 6, 7]));
    let late = any([12, 13, 14, 15]);
    let body = and(all(late, Variable("again")), all(early, Variable("ends")));
    named_case(64, &names, &transitions, &nu("again", mu("ends", body)))
}

/// 256 states without a step, all of them marked: of these inputs the one where counting them weighs most.
fn marked() -> Vec<u8> {
    case(256, 1, &[], &True)
}

/// 256 states, all of them marked and all reached, along a chain that is recorded from its end to its start; from each state seven loops, and
/// those first: a pass over the records finds one state more.
fn backwards() -> Vec<u8> {
    let loops = (0..256).flat_map(|s| (1..8).map(move |x| (s, x, s)));
    let chain = (0..255).rev().map(|s| (s, 0, s + 1));
    let transitions: Vec<Transition> = loops.chain(chain).collect();
    case(256, 8, &transitions, &True)
}

/// What a recorder left behind: of 256 states 32 are reached, and the others lead to any. From each state eight transitions. Some way leads to
/// a step under label 7, from all states.
fn left() -> Vec<u8> {
    let mut random = Random(0x9e1d_35c2_7b04_f86b);
    let mut transitions = Vec::new();
    for i in 0..2048 {
        let source = i % 256;
        let among = if source < 32 { 32 } else { 256 };
        let target = if i < 256 { (source + 1) % among } else { random.below(among) };
        transitions.push((source, random.below(8), target));
    }
    case(256, 8, &transitions, &mu("reach", or(some(label(7), True), some(Action::True, Variable("reach")))))
}

/// The largest case of version 2: 256 states, 2,048 different transitions, 64 labels, two of them alike each, 128 action nodes and 64 formula
/// nodes. Eight transitions leave each state, the first record is (0, 0, 1), the last one (255, 0, 7), and none from state 0 has label 63.
pub fn largest_named() -> Vec<u8> {
    let names: Vec<Names> =
        (0..64).map(|i| if i % 2 == 0 { [1 + i / 2, 100, 0, 0] } else { [100, 1 + i / 2, 0, 0] }).collect();
    let transitions: Vec<Transition> =
        (0..2048).map(|i| (i % 256, (7 * i + i / 256) % 64, (i + i / 256 + 1) % 256)).collect();
    let any = |i: u16| either(label(i), either(label(i + 20), label(i + 40)));
    let steps = (0..20).map(|i| all(if i < 2 { any(i) } else { not(any(i)) }, Variable("all")));
    let every = steps.reduce(and).expect("20 boxes");
    let two = some(any(20), some(any(21), True));
    named_case(256, &names, &transitions, &mu("all", or(two, every)))
}

pub struct Input {
    pub name: &'static str,
    pub case: Vec<u8>,
}

pub fn inputs() -> Vec<Input> {
    vec![
        Input { name: "dialog", case: dialog() },
        Input { name: "menu", case: menu() },
        Input { name: "form", case: form() },
        Input { name: "largest", case: largest() },
        Input { name: "deep", case: deep() },
        Input { name: "together", case: together() },
        Input { name: "crowded", case: crowded() },
        Input { name: "marked", case: marked() },
        Input { name: "backwards", case: backwards() },
        Input { name: "left", case: left() },
    ]
}
