//! For each rule of conditions 1 to 10 and 15 a case that breaks it, in each version that has it, and cases that break
//! two.

use crate::damage::with_number;
use crate::formats::*;
use crate::order;
use crate::rules::{broken, edit, pairs, single, Broken, Edit};
use crate::text::{case, named};
use crate::worked::sixty_four_labels;

/// A case of a version with every kind of table entry that the edits change. In version 2 the last two labels are
/// unused.
pub fn right_case(version: usize) -> Case {
    let transitions = [(0, 0, 1), (1, 1, 2), (0, 0, 1)];
    let with_labels = |labels: usize| {
        case(3, labels, &transitions, "not label 0 and true label 1", "mu X or dia 1 X nu Y and box 0 Y X")
    };
    match version {
        1 => with_labels(2),
        _ => named(with_labels(4), &[&[7, 9, 7, 255], &[9], &[], &[5, 6]]),
    }
}

/// The places of a node's numbers.
const KIND: usize = 0;
const ARGUMENT: usize = 1;

/// Where the numbers of the right case of a version stand.
struct Places {
    version: usize,
    labels: usize,
    transitions_at: usize,
}

impl Places {
    fn new(version: usize) -> Places {
        let labels = right_case(version).labels.count();
        let transitions_at = if version == 1 { CASE_HEADER } else { NAMED_HEADER + 8 * labels };
        Places { version, labels, transitions_at }
    }

    fn header(&self, i: usize) -> usize {
        2 * i
    }

    fn name(&self, label: usize, i: usize) -> usize {
        NAMED_HEADER + 8 * label + 2 * i
    }

    fn transition(&self, i: usize, part: usize) -> usize {
        self.transitions_at + 6 * i + 2 * part
    }

    fn action(&self, i: usize, part: usize) -> usize {
        self.transitions_at + 18 + 4 * i + 2 * part
    }

    fn formula(&self, i: usize, part: usize) -> usize {
        self.transitions_at + 38 + 4 * i + 2 * part
    }
}

fn case_edits(version: usize) -> Vec<Edit> {
    let places = Places::new(version);
    let mut all = count_edits(&places);
    all.extend(layout_edits(&places));
    all.extend(model_edits(&places));
    if version == 2 {
        all.extend(name_edits(&places));
    }
    all.extend(action_edits(&places));
    all.extend(formula_edits(&places));
    all
}

/// Version and counts outside their ranges.
fn count_edits(places: &Places) -> Vec<Edit> {
    let header = |i: usize| places.header(i);
    vec![
        edit("version 0", 2, header(0), 0),
        edit("version 3", 2, header(0), 3),
        edit("version, low byte 1", 2, header(0), 257),
        edit("version, low byte 2", 2, header(0), 258),
        edit("version, far", 2, header(0), 0xffff),
        edit("no states", 3, header(1), 0),
        edit("states above 256", 3, header(1), 257),
        edit("transitions above 2,048", 3, header(2), 2049),
        edit("no labels", 3, header(3), 0),
        edit("labels above 64", 3, header(3), 65),
        edit("action nodes above 128", 3, header(5), 129),
        edit("no formula nodes", 3, header(6), 0),
        edit("formula nodes above 64", 3, header(6), 65),
    ]
}

/// Offsets, counts that do not fit them, and counts that do not fit the length.
fn layout_edits(places: &Places) -> Vec<Edit> {
    let header = |i: usize| places.header(i);
    let at = |place: usize| place as u64;
    let mut all = vec![
        edit("the other version", 4, header(0), 3 - places.version as u64),
        edit("transitions' offset", 4, header(7), at(places.transition(0, 0)) + 1),
        edit("action nodes' offset", 4, header(8), at(places.action(0, 0)) - 1),
        edit("formula nodes' offset", 4, header(9), at(places.formula(0, 0)) + 1),
        edit("fewer transitions than the offsets say", 4, header(2), 2),
        edit("more action nodes than the offsets say", 4, header(5), 6),
        edit("fewer formula nodes than the length says", 5, header(6), 8),
        edit("more formula nodes than the length says", 5, header(6), 10),
    ];
    if places.version == 2 {
        all.extend([
            edit("label records' offset, below", 4, header(10), 20),
            edit("label records' offset, above", 4, header(10), 23),
            edit("label records' offset 0", 4, header(10), 0),
            edit("label records' offset, high byte", 4, header(10), 256 + 22),
            edit("label records' offset that of the transitions", 4, header(10), at(places.transition(0, 0))),
            edit("transitions' offset that of version 1", 4, header(7), 20),
            edit("transitions' offset that of the label records", 4, header(7), 22),
            edit("fewer labels than the offsets say", 4, header(3), 3),
            edit("more labels than the offsets say", 4, header(3), 5),
        ]);
    }
    all
}

/// The initial state and the transition table.
fn model_edits(places: &Places) -> Vec<Edit> {
    let labels = places.labels as u64;
    let mut all = vec![
        edit("initial state", 6, places.header(4), 3),
        edit("fewer states than the tables use", 6, places.header(1), 2),
        edit("source", 6, places.transition(0, 0), 3),
        edit("label", 6, places.transition(1, 1), labels),
        edit("label, high byte", 6, places.transition(0, 1), 256),
        edit("target", 6, places.transition(2, 2), 3),
        edit("source, high byte", 6, places.transition(2, 0), 256),
    ];
    if places.version == 1 {
        all.push(edit("fewer labels than the transitions use", 6, places.header(3), 1));
    }
    all
}

/// Each place of a full record, of one with one name, of the silent one and of one with two names; the last two are
/// unused.
fn name_edits(places: &Places) -> Vec<Edit> {
    let name = |label: usize, i: usize| places.name(label, i);
    vec![
        edit("first of four names above 255", 15, name(0, 0), 256),
        edit("second of four names above 255", 15, name(0, 1), 0xffff),
        edit("third of four names above 255", 15, name(0, 2), 0x8000),
        edit("fourth of four names above 255", 15, name(0, 3), 256 + 7),
        edit("three names behind a zero", 15, name(0, 0), 0),
        edit("two names behind a zero", 15, name(0, 1), 0),
        edit("a name behind a zero", 15, name(0, 2), 0),
        edit("the only name above 255", 15, name(1, 0), 512),
        edit("a name of 256 in the place of padding", 15, name(1, 1), 256),
        edit("a name behind one zero", 15, name(1, 2), 9),
        edit("a name behind two zeros", 15, name(1, 3), 1),
        edit("an unused label's first name above 255", 15, name(2, 0), 256),
        edit("a name behind a zero at the start, unused", 15, name(2, 1), 1),
        edit("a name behind two zeros at the start, unused", 15, name(2, 2), 255),
        edit("a name behind three zeros, unused", 15, name(2, 3), 7),
        edit("the last label's name behind a zero, unused", 15, name(3, 0), 0),
        edit("the last label's second name above 255, unused", 15, name(3, 1), 261),
        edit("the last number of the records, unused", 15, name(3, 3), 6),
        edit("a smaller name", 0, name(0, 0), 1),
        edit("three names instead of four", 0, name(0, 3), 0),
        edit("the largest name", 0, name(1, 0), 255),
        edit("a silent label instead of one name", 0, name(1, 0), 0),
        edit("two names instead of one", 0, name(1, 1), 9),
        edit("one name instead of none, unused", 0, name(2, 0), 255),
        edit("three names instead of two, unused", 0, name(3, 2), 5),
    ]
}

/// The action table.
fn action_edits(places: &Places) -> Vec<Edit> {
    let labels = places.labels as u64;
    let action = |i: usize, part: usize| places.action(i, part);
    vec![
        edit("action kind", 7, action(4, KIND), 7),
        edit("argument of not", 7, action(0, ARGUMENT), 1),
        edit("argument of and", 7, action(2, ARGUMENT), 1),
        edit("argument of true", 7, action(3, ARGUMENT), 1),
        edit("label of an action", 7, action(4, ARGUMENT), labels),
        edit("and with one operand", 7, action(3, KIND), 3),
        edit("implies without operands", 7, action(4, KIND), 6),
    ]
}

/// The formula table.
fn formula_edits(places: &Places) -> Vec<Edit> {
    let formula = |i: usize, part: usize| places.formula(i, part);
    vec![
        edit("formula kind", 8, formula(8, KIND), 9),
        edit("argument of mu", 8, formula(0, ARGUMENT), 1),
        edit("argument of or", 8, formula(1, ARGUMENT), 1),
        edit("argument of nu", 8, formula(4, ARGUMENT), 4),
        edit("argument of and", 8, formula(5, ARGUMENT), 1),
        edit("action node of a diamond", 8, formula(2, ARGUMENT), 5),
        edit("action node of a box", 8, formula(6, ARGUMENT), 0xffff),
        edit("nodes behind the formula", 8, formula(1, KIND), 1),
        edit("a formula without end", 8, formula(0, KIND), 2),
        edit("argument of true", 8, formula(7, KIND), 1),
        edit("variable of a binder beside", 9, formula(3, ARGUMENT), 4),
        edit("variable of an or", 9, formula(3, ARGUMENT), 1),
        edit("variable of itself", 9, formula(3, ARGUMENT), 3),
        edit("variable of no node", 9, formula(3, ARGUMENT), 9),
        edit("variable of a far node", 9, formula(8, ARGUMENT), 0xffff),
        edit("variable of a box", 9, formula(8, ARGUMENT), 6),
        edit("binder made a box", 9, formula(4, KIND), 4),
    ]
}

/// A case for each rule, in each version that has it, and cases with several faults.
pub fn broken_cases() -> Vec<Broken> {
    let mut all = short_cases();
    for version in VERSIONS {
        let right = right_case(version).bytes();
        all.extend(single(&right, 2, &case_edits(version)));
        all.push(broken("nothing", 0, right.clone()));
        all.push(broken("a byte short", 5, right[..right.len() - 1].to_vec()));
        all.push(broken("a byte extra", 5, [&right[..], &[0]].concat()));
        all.extend(broken_formulas(version));
    }
    all.extend(wrong_records());
    all.extend(order::broken_cases());
    all
}

/// Each place of each of 64 label records, one with a name above 255.
fn wrong_records() -> Vec<Broken> {
    let labels = Labels::Named(sixty_four_labels());
    let right = Case { labels, ..case(1, LABELS, &[(0, 0, 0)], "label 1", "dia 0 true") }.bytes();
    let wrong = |i: usize| {
        let rule = format!("name {} of label {} above 255", i % NAMES, i / NAMES);
        Broken { rule, refusal: 15, bytes: with_number(&right, NAMED_HEADER + 2 * i, 2, 256) }
    };
    (0..NAMES * LABELS).map(wrong).collect()
}

/// Cases cut around the end of the header. Which header it is the version says: that of an unknown one is taken as 20
/// bytes.
fn short_cases() -> Vec<Broken> {
    let (one, two) = (right_case(1).bytes(), right_case(2).bytes());
    let mut all = vec![
        broken("empty", 1, Vec::new()),
        broken("half a version", 1, two[..1].to_vec()),
        broken("a version only", 1, two[..2].to_vec()),
        broken("version 1, a header only", 5, one[..20].to_vec()),
        broken("version 1, a header and a byte", 5, one[..21].to_vec()),
        broken("version 1, a header and two bytes", 5, one[..22].to_vec()),
        broken("version 2, two bytes short of a header", 1, two[..20].to_vec()),
        broken("version 2, a byte short of a header", 1, two[..21].to_vec()),
        broken("version 2, a header only", 5, two[..22].to_vec()),
        broken("version 2, label records only", 5, two[..22 + 8 * 4].to_vec()),
    ];
    for version in [0, 3, 9, 257, 258, 0x200, 0xffff] {
        let unknown = with_number(&two, 0, 2, version);
        for length in [20, 21, 22, 23, 26, two.len()] {
            let rule = format!("version {version}, {length} bytes");
            all.push(Broken { rule, refusal: 2, bytes: unknown[..length].to_vec() });
        }
    }
    for version in [0, 1, 2, 3, 9, 257, 258, 0x200, 0xffff] {
        let rule = format!("version {version}, 19 bytes");
        all.push(Broken { rule, refusal: 1, bytes: with_number(&two, 0, 2, version)[..19].to_vec() });
    }
    all
}

/// Formulas that no edit of the right case gives.
fn broken_formulas(version: usize) -> Vec<Broken> {
    let small = |words: &str| {
        let case = case(1, 1, &[], "", words);
        if version == 1 {
            case
        } else {
            named(case, &[&[]])
        }
    };
    let table = |nodes: &[(usize, usize)]| {
        let formula = nodes.iter().map(|&(kind, argument)| node(kind, argument)).collect();
        Case { formula, ..small("true") }.bytes()
    };
    let bad_variable = [(formula::MU, 0), (formula::AND, 0), (formula::VARIABLE, 1), (9, 0)];
    vec![
        broken("two formulas", 8, table(&[(formula::TRUE, 0), (formula::TRUE, 0)])),
        broken("a binder without body", 8, table(&[(formula::MU, 0)])),
        broken("an and with one operand", 8, table(&[(formula::AND, 0), (formula::TRUE, 0)])),
        broken("a box without action nodes", 8, table(&[(formula::BOX, 0), (formula::TRUE, 0)])),
        broken("a variable alone", 9, table(&[(formula::VARIABLE, 0)])),
        broken("a bad variable before a bad kind", 8, table(&bad_variable)),
        broken("six binders, the root among them", 0, small("nu A nu B nu C mu D mu E mu F true").bytes()),
        broken("six binders under an and", 10, small("and nu A nu B nu C true mu D mu E mu F true").bytes()),
        broken("seven binders", 10, small("nu A nu B nu C mu D mu E mu F mu G true").bytes()),
    ]
}

/// Cases of both versions that break two rules.
pub fn twice_broken_cases() -> Vec<Vec<u8>> {
    VERSIONS.iter().flat_map(|&version| pairs(&right_case(version).bytes(), 2, &case_edits(version))).collect()
}
