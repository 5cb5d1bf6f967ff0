//! Small cases of version 2 whose answers are worked out by hand, some beside the same tables as version 1; and the
//! largest case of version 2.

use crate::formats::*;
use crate::paper::Run;
use crate::text::{case, named};

/// Three states in a ring, one transition from each: state s goes on under label s. The formula: a transition that the
/// action formula accepts is there. Where it holds in two states or one, the added nu starts with all three, loses the
/// others in its first round and finds nothing new in its second: 2 rounds; direct has no binder: 0 rounds.
fn ring(acts: &str, names: &[&[usize]]) -> Case {
    named(case(3, 3, &[(0, 0, 1), (1, 1, 2), (2, 2, 0)], acts, "dia 0 true"), names)
}

/// The run of a ring, given the states where the formula holds.
fn ring_run(name: &'static str, case: Case, holding: &[usize]) -> Run {
    let marks = holding.iter().map(|s| 1 << s).sum();
    let (verdict, count) = (holding.contains(&0) as u64, holding.len() as u64);
    Run::new(name, case, [0, verdict, count, 2], [0, verdict, count, 0], [3, 3], marks)
}

/// Which labels a label node accepts.
fn rings() -> Vec<Run> {
    let pair: [&[usize]; 3] = [&[3, 5], &[5, 3], &[3]];
    let own = Case { labels: Labels::Numbered(3), ..ring("label 0", &pair) };
    vec![
        // Labels 0 and 1 have the same names; label 2 lacks one of them.
        ring_run("names in another order", ring("label 0", &pair), &[0, 1]),
        // The node of the second label accepts the first.
        ring_run("names in another order, the other way round", ring("label 1", &pair), &[0, 1]),
        // The same tables as version 1: label 0 only.
        ring_run("its own label only in version 1", own, &[0]),
        // One copy, and three copies, are not two.
        ring_run("a name twice", ring("label 0", &[&[3, 3], &[3], &[3, 3, 3]]), &[0]),
        // The node of a single name does not accept two or three copies of it.
        ring_run("a name once", ring("label 1", &[&[3, 3], &[3], &[3, 3, 3]]), &[1]),
        // Three names each, and the same two different ones; only labels 0 and 2 have 3 twice and 5 once.
        ring_run("another name twice", ring("label 0", &[&[3, 3, 5], &[3, 5, 5], &[5, 3, 3]]), &[0, 2]),
        // Full records; label 2 lacks a copy of 2.
        ring_run("four names", ring("label 0", &[&[1, 2, 2, 255], &[255, 2, 1, 2], &[1, 2, 255]]), &[0, 1]),
        // Two silent labels are the same, and are not a step with a name.
        ring_run("silent steps", ring("label 0", &[&[], &[], &[1]]), &[0, 1]),
        // A not accepts the rest.
        ring_run("no silent step", ring("not label 0", &[&[], &[], &[1]]), &[2]),
        // Labels 0 and 1 are accepted by both nodes of the and; in version 1 no label would be.
        ring_run("both of two nodes", ring("and label 0 label 1", &[&[2, 1], &[1, 2], &[2]]), &[0, 1]),
    ]
}

/// The small cases with their answers.
pub fn runs() -> Vec<Run> {
    // Every run of silent steps ends. State 2 has only a step with a name, so it holds there first; then in 1, then in
    // 0, and the fourth round finds nothing new. If label 1 were accepted alone, 0 would hold at once, and there would
    // be three.
    let steps = [(0, 0, 1), (1, 1, 2), (2, 2, 2)];
    let silent = named(case(3, 3, &steps, "label 1", "mu X box 0 X"), &[&[], &[], &[1]]);
    // No transition has the node's own label 1, but that of the only one, label 0, has the same names: it holds at
    // once.
    let unused = named(case(1, 2, &[(0, 0, 0)], "label 1", "dia 0 true"), &[&[9, 8, 7, 6], &[6, 7, 8, 9]]);
    // Label 2 is accepted because it is not the first, labels 0 and 1 because they are the second, so it holds
    // everywhere and the first round finds nothing new. In version 1 label 0 would not be accepted.
    let implied = ring("implies label 0 label 1", &[&[3, 5], &[5, 3], &[3]]);
    let mut all = rings();
    all.extend([
        Run::new("the first implies the second", implied, [0, 1, 3, 1], [0, 1, 3, 0], [3, 3], 7),
        Run::new("silent steps end", silent, [0, 1, 3, 4], [0, 1, 3, 4], [3, 3], 7),
        Run::new("an unused label's names", unused, [0, 1, 1, 1], [0, 1, 1, 0], [1, 1], 1),
        // Of the three records two are equal, and the third has the same names under another label: two are distinct.
        // It holds in state 0, which the first round finds, and the second finds nothing new.
        Run::new("alike labels between equal ends", alike_ends(), [0, 1, 1, 2], [0, 1, 1, 0], [3, 2], 1),
    ]);
    all
}

/// Records with equal ends whose labels have the same names, and one of them twice.
pub fn alike_ends() -> Case {
    named(case(2, 2, &[(0, 0, 1), (0, 1, 1), (0, 0, 1)], "label 0", "dia 0 true"), &[&[3, 5], &[5, 3]])
}

/// The equation file of that case, number by number: rows of the added nu, the diamond and true, two cells each. The
/// diamond in state 0 has two operands, one for each label, and both are the cell of true in state 1, which is cell 5.
pub fn alike_ends_file() -> Vec<u8> {
    let header = [1, 2, 1, 6, 2, 0, 36, 44, 116];
    let block = [1, 2];
    let cells = [[2, 0, 0], [2, 0, 1], [1, 0, 2], [1, 2, 0], [0, 2, 0], [0, 2, 0]];
    let numbers = [&header[..], &block, &cells.concat(), &[5, 5]].concat();
    numbers.iter().flat_map(|x: &u32| x.to_le_bytes()).collect()
}

/// The names of 64 labels: all orders of four different names, of four with one of them twice, single names, and silent
/// ones.
pub fn sixty_four_labels() -> Vec<Names> {
    let orders = |names: [usize; 4]| -> Vec<Names> {
        let all = (0..256).map(|i| [i % 4, i / 4 % 4, i / 16 % 4, i / 64]);
        let different = |order: &[usize; 4]| (0..4).all(|place| order.contains(&place));
        all.filter(different).map(|order| order.map(|place| names[place])).collect()
    };
    let mut all = [orders([1, 2, 3, 255]), orders([254, 7, 7, 9])].concat();
    all.extend((0..8).map(|i| [100 + i % 4, 0, 0, 0]));
    all.extend([[0; NAMES]; 8]);
    all
}

/// The largest case of version 2: 256 states, eight transitions from each, 64 labels, a not over each of them, 64
/// formula nodes.
pub fn largest() -> Case {
    let triples: Vec<(usize, usize, usize)> =
        (0..TRANSITIONS).map(|i| (i % STATES, (7 * i + i / STATES) % LABELS, (i + i / STATES + 1) % STATES)).collect();
    let acts: String = (0..LABELS).map(|label| format!("not label {label} ")).collect();
    let boxes: String = (0..20).map(|i| format!("box {} X ", 6 * i)).collect();
    let words = format!("mu X or dia 1 dia 3 true {}{boxes}", "and ".repeat(19));
    let case = case(STATES, LABELS, &triples, &acts, &words);
    Case { labels: Labels::Named(sixty_four_labels()), ..case }
}
