//! Answers for random cases as text, held against the checker of tests: where the formula holds, what is reached and
//! counted, and the value of every node in every state. And case files held against those that the checker reads.

#[path = "support/case_texts.rs"]
mod case_texts;

use bithrowy_front::back;
use bithrowy_front::check::{check, Checked, Trouble};
use bithrowy_front::limits::ROUNDS;
use bithrowy_tests::formats::{formula, subtree_end, Case, Labels, Node};
use bithrowy_tests::generate::{self, Size};
use bithrowy_tests::meaning::{solution_by_game, states_by_game};
use bithrowy_tests::random::Random;
use bithrowy_tests::reader::read_case;
use bithrowy_tests::{reach, rounds, tables};
use case_texts::{case_of, checked, refused};

/// Rounds that a run of a random case may take.
const LIMIT: u64 = 10_000;

/// A random case as text, read again: as the checker of tests reads its bytes, and its answer.
fn random_answer(random: &mut Random, size: Size) -> Option<(Case, Checked)> {
    let texts = back::texts(&generate::case_of(random, size).bytes()).ok()?;
    let case = case_of(&texts.aut, &texts.mcf, true).unwrap();
    match check(&case, LIMIT) {
        Ok(answer) => Some((read_case(&case.bytes).unwrap(), answer)),
        Err(Trouble::Refused(fault)) => {
            assert_eq!(fault.refusal, Some(14), "{fault}");
            None
        }
        Err(trouble) => panic!("{trouble:?}"),
    }
}

/// The formula's part at a node, as a case of its own, if all its variables are bound in it.
fn closed_part(case: &Case, at: usize) -> Option<Case> {
    let end = subtree_end(&case.formula, at, formula::operands)?;
    let part = case.formula[at..end].iter().map(|node| match node.kind {
        formula::VARIABLE => Some(Node { argument: node.argument.checked_sub(at)?, ..*node }),
        _ => Some(*node),
    });
    Some(Case { formula: part.collect::<Option<Vec<Node>>>()?, ..case.clone() })
}

/// Every node's values: those of the equation file's cells by a parity game on them. Cells of a nu that is put before a
/// formula come first.
fn hold_values(case: &Case, answer: &Checked) {
    let (cells, _) = solution_by_game(&tables::equations(case));
    let added = if case.root_binds() { 0 } else { 1 };
    let expected: Vec<&[bool]> = cells.chunks(case.states).skip(added).collect();
    assert_eq!(answer.values, expected);
    assert_eq!(answer.values.len(), case.formula.len());
    assert_eq!(answer.values[0], answer.holds);
}

#[test]
fn answers_are_those_of_the_checker_of_tests() {
    let mut random = Random::new(1820);
    let (mut answers, mut mixed, mut unreached, mut closed) = (0, 0, 0, 0);
    while answers < 1_500 {
        let size = random.pick(&[Size::Tiny, Size::Small, Size::Small, Size::Medium]);
        let Some((case, answer)) = random_answer(&mut random, size) else { continue };
        answers += 1;
        assert_eq!(answer.holds, states_by_game(&case));
        assert_eq!(answer.reached, reach::reached(&case));
        assert_eq!(answer.count, reach::count(&answer.holds, &answer.reached));
        assert_eq!(answer.verdict, answer.holds[case.initial]);
        assert_eq!(answer.direct_rounds, rounds::direct(&case, LIMIT).unwrap().1);
        assert_eq!(answer.equation_rounds, rounds::equations(&tables::equations(&case), LIMIT).unwrap().rounds);
        let recorded = tables::recorded(&case.transitions);
        assert_eq!((answer.records, answer.distinct), (recorded.records, recorded.distinct));
        hold_values(&case, &answer);
        for at in 1..case.formula.len() {
            if let Some(part) = closed_part(&case, at) {
                assert_eq!(answer.values[at], states_by_game(&part), "a closed part by a run of its own");
                closed += 1;
            }
        }
        mixed += usize::from(answer.holds.contains(&true) && answer.holds.contains(&false));
        unreached += usize::from(answer.reached.contains(&false));
    }
    assert!(mixed > 300 && unreached > 300 && closed > 3_000, "{mixed} {unreached} {closed}");
}

#[test]
fn wide_models_have_their_answers() {
    let mut random = Random::new(1821);
    let mut answers = 0;
    while answers < 25 {
        let Some((case, answer)) = random_answer(&mut random, Size::Wide) else { continue };
        assert_eq!(answer.holds, states_by_game(&case));
        assert_eq!(answer.reached, reach::reached(&case));
        assert_eq!(answer.count, reach::count(&answer.holds, &answer.reached));
        hold_values(&case, &answer);
        answers += 1;
    }
}

/// A nu is put before a formula that begins with no binder, and its cells are no node's. By hand: only state 1 can close;
/// the box leads from 0 to it, and from 1 nowhere by click.
#[test]
fn values_of_a_formula_without_a_binder() {
    let model = "des (0, 2, 3)\n(0, click, 1)\n(1, close, 2)\n";
    let case = case_of(model, "[click] <close> true && <click> true", false).unwrap();
    let answer = checked(&case, ROUNDS);
    let (yes, no) = (true, false);
    assert_eq!(
        answer.values,
        [
            // and, box, diamond, true, diamond, true
            [yes, no, no],
            [yes, yes, yes],
            [no, yes, no],
            [yes, yes, yes],
            [yes, no, no],
            [yes, yes, yes],
        ]
    );
    assert_eq!((answer.verdict, answer.count), (true, 1));
}

/// The names of a case of version 2 in order of first appearance: in the model from its first transition on, as they are
/// written, then those of the formula. `close|focus` of the formula is a new label; `blur|focus` is the model's second.
#[test]
fn a_case_of_version_2() {
    let model = "des (1, 4, 3)\n(0, \"focus|blur\", 1)\n(1, close, 2)\n(1, \"tau|click\", 2)\n(2, tau, 0)\n";
    let case = case_of(model, "nu X. [blur|focus || !close|focus] X", true).unwrap();
    let header = [2, 3, 4, 5, 1, 4, 3, 22 + 40, 62 + 24, 86 + 16, 22];
    // focus 1, blur 2, close 3, click 4.
    let records = [[1, 2, 0, 0], [3, 0, 0, 0], [4, 0, 0, 0], [0, 0, 0, 0], [3, 1, 0, 0]];
    let transitions = [[0, 0, 1], [1, 1, 2], [1, 2, 2], [2, 3, 0]];
    // or, the model's first label, not, the new label; then nu, box, variable.
    let nodes = [[5, 0], [2, 0], [3, 0], [2, 4], [8, 0], [4, 0], [6, 0]];
    let numbers = [&header[..], &records.concat(), &transitions.concat(), &nodes.concat()].concat();
    let bytes: Vec<u8> = numbers.iter().flat_map(|&number: &u16| number.to_le_bytes()).collect();
    assert_eq!(case.bytes, bytes);
    assert!(matches!(read_case(&bytes).unwrap().labels, Labels::Named(records) if records.len() == 5));
}

/// An action formula that is part of another one is not written again: `!a` stands in `!a && b`, and `b` in it too, though
/// they come first in the formula.
#[test]
fn equal_action_formulas_are_written_once() {
    let model = "des (0, 2, 1)\n(0, a, 0)\n(0, b, 0)\n";
    let case = case_of(model, "[!a] true && [b] true && <!a && b> true && <!a> true", false).unwrap();
    let read = read_case(&case.bytes).unwrap();
    // and, not, label a, label b.
    assert_eq!(
        read.actions.iter().map(|node| (node.kind, node.argument)).collect::<Vec<_>>(),
        [(4, 0), (3, 0), (2, 0), (2, 1)]
    );
    let modal = read.formula.iter().filter(|node| formula::is_modal(node.kind));
    assert_eq!(modal.map(|node| node.argument).collect::<Vec<_>>(), [1, 3, 0, 1]);
    assert_eq!(case.counts().action_nodes, 4);
}

/// A route may be spent where the other is not: `nu X. true && nu Y. true` with the nu before it, by hand. Direct takes a
/// round for each binder, two. The equations take the inner block anew for each round of the one around it: one round each.
#[test]
fn a_route_that_is_spent_alone_is_named() {
    let case = case_of("des (0, 0, 1)\n", "(nu X. true) && nu Y. true", false).unwrap();
    let answer = checked(&case, 3);
    assert_eq!((answer.direct_rounds, answer.equation_rounds), (2, 3));
    assert_eq!(refused(&case, 2).message, "more than 2 rounds by the equation route");
    assert_eq!(refused(&case, 1).message, "more than 1 round by either route");
}

/// Models and formulas beyond all limits at once, and numbers as large as they get: an answer, and no panic.
#[test]
fn numbers_of_any_size_are_refused() {
    let numbers = ["0", "1", "255", "256", "257", "65535", "65536", "65537", "4294967296", "18446744073709551615"];
    let mut refusals = std::collections::BTreeSet::new();
    for states in numbers {
        for number in numbers {
            let model = format!("des ({number}, 1, {states})\n({number}, a, {states})\n");
            let case = case_of(&model, "nu X. [true] X", false).unwrap();
            match check(&case, ROUNDS) {
                Err(Trouble::Refused(fault)) => refusals.insert(fault.refusal),
                other => panic!("{other:?}"),
            };
        }
    }
    // No model with so many states as its last transition's target is right.
    assert_eq!(refusals.into_iter().collect::<Vec<_>>(), [Some(3), Some(6)]);
}

/// The version is 2 exactly if some label is written with `|`, even if it has one name, and in the formula alone.
#[test]
fn the_version_follows_from_the_texts() {
    let version = |label: &str, formula: &str| {
        let model = format!("des (0, 1, 1)\n(0, \"{label}\", 0)\n");
        case_of(&model, formula, true).unwrap().bytes[0]
    };
    assert_eq!(version("a", "[a] true"), 1);
    assert_eq!(version("tau", "[tau] true"), 1);
    assert_eq!(version("a | b", "[true] true"), 2);
    assert_eq!(version("a|tau", "[a] true"), 2);
    assert_eq!(version("a", "[a|tau] true"), 2);
    assert_eq!(version("a", "[b|c] true"), 2);
}
