//! The cases that the program `runs` is held to, and the line that each must give.

use crate::calls::{EquationNumbers, RouteNumbers};
use crate::counted;
use crate::formats::*;
use crate::meaning;
use crate::paper::{both_routes, named_runs, refused_cases, refused_names, runs, Run};
use crate::reach::{self, backward_chain};
use crate::reader::read_case;
use crate::slips::Reference;
use crate::tables;
use crate::text::{case, named, with_own_names};
use crate::worked;
use std::path::Path;

type Triple = (usize, usize, usize);

/// A path 0, 1, .. with one label.
pub fn path(states: usize) -> Vec<Triple> {
    (0..states - 1).map(|s| (s, 0, s + 1)).collect()
}

/// A path that returns from its end to its start.
fn cycle(states: usize) -> Vec<Triple> {
    (0..states).map(|s| (s, 0, (s + 1) % states)).collect()
}

/// Binders of alternating signs, one in another, `depth` of them, over a body that uses each.
fn alternating(first_is_mu: bool, depth: usize) -> String {
    let names = ["A", "B", "C", "D", "E", "F"];
    let mut words = String::new();
    for (k, name) in names[..depth].iter().enumerate() {
        words += if (k % 2 == 0) == first_is_mu { "mu " } else { "nu " };
        words += name;
        words += " ";
    }
    for (k, name) in names[..depth].iter().enumerate() {
        if k + 1 < depth {
            words += if k % 2 == 0 { "or " } else { "and " };
        }
        words += &format!("{} {} {name} ", if k % 3 == 0 { "dia" } else { "box" }, k % 3);
    }
    words
}

/// So many binders side by side, each over the path's end.
pub fn beside(count: usize, sign: &str, body: &str) -> String {
    let one = format!("{sign} X {body} ");
    "and ".repeat(count - 1) + &one.repeat(count)
}

/// P1 to P8, one damaged case for each of 1 to 10, and further cases; then the same for version 2, with the cases
/// worked out by hand and damaged ones for 15; then cases with marked states that are not reached.
pub fn cases() -> Vec<Vec<u8>> {
    let of_runs = |runs: Vec<Run>| -> Vec<Vec<u8>> { runs.iter().map(|run| run.case.bytes()).collect() };
    let refused = |cases: Vec<(u64, Vec<u8>)>| -> Vec<Vec<u8>> { cases.into_iter().map(|(_, bytes)| bytes).collect() };
    let written = |cases: Vec<Case>| -> Vec<Vec<u8>> { cases.iter().map(Case::bytes).collect() };
    [
        of_runs(runs()),
        refused(refused_cases(1)),
        written(further()),
        of_runs(named_runs()),
        of_runs(worked::runs()),
        refused(refused_cases(2)),
        refused(refused_names()),
        written(further_named()),
        of_runs(counted::runs()),
        written(far()),
    ]
    .concat()
}

fn further() -> Vec<Case> {
    let mixed = [(0, 0, 1), (1, 1, 2), (2, 0, 0), (2, 1, 3), (3, 2, 3), (3, 0, 1), (1, 2, 1), (0, 1, 0)];
    let labels = "label 0 label 1 label 2";
    let mut all = Vec::new();
    // Nested and alternating binders.
    for depth in 1..=BLOCKS {
        for first_is_mu in [true, false] {
            all.push(case(4, 3, &mixed, labels, &alternating(first_is_mu, depth)));
        }
    }
    // Side by side: rounds multiply in the equation route and add in direct.
    for count in 2..=4 {
        all.push(case(5, 1, &path(5), "true", &beside(count, "mu", "box 0 X")));
        all.push(case(5, 1, &cycle(5), "true", &beside(count, "nu", "dia 0 X")));
    }
    all.push(case(4, 3, &mixed, labels, "nu Z and mu X or dia 0 Z dia 1 X mu Y or box 2 Z dia 0 Y"));
    all.push(case(12, 1, &path(12), "true", &beside(5, "mu", "box 0 X")));
    // Binders that bind nothing used.
    all.push(case(3, 1, &path(3), "true", "mu X true"));
    all.push(case(3, 1, &path(3), "true", "nu X mu Y dia 0 true"));
    all.push(case(3, 1, &path(3), "true", "mu X nu Y mu Z box 0 X"));
    // A variable alone as a body; a variable of the outermost of three binders.
    all.push(case(3, 1, &path(3), "true", "mu X X"));
    all.push(case(3, 1, &path(3), "true", "nu X X"));
    all.push(case(2, 1, &cycle(2), "true", "nu X mu Y nu Z X"));
    // Copies, apart from each other; equal ends with different labels.
    all.push(case(
        3,
        2,
        &[(0, 0, 1), (1, 1, 2), (0, 0, 1), (1, 1, 2), (0, 0, 1)],
        "true",
        "mu X or box 0 false dia 0 X",
    ));
    all.push(case(2, 2, &[(0, 0, 1), (0, 1, 1), (1, 0, 0), (0, 0, 1)], "label 1", "dia 0 true"));
    all.push(case(2, 2, &[(0, 0, 1), (0, 1, 1)], "label 1 label 0", "and box 0 false dia 1 true"));
    // No action nodes.
    all.push(case(2, 1, &cycle(2), "", "or false nu X and X true"));
    all.push(case(2, 1, &[], "", "mu X or X nu Y and Y X"));
    // Every action kind; boxes into the middle of an action formula.
    let acts = "implies label 0 not or label 1 label 2 and true not false";
    for at in [0, 1, 2, 3, 4, 5, 6, 7, 8, 9] {
        all.push(case(4, 3, &mixed, acts, &format!("or box {at} false dia {at} dia {at} true")));
    }
    // Words: 64, 65, 128 and 256 states, with the initial state at either end.
    for states in [64, 65, 128, 256] {
        all.push(case(states, 1, &path(states), "true", "mu X box 0 X"));
    }
    all.push(Case { initial: 255, ..case(256, 1, &path(256), "true", "nu X dia 0 X") });
    all.push(Case { initial: 255, ..case(256, 1, &cycle(256), "true", "nu X mu Y or dia 0 X dia 0 Y") });
    // An equation file longer than the buffer; more rounds than the limit in the equation route only, and in both.
    all.push(case(256, 1, &path(256), "true", &("box 0 ".repeat(24) + "false")));
    all.push(case(16, 1, &path(16), "true", &beside(5, "mu", "box 0 X")));
    let within: String = ["A", "B", "C", "D", "E", "F"].map(|name| format!("mu {name} and box 0 {name} ")).concat();
    all.push(case(10, 1, &path(10), "true", &(within + "true")));
    all
}

/// Further cases of version 2.
fn further_named() -> Vec<Case> {
    let mixed = [(0, 0, 1), (1, 1, 2), (2, 0, 0), (2, 1, 3), (3, 2, 3), (3, 0, 1), (1, 2, 1), (0, 1, 0)];
    let labels = "label 0 label 1 label 2";
    // Focus and blur in both orders, and click.
    let together: [&[usize]; 3] = [&[1, 2], &[2, 1], &[3]];
    let mut all = Vec::new();
    // Nested and alternating binders, over names of their own and over names of which two are the same.
    for depth in 1..=BLOCKS {
        let plain = case(4, 3, &mixed, labels, &alternating(depth % 2 == 0, depth));
        all.extend([with_own_names(plain.clone()), named(plain, &together)]);
    }
    // Every action kind; boxes into the middle of an action formula.
    let acts = "implies label 0 not or label 1 label 2 and true not false";
    for at in 0..10 {
        let plain = case(4, 3, &mixed, acts, &format!("or box {at} false dia {at} dia {at} true"));
        all.push(named(plain, &[&[7, 7, 1], &[7, 1], &[1, 7, 7]]));
    }
    // Copies, and records that differ in labels with the same names.
    let copies = [(0, 0, 1), (1, 1, 2), (0, 1, 1), (1, 1, 2), (0, 2, 1)];
    all.push(named(case(3, 3, &copies, "label 0", "mu X or box 0 false dia 0 X"), &together));
    // All 256 states; an equation file longer than the buffer.
    all.push(named(case(256, 1, &cycle(256), "label 0", "nu X dia 0 X"), &[&[255, 255, 255, 255]]));
    all.push(named(case(256, 1, &path(256), "label 0", &("box 0 ".repeat(24) + "false")), &[&[]]));
    // 64 labels: with one transition, with a wrong record at the end, and in the largest case.
    let mut last_wrong = worked::sixty_four_labels();
    all.push(Case {
        labels: Labels::Named(last_wrong.clone()),
        ..case(1, LABELS, &[(0, 63, 0)], "label 56", "dia 0 true")
    });
    last_wrong[LABELS - 1] = [0, 0, 0, 1];
    all.push(Case { labels: Labels::Named(last_wrong), ..case(1, LABELS, &[], "", "true") });
    all.push(worked::largest());
    all
}

/// 256 marked states with a chain recorded from its end to its start: all of it, up to a state, and from one on.
fn far() -> Vec<Case> {
    let of = |initial: usize, to: usize| {
        let case = case(STATES, 1, &backward_chain(0, to), "", "true");
        Case { initial, ..case }
    };
    vec![of(0, 255), of(0, 191), of(64, 255), with_own_names(of(63, 128))]
}

/// The answers of the equation route and of direct by the reference; the parity game must agree, and so must another count
/// of the distinct records.
pub fn reference_answers(bytes: &[u8]) -> (EquationNumbers, RouteNumbers) {
    let (equation, direct) = both_routes(&Reference(None), bytes);
    if let Ok(case) = read_case(bytes) {
        let set = meaning::states_by_game(&case);
        let count = reach::count(&set, &reach::reached(&case));
        for answer in [equation.run, direct] {
            assert_eq!(answer.recorded(), tables::recorded(&case.transitions), "first appearances and equal ones");
            if answer.refusal == 0 {
                assert_eq!((answer.verdict, answer.count), (set[case.initial] as u64, count), "rounds and game");
            }
        }
    }
    (equation, direct)
}

/// The lines E, D and T of a case by the reference, as the programs print them: without the price. Both routes give the
/// numbers of T.
pub fn reference_lines(bytes: &[u8]) -> [String; 3] {
    let (EquationNumbers { run: equation, .. }, direct) = reference_answers(bytes);
    assert_eq!(equation.recorded(), direct.recorded(), "both routes");
    let route = |letter: &str, x: RouteNumbers| line(letter, &[x.refusal, x.verdict, x.count, x.rounds]);
    [route("E", equation), route("D", direct), line("T", &[direct.records, direct.distinct])]
}

/// A word and numbers as the programs print them.
pub fn line(word: &str, numbers: &[u64]) -> String {
    numbers.iter().fold(word.to_string(), |text, number| format!("{text} {number}"))
}

/// What the program reads and what it must print.
pub fn stdin_and_stdout() -> (Vec<u8>, String) {
    let (mut stdin, mut stdout) = (Vec::new(), String::new());
    for (i, bytes) in cases().iter().enumerate() {
        stdin.extend(u16::try_from(bytes.len()).expect("a case is that short").to_le_bytes());
        stdin.extend(bytes);
        stdout += &format!("{} {}\n", i + 1, reference_lines(bytes).join(" "));
    }
    (stdin, stdout)
}

/// The program's files `stdin` and `stdout` in a folder are what is written now; answers how many bytes were compared.
pub fn files(folder: &Path) -> Result<u64, String> {
    let (stdin, stdout) = stdin_and_stdout();
    same_files(folder, "cases", &stdin, &stdout)
}

/// The files `stdin` and `stdout` in a folder, which a program writes, hold these bytes; answers how many were compared.
pub fn same_files(folder: &Path, writer: &str, stdin: &[u8], stdout: &str) -> Result<u64, String> {
    let mut compared = 0;
    for (name, expected) in [("stdin", stdin), ("stdout", stdout.as_bytes())] {
        let path = folder.join(name);
        let found = std::fs::read(&path).map_err(|error| format!("cannot read {}: {error}", path.display()))?;
        if found != expected {
            let at = found.iter().zip(expected).take_while(|(x, y)| x == y).count();
            return Err(format!("{} differs from byte {at} on: write it with the program `{writer}`", path.display()));
        }
        compared += found.len() as u64;
    }
    Ok(compared)
}
