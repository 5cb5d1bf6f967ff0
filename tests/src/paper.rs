//! The paper's runs P1 to P8, as version 1 and as version 2, and the examples of its table of refusals, with the values
//! given there.

use crate::calls::{Calls, EquationNumbers, Numbers, RouteNumbers, MARK_WORDS};
use crate::compare::Check;
use crate::counted;
use crate::damage::with_number;
use crate::formats::*;
use crate::text::{case, with_own_names};
use crate::worked;

/// What the program uses: limit, file buffer.
pub const LIMIT: u64 = 1_000_000;
pub const FILE_BUFFER: usize = 65_536;

/// Refusal, verdict, count, rounds.
type Line = [u64; 4];

/// Records in the table, distinct ones.
type Pair = [u64; 2];

/// A run with the answers of the equation route, with its price, and of direct, and the marked states, all below 64, as
/// bits.
#[derive(Clone)]
pub struct Run {
    pub name: &'static str,
    pub case: Case,
    pub equation: EquationNumbers,
    pub direct: RouteNumbers,
    pub marks: u64,
}

impl Run {
    /// Every run is solved or refused for its case. A refused one costs 0. Those that are solved have at most 100 cells, so
    /// they are free, and the minimum makes that 5.
    pub fn new(name: &'static str, case: Case, equation: Line, direct: Line, recorded: Pair, marks: u64) -> Run {
        assert!(equation[0] != 0 || case.states * (case.formula.len() + 1) <= 100, "{name}: a free run");
        let (run, direct) = (answer(equation, recorded), answer(direct, recorded));
        let cents = if run.refusal == 0 { 5 } else { 0 };
        Run { name, case, equation: EquationNumbers { run, cents }, direct, marks }
    }

    /// The run's name and version.
    pub fn title(&self) -> String {
        format!("{}, version {}", self.name, self.case.labels.version())
    }
}

/// P1 to P8. P8's numbers follow from the rules: each of six blocks or binders takes one round. The records are counted
/// in the runs' tables: in P1 one of three is a copy, in P2 and P3 there are two and no copy, the others have none, and
/// P7 is refused. The marks follow from the counts, which are all states or none.
pub fn runs() -> Vec<Run> {
    let run = Run::new;
    let three = [(0, 0, 1), (0, 0, 1), (1, 1, 2)];
    let two = [(0, 0, 1), (1, 1, 0)];
    let labels = "label 0 label 1";
    let single = |acts, words| case(1, 1, &[], acts, words);
    let body = "or dia 0 X dia 1 Y";
    let (p2, p3) = (format!("nu X mu Y {body}"), format!("mu X nu Y {body}"));
    let p7 = single("", "and nu A nu B nu C true nu D nu E nu F true");
    let p8 = single("", "nu A nu B nu C nu D nu E nu F true");
    vec![
        run("P1", case(3, 2, &three, "true", "mu X box 0 X"), [0, 1, 3, 4], [0, 1, 3, 4], [3, 2], 7),
        run("P2", case(2, 2, &two, labels, &p2), [0, 1, 2, 4], [0, 1, 2, 4], [2, 2], 3),
        run("P3", case(2, 2, &two, labels, &p3), [0, 0, 0, 4], [0, 0, 0, 4], [2, 2], 0),
        run("P4", single("", "true"), [0, 1, 1, 1], [0, 1, 1, 0], [0, 0], 1),
        run("P5", single("true", "box 0 false"), [0, 1, 1, 1], [0, 1, 1, 0], [0, 0], 1),
        run("P6", single("true", "dia 0 true"), [0, 0, 0, 2], [0, 0, 0, 0], [0, 0], 0),
        run("P7", p7, [10, 0, 0, 0], [10, 0, 0, 0], [0, 0], 0),
        run("P8", p8, [0, 1, 1, 6], [0, 1, 1, 6], [0, 0], 1),
    ]
}

/// P1 to P8 as version 2, where each label has a name of its own, with the same answers.
pub fn named_runs() -> Vec<Run> {
    runs().into_iter().map(|run| Run { case: with_own_names(run.case.clone()), ..run }).collect()
}

/// P1's equation file, number by number.
pub fn p1_file() -> Vec<u8> {
    let header = [1, 3, 1, 9, 2, 0, 36, 44, 152];
    let block = [0, 3];
    let cells = [[2, 0, 0], [2, 0, 1], [2, 0, 2], [0, 0, 1], [0, 1, 1], [0, 2, 0], [2, 0, 0], [2, 0, 1], [2, 0, 2]];
    let numbers = [&header[..], &block, &cells.concat(), &[7, 8]].concat();
    numbers.iter().flat_map(|x: &u32| x.to_le_bytes()).collect()
}

/// A case by the number that it is refused with.
type Refused = (u64, Vec<u8>);

/// A small case of a version with another formula table.
fn with_formula(version: usize, nodes: &[(usize, usize)]) -> Vec<u8> {
    let formula = nodes.iter().map(|&(kind, argument)| node(kind, argument)).collect();
    of_version(version, Case { formula, ..case(1, 1, &[], "", "true") }).bytes()
}

/// The case as it is, or as version 2.
fn of_version(version: usize, case: Case) -> Case {
    if version == 1 {
        case
    } else {
        with_own_names(case)
    }
}

/// The table's examples for 1 to 10, in order, as version 1 or as version 2; the first is empty in both.
pub fn refused_cases(version: usize) -> Vec<Refused> {
    let p1 = of_version(version, runs()[0].case.clone()).bytes();
    let of = |case: Case| of_version(version, case).bytes();
    let seven = "nu A nu B nu C nu D nu E nu F nu G true";
    let wrong_offset = if version == 1 { 21 } else { 39 };
    vec![
        (1, Vec::new()),
        (2, with_number(&p1, 0, 2, 9)),
        (3, with_number(&p1, 2, 2, 257)),
        (4, with_number(&p1, 14, 2, wrong_offset)),
        (5, [&p1[..], &[0]].concat()),
        (6, of(case(1, 1, &[(0, 0, 1)], "", "true"))),
        (7, of(case(1, 1, &[], "not", "true"))),
        (8, with_formula(version, &[(formula::AND, 0), (formula::TRUE, 0)])),
        (9, with_formula(version, &[(formula::MU, 0), (formula::VARIABLE, 1)])),
        (10, of(case(1, 1, &[], "", seven))),
    ]
}

/// What only version 2 has: files of 20 and of 21 bytes, another offset of the label records, a name above 255 and a
/// name after padding, and 15 between 6 and 7.
pub fn refused_names() -> Vec<Refused> {
    let p1 = named_runs()[0].case.bytes();
    let above = with_number(&p1, 22, 2, 256);
    let behind = with_number(&p1, 22 + 8 + 4, 2, 1);
    vec![
        (1, p1[..20].to_vec()),
        (1, p1[..21].to_vec()),
        (4, with_number(&p1, 20, 2, 20)),
        (15, above.clone()),
        (15, behind),
        // With the initial state 3, which gets 6, and with an action node of kind 7, which gets 7.
        (6, with_number(&above, 8, 2, 3)),
        (15, with_number(&above, 56, 2, 7)),
    ]
}

/// A route's answer from its numbers.
fn answer([refusal, verdict, count, rounds]: Line, [records, distinct]: Pair) -> RouteNumbers {
    RouteNumbers { refusal, verdict, count, rounds, records, distinct }
}

/// An answer, and the mark words that are left.
type Left<A> = (A, [u64; MARK_WORDS]);

/// Mark words before a call.
const UNTOUCHED: [u64; MARK_WORDS] = [9; MARK_WORDS];

/// What the equation route and direct answer and leave, with the program's limit and buffers.
pub fn both_left(calls: &dyn Calls, bytes: &[u8]) -> (Left<EquationNumbers>, Left<RouteNumbers>) {
    let (mut file, mut work) = (vec![0; FILE_BUFFER], vec![0; CELLS]);
    let (mut first, mut second) = (UNTOUCHED, UNTOUCHED);
    let equation = calls.equation(bytes, &mut file, &mut work, &mut first, LIMIT);
    let direct = calls.direct(bytes, &mut second, LIMIT);
    ((equation, first), (direct, second))
}

/// The answers alone.
pub fn both_routes(calls: &dyn Calls, bytes: &[u8]) -> (EquationNumbers, RouteNumbers) {
    let ((equation, _), (direct, _)) = both_left(calls, bytes);
    (equation, direct)
}

fn equal<T: PartialEq + std::fmt::Debug>(what: &str, got: T, expected: T) -> Check {
    if got != expected {
        return Err(format!("{what}: got {got:?}, the paper says {expected:?}"));
    }
    Ok(())
}

/// How many values were compared so far.
struct Held(u64);

impl Held {
    /// Compares one more value.
    fn to<T: PartialEq + std::fmt::Debug>(&mut self, what: &str, got: T, expected: T) -> Check {
        self.0 += 1;
        equal(what, got, expected)
    }
}

/// Holds calls to all values that the paper gives, and to those worked out by hand; answers how many values were
/// compared.
pub fn check(calls: &dyn Calls) -> Result<u64, String> {
    let mut held = Held(0);
    for run in [runs(), named_runs(), worked::runs(), counted::runs()].concat() {
        let bytes = run.case.bytes();
        let marks = if run.equation.run.refusal == 0 { [run.marks, 0, 0, 0] } else { UNTOUCHED };
        held.to(&run.title(), both_left(calls, &bytes), ((run.equation, marks), (run.direct, marks)))?;
    }
    for (number, bytes) in [refused_cases(1), refused_cases(2), refused_names()].concat() {
        let refused = (EquationNumbers::refused(number), RouteNumbers::refused(number));
        held.to("a refused case", both_routes(calls, &bytes), refused)?;
        held.to("translate of a refused case", calls.translate(&bytes, &mut []), Numbers::refused(number))?;
    }
    check_files(calls, &mut held)?;
    let p1 = runs()[0].case.bytes();
    check_refused_runs(calls, &p1, &mut held)?;
    check_refused_runs(calls, &named_runs()[0].case.bytes(), &mut held)?;
    check_solve(calls, &p1_file(), &mut held)?;
    check_bare_file(calls, &mut held)?;
    Ok(held.0)
}

/// The file of a case in which a marked state is not reached: written by translate, and solved by itself, which counts that
/// state too.
fn check_bare_file(calls: &dyn Calls, held: &mut Held) -> Check {
    let (bytes, solved) = counted::p1_without_its_last_file();
    let (mut file, mut work, mut marks) = (vec![0; bytes.len()], [9; 9], [9; 4]);
    let case = counted::runs()[0].case.bytes();
    held.to("P1 without (1,1,2), translated", calls.translate(&case, &mut file), Numbers::written(bytes.len()))?;
    held.to("its equation file", &file, &bytes)?;
    held.to("its file, solved", calls.solve(&bytes, &mut work, &mut marks, 3), solved)?;
    held.to("its marks", marks, [7, 0, 0, 0])
}

/// The bytes of P1 in both versions, and its equation file, which is the same for both; and the equation file of a case
/// whose transitions differ in labels that have the same names.
fn check_files(calls: &dyn Calls, held: &mut Held) -> Check {
    let (p1, named) = (runs()[0].case.bytes(), named_runs()[0].case.bytes());
    held.to("P1's length", p1.len(), 54)?;
    held.to("P1's offsets", p1[14..20].to_vec(), vec![20, 0, 38, 0, 42, 0])?;
    held.to("P1's length, version 2", named.len(), 72)?;
    let header = [2, 0, 3, 0, 3, 0, 2, 0, 0, 0, 1, 0, 3, 0, 38, 0, 56, 0, 60, 0, 22, 0];
    held.to("P1's header, version 2", named[..22].to_vec(), header.to_vec())?;
    let records = [255, 0, 0, 0, 0, 0, 0, 0, 254, 0, 0, 0, 0, 0, 0, 0];
    held.to("P1's label records", named[22..38].to_vec(), records.to_vec())?;
    held.to("P1's tables in both versions", &named[38..], &p1[20..])?;
    for bytes in [p1, named] {
        let mut file = [0; 160];
        held.to("P1 translated", calls.translate(&bytes, &mut file), Numbers::written(160))?;
        held.to("P1's equation file", file.to_vec(), p1_file())?;
    }
    let mut file = [0; 124];
    let translated = calls.translate(&worked::alike_ends().bytes(), &mut file);
    held.to("alike labels between equal ends, translated", translated, Numbers::written(124))?;
    held.to("their equation file", file.to_vec(), worked::alike_ends_file())
}

/// P1 with too small a limit and with memory that is too short: the numbers of its records are answered all the same.
fn check_refused_runs(calls: &dyn Calls, p1: &[u8], held: &mut Held) -> Check {
    let (mut work, mut marks) = ([9; 9], [9; 4]);
    let refused = |refusal| answer([refusal, 0, 0, 0], [3, 2]);
    // P1 needs 4 rounds. Where it is spent it pays a started thousand of the limit, and nothing for limit 0.
    for (limit, cents) in [(3, 2), (0, 0)] {
        let mut file = [0; 160];
        let spent = calls.equation(p1, &mut file, &mut work, &mut marks, limit);
        held.to("P1 with limit 3 or 0, equations", spent, EquationNumbers { run: refused(14), cents })?;
        held.to("P1's equation file after 14", file.to_vec(), p1_file())?;
        held.to("P1 with limit 3 or 0, direct", calls.direct(p1, &mut marks, limit), refused(14))?;
    }
    // Whether 13 comes before the file is written or after, it costs nothing.
    let short = EquationNumbers { run: refused(13), cents: 0 };
    for (file_size, work_size, mark_size) in [(159, 9, 4), (160, 8, 4), (160, 9, 3)] {
        let mut file = vec![0; file_size];
        let (work, marks) = (&mut work[..work_size], &mut marks[..mark_size]);
        held.to("P1 with short memory", calls.equation(p1, &mut file, work, marks, 4), short)?;
        let left = if file_size < 160 { vec![0; file_size] } else { p1_file() };
        held.to("P1's equation file after 13", file, left)?;
    }
    held.to("P1 with marks of 3 words, direct", calls.direct(p1, &mut marks[..3], 4), refused(13))?;
    held.to("marks after 13 and 14", marks, [9; 4])
}

/// The table's examples for 11 to 14, and P1's file solved.
fn check_solve(calls: &dyn Calls, file: &[u8], held: &mut Held) -> Check {
    let (mut work, mut marks) = ([9; 9], [9; 4]);
    held.to("11: an empty file", calls.solve(&[], &mut work, &mut marks, 9).refusal, 11)?;
    let own_operand = Equations {
        states: 1,
        initial: 0,
        blocks: vec![Block { greatest: true, first: 0 }],
        cells: vec![Cell::And(vec![0])],
    };
    held.to("12: cell 0 with operand 0", calls.solve(&own_operand.bytes(), &mut work, &mut marks, 9).refusal, 12)?;
    held.to("13: marks of 3 words", calls.solve(file, &mut work, &mut marks[..3], 9).refusal, 13)?;
    held.to("14: limit 0", calls.solve(file, &mut work, &mut marks, 0).refusal, 14)?;
    held.to("P1 solved", calls.solve(file, &mut work, &mut marks, 4).rounds, 4)?;
    held.to("P1's marks", marks, [7, 0, 0, 0])?;
    held.to("P1's working bytes", work, [1; 9])
}
