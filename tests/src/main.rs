//! Runs all tests of the built library and programs: `cargo run --release --manifest-path tests/Cargo.toml`, after `bash tools/build`, which
//! builds them. The first failure ends it with a non-zero status.
//! An argument is another seed to start from.

mod edited;
mod library;
mod planted;

use bithrowy_tests::compare::{Check, Comparison, Sizes, Solving, Tally, Truth};
use bithrowy_tests::editing::slips::Editor;
use bithrowy_tests::formats::*;
use bithrowy_tests::generate::{self, Size};
use bithrowy_tests::names::BROUGHT_UP;
use bithrowy_tests::random::Random;
use bithrowy_tests::reader::{read_case, CASE_CONDITIONS};
use bithrowy_tests::rules::Broken;
use bithrowy_tests::slips::{Reference, Slip, SLIPS};
use bithrowy_tests::{
    case_rules, copies, counted, damage, edges, laws, lent, listing, paper, price, priced, program, reach, reach_laws,
    rules, shrink, stream, tables, worked,
};
use library::Library;
use std::path::Path;
use std::process::exit;
use std::time::Instant;

/// Cell values that the reference works out at most for one file, in ordinary groups and for large files.
const BUDGET: u64 = 250_000;
const LARGE_BUDGET: u64 = 60_000_000;

/// Of the files that thousands of seeds give so many are accepted at least. Measured from three first seeds: 2,586 (damaged
/// cases) and more.
const LEAST_ACCEPTED: u64 = 2_000;
/// Of the accepted ones at least one in so many is solved by search as well, in each route. Measured: one in 4.0 (cases in
/// direct) to one in 5.7 (damaged cases in the equation route).
const SEARCHED_ONE_IN: u64 = 8;
/// And at most one in so many has more rounds than the cap, in each route. Measured: at most one in 258 (damaged cases in
/// the equation route), and none of the largest cases.
const CAPPED_ONE_IN: u64 = 100;
/// Of the accepted cases at least one in so many has recorded copies. Measured: two in three.
const COPIED_ONE_IN: u64 = 2;
/// Of the accepted cases at least one in so many has marked states that are not reached. Measured: one in 2.2.
const UNCOUNTED_ONE_IN: u64 = 5;
/// Of the accepted cases at least one in so many is of version 1, and one in so many of version 2. Measured: one in two.
const VERSION_ONE_IN: u64 = 3;
/// Of the accepted cases of version 2 at least one in so many brings up each thing that names can. Measured: one in 2.8
/// (labels that are unused, in cases) to one in 7.2 (silent labels, in damaged cases).
const BROUGHT_UP_ONE_IN: u64 = 10;

/// What kind of file a test is about.
#[derive(Clone, Copy, PartialEq, Eq)]
enum Kind {
    Case,
    Equations,
}

impl Kind {
    /// Bytes of a number.
    fn width(self) -> usize {
        match self {
            Kind::Case => 2,
            Kind::Equations => 4,
        }
    }

    /// What the reference says of a file.
    fn truth(self, comparison: &mut Comparison, bytes: &[u8]) -> Result<Truth, String> {
        match self {
            Kind::Case => comparison.case_truth(bytes).map(Truth::Case),
            Kind::Equations => comparison.file_truth(bytes).map(Truth::File),
        }
    }

    fn compare(self, comparison: &mut Comparison, bytes: &[u8]) -> Check {
        let truth = self.truth(comparison, bytes)?;
        comparison.held_to(bytes, &truth)
    }

    /// A well-formed file (a case may have too many blocks).
    fn generated(self, random: &mut Random) -> Vec<u8> {
        match self {
            Kind::Case => generate::case(random).bytes(),
            Kind::Equations => generate::equations(random).bytes(),
        }
    }

    /// How the reference solved such files, in each route that they go.
    fn routes(self, tally: &Tally) -> Vec<(&'static str, Solving)> {
        let equations = ("equations", tally.equations);
        match self {
            Kind::Case => vec![equations, ("direct", tally.direct)],
            Kind::Equations => vec![equations],
        }
    }

    fn listing(self, bytes: &[u8]) -> String {
        match self {
            Kind::Case => listing::case(bytes),
            Kind::Equations => listing::file(bytes),
        }
    }

    fn smaller(self) -> fn(&[u8]) -> Vec<Vec<u8>> {
        match self {
            Kind::Case => shrink::smaller_cases,
            Kind::Equations => shrink::smaller_files,
        }
    }
}

/// Files made one by one from seeds and compared with the library.
struct Group {
    name: &'static str,
    kind: Kind,
    sizes: Sizes,
    budget: u64,
    tally: Tally,
    start: Instant,
}

impl Group {
    fn new(name: &'static str, kind: Kind) -> Group {
        Group { name, kind, sizes: Sizes::Some, budget: BUDGET, tally: Tally::default(), start: Instant::now() }
    }

    fn compare(&mut self, seed: u64, bytes: &[u8]) {
        let mut comparison = Comparison::new(&Library, self.sizes, self.budget, seed);
        if let Err(text) = self.kind.compare(&mut comparison, bytes) {
            self.fail(seed, bytes, &text);
        }
        self.tally.add(&comparison.tally);
    }

    fn fail(&self, seed: u64, bytes: &[u8], text: &str) -> ! {
        println!("FAILED {}, seed {seed}: {text}\n{}", self.name, self.kind.listing(bytes));
        let check = |bytes: &[u8]| {
            let mut comparison = Comparison::new(&Library, self.sizes, self.budget, seed);
            self.kind.compare(&mut comparison, bytes)
        };
        let small = shrink::smallest(bytes, self.kind.smaller(), &mut |bytes| check(bytes).is_err());
        let text = check(&small).expect_err("still fails");
        println!("smallest found: {text}\n{}\nbytes {small:?}", self.kind.listing(&small));
        exit(1)
    }

    /// Few accepted files had more rounds than the cap, in each route.
    fn assert_few_capped(&self) {
        for (route, solving) in self.kind.routes(&self.tally) {
            let few = solving.capped * CAPPED_ONE_IN <= self.tally.refused[0];
            assert!(few, "{}, {route}: {} above the cap", self.name, solving.capped);
        }
    }

    /// Many files were accepted, many of them solved by search as well, and few were capped, in each route.
    fn assert_many_searched(&self) {
        let accepted = self.tally.refused[0];
        assert!(accepted >= LEAST_ACCEPTED, "{}: only {accepted} accepted", self.name);
        for (route, solving) in self.kind.routes(&self.tally) {
            let many = solving.searched * SEARCHED_ONE_IN >= accepted;
            assert!(many, "{}, {route}: only {} of {accepted} searched", self.name, solving.searched);
        }
        self.assert_few_capped();
    }

    /// Many of the accepted cases have recorded copies.
    fn assert_many_copied(&self) {
        let (copied, accepted) = (self.tally.copied, self.tally.refused[0]);
        assert!(copied * COPIED_ONE_IN >= accepted, "{}: only {copied} of {accepted} with copies", self.name);
    }

    /// Many of the accepted cases have marked states that are not counted.
    fn assert_many_uncounted(&self) {
        let (uncounted, accepted) = (self.tally.uncounted, self.tally.refused[0]);
        let many = uncounted * UNCOUNTED_ONE_IN >= accepted;
        assert!(many, "{}: only {uncounted} of {accepted} mark states that are not reached", self.name);
    }

    /// Many of the accepted cases are of each version, and many of version 2 bring up what names can.
    fn assert_both_versions(&self) {
        let (named, accepted) = (self.tally.named, self.tally.refused[0]);
        for count in [named, accepted - named] {
            assert!(count * VERSION_ONE_IN >= accepted, "{}: {named} of {accepted} of version 2", self.name);
        }
        for (count, what) in self.tally.brought_up.iter().zip(BROUGHT_UP) {
            assert!(count * BROUGHT_UP_ONE_IN >= named, "{}: only {count} of {named} {what}", self.name);
        }
    }

    /// Prints the group's line. Each file was compared at least twice.
    fn end(self) {
        let tally = self.tally;
        assert!(tally.files() > 0 && tally.calls >= 2 * tally.files(), "{}: nothing compared", self.name);
        let refused: Vec<String> =
            (1..16).filter(|&k| tally.refused[k] > 0).map(|k| format!("{k}: {}", tally.refused[k])).collect();
        let refused = if refused.is_empty() { "none".to_string() } else { refused.join(", ") };
        let text = |(route, solving): (&str, Solving)| {
            format!("{route}: {} searched, {} above the cap", solving.searched, solving.capped)
        };
        let mut accepted: Vec<String> = self.kind.routes(&tally).into_iter().map(text).collect();
        if self.kind == Kind::Case {
            let brought_up = tally.brought_up.iter().zip(BROUGHT_UP).map(|(count, what)| format!("{what}: {count}"));
            let Tally { copied, uncounted, named, .. } = tally;
            accepted.push(format!("with copies: {copied}, some uncounted: {uncounted}, version 2: {named}"));
            accepted.extend(brought_up);
        }
        println!(
            "{}: {} files, {} accepted ({}), refused {refused}; {} calls; {:.1} s",
            self.name,
            tally.files(),
            tally.refused[0],
            accepted.join(", "),
            tally.calls,
            self.start.elapsed().as_secs_f64()
        );
    }
}

/// Ends the run if a check failed, else prints how much was compared.
fn report(name: &str, start: Instant, result: Result<u64, String>) {
    match result {
        Ok(compared) => println!("{name}: {compared} compared; {:.1} s", start.elapsed().as_secs_f64()),
        Err(text) => {
            println!("FAILED {name}: {text}");
            exit(1)
        }
    }
}

fn main() {
    let seed = std::env::args().nth(1).map_or(1, |text| text.parse().expect("a seed"));
    let start = Instant::now();
    by_hand();
    each_rule(seed, Kind::Case, "cases, each rule of 1 to 10 and 15 in both versions, and pairs");
    each_rule(seed, Kind::Equations, "equation files, each rule of 11 and 12 and pairs");
    cases(seed);
    report("changes of names that change nothing, library", Instant::now(), laws::check(&Library, seed));
    report("larger limits for solved runs, library", Instant::now(), laws::larger_limits(&Library, seed));
    laws_of_reach(seed);
    known_prices(seed);
    all_sizes(seed);
    tables_of_copies(seed);
    damaged_cases(seed);
    every_number(seed, Kind::Case, "cases damaged at every number", 20);
    every_length(seed, Kind::Case, "cases cut at every length", 8);
    equation_files(seed);
    damaged_files(seed);
    every_number(seed, Kind::Equations, "equation files damaged at every number", 12);
    every_length(seed, Kind::Equations, "equation files cut at every length", 6);
    large(seed);
    let root = Path::new(env!("CARGO_MANIFEST_DIR")).join("..");
    runs_cases();
    report("files of the program runs, bytes", Instant::now(), stream::files(&root.join("crates/runs")));
    planted::check(seed);
    edited::check(seed, &root);
    let programs = root.join("target/bin");
    report("program twosides", Instant::now(), program::twosides(&programs));
    report("program solvefile", Instant::now(), program::solvefile(&programs));
    report("program editor", Instant::now(), program::editor(&programs));
    println!("all passed; {:.1} s", start.elapsed().as_secs_f64());
}

/// What is worked out by hand, or known without working anything out.
fn by_hand() {
    report("paper, reference", Instant::now(), paper::check(&Reference(None)));
    report("paper, library", Instant::now(), paper::check(&Library));
    report("prices worked out by hand", Instant::now(), price::check());
    report("cases with prices worked out by hand, reference", Instant::now(), priced::check(&Reference(None)));
    report("cases with prices worked out by hand, library", Instant::now(), priced::check(&Library));
    report("marks at the edges of words, reference", Instant::now(), edges::check(&Reference(None)));
    report("marks at the edges of words, library", Instant::now(), edges::check(&Library));
    for slip in [Slip::WordUncounted, Slip::AllCounted, Slip::OnePass, Slip::AcceptedFollowed] {
        assert!(edges::check(&Reference(Some(slip))).is_err(), "{slip:?} is noticed there");
    }
    for slip in SLIPS.into_iter().filter(|slip| slip.in_reach()) {
        assert!(paper::check(&Reference(Some(slip))).is_err(), "{slip:?} is noticed in cases worked out by hand");
    }
    report("states that are reached, worked out by hand", Instant::now(), reach::check());
    report("lent places and guards, each element touched", Instant::now(), lent::check());
}

/// The laws of what is counted, which nearly all slips in it break.
fn laws_of_reach(seed: u64) {
    let (start, rules) = (Instant::now(), Editor(None));
    report("laws of the count, reference", start, reach_laws::check(&Reference(None), &rules, seed));
    report("laws of the count, library", Instant::now(), reach_laws::check(&Library, &Library, seed));
    report("laws of the count, slips", Instant::now(), reach_laws::check_slips(seed));
}

/// A file for each rule of each condition, and files that break two rules.
fn each_rule(seed: u64, kind: Kind, name: &'static str) {
    let mut group = Group::new(name, kind);
    let (broken, twice) = match kind {
        Kind::Case => (case_rules::broken_cases(), case_rules::twice_broken_cases()),
        Kind::Equations => (rules::broken_files(), rules::twice_broken_files()),
    };
    if kind == Kind::Case {
        assert_each_condition(&broken);
    }
    for file in broken {
        let before = group.tally.refused[file.refusal as usize];
        group.compare(seed, &file.bytes);
        let counted = group.tally.refused[file.refusal as usize] == before + 1;
        assert!(counted, "reference: {} is not refused with {}", file.rule, file.refusal);
    }
    for bytes in twice {
        group.compare(seed, &bytes);
    }
    group.end();
}

/// Each condition on cases turns away a file of each version; 15 is of version 2 alone.
fn assert_each_condition(broken: &[Broken]) {
    for version in VERSIONS {
        let of_version =
            |file: &&Broken| file.bytes.len() >= 2 && damage::number_at(&file.bytes, 0, 2) == version as u64;
        let refused = |number: u64| broken.iter().filter(of_version).any(|file| file.refusal == number);
        // A file of an unknown version is refused with 2 and says no version that exists.
        let missing = CASE_CONDITIONS.into_iter().filter(|&number| number != 2 && !refused(number));
        let expected = if version == 1 { vec![15] } else { Vec::new() };
        assert_eq!(missing.collect::<Vec<_>>(), expected, "conditions without a file of version {version}");
    }
}

fn cases(seed: u64) {
    let mut group = Group::new("cases", Kind::Case);
    for seed in seed..seed + 25_000 {
        group.compare(seed, &group.kind.generated(&mut Random::new(seed)));
    }
    assert!(group.tally.refused[0] >= 20_000, "20,000 accepted cases");
    group.assert_many_searched();
    group.assert_many_copied();
    group.assert_many_uncounted();
    group.assert_both_versions();
    group.end();
}

/// Cases with prices worked out by hand, at limits and lent sizes around the needed ones.
fn known_prices(seed: u64) {
    let mut group = Group { budget: LARGE_BUDGET, ..Group::new("cases with known prices", Kind::Case) };
    for priced in priced::all() {
        group.compare(seed, &priced.case.bytes());
    }
    assert_eq!((group.tally.refused[0], group.tally.equations.capped), (group.tally.files(), 0), "all are solved");
    group.end();
}

/// All combinations of lent sizes around the needed ones.
fn all_sizes(seed: u64) {
    let mut group = Group { sizes: Sizes::All, ..Group::new("cases, all lent sizes", Kind::Case) };
    for run in [paper::runs(), paper::named_runs(), worked::runs(), counted::runs()].concat() {
        group.compare(seed, &run.case.bytes());
    }
    for seed in seed..seed + 150 {
        group.compare(seed, &generate::case_of(&mut Random::new(seed), Size::Tiny).bytes());
    }
    group.end();
}

/// Tables whose distinct records are counted by hand.
fn tables_of_copies(seed: u64) {
    let mut group = Group::new("cases over tables of copies", Kind::Case);
    for table in copies::tables() {
        let by_hand = (table.triples.len() as u64, table.distinct as u64);
        for case in table.cases() {
            let recorded = tables::recorded(&case.transitions);
            assert_eq!((recorded.records, recorded.distinct), by_hand, "reference: {}", table.name);
            group.compare(seed, &case.bytes());
        }
    }
    assert_eq!(group.tally.refused[0], group.tally.files(), "all are accepted");
    group.end();
}

fn damaged_cases(seed: u64) {
    let mut group = Group::new("damaged cases", Kind::Case);
    for seed in seed..seed + 10_000 {
        let mut random = Random::new(seed);
        let mut bytes = generate::case(&mut random).bytes();
        for _ in 0..random.pick(&[1, 1, 1, 2]) {
            if bytes.len() >= CASE_HEADER {
                bytes = damage::damaged(&mut random, &bytes, 2);
            }
        }
        group.compare(seed, &bytes);
    }
    let each = CASE_CONDITIONS.iter().all(|&number| group.tally.refused[number as usize] > 0);
    assert!(each, "a case for each of 1 to 10 and 15");
    group.assert_many_searched();
    group.assert_many_copied();
    group.assert_many_uncounted();
    group.assert_both_versions();
    group.end();
}

/// A file of moderate length: a case, its equation file, or other equations. Seeds one after another take turns in the
/// versions.
fn base(seed: u64, kind: Kind) -> Vec<u8> {
    let mut random = Random::new(seed);
    loop {
        let case = generate::case_in(&mut random, Size::Tiny, VERSIONS[seed as usize % 2]);
        let bytes = match kind {
            Kind::Case => case.bytes(),
            Kind::Equations if random.chance(1, 2) && read_case(&case.bytes()).is_ok() => {
                tables::equations(&case).bytes()
            }
            Kind::Equations => generate::equations(&mut random).bytes(),
        };
        if (80..600).contains(&bytes.len()) {
            return bytes;
        }
    }
}

/// Every number of some files in turn changed to each of a list of others.
fn every_number(seed: u64, kind: Kind, name: &'static str, files: u64) {
    let mut group = Group::new(name, kind);
    let width = kind.width();
    for seed in seed..seed + files {
        let bytes = base(seed, kind);
        for at in (0..bytes.len()).step_by(width) {
            for other in damage::other_numbers(damage::number_at(&bytes, at, width), width) {
                group.compare(seed, &damage::with_number(&bytes, at, width, other));
            }
        }
    }
    group.end();
}

/// Every shorter and some longer version of some files.
fn every_length(seed: u64, kind: Kind, name: &'static str, files: u64) {
    let mut group = Group::new(name, kind);
    for seed in seed..seed + files {
        let bytes = base(seed, kind);
        let longer = [&bytes[..], &[0; 16]].concat();
        for length in 0..=longer.len() {
            group.compare(seed, &longer[..length]);
        }
    }
    group.end();
}

fn equation_files(seed: u64) {
    let mut group = Group::new("equation files", Kind::Equations);
    for seed in seed..seed + 10_000 {
        group.compare(seed, &group.kind.generated(&mut Random::new(seed)));
    }
    assert_eq!(group.tally.refused[0], group.tally.files(), "all are well-formed");
    group.assert_many_searched();
    group.end();
}

fn damaged_files(seed: u64) {
    let mut group = Group::new("damaged equation files", Kind::Equations);
    for seed in seed..seed + 10_000 {
        let mut random = Random::new(seed);
        let case = generate::case(&mut random);
        let right = if random.chance(1, 3) && read_case(&case.bytes()).is_ok() {
            tables::equations(&case).bytes()
        } else {
            generate::equations(&mut random).bytes()
        };
        group.compare(seed, &damage::damaged(&mut random, &right, 4));
    }
    assert!([11, 12].iter().all(|&number: &usize| group.tally.refused[number] > 0), "a file for 11 and 12");
    group.assert_many_searched();
    group.end();
}

/// Files with all counts at their limits, and one above them.
fn large(seed: u64) {
    let mut group = Group { budget: LARGE_BUDGET, ..Group::new("largest cases", Kind::Case) };
    for (version, length) in [(1, LARGEST_CASE), (2, LARGEST_NAMED_CASE)] {
        for seed in seed..seed + 6 {
            let bytes = generate::case_in(&mut Random::new(seed), Size::Full, version).bytes();
            assert_eq!(bytes.len(), length);
            group.compare(seed, &bytes);
        }
    }
    group.compare(seed, &worked::largest().bytes());
    assert_eq!((group.tally.refused[0], group.tally.named), (13, 7), "all are accepted");
    group.assert_few_capped();
    group.end();

    let mut group = Group { budget: LARGE_BUDGET, ..Group::new("largest equation files", Kind::Equations) };
    let mut random = Random::new(seed);
    for blocks in [1, 2] {
        let mut equations = generate::equations_with(&mut random, STATES, blocks, CELLS, CELLS / 2, 30);
        fill_operands(&mut equations, &mut random, OPERANDS);
        group.compare(seed, &equations.bytes());
        assert_eq!(group.tally.refused[11], blocks as u64 - 1);
        fill_operands(&mut equations, &mut random, OPERANDS + 1);
        group.compare(seed, &equations.bytes());
    }
    let mut wider = generate::equations_with(&mut random, STATES, 1, CELLS, CELLS / 2, 2);
    group.compare(seed, &wider.bytes());
    wider.cells.push(Cell::And(Vec::new()));
    group.compare(seed, &wider.bytes());
    assert_eq!((group.tally.refused[0], group.tally.refused[11]), (3, 3));
    group.assert_few_capped();
    group.end();
}

/// Drops and adds operands until there are exactly so many.
fn fill_operands(equations: &mut Equations, random: &mut Random, count: usize) {
    let mut left = count;
    let cells = equations.cells.len();
    for cell in &mut equations.cells {
        if let Cell::And(list) | Cell::Or(list) = cell {
            list.truncate(left);
            left -= list.len();
        }
    }
    while left > 0 {
        let i = random.below(cells - 1);
        if let Cell::And(list) | Cell::Or(list) = &mut equations.cells[i] {
            list.push(random.between(i + 1, cells - 1));
            left -= 1;
        }
    }
}

/// The cases of the program `runs`, through the library with the program's limit and buffer.
fn runs_cases() {
    let start = Instant::now();
    let compare = |(i, bytes): (usize, &Vec<u8>)| {
        let (got, expected) = (paper::both_routes(&Library, bytes), stream::reference_answers(bytes));
        if got != expected {
            return Err(format!("case {}: got {got:?}, expected {expected:?}\n{}", i + 1, listing::case(bytes)));
        }
        Ok(())
    };
    let cases = stream::cases();
    let result = cases.iter().enumerate().try_for_each(compare).map(|()| cases.len() as u64);
    report("cases of the program runs, library", start, result);
}
