//! Wrong calls planted in the comparison, which must notice each of them: the paper's slips, slips in the numbers of
//! records, in the names of labels, in the count and in the price, and faults in what the library leaves.

use crate::library::Library;
use crate::{Kind, BUDGET, LARGE_BUDGET};
use bithrowy_tests::calls::Calls;
use bithrowy_tests::compare::{Comparison, Sizes, Truth};
use bithrowy_tests::faults::{Call, Fault, Faulty, FAULTS};
use bithrowy_tests::generate;
use bithrowy_tests::priced;
use bithrowy_tests::random::Random;
use bithrowy_tests::shrink;
use bithrowy_tests::slips::{Reference, Slip, SLIPS};
use std::cell::Cell;
use std::time::Instant;

/// How many files of each kind.
const FILES: u64 = 700;

/// A generated file, with its seed and what the reference says of it, which is worked out once for all wrong calls.
struct Made {
    seed: u64,
    bytes: Vec<u8>,
    truth: Truth,
}

/// How a file is made.
type Make = fn(&mut Random) -> Vec<u8>;

/// Is a slip noticed in some files? None if it is rare, so that it depends on the seed.
type Notice = fn(Slip) -> Option<bool>;

/// Files of a kind.
struct Files {
    name: &'static str,
    kind: Kind,
    budget: u64,
    all: Vec<Made>,
    notice: Notice,
}

impl Files {
    /// Files made by chance from seeds one after another.
    fn new(name: &'static str, kind: Kind, seed: u64, make: Make, notice: Notice) -> Files {
        let made = (seed..seed + FILES).map(|seed| (seed, make(&mut Random::new(seed)))).collect();
        Files { name, kind, budget: BUDGET, all: Vec::new(), notice }.with(made)
    }

    /// The cases whose prices are worked out by hand.
    fn priced(seed: u64) -> Files {
        let made = priced::all().iter().map(|priced| (seed, priced.case.bytes())).collect();
        let name = "cases with known prices";
        let notice: Notice = |slip| Some(slip.in_price());
        Files { name, kind: Kind::Case, budget: LARGE_BUDGET, all: Vec::new(), notice }.with(made)
    }

    /// With these files, and what the reference says of each.
    fn with(mut self, made: Vec<(u64, Vec<u8>)>) -> Files {
        for (seed, bytes) in made {
            let truth = self.kind.truth(&mut self.comparison(&Library, seed), &bytes);
            self.all.push(Made { seed, bytes, truth: truth.expect("the reference agrees with itself") });
        }
        self
    }

    fn comparison<'a>(&self, calls: &'a dyn Calls, seed: u64) -> Comparison<'a> {
        Comparison::new(calls, Sizes::Some, self.budget, seed)
    }

    /// The files on which the comparison notices wrong calls.
    fn noticed(&self, calls: &dyn Calls) -> Vec<&Made> {
        let notices = |made: &&Made| self.comparison(calls, made.seed).held_to(&made.bytes, &made.truth).is_err();
        self.all.iter().filter(notices).collect()
    }

    /// So many files notice a slip, or the reference without one. Is that as it should be?
    fn assert_notice(&self, slip: Option<Slip>, noticed: usize) {
        let expected = slip.map_or(Some(false), self.notice);
        assert!(expected.is_none_or(|some| some == (noticed > 0)), "{slip:?} in {noticed} {}", self.name);
    }

    /// Does it on any file, whatever the reference says of it?
    fn notices(&self, calls: &dyn Calls, seed: u64, bytes: &[u8]) -> bool {
        self.kind.compare(&mut self.comparison(calls, seed), bytes).is_err()
    }

    /// Wrong calls by name, and in how many files they are noticed.
    fn text(&self, name: &str, noticed: usize) -> String {
        format!("{name} in {noticed} {}", self.name)
    }
}

/// Plants the slips and the faults.
pub fn check(seed: u64) {
    let (case, file): (Make, Make) =
        (|random| Kind::Case.generated(random), |random| Kind::Equations.generated(random));
    let of_cases: Notice = |slip| (!slip.is_rare()).then_some(!slip.in_wrong_records());
    let (of_files, of_misnamed): (Notice, Notice) =
        (|slip| Some(slip.in_solver()), |slip| Some(slip.in_wrong_records()));
    let cases = Files::new("cases", Kind::Case, seed, case, of_cases);
    let equations = Files::new("equation files", Kind::Equations, seed, file, of_files);
    let misnamed = Files::new("cases with wrong records", Kind::Case, seed, generate::misnamed, of_misnamed);
    slips(&[&cases, &equations, &misnamed]);
    prices(&Files::priced(seed));
    for fault in FAULTS {
        faults(fault, &cases, &equations, &misnamed);
    }
}

/// The comparison passes the reference itself, notices each slip but for rare ones, and a noticed file is made smaller.
fn slips(kinds: &[&Files]) {
    let start = Instant::now();
    let mut counts = Vec::new();
    for slip in [None].into_iter().chain(SLIPS.map(Some)) {
        let calls = Reference(slip);
        for files in kinds {
            let noticed = files.noticed(&calls);
            files.assert_notice(slip, noticed.len());
            if let Some(Made { seed, bytes, .. }) = noticed.first() {
                let mut notices = |bytes: &[u8]| files.notices(&calls, *seed, bytes);
                let small = shrink::smallest(bytes, files.kind.smaller(), &mut notices);
                assert!(notices(&small) && small.len() <= bytes.len());
                let text = files.text(&format!("{:?}", calls.0.unwrap()), noticed.len());
                counts.push(format!("{text} (smallest found {} bytes)", small.len()));
            }
        }
    }
    println!("slips, noticed of {FILES}: {}; {:.1} s", counts.join(", "), start.elapsed().as_secs_f64());
}

/// The comparison passes the reference itself on cases whose prices are worked out by hand, and notices each slip of the
/// price there, rare ones too; and so do the prices alone. A smaller case has other counts, so none is made smaller.
fn prices(files: &Files) {
    let start = Instant::now();
    let mut counts = Vec::new();
    for slip in [None].into_iter().chain(SLIPS.into_iter().filter(|slip| slip.in_price()).map(Some)) {
        let calls = Reference(slip);
        let noticed = files.noticed(&calls).len();
        files.assert_notice(slip, noticed);
        assert_eq!(priced::check(&calls).is_err(), slip.is_some(), "{slip:?}, known prices");
        counts.extend(slip.map(|slip| format!("{slip:?} in {noticed}")));
    }
    let (count, time) = (files.all.len(), start.elapsed().as_secs_f64());
    println!("slips of the price, noticed of {count} {}: {}; {time:.1} s", files.name, counts.join(", "));
}

/// Each time that a fault spoils a lent place the comparison notices it, and in each call it does so in some files.
fn faults(fault: Fault, cases: &Files, equations: &Files, misnamed: &Files) {
    let start = Instant::now();
    let mut counts = Vec::new();
    for at in fault.places() {
        // Of the calls only solve takes equation files, and only the others refuse cases.
        let kinds = match (at.0, fault) {
            (Call::Solve, _) => vec![cases, equations],
            (_, Fault::TouchedRefused) => vec![cases, misnamed],
            _ => vec![cases],
        };
        for files in kinds {
            let calls = Faulty { calls: &Library, fault, at, spoilt: Cell::new(0) };
            let noticed = files.noticed(&calls).len();
            let text = files.text(&format!("{:?} {:?}", at.0, at.1), noticed);
            assert!(noticed > 0, "{fault:?}: {text}");
            // The first difference ends a comparison, so each noticed file has one.
            assert_eq!(noticed as u64, calls.spoilt.get(), "{fault:?}: {text}");
            counts.push(text);
        }
    }
    println!("{fault:?}, noticed of {FILES}: {}; {:.1} s", counts.join(", "), start.elapsed().as_secs_f64());
}
