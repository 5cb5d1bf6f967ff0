//! Random models and formulas as text: read and checked by `front`, and held against relations on states, against the
//! independent checker of the case file, and against counts on the formula as it is written.

mod support;

use bithrowy_front::check::Checked;
use bithrowy_front::expand::WRITTEN_OUT;
use std::collections::BTreeMap;
use support::comparison::{compare, Outcome, RIGHT};
use support::expected::{BLOCKS, COUNT, SPENT};
use support::trial::Trial;
use support::{counting, shrinking};

/// How many trials there are, and on how many threads.
const TRIALS: u64 = 14_000;
const THREADS: u64 = 4;

/// How often each thing has to be met, so that the trials say something about it: about half as often as it is. Only of
/// the accepted ones ten thousand are needed.
const AT_LEAST: [(&str, u64); 24] = [
    ("accepted", 10_000),
    ("true", 3_000),
    ("false", 3_000),
    ("neither none nor all", 3_000),
    ("version 1", 3_000),
    ("version 2", 3_000),
    ("another silent word", 1_500),
    ("repeated runs", 2_000),
    ("two repeated runs", 700),
    ("negations", 3_500),
    ("three negations", 700),
    ("binders in binders", 2_500),
    ("more than 20 rounds", 800),
    ("large models", 80),
    ("copies", 3_000),
    ("no transitions", 50),
    ("states beyond reach", 3_000),
    ("all states within reach", 1_000),
    ("a wrong variable", 100),
    ("a wrong label", 300),
    ("a count out of range", 150),
    ("too many blocks", 600),
    ("spent", 25),
    ("too large to be written out", 10),
];

/// How often things were met.
#[derive(Default)]
struct Seen(BTreeMap<&'static str, u64>);

impl Seen {
    fn count(&mut self, what: &'static str, seen: bool) {
        *self.0.entry(what).or_default() += seen as u64;
    }

    fn add(&mut self, trial: &Trial, outcome: &Outcome) {
        self.count("accepted", matches!(outcome, Outcome::Accepted(..)));
        self.count("a wrong variable", matches!(outcome, Outcome::WrongVariable));
        self.count("a wrong label", matches!(outcome, Outcome::WrongLabel));
        self.count("too large to be written out", counting::size(&trial.formula).nodes > WRITTEN_OUT as u64);
        self.count("a count out of range", matches!(outcome, Outcome::Refused(COUNT)));
        self.count("too many blocks", matches!(outcome, Outcome::Refused(BLOCKS)));
        self.count("spent", matches!(outcome, Outcome::Refused(SPENT)));
        if let Outcome::Accepted(checked, version) = outcome {
            self.add_answer(trial, checked, *version);
        }
    }

    fn add_answer(&mut self, trial: &Trial, checked: &Checked, version: usize) {
        let some = checked.holds.iter().any(|&holds| holds);
        let all = checked.holds.iter().all(|&holds| holds);
        let reached = checked.reached.iter().all(|&on| on);
        self.count("true", checked.verdict);
        self.count("false", !checked.verdict);
        self.count("version 1", version == 1);
        self.count("version 2", version == 2);
        self.count("repeated runs", counting::repetitions(&trial.formula) > 0);
        self.count("two repeated runs", counting::repetitions(&trial.formula) > 1);
        self.count("negations", counting::negations(&trial.formula) > 0);
        self.count("three negations", counting::negations(&trial.formula) > 2);
        self.count("binders in binders", counting::nesting(&trial.formula) > 1);
        self.count("neither none nor all", some && !all);
        self.count("states beyond reach", !reached);
        self.count("all states within reach", reached);
        self.count("large models", trial.system.states > 64);
        self.count("copies", checked.distinct < checked.records);
        self.count("no transitions", trial.system.transitions.is_empty());
        self.count("another silent word", trial.system.silent == "i");
        self.count("more than 20 rounds", checked.equation_rounds > 20);
    }

    fn merge(&mut self, other: Seen) {
        for (what, count) in other.0 {
            *self.0.entry(what).or_default() += count;
        }
    }
}

/// Compares each of a thread's trials.
fn compare_every(first: u64) -> Seen {
    let mut seen = Seen::default();
    for seed in (first..TRIALS).step_by(THREADS as usize) {
        let trial = Trial::random(seed);
        match compare(&trial, &RIGHT) {
            Ok(outcome) => seen.add(&trial, &outcome),
            Err(difference) => panic!("trial {seed}: {}", shrinking::report(&trial, &RIGHT, difference)),
        }
    }
    seen
}

#[test]
fn random_texts_mean_what_relations_and_the_checker_of_case_files_say() {
    let mut seen = Seen::default();
    std::thread::scope(|scope| {
        let threads: Vec<_> = (0..THREADS).map(|first| scope.spawn(move || compare_every(first))).collect();
        for thread in threads {
            seen.merge(thread.join().unwrap_or_else(|cause| std::panic::resume_unwind(cause)));
        }
    });
    for (what, least) in AT_LEAST {
        let count = seen.0.get(what).copied().unwrap_or(0);
        assert!(count >= least, "{what}: {count} of {TRIALS}, at least {least} are needed");
    }
}
