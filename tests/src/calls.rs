//! The calls under test, as a caller sees them: four on files, and four that open and change a model.

use crate::formats::Transition;
use crate::reach;

/// The five numbers that translate and solve answer; verdict, count and rounds are 0 after a refusal.
#[repr(C)]
#[derive(Clone, Copy, Debug, Default, PartialEq, Eq)]
pub struct Numbers {
    pub refusal: u64,
    pub verdict: u64,
    pub count: u64,
    pub rounds: u64,
    pub length: u64,
}

impl Numbers {
    /// The answer of a refusal.
    pub fn refused(refusal: u64) -> Numbers {
        Numbers { refusal, ..Numbers::default() }
    }

    /// The answer of translate: the file's length.
    pub fn written(length: usize) -> Numbers {
        Numbers { length: length as u64, ..Numbers::default() }
    }

    /// The report of solve on a set of states, all of which it counts.
    pub fn report(set: &[bool], initial: usize, rounds: u64) -> Numbers {
        let count = set.iter().filter(|&&marked| marked).count() as u64;
        Numbers { refusal: 0, verdict: set[initial] as u64, count, rounds, length: 0 }
    }

    /// The report of a route over a case, which counts those of the set that are reached.
    pub fn route_report(set: &[bool], reached: &[bool], initial: usize, rounds: u64) -> Numbers {
        Numbers { count: reach::count(set, reached), ..Numbers::report(set, initial, rounds) }
    }
}

/// How many records the transition table of an accepted case has, and how many of them are distinct.
#[derive(Clone, Copy, Debug, Default, PartialEq, Eq)]
pub struct Recorded {
    pub records: u64,
    pub distinct: u64,
}

/// The six numbers that a route over a case answers; verdict, count and rounds are 0 after a refusal, and records and
/// distinct if the case is not accepted.
#[repr(C)]
#[derive(Clone, Copy, Debug, Default, PartialEq, Eq)]
pub struct RouteNumbers {
    pub refusal: u64,
    pub verdict: u64,
    pub count: u64,
    pub rounds: u64,
    pub records: u64,
    pub distinct: u64,
}

impl RouteNumbers {
    /// The answer on a case that is not accepted.
    pub fn refused(refusal: u64) -> RouteNumbers {
        RouteNumbers { refusal, ..RouteNumbers::default() }
    }

    /// A report or a refusal, with what is recorded.
    pub fn with(answer: Numbers, recorded: Recorded) -> RouteNumbers {
        let Numbers { refusal, verdict, count, rounds, .. } = answer;
        let Recorded { records, distinct } = recorded;
        RouteNumbers { refusal, verdict, count, rounds, records, distinct }
    }

    pub fn recorded(self) -> Recorded {
        Recorded { records: self.records, distinct: self.distinct }
    }
}

/// The seven numbers that the equation route answers: those of a route, and what the run costs.
#[repr(C)]
#[derive(Clone, Copy, Debug, Default, PartialEq, Eq)]
pub struct EquationNumbers {
    pub run: RouteNumbers,
    pub cents: u64,
}

impl EquationNumbers {
    /// The answer on a case that is not accepted, which costs nothing.
    pub fn refused(refusal: u64) -> EquationNumbers {
        EquationNumbers { run: RouteNumbers::refused(refusal), cents: 0 }
    }
}

/// How many mark words a call needs.
pub const MARK_WORDS: usize = 4;

/// A set of states as mark words: state s is bit s mod 64 of word s / 64.
pub fn mark_words(set: &[bool]) -> [u64; MARK_WORDS] {
    let mut words = [0; MARK_WORDS];
    for s in (0..set.len()).filter(|&s| set[s]) {
        words[s / 64] |= 1 << (s % 64);
    }
    words
}

pub trait Calls {
    fn translate(&self, case: &[u8], file: &mut [u8]) -> Numbers;
    fn solve(&self, file: &[u8], work: &mut [u8], marks: &mut [u64], limit: u64) -> Numbers;
    fn direct(&self, case: &[u8], marks: &mut [u64], limit: u64) -> RouteNumbers;
    fn equation(&self, case: &[u8], file: &mut [u8], work: &mut [u8], marks: &mut [u64], limit: u64)
        -> EquationNumbers;
}

/// The calls of an editor. A model is lent bytes; the numbers of a transition have 64 bits; a call answers its refusal
/// number, or 0, and a want what direct answers.
pub trait Edits {
    fn open(&self, case: &[u8], model: &mut [u8]) -> u64;
    fn add(&self, model: &mut [u8], transition: Transition) -> u64;
    fn drop(&self, model: &mut [u8], transition: Transition) -> u64;
    fn want(&self, model: &[u8], marks: &mut [u64], limit: u64) -> RouteNumbers;
}
