//! Compares the calls of an editor on one model with the rules and, once a case is opened, with a plain set: the numbers
//! answered, every byte of the model and of its guards, and the marks.

use super::held::Held;
use super::rules::{self, After};
use crate::calls::{Calls, Edits, RouteNumbers, MARK_WORDS};
use crate::compare::{same, unchanged, Check, DirectTruth};
use crate::formats::*;
use crate::lent::Lent;
use crate::meaning;
use crate::paper::FILE_BUFFER;
use crate::random::Random;
use crate::reader::read_case;
use std::fmt::Debug;

/// A call on a model.
#[derive(Clone, Debug, PartialEq)]
pub enum Call {
    Open(Vec<u8>),
    Add(Transition),
    Drop(Transition),
    /// So many mark words, and the place of the limit among those that are tried.
    Want {
        words: usize,
        limit: usize,
    },
}

/// The names of the calls, by which answers are counted.
pub const CALLS: [&str; 4] = ["open", "add", "drop", "want"];

impl Call {
    fn place(&self) -> usize {
        match self {
            Call::Open(_) => 0,
            Call::Add(_) => 1,
            Call::Drop(_) => 2,
            Call::Want { .. } => 3,
        }
    }
}

/// A model as it is lent, and calls on it one after another.
#[derive(Clone)]
pub struct List {
    pub model: Vec<u8>,
    pub calls: Vec<Call>,
}

/// The largest refusal number of these calls.
const LARGEST_NUMBER: usize = 17;

/// What was compared.
#[derive(Clone, Debug, Default)]
pub struct Tally {
    pub lists: u64,
    /// Answers by call and number; 0 for accepted calls.
    pub answers: [[u64; LARGEST_NUMBER + 1]; 4],
    /// Opened cases of version 2.
    pub named: u64,
    /// Adds of a transition that is held, and those of them while as many are held as there may be.
    pub held_again: u64,
    pub held_full: u64,
    /// Models handed to both routes, where both answered a report.
    pub both_routes: u64,
}

impl Tally {
    /// All calls compared.
    pub fn calls(&self) -> u64 {
        self.answers.as_flattened().iter().sum()
    }

    /// How often a call answered a number.
    pub fn answered(&self, call: &str, number: usize) -> u64 {
        let place = CALLS.iter().position(|&name| name == call).expect("a call by its name");
        self.answers[place][number]
    }

    pub fn add(&mut self, other: &Tally) {
        let pairs = self.answers.as_flattened_mut().iter_mut().zip(other.answers.as_flattened());
        pairs.for_each(|(mine, theirs)| *mine += theirs);
        self.lists += other.lists;
        self.named += other.named;
        self.held_again += other.held_again;
        self.held_full += other.held_full;
        self.both_routes += other.both_routes;
    }

    /// The answers of each call, in words.
    pub fn text(&self) -> String {
        let of_call = |(name, answers): (&str, &[u64; LARGEST_NUMBER + 1])| {
            let given = (0..=LARGEST_NUMBER).filter(|&number| answers[number] > 0);
            let counts: Vec<String> = given.map(|number| format!("{number}: {}", answers[number])).collect();
            format!("{name} {}", if counts.is_empty() { "none".to_string() } else { counts.join(", ") })
        };
        CALLS.into_iter().zip(&self.answers).map(of_call).collect::<Vec<_>>().join("; ")
    }
}

/// What the reference says of a want.
enum Wanted {
    Refused(u64),
    Accepted(DirectTruth),
}

impl Wanted {
    fn limits(&self) -> Vec<u64> {
        match self {
            Wanted::Refused(_) => vec![0, u64::MAX],
            Wanted::Accepted(direct) => direct.limits(),
        }
    }

    /// The answer, and the mark words that are written.
    fn answer(&self, words: usize, limit: u64) -> (RouteNumbers, Vec<u64>) {
        match self {
            Wanted::Refused(number) => (RouteNumbers::refused(*number), Vec::new()),
            Wanted::Accepted(direct) => direct.answer(words, limit),
        }
    }
}

/// A parity game of at most so many positions is solved beside the rounds.
const MOST_POSITIONS: usize = 400;
/// The limit of the equation route on a saved model.
const ROUTE_LIMIT: u64 = 400;

/// A comparison in progress.
pub struct Editing<'a> {
    edits: &'a dyn Edits,
    calls: &'a dyn Calls,
    budget: u64,
    random: Random,
    model: Lent<u8>,
    /// The model's bytes by the rules.
    right: Vec<u8>,
    /// The set that is held, once a case is opened.
    held: Option<Held>,
    /// What a want must answer, until the model changes.
    wanted: Option<Wanted>,
    pub tally: Tally,
}

impl Editing<'_> {
    /// A comparison on a model as it is lent. The other calls take its case when all is done.
    pub fn new<'a>(edits: &'a dyn Edits, calls: &'a dyn Calls, model: &[u8], budget: u64, seed: u64) -> Editing<'a> {
        let mut random = Random::new(seed);
        let mut lent = Lent::bytes(model.len(), &mut random);
        lent.lend().copy_from_slice(model);
        let (right, tally) = (model.to_vec(), Tally::default());
        Editing { edits, calls, budget, random, model: lent, right, held: None, wanted: None, tally }
    }

    /// All calls of a list, and then the case of the model handed to both routes.
    pub fn all(&mut self, calls: &[Call]) -> Check {
        self.tally.lists += 1;
        for (i, call) in calls.iter().enumerate() {
            self.call(call).map_err(|text| format!("call {i}, {}: {text}", call_text(call)))?;
        }
        self.saved().map_err(|text| format!("the saved model: {text}"))
    }

    fn call(&mut self, call: &Call) -> Check {
        let answer = match call {
            Call::Open(case) => self.open(case),
            Call::Add(t) => self.add(*t),
            Call::Drop(t) => self.drop(*t),
            Call::Want { words, limit } => self.want(*words, *limit),
        }?;
        self.tally.answers[call.place()][answer as usize] += 1;
        Ok(())
    }

    fn open(&mut self, case: &[u8]) -> Result<u64, String> {
        let expected = rules::opened(case, &self.right);
        if expected.is_ok() {
            let opened = read_case(case).expect("a case that is opened is accepted");
            self.tally.named += (opened.labels.version() == 2) as u64;
            self.held = Some(Held::new(opened));
        }
        let input = case.to_vec();
        let answer = self.edits.open(&input, self.model.lend());
        unchanged(&input, case)?;
        self.holds(answer, expected)
    }

    fn add(&mut self, t: Transition) -> Result<u64, String> {
        let expected = rules::added(&self.right, t);
        if let Some(held) = &mut self.held {
            let again = held.set().contains(&t);
            self.tally.held_again += again as u64;
            self.tally.held_full += (again && held.set().len() == TRANSITIONS) as u64;
            agreed(held.add(t), number_of(&expected))?;
        }
        let answer = self.edits.add(self.model.lend(), t);
        self.holds(answer, expected)
    }

    fn drop(&mut self, t: Transition) -> Result<u64, String> {
        let expected = rules::dropped(&self.right, t);
        if let Some(held) = &mut self.held {
            agreed(held.drop(t), number_of(&expected))?;
        }
        let answer = self.edits.drop(self.model.lend(), t);
        self.holds(answer, expected)
    }

    /// The answer is the expected one, and so is each byte of the model; answers the number.
    fn holds(&mut self, answer: u64, expected: After) -> Result<u64, String> {
        let number = number_of(&expected);
        same(answer, number)?;
        if let Ok(bytes) = expected {
            self.right = bytes;
            self.wanted = None;
        }
        self.model.holds(&self.right, "model bytes")?;
        Ok(number)
    }

    fn want(&mut self, words: usize, limit: usize) -> Result<u64, String> {
        let wanted = self.take_wanted()?;
        let limits = wanted.limits();
        let limit = limits[limit % limits.len()];
        let (expected, written) = wanted.answer(words, limit);
        self.wanted = Some(wanted);
        let mut marks = Lent::words(words, &mut self.random);
        let answer = self.edits.want(self.model.lend(), marks.lend(), limit);
        same(answer, expected)
            .and_then(|()| marks.holds(&written, "mark words"))
            .and_then(|()| self.model.holds(&self.right, "model bytes"))
            .map_err(|text| format!("limit {limit}: {text}"))?;
        Ok(expected.refusal)
    }

    /// What a want must answer: once a case is opened by the set that is held, else by the bytes alone.
    fn take_wanted(&mut self) -> Result<Wanted, String> {
        if let Some(wanted) = self.wanted.take() {
            return Ok(wanted);
        }
        let read = read_case(rules::case_of(&self.right));
        let case = match (&self.held, read) {
            (Some(held), read) => {
                agreed(read.map(in_order), Ok(held.case()))?;
                held.case()
            }
            (None, Ok(case)) => case,
            (None, Err(number)) => return Ok(Wanted::Refused(number)),
        };
        let direct = DirectTruth::of(&case, self.budget);
        if case.states * case.formula.len() <= MOST_POSITIONS {
            let game = meaning::states_by_game(&case);
            agreed(direct.states().is_none_or(|set| *set == game), true)?;
        }
        Ok(Wanted::Accepted(direct))
    }

    /// Both routes take the case of the model: direct answers and marks as a want does, and the equation route gives
    /// the same states and numbers of records.
    fn saved(&mut self) -> Check {
        let wanted = self.take_wanted()?;
        let limit = if let Wanted::Accepted(direct) = &wanted { direct.rounds_or_cap() } else { u64::MAX };
        let case = rules::case_of(self.model.lend()).to_vec();
        let [mut own, mut first, mut second] = [[9; MARK_WORDS]; 3];
        let want = self.edits.want(self.model.lend(), &mut own, limit);
        let direct = self.calls.direct(&case, &mut first, limit);
        same((direct, first), (want, own)).map_err(|text| format!("direct: {text}"))?;
        let (mut file, mut work) = (vec![0; FILE_BUFFER], vec![0; CELLS]);
        let equation = self.calls.equation(&case, &mut file, &mut work, &mut second, ROUTE_LIMIT).run;
        same(equation.recorded(), want.recorded()).map_err(|text| format!("equation route: {text}"))?;
        if (want.refusal, equation.refusal) != (0, 0) {
            return Ok(());
        }
        self.tally.both_routes += 1;
        same((equation.verdict, equation.count, second), (want.verdict, want.count, own))
            .map_err(|text| format!("equation route: {text}"))
    }
}

/// A call in words; of a case only its length.
pub fn call_text(call: &Call) -> String {
    match call {
        Call::Open(case) => format!("open a case of {} bytes", case.len()),
        Call::Add(t) => format!("add {} {} {}", t.source, t.label, t.target),
        Call::Drop(t) => format!("drop {} {} {}", t.source, t.label, t.target),
        Call::Want { words, limit } => format!("want with {words} mark words and limit {limit} of those tried"),
    }
}

/// Do the rules, the set and the other ways of the reference agree?
fn agreed<T: PartialEq + Debug>(one: T, other: T) -> Check {
    same(one, other).map_err(|text| format!("reference: {text}"))
}

fn number_of(after: &After) -> u64 {
    after.as_ref().map_or_else(|&number| number, |_| 0)
}

/// The case with its transitions in ascending order.
fn in_order(mut case: Case) -> Case {
    case.transitions.sort_unstable();
    case
}
