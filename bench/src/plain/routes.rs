//! The two routes from a case to its marks.

use super::cases::{self, action_masks, is_binder, node_at, transition_at, Header, NODES};
use super::price;
use super::reach;
use super::sets::{self, Set, WORDS};
use super::solver::{self, Report, BLOCKS};
use super::translate::{self, First};

/// What a route answers: a report or the number of the refusal, and of an accepted case how many records its table has and how many of
/// them are distinct.
pub struct Answer {
    pub outcome: Result<Report, u8>,
    pub records: usize,
    pub distinct: usize,
}

impl Answer {
    /// The answer on a case that is not accepted.
    fn refused(cause: u8) -> Answer {
        Answer { outcome: Err(cause), records: 0, distinct: 0 }
    }
}

/// What the equation route answers: a route's answer, and what the run costs in cents.
pub struct Priced {
    pub answer: Answer,
    pub cents: u64,
}

/// What evaluation reads.
struct Formula<'a> {
    h: &'a Header,
    records: &'a [u8],
    nodes: &'a [u8],
    labels: &'a [u64],
    blocks: &'a [u8],
    limit: u64,
}

/// The limit is reached.
struct Spent;

impl Formula<'_> {
    /// The states with a transition whose label is accepted and whose target is in the set exactly if `inside`.
    fn sources(&self, labels: u64, set: &Set, inside: bool) -> Set {
        let mut found = sets::EMPTY;
        for i in 0..self.h.transitions {
            let t = transition_at(self.records, i);
            if labels >> t.label & 1 == 1 && sets::test(set, t.target) == inside {
                sets::add(&mut found, t.source);
            }
        }
        found
    }

    /// The set of node `at`, and the node after its subtree.
    fn evaluate(&self, sets: &mut [Set; BLOCKS], at: usize, rounds: &mut u64) -> Result<(Set, usize), Spent> {
        let x = node_at(self.nodes, at);
        match x.kind {
            0 | 1 => Ok((sets::initial(self.h.states, x.kind == 1), at + 1)),
            2 | 3 => {
                let (left, middle) = self.evaluate(sets, at + 1, rounds)?;
                let (right, next) = self.evaluate(sets, middle, rounds)?;
                Ok((sets::combine(&left, &right, x.kind == 3), next))
            }
            4 | 5 => {
                let (operand, next) = self.evaluate(sets, at + 1, rounds)?;
                let set = if x.kind == 5 {
                    self.sources(self.labels[at], &operand, true)
                } else {
                    sets::complement(&self.sources(self.labels[at], &operand, false), self.h.states)
                };
                Ok((set, next))
            }
            6 => Ok((sets[self.blocks[x.arg] as usize], at + 1)),
            _ => {
                let k = self.blocks[at] as usize;
                sets[k] = sets::initial(self.h.states, x.kind == 8);
                loop {
                    let (set, next) = self.evaluate(sets, at + 1, rounds)?;
                    if *rounds >= self.limit {
                        return Err(Spent);
                    }
                    *rounds += 1;
                    if set == sets[k] {
                        return Ok((set, next));
                    }
                    sets[k] = set;
                }
            }
        }
    }
}

/// How many states of a set are reached in an accepted case.
fn count_reached(case: &[u8], h: &Header, set: &Set) -> usize {
    let reached = reach::reached(&case[h.first..], h.transitions, h.states, h.initial);
    sets::count(&sets::combine(set, &reached, false))
}

/// Evaluates the formula of a case on sets of states.
pub fn direct(case: &[u8], marks: &mut [u64], limit: u64) -> Answer {
    if let Some(cause) = cases::refusal(case) {
        return Answer::refused(cause);
    }
    let h = cases::header(case);
    let distinct = cases::distinct(&case[h.first..], h.transitions);
    Answer { outcome: evaluated(case, &h, marks, limit), records: h.transitions, distinct }
}

/// The report of direct on an accepted case, or the number of the refusal.
fn evaluated(case: &[u8], h: &Header, marks: &mut [u64], limit: u64) -> Result<Report, u8> {
    if marks.len() < WORDS {
        return Err(13);
    }
    let nodes = &case[h.third..];
    let mut labels = [0u64; NODES];
    let mut blocks = [0u8; NODES];
    let masks = action_masks(case, h);
    let mut count = 0;
    for i in 0..h.nodes {
        let x = node_at(nodes, i);
        if x.kind == 4 || x.kind == 5 {
            labels[i] = masks[x.arg];
        }
        blocks[i] = count;
        count += is_binder(&x) as u8;
    }
    let formula = Formula { h, records: &case[h.first..], nodes, labels: &labels, blocks: &blocks, limit };
    let mut rounds = 0;
    let (set, _) = formula.evaluate(&mut [sets::EMPTY; BLOCKS], 0, &mut rounds).map_err(|Spent| 14)?;
    marks[..WORDS].copy_from_slice(&set);
    Ok(Report { verdict: sets::test(&set, h.initial), count: count_reached(case, h, &set), rounds })
}

/// Translates a case and solves its equation file.
pub fn equation(case: &[u8], file: &mut [u8], work: &mut [u8], marks: &mut [u64], limit: u64) -> Priced {
    if let Some(cause) = cases::refusal(case) {
        return Priced { answer: Answer::refused(cause), cents: 0 };
    }
    let h = cases::header(case);
    let first = First::of(&case[h.first..], h.transitions);
    let written = translate::write(case, &h, &first, file);
    let cells = if written.is_ok() { solver::cells_of(file) } else { 0 };
    let outcome = written.and_then(|length| {
        let report = solver::solve(&file[..length], work, marks, limit)?;
        let set = marks[..WORDS].try_into().expect("solve asks for so many words");
        Ok(Report { count: count_reached(case, &h, set), ..report })
    });
    let cents = price::cents(&outcome, cells, limit);
    Priced { answer: Answer { outcome, records: h.transitions, distinct: first.count }, cents }
}
