//! What holds of verdict, count and marks of solved runs, whatever the model: the count next to the verdict and to the
//! marks, both routes and a wanted answer alike, and transitions that no path comes to. The calls are compared with
//! themselves. Of the reference they take only which states are reached.

use crate::calls::{Calls, Edits, MARK_WORDS};
use crate::compare::{same, Check};
use crate::editing::lists::any_transition;
use crate::editing::rules::room_of;
use crate::formats::*;
use crate::generate;
use crate::random::Random;
use crate::reach;
use crate::reader::read_case;
use crate::slips::{Reference, Slip, SLIPS};

/// How many cases the laws are tried on.
const CASES: u64 = 4_000;
/// Of the runs that are compared at least one in so many marks states that are not reached, one in so many is of a case
/// where all are, and one in so many is made again with other transitions. Measured from three first seeds: one in 2.3, in
/// 2.7 and in 1.7.
const UNCOUNTED_ONE_IN: u64 = 5;
const ALL_REACHED_ONE_IN: u64 = 5;
const CHANGED_ONE_IN: u64 = 4;

/// A limit at which nearly all runs are solved.
const LIMIT: u64 = 2_000;
/// Room for the equation files here.
const FILE: usize = 400_000;

/// Verdict, count and marks of a solved run.
type Solved = (u64, u64, [u64; MARK_WORDS]);

fn has(marks: &[u64; MARK_WORDS], s: usize) -> bool {
    marks[s / 64] >> (s % 64) & 1 == 1
}

fn direct(calls: &dyn Calls, case: &Case) -> Option<Solved> {
    let mut marks = [9; MARK_WORDS];
    let x = calls.direct(&case.bytes(), &mut marks, LIMIT);
    (x.refusal == 0).then_some((x.verdict, x.count, marks))
}

fn equation(calls: &dyn Calls, case: &Case) -> Option<Solved> {
    let (mut file, mut work, mut marks) = (vec![0; FILE], vec![0; CELLS], [9; MARK_WORDS]);
    let x = calls.equation(&case.bytes(), &mut file, &mut work, &mut marks, LIMIT).run;
    (x.refusal == 0).then_some((x.verdict, x.count, marks))
}

/// The answer that is wanted of a model in which the case is opened without its last transition, which is added.
fn wanted(edits: &dyn Edits, case: &Case) -> Result<Option<Solved>, String> {
    let mut opened = case.clone();
    let last = opened.transitions.pop();
    let mut model = vec![0xa5; room_of(&opened)];
    same(edits.open(&opened.bytes(), &mut model), 0)?;
    if let Some(t) = last {
        same(edits.add(&mut model, t), 0)?;
    }
    let mut marks = [9; MARK_WORDS];
    let x = edits.want(&model, &mut marks, LIMIT);
    Ok((x.refusal == 0).then_some((x.verdict, x.count, marks)))
}

/// The count next to verdict and marks: a true verdict counts one state at least, a run counts no more than it marks, and
/// all that it marks where all states are reached.
fn next_to_marks(case: &Case, reached: &[bool], (verdict, count, marks): Solved) -> Check {
    let marked = (0..case.states).filter(|&s| has(&marks, s)).count() as u64;
    same(verdict, has(&marks, case.initial) as u64)?;
    if count < verdict || count > marked || !reached.contains(&false) && count != marked {
        return Err(format!("verdict {verdict}, count {count}, {marked} marked, reached {reached:?}"));
    }
    Ok(())
}

/// The case with other transitions from states that are not reached: some are gone, and some are new.
fn changed(random: &mut Random, case: &Case, reached: &[bool]) -> Case {
    let mut other = case.clone();
    other.transitions.retain(|t| reached[t.source] || random.chance(1, 2));
    let outside: Vec<usize> = (0..case.states).filter(|&s| !reached[s]).collect();
    for _ in 0..random.below(6) {
        if !outside.is_empty() {
            let t = Transition { source: random.pick(&outside), ..any_transition(random, case) };
            other.transitions.insert(random.below(other.transitions.len() + 1), t);
        }
    }
    other
}

/// Verdict and count are the same, and so are the marks of reached states.
fn same_where_reached(reached: &[bool], one: Solved, other: Solved) -> Check {
    let of_reached = |marks: &[u64; MARK_WORDS]| -> Vec<usize> {
        (0..reached.len()).filter(|&s| reached[s] && has(marks, s)).collect()
    };
    same((other.0, other.1, of_reached(&other.2)), (one.0, one.1, of_reached(&one.2)))
}

/// What was tried, and how much of it tells something.
#[derive(Default)]
struct Tried {
    runs: u64,
    uncounted: u64,
    all_reached: u64,
    changed: u64,
}

impl Tried {
    /// Holds the calls to the laws on a case.
    fn case(&mut self, calls: &dyn Calls, edits: Option<&dyn Edits>, random: &mut Random, case: &Case) -> Check {
        let reached = reach::reached(case);
        let other = changed(random, case, &reached);
        let routes: [fn(&dyn Calls, &Case) -> Option<Solved>; 2] = [direct, equation];
        let runs = routes.map(|route| route(calls, case));
        for (route, run) in routes.into_iter().zip(runs) {
            let Some(run) = run else { continue };
            next_to_marks(case, &reached, run)?;
            self.runs += 1;
            self.uncounted += (0..case.states).any(|s| has(&run.2, s) && !reached[s]) as u64;
            self.all_reached += !reached.contains(&false) as u64;
            if let Some(again) = route(calls, &other).filter(|_| other != *case) {
                same_where_reached(&reached, run, again).map_err(|text| format!("transitions changed: {text}"))?;
                self.changed += 1;
            }
        }
        if let [Some(one), Some(two)] = runs {
            same(two, one).map_err(|text| format!("equation route and direct: {text}"))?;
        }
        if let Some(edits) = edits {
            same(wanted(edits, case)?, runs[0]).map_err(|text| format!("a wanted answer and direct: {text}"))?;
        }
        Ok(())
    }
}

/// Holds calls to the laws, and an editor beside them if there is one.
fn tried(calls: &dyn Calls, edits: Option<&dyn Edits>, seed: u64) -> Result<Tried, String> {
    let mut tried = Tried::default();
    for seed in seed..seed + CASES {
        let random = &mut Random::new(seed);
        let case = generate::case(random);
        if read_case(&case.bytes()).is_ok() {
            tried.case(calls, edits, random, &case).map_err(|text| format!("seed {seed}: {text}"))?;
        }
    }
    Ok(tried)
}

/// Holds calls and an editor to the laws; answers how many runs of a route were compared. Many of them tell something.
pub fn check(calls: &dyn Calls, edits: &dyn Edits, seed: u64) -> Result<u64, String> {
    let Tried { runs, uncounted, all_reached, changed } = tried(calls, Some(edits), seed)?;
    assert!(uncounted * UNCOUNTED_ONE_IN >= runs, "only {uncounted} of {runs} mark states that are not reached");
    assert!(all_reached * ALL_REACHED_ONE_IN >= runs, "only {all_reached} of {runs} reach all states");
    assert!(changed * CHANGED_ONE_IN >= runs, "only {changed} of {runs} changed");
    Ok(runs)
}

/// Each slip in what is counted breaks a law, but for one: the laws do not say that states which are not reached are
/// marked. Answers how many slips there are.
pub fn check_slips(seed: u64) -> Result<u64, String> {
    let slips = SLIPS.into_iter().filter(|slip| slip.in_reach());
    let each = slips.map(|slip| match tried(&Reference(Some(slip)), None, seed) {
        Ok(_) if slip != Slip::MarksCut => Err(format!("{slip:?} breaks no law")),
        Err(text) if slip == Slip::MarksCut => Err(format!("{slip:?} breaks a law: {text}")),
        _ => Ok(1),
    });
    each.sum()
}
