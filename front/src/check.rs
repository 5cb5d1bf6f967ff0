//! Asks the library by both routes.

use crate::case::Case;
use crate::expand::Expansion;
use crate::library::{self, Run};
use crate::refusal::{self, SPENT};
use crate::source::Fault;
use crate::table::Table;

/// The answer for a case.
#[derive(Clone, Debug)]
pub struct Checked {
    pub verdict: bool,
    /// For each state, does the formula hold there?
    pub holds: Vec<bool>,
    /// For each state, does the initial state reach it?
    pub reached: Vec<bool>,
    /// How many states that are reached hold.
    pub count: u64,
    pub equation_rounds: u64,
    pub direct_rounds: u64,
    pub records: u64,
    pub distinct: u64,
    pub cents: u64,
    /// `values[node][state]`: does the part at that node hold there, where each variable stands for its binder's set?
    pub values: Vec<Vec<bool>>,
    /// The formula's table.
    pub table: Table,
}

/// What there may be in place of an answer.
#[derive(Clone, Debug)]
pub enum Trouble {
    /// The library refused, and this says what and where.
    Refused(Fault),
    /// The routes differ, which is proved not to happen: the program around the proofs is broken.
    Differ(String),
}

/// Runs both routes with a round limit and compares them. A spent route is a refusal: each has its own rounds, so that the
/// other may have an answer.
pub fn check(case: &Case, limit: u64) -> Result<Checked, Trouble> {
    let (equation, direct) = (library::equation(&case.bytes, limit), library::direct(&case.bytes, limit));
    if equation.refusal == SPENT || direct.refusal == SPENT {
        return Err(spent(case, &equation, &direct, limit));
    }
    if let Some(difference) = difference(&equation, &direct) {
        return Err(Trouble::Differ(difference));
    }
    match &case.expansion {
        Expansion::Table(table) if equation.refusal == 0 => Ok(answer(case, table, equation, direct)),
        Expansion::TooLarge { .. } if equation.refusal == 0 => {
            Err(Trouble::Differ("the library accepts a formula that was not written out".to_string()))
        }
        _ => Err(Trouble::Refused(refusal::fault(case, equation.refusal, limit))),
    }
}

/// A run that one route or both could not end within the limit. The other route then has to accept the case.
fn spent(case: &Case, equation: &Run, direct: &Run, limit: u64) -> Trouble {
    let route = match (equation.refusal, direct.refusal) {
        (SPENT, SPENT) => "either route",
        (SPENT, 0) => "the equation route",
        (0, SPENT) => "the direct route",
        (first, second) => return Trouble::Differ(refusals_differ(first, second)),
    };
    Trouble::Refused(refusal::spent(case, route, limit))
}

/// What the routes answer differently, if anything.
fn difference(equation: &Run, direct: &Run) -> Option<String> {
    if equation.refusal != direct.refusal {
        return Some(refusals_differ(equation.refusal, direct.refusal));
    }
    let differ = |what: &str, first: String, second: String| {
        (first != second).then(|| format!("the {what} by the equation route is {first}, by the direct route {second}"))
    };
    let state = equation.marks.iter().zip(&direct.marks).position(|(first, second)| first != second);
    differ("verdict", equation.verdict.to_string(), direct.verdict.to_string())
        .or(state.map(|state| format!("only one of the routes says that the formula holds in state {state}")))
        .or(differ("count", equation.count.to_string(), direct.count.to_string()))
        .or(differ("number of records", equation.records.to_string(), direct.records.to_string()))
        .or(differ("number of distinct transitions", equation.distinct.to_string(), direct.distinct.to_string()))
}

fn refusals_differ(equation: u64, direct: u64) -> String {
    let answer = |number: u64| match number {
        0 => "accepts the case".to_string(),
        _ => format!("refuses it with {number}"),
    };
    format!("the equation route {}, the direct route {}", answer(equation), answer(direct))
}

/// The answer of two runs that agree.
fn answer(case: &Case, table: &Table, equation: Run, direct: Run) -> Checked {
    let states = case.model.states;
    Checked {
        verdict: equation.verdict,
        holds: equation.marks.iter().copied().take(states).collect(),
        reached: case.model.reachable(),
        count: equation.count,
        equation_rounds: equation.rounds,
        direct_rounds: direct.rounds,
        records: equation.records,
        distinct: equation.distinct,
        cents: equation.cents,
        values: node_values(table, states, &equation.values),
        table: table.clone(),
    }
}

/// A row of values for each node. The equation file has a cell for each node and state, node by node; where the formula
/// does not begin with mu or nu, a row for the nu that it puts before the formula comes first.
fn node_values(table: &Table, states: usize, cells: &[bool]) -> Vec<Vec<bool>> {
    let added = table.blocks() - table.binders().len();
    cells.chunks(states.max(1)).skip(added).map(<[bool]>::to_vec).collect()
}

#[cfg(test)]
mod tests {
    use super::*;

    fn run() -> Run {
        let marks = vec![true, false, true];
        Run { verdict: true, count: 2, rounds: 4, records: 3, distinct: 2, cents: 5, marks, ..Run::default() }
    }

    /// What the routes have by themselves: rounds, the price, and the values of cells.
    #[test]
    fn runs_that_agree() {
        let direct = Run { rounds: 3, cents: 0, values: vec![true], ..run() };
        assert_eq!(difference(&run(), &direct), None);
        let refused = |cents| Run { refusal: 3, cents, ..Run::default() };
        assert_eq!(difference(&refused(0), &refused(7)), None);
    }

    #[test]
    fn each_difference_is_noticed() {
        let told = |direct: Run| difference(&run(), &direct).unwrap();
        assert_eq!(
            told(Run { verdict: false, ..run() }),
            "the verdict by the equation route is true, by the direct route false"
        );
        assert_eq!(
            told(Run { marks: vec![true, true, true], ..run() }),
            "only one of the routes says that the formula holds in state 1"
        );
        assert_eq!(told(Run { count: 1, ..run() }), "the count by the equation route is 2, by the direct route 1");
        assert_eq!(
            told(Run { records: 4, ..run() }),
            "the number of records by the equation route is 3, by the direct route 4"
        );
        assert_eq!(
            told(Run { distinct: 3, ..run() }),
            "the number of distinct transitions by the equation route is 2, by the direct route 3"
        );
        assert_eq!(
            told(Run { refusal: 6, ..Run::default() }),
            "the equation route accepts the case, the direct route refuses it with 6"
        );
    }
}
