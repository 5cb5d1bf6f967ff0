//! The rounds of both routes, counted as the paper's section "Rounds" says.

use crate::formats::*;
use crate::meaning::{accepted_by_node, cell_values};

/// More rounds than the cap.
#[derive(Clone, Copy, Debug, PartialEq, Eq)]
pub struct Spent;

/// Counts rounds up to a cap.
pub struct Counter {
    pub rounds: u64,
    cap: u64,
}

impl Counter {
    pub fn new(cap: u64) -> Counter {
        Counter { rounds: 0, cap }
    }

    pub fn count(&mut self) -> Result<(), Spent> {
        if self.rounds == self.cap {
            return Err(Spent);
        }
        self.rounds += 1;
        Ok(())
    }
}

/// The root's set and the rounds of direct.
pub fn direct(case: &Case, cap: u64) -> Result<(Vec<bool>, u64), Spent> {
    let mut run = Direct {
        case,
        operands: (0..case.formula.len()).map(|i| operands_of(&case.formula, i, formula::operands)).collect(),
        accepted: accepted_by_node(case),
        held: vec![Vec::new(); case.formula.len()],
        counter: Counter::new(cap),
    };
    let set = run.evaluate(0)?;
    Ok((set, run.counter.rounds))
}

struct Direct<'a> {
    case: &'a Case,
    operands: Vec<Vec<usize>>,
    accepted: Vec<Vec<bool>>,
    /// The set that each binder holds, by its node number.
    held: Vec<Vec<bool>>,
    counter: Counter,
}

impl Direct<'_> {
    /// A node's set: both operands, left first, always.
    fn evaluate(&mut self, at: usize) -> Result<Vec<bool>, Spent> {
        let n = self.case.states;
        let kind = self.case.formula[at].kind;
        Ok(match kind {
            formula::FALSE => vec![false; n],
            formula::TRUE => vec![true; n],
            formula::AND | formula::OR => {
                let left = self.evaluate(self.operands[at][0])?;
                let right = self.evaluate(self.operands[at][1])?;
                (0..n).map(|s| if kind == formula::AND { left[s] && right[s] } else { left[s] || right[s] }).collect()
            }
            formula::BOX | formula::DIAMOND => {
                let operand = self.evaluate(at + 1)?;
                let every = kind == formula::BOX;
                let mut set = vec![every; n];
                for t in &self.case.transitions {
                    if self.accepted[at][t.label] && operand[t.target] != every {
                        set[t.source] = !every;
                    }
                }
                set
            }
            formula::VARIABLE => self.held[self.case.formula[at].argument].clone(),
            _ => {
                self.held[at] = vec![kind == formula::NU; n];
                loop {
                    let body = self.evaluate(at + 1)?;
                    self.counter.count()?;
                    if body == self.held[at] {
                        return Ok(body);
                    }
                    self.held[at] = body;
                }
            }
        })
    }
}

/// What the equation rounds end with.
#[derive(Clone, Debug, PartialEq, Eq)]
pub struct Solved {
    /// The set of each block.
    pub sets: Vec<Vec<bool>>,
    /// The value of each cell under the solution.
    pub cells: Vec<bool>,
    pub rounds: u64,
}

/// The solution and the rounds of an equation file, from block 0.
pub fn equations(equations: &Equations, cap: u64) -> Result<Solved, Spent> {
    let mut sets = vec![vec![false; equations.states]; equations.blocks.len()];
    let mut counter = Counter::new(cap);
    solve_from(equations, 0, &mut sets, &mut counter)?;
    let cells = cell_values(equations, &sets);
    Ok(Solved { sets, cells, rounds: counter.rounds })
}

fn solve_from(equations: &Equations, k: usize, sets: &mut [Vec<bool>], counter: &mut Counter) -> Result<(), Spent> {
    let block = equations.blocks[k];
    sets[k] = vec![block.greatest; equations.states];
    loop {
        if k + 1 < equations.blocks.len() {
            solve_from(equations, k + 1, sets, counter)?;
        }
        counter.count()?;
        let right = cell_values(equations, sets)[block.first..block.first + equations.states].to_vec();
        if right == sets[k] {
            return Ok(());
        }
        sets[k] = right;
    }
}
