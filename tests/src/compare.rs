//! Compares calls with the reference: the numbers answered, the whole of each lent place, and the guards around it.

use crate::calls::{mark_words, Calls, EquationNumbers, Numbers, Recorded, RouteNumbers, MARK_WORDS};
use crate::formats::Case;
use crate::lent::{Lent, Work};
use crate::meaning;
use crate::names::{self, brought_up, BROUGHT_UP};
use crate::price;
use crate::random::Random;
use crate::reach;
use crate::reader::{read_case, read_equations};
use crate::rounds::{self, Solved};
use crate::tables;
use std::fmt::Debug;

/// What went wrong, in words.
pub type Check = Result<(), String>;

/// How the reference solved the accepted files in a route.
#[derive(Clone, Copy, Debug, Default)]
pub struct Solving {
    /// Files solved by trying all sets as well.
    pub searched: u64,
    /// Files with more rounds than the cap, compared only as spent.
    pub capped: u64,
}

impl Solving {
    fn add(&mut self, searched: u64, capped: u64) {
        self.searched += searched;
        self.capped += capped;
    }
}

/// What was compared.
#[derive(Clone, Debug, Default)]
pub struct Tally {
    /// Files by the number they are refused with; 0 for accepted ones.
    pub refused: [u64; 16],
    /// Calls made and compared.
    pub calls: u64,
    /// Accepted equation files, those of cases included.
    pub equations: Solving,
    /// Accepted cases in direct.
    pub direct: Solving,
    /// Accepted cases with recorded copies.
    pub copied: u64,
    /// Accepted cases with marked states that are not reached, so that they do not count.
    pub uncounted: u64,
    /// Accepted cases of version 2.
    pub named: u64,
    /// Those of them whose names bring up what `names::BROUGHT_UP` lists.
    pub brought_up: [u64; BROUGHT_UP.len()],
}

impl Tally {
    /// All files compared.
    pub fn files(&self) -> u64 {
        self.refused.iter().sum()
    }

    pub fn add(&mut self, other: &Tally) {
        for (mine, theirs) in self.refused.iter_mut().zip(other.refused) {
            *mine += theirs;
        }
        self.calls += other.calls;
        self.equations.add(other.equations.searched, other.equations.capped);
        self.direct.add(other.direct.searched, other.direct.capped);
        self.copied += other.copied;
        self.uncounted += other.uncounted;
        self.named += other.named;
        for (mine, theirs) in self.brought_up.iter_mut().zip(other.brought_up) {
            *mine += theirs;
        }
    }

    /// Counts an accepted case.
    fn accept(&mut self, case: &Case, direct: &DirectTruth) {
        self.refused[0] += 1;
        self.copied += (direct.recorded.distinct < direct.recorded.records) as u64;
        self.uncounted += direct.leaves_some_uncounted() as u64;
        self.named += (case.labels.version() == 2) as u64;
        for (count, shown) in self.brought_up.iter_mut().zip(brought_up(case)) {
            *count += shown as u64;
        }
    }
}

/// How much of the product of lent sizes is compared.
#[derive(Clone, Copy, Debug, PartialEq, Eq)]
pub enum Sizes {
    Some,
    All,
}

/// A comparison's means: which calls, how thoroughly, up to how much work, with which noise.
pub struct Comparison<'a> {
    pub calls: &'a dyn Calls,
    pub sizes: Sizes,
    /// The reference stops after about so many cell values.
    pub budget: u64,
    pub random: Random,
    pub tally: Tally,
}

/// What the reference says of a file of either kind.
pub enum Truth {
    Case(CaseTruth),
    File(FileTruth),
}

/// What the reference says of an equation file.
pub enum FileTruth {
    Refused(u64),
    Accepted { initial: usize, cells: usize, cap: u64, solved: Option<Solved> },
}

/// What the reference says of a case.
pub enum CaseTruth {
    Refused(u64),
    Accepted { case: Box<Case>, direct: DirectTruth, file: Vec<u8>, solve: FileTruth },
}

impl CaseTruth {
    /// The numbers of records that each answer of a route comes with.
    fn recorded(&self) -> Recorded {
        match self {
            CaseTruth::Refused(_) => Recorded::default(),
            CaseTruth::Accepted { direct, .. } => direct.recorded,
        }
    }

    /// The cells of the equation file; a refused case has none.
    fn cells(&self) -> u64 {
        match self {
            CaseTruth::Accepted { solve: FileTruth::Accepted { cells, .. }, .. } => *cells as u64,
            _ => 0,
        }
    }

    /// The numbers of the equation route with what a run gives.
    fn priced(&self, answer: Numbers, limit: u64) -> EquationNumbers {
        let Numbers { refusal, rounds, .. } = answer;
        let cents = price::cents(price::Run { refusal, rounds, cells: self.cells(), limit });
        EquationNumbers { run: RouteNumbers::with(answer, self.recorded()), cents }
    }
}

/// What the reference says of direct on an accepted case.
pub struct DirectTruth {
    initial: usize,
    recorded: Recorded,
    /// The states that are reached.
    reached: Vec<bool>,
    cap: u64,
    /// The root's set and the rounds, unless these are above the cap.
    solved: Option<(Vec<bool>, u64)>,
}

impl DirectTruth {
    /// The rounds are counted up to a cap that a budget of cell values gives.
    pub fn of(case: &Case, budget: u64) -> DirectTruth {
        let work = case.formula.len() * (case.states + case.transitions.len());
        let cap = (budget / work as u64).max(30);
        let (recorded, reached) = (tables::recorded(&case.transitions), reach::reached(case));
        DirectTruth { initial: case.initial, recorded, reached, cap, solved: rounds::direct(case, cap).ok() }
    }

    /// The states where the formula holds, if they were found.
    pub fn states(&self) -> Option<&Vec<bool>> {
        self.solved.as_ref().map(|(set, _)| set)
    }

    /// Does the formula hold in states that are not reached?
    fn leaves_some_uncounted(&self) -> bool {
        let some = |set: &Vec<bool>| set.iter().zip(&self.reached).any(|(&marked, &reached)| marked && !reached);
        self.states().is_some_and(some)
    }

    fn own_rounds(&self) -> Option<u64> {
        self.solved.as_ref().map(|(_, rounds)| *rounds)
    }

    /// The own rounds if they are known, else the cap, at which direct is spent.
    pub fn rounds_or_cap(&self) -> u64 {
        self.own_rounds().unwrap_or(self.cap)
    }

    /// The limits that are tried.
    pub fn limits(&self) -> Vec<u64> {
        limits(self.own_rounds(), self.cap)
    }

    /// The answer with so many mark words and a limit, and the words that are written.
    pub fn answer(&self, marks: usize, limit: u64) -> (RouteNumbers, Vec<u64>) {
        let (answer, written) = match &self.solved {
            _ if marks < MARK_WORDS => (Numbers::refused(13), Vec::new()),
            Some((set, rounds)) if *rounds <= limit => {
                (Numbers::route_report(set, &self.reached, self.initial, *rounds), mark_words(set).to_vec())
            }
            solved => {
                assert!(solved.is_some() || limit <= self.cap);
                (Numbers::refused(14), Vec::new())
            }
        };
        (RouteNumbers::with(answer, self.recorded), written)
    }
}

/// What solve must answer and leave.
struct Outcome {
    numbers: Numbers,
    work: Work,
    marks: Vec<u64>,
}

impl Outcome {
    fn refused(number: u64) -> Outcome {
        Outcome { numbers: Numbers::refused(number), work: Work::Unchanged, marks: Vec::new() }
    }

    /// What the equation route must answer and leave where solve does this: the same, and of the marked states it counts
    /// those that are reached.
    fn over_case(mut self, reached: &[bool]) -> Outcome {
        let marked = |s: &usize| self.marks[s / 64] >> (s % 64) & 1 == 1;
        if self.numbers.refusal == 0 {
            self.numbers.count = (0..reached.len()).filter(|&s| reached[s]).filter(marked).count() as u64;
        }
        self
    }
}

impl FileTruth {
    fn solve(&self, work: usize, marks: usize, limit: u64) -> Outcome {
        match self {
            FileTruth::Refused(number) => Outcome::refused(*number),
            FileTruth::Accepted { cells, .. } if work < *cells || marks < MARK_WORDS => Outcome::refused(13),
            FileTruth::Accepted { initial, cells, cap, solved } => match solved {
                Some(solved) if solved.rounds <= limit => Outcome {
                    numbers: Numbers::report(&solved.sets[0], *initial, solved.rounds),
                    work: Work::Values(solved.cells.iter().map(|&value| value as u8).collect()),
                    marks: mark_words(&solved.sets[0]).to_vec(),
                },
                _ => {
                    assert!(solved.is_some() || limit <= *cap);
                    Outcome { work: Work::ZeroOrOne(*cells), ..Outcome::refused(14) }
                }
            },
        }
    }
}

/// Limits around the true rounds; if these are only known to be above the cap, limits up to it.
fn limits(rounds: Option<u64>, cap: u64) -> Vec<u64> {
    let mut all = match rounds {
        Some(rounds) => vec![0, rounds.saturating_sub(1), rounds, rounds + 1, u64::MAX],
        None => vec![0, cap / 2, cap],
    };
    all.dedup();
    all
}

/// Sizes around the needed one.
fn sizes(needed: usize) -> Vec<usize> {
    let mut all = vec![0, needed.saturating_sub(1), needed, needed + 1];
    all.dedup();
    all
}

/// Is it answered what was expected?
pub fn same<T: PartialEq + Debug>(answer: T, expected: T) -> Check {
    if answer != expected {
        return Err(format!("answered {answer:?}, expected {expected:?}"));
    }
    Ok(())
}

/// Is an input as it was?
pub fn unchanged(input: &[u8], copy: &[u8]) -> Check {
    if input != copy {
        return Err("the input changed".to_string());
    }
    Ok(())
}

impl Comparison<'_> {
    pub fn new(calls: &dyn Calls, sizes: Sizes, budget: u64, seed: u64) -> Comparison<'_> {
        Comparison { calls, sizes, budget, random: Random::new(seed), tally: Tally::default() }
    }

    /// All comparisons on a file with what the reference says of it.
    pub fn held_to(&mut self, bytes: &[u8], truth: &Truth) -> Check {
        match truth {
            Truth::Case(truth) => self.case(bytes, truth),
            Truth::File(truth) => self.file(bytes, truth),
        }
    }

    /// All comparisons on a case: translate, direct, the equation route, and solve on its equation file.
    fn case(&mut self, bytes: &[u8], truth: &CaseTruth) -> Check {
        match truth {
            CaseTruth::Refused(number) => {
                self.tally.refused[*number as usize] += 1;
                for (size, limit) in [(0, 0), (200, u64::MAX)] {
                    let marks = size.min(MARK_WORDS);
                    self.translate(bytes, truth, size)?;
                    self.direct(bytes, truth, marks, limit)?;
                    self.equation(bytes, truth, size, size, marks, limit)?;
                }
                Ok(())
            }
            CaseTruth::Accepted { case, direct, file, solve } => {
                self.tally.accept(case, direct);
                for size in sizes(file.len()) {
                    self.translate(bytes, truth, size)?;
                }
                for limit in direct.limits() {
                    self.direct(bytes, truth, MARK_WORDS, limit)?;
                }
                for marks in sizes(MARK_WORDS) {
                    self.direct(bytes, truth, marks, direct.rounds_or_cap())?;
                }
                self.equation_route(bytes, truth, file.len(), solve)?;
                self.solve_all(file, solve)
            }
        }
    }

    /// All comparisons on an equation file.
    fn file(&mut self, bytes: &[u8], truth: &FileTruth) -> Check {
        let number = if let FileTruth::Refused(number) = truth { *number } else { 0 };
        self.tally.refused[number as usize] += 1;
        self.solve_all(bytes, truth)
    }

    fn solve_all(&mut self, bytes: &[u8], truth: &FileTruth) -> Check {
        let FileTruth::Accepted { cells, cap, solved, .. } = truth else {
            self.solve(bytes, truth, 0, 0, 0)?;
            return self.solve(bytes, truth, 200, MARK_WORDS, u64::MAX);
        };
        let own = solved.as_ref().map(|solved| solved.rounds);
        for limit in limits(own, *cap) {
            self.solve(bytes, truth, *cells, MARK_WORDS, limit)?;
        }
        let some = own.unwrap_or(*cap);
        for (work, marks) in self.chosen(&[sizes(*cells), sizes(MARK_WORDS)]).into_iter().map(|x| (x[0], x[1])) {
            self.solve(bytes, truth, work, marks, some)?;
            self.solve(bytes, truth, work, marks, some.saturating_sub(1))?;
        }
        Ok(())
    }

    fn equation_route(&mut self, bytes: &[u8], truth: &CaseTruth, length: usize, solve: &FileTruth) -> Check {
        let FileTruth::Accepted { cells, cap, solved, .. } = solve else { unreachable!() };
        let own = solved.as_ref().map(|solved| solved.rounds);
        for limit in limits(own, *cap) {
            self.equation(bytes, truth, length, *cells, MARK_WORDS, limit)?;
        }
        let some = own.unwrap_or(*cap);
        for x in self.chosen(&[sizes(length), sizes(*cells), sizes(MARK_WORDS)]) {
            self.equation(bytes, truth, x[0], x[1], x[2], some)?;
            self.equation(bytes, truth, x[0], x[1], x[2], some.saturating_sub(1))?;
        }
        Ok(())
    }

    /// All combinations of sizes, or a few of them by chance.
    fn chosen(&mut self, lists: &[Vec<usize>]) -> Vec<Vec<usize>> {
        let mut all = vec![Vec::new()];
        for list in lists {
            all = all.iter().flat_map(|x| list.iter().map(move |&y| [&x[..], &[y]].concat())).collect();
        }
        match self.sizes {
            Sizes::All => all,
            Sizes::Some => (0..2).map(|_| all[self.random.below(all.len())].clone()).collect(),
        }
    }

    /// What the reference says of a case. Both ways to find the accepted labels must agree, both ways to find the
    /// reached states, and so must the rounds' set, the parity game and the search.
    pub fn case_truth(&mut self, bytes: &[u8]) -> Result<CaseTruth, String> {
        let case = match read_case(bytes) {
            Ok(case) => case,
            Err(number) => return Ok(CaseTruth::Refused(number)),
        };
        if case.bytes() != bytes {
            return Err("reference: an accepted case is not written as it was read".to_string());
        }
        if !names::agreed(&case) {
            return Err("reference: sorted names and permutations accept different labels".to_string());
        }
        if !reach::agreed(&case) {
            return Err("reference: a matrix and passes over the records reach different states".to_string());
        }
        let equations = tables::equations(&case);
        let file = equations.bytes();
        if read_equations(&file).as_ref() != Ok(&equations) {
            return Err("reference: the equation file is not read as it was written".to_string());
        }
        let solve = self.file_truth(&file)?;

        let direct = DirectTruth::of(&case, self.budget);
        let game = meaning::states_by_game(&case);
        let search = meaning::states_by_search(&case);
        self.tally.direct.add(search.is_some() as u64, direct.states().is_none() as u64);
        let solved = match &solve {
            FileTruth::Accepted { solved: Some(solved), .. } => Some(&solved.sets[0]),
            _ => None,
        };
        let alike = |set: Option<&Vec<bool>>| set.is_none_or(|set| *set == game);
        if !alike(direct.states()) || !alike(search.as_ref()) || !alike(solved) {
            return Err("reference: game, search and rounds give different states".to_string());
        }
        Ok(CaseTruth::Accepted { case: Box::new(case), direct, file, solve })
    }

    /// What the reference says of an equation file. The rounds' sets, the parity game and the search must agree.
    pub fn file_truth(&mut self, bytes: &[u8]) -> Result<FileTruth, String> {
        let equations = match read_equations(bytes) {
            Ok(equations) => equations,
            Err(number) => return Ok(FileTruth::Refused(number)),
        };
        if equations.bytes() != bytes {
            return Err("reference: an accepted file is not written as it was read".to_string());
        }
        let cells = equations.cells.len();
        let cap = (self.budget / (cells + equations.operand_count()) as u64).max(30);
        let solved = rounds::equations(&equations, cap).ok();
        let game = meaning::solution_by_game(&equations);
        let search = meaning::solution_by_search(&equations);
        self.tally.equations.add(search.is_some() as u64, solved.is_none() as u64);
        if search.is_some_and(|search| search != game) {
            return Err("reference: game and search give different solutions".to_string());
        }
        if solved.as_ref().is_some_and(|solved| (&solved.cells, &solved.sets) != (&game.0, &game.1)) {
            return Err("reference: game and rounds give different solutions".to_string());
        }
        Ok(FileTruth::Accepted { initial: equations.initial, cells, cap, solved })
    }

    fn translate(&mut self, bytes: &[u8], truth: &CaseTruth, size: usize) -> Check {
        self.tally.calls += 1;
        let (expected, written) = match truth {
            CaseTruth::Refused(number) => (Numbers::refused(*number), &[][..]),
            CaseTruth::Accepted { file, .. } if size < file.len() => (Numbers::refused(13), &[][..]),
            CaseTruth::Accepted { file, .. } => (Numbers::written(file.len()), &file[..]),
        };
        let input = bytes.to_vec();
        let mut file = Lent::bytes(size, &mut self.random);
        let answer = self.calls.translate(&input, file.lend());
        same(answer, expected)
            .and_then(|()| file.holds(written, "file bytes"))
            .and_then(|()| unchanged(&input, bytes))
            .map_err(|text| format!("translate, file {size}: {text}"))
    }

    fn direct(&mut self, bytes: &[u8], truth: &CaseTruth, size: usize, limit: u64) -> Check {
        self.tally.calls += 1;
        let (expected, written) = match truth {
            CaseTruth::Refused(number) => (RouteNumbers::refused(*number), Vec::new()),
            CaseTruth::Accepted { direct, .. } => direct.answer(size, limit),
        };
        let input = bytes.to_vec();
        let mut marks = Lent::words(size, &mut self.random);
        let answer = self.calls.direct(&input, marks.lend(), limit);
        same(answer, expected)
            .and_then(|()| marks.holds(&written, "mark words"))
            .and_then(|()| unchanged(&input, bytes))
            .map_err(|text| format!("direct, marks {size}, limit {limit}: {text}"))
    }

    fn solve(&mut self, bytes: &[u8], truth: &FileTruth, work_size: usize, marks_size: usize, limit: u64) -> Check {
        self.tally.calls += 1;
        let expected = truth.solve(work_size, marks_size, limit);
        let input = bytes.to_vec();
        let mut work = Lent::bytes(work_size, &mut self.random);
        let mut marks = Lent::words(marks_size, &mut self.random);
        let answer = self.calls.solve(&input, work.lend(), marks.lend(), limit);
        same(answer, expected.numbers)
            .and_then(|()| work.holds_work(&expected.work))
            .and_then(|()| marks.holds(&expected.marks, "mark words"))
            .and_then(|()| unchanged(&input, bytes))
            .map_err(|text| format!("solve, work {work_size}, marks {marks_size}, limit {limit}: {text}"))
    }

    fn equation(
        &mut self,
        bytes: &[u8],
        truth: &CaseTruth,
        file_size: usize,
        work_size: usize,
        marks_size: usize,
        limit: u64,
    ) -> Check {
        self.tally.calls += 1;
        let (expected, written) = match truth {
            CaseTruth::Refused(number) => (Outcome::refused(*number), &[][..]),
            CaseTruth::Accepted { file, .. } if file_size < file.len() => (Outcome::refused(13), &[][..]),
            CaseTruth::Accepted { direct, file, solve, .. } => {
                (solve.solve(work_size, marks_size, limit).over_case(&direct.reached), &file[..])
            }
        };
        let input = bytes.to_vec();
        let mut file = Lent::bytes(file_size, &mut self.random);
        let mut work = Lent::bytes(work_size, &mut self.random);
        let mut marks = Lent::words(marks_size, &mut self.random);
        let answer = self.calls.equation(&input, file.lend(), work.lend(), marks.lend(), limit);
        same(answer, truth.priced(expected.numbers, limit))
            .and_then(|()| file.holds(written, "file bytes"))
            .and_then(|()| work.holds_work(&expected.work))
            .and_then(|()| marks.holds(&expected.marks, "mark words"))
            .and_then(|()| unchanged(&input, bytes))
            .map_err(|text| {
                format!("equation route, file {file_size}, work {work_size}, marks {marks_size}, limit {limit}: {text}")
            })
    }
}
