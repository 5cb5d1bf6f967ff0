//! The paper's "Slips seen in such programs", and slips in the numbers of records, in the names of labels, in the count, in
//! which states it covers, and in the price, as wrong versions of the calls. The comparison must notice each of them.

use crate::calls::{mark_words, Calls, EquationNumbers, Numbers, Recorded, RouteNumbers, MARK_WORDS};
use crate::formats::*;
use crate::meaning::{accepted_by_node, cell_values};
use crate::misreached::Route;
use crate::names::alike;
use crate::price::Run;
use crate::reader::{read_equations, read_in_order};
use crate::rounds::{self, Counter, Solved, Spent};
use crate::tables;
use crate::{mispriced, misreached, misread};

#[derive(Clone, Copy, Debug, PartialEq, Eq)]
pub enum Slip {
    /// One operand for a recorded copy.
    CopiesKept,
    /// Merging transitions with different labels and equal ends.
    LabelsMerged,
    /// Keeping an inner block's values into the next outer round.
    InnerKept,
    /// Ordering blocks inside out.
    InsideOut,
    /// A box without transitions taken as false.
    EmptyBoxFalse,
    /// Copies looked for among all records, not only those before: a record that has one is never counted as distinct.
    CopiesAnywhere,
    /// The distinct records answered as the records, and the records as the distinct ones.
    NumbersSwapped,
    /// No numbers of records when the rounds exceed the limit.
    LostWhenSpent,
    /// Merging transitions with equal ends whose different labels have the same names.
    AlikeMerged,
    /// Names compared in order.
    NamesInOrder,
    /// Names compared as a set.
    NamesAsSet,
    /// A silent label accepted by no label node.
    SilentRefused,
    /// Version 1 with version 2's acceptance: its labels, which have no names, are all silent.
    NumberedSilent,
    /// The same, with names read where version 2 has them, whatever stands there.
    NumberedNamed,
    /// 15 looked at after 7.
    NamesAfterActions,
    /// 15 looked at only in labels that a transition or an action node has.
    UnusedUnchecked,
    /// Only names above 255 are refused, and names behind a zero are not.
    BehindUnchecked,
    /// The numbers of records answered after 15, as if only numbers up to 10 refused a case.
    TallyAfterNames,
    /// The first of the mark words left out of the count.
    WordUncounted,
    /// All marked states counted by the routes, reached or not.
    AllCounted,
    /// The same by the equation route alone, which answers the number that solve counts.
    SolveCountKept,
    /// The reached states counted, marked or not.
    MarksUnasked,
    /// The initial state and every transition's target taken as reached, wherever the transition starts.
    TargetsReached,
    /// The initial state left out unless some transition from a reached state enters it.
    InitialUncounted,
    /// Only one transition followed from the initial state.
    OneStep,
    /// The records passed over once, in their order.
    OnePass,
    /// Only those labels followed that some box or diamond of the formula accepts.
    AcceptedFollowed,
    /// Silent labels not followed.
    SilentNotFollowed,
    /// Transitions followed from target to source.
    Backwards,
    /// State 0 taken as the initial one.
    FromStateZero,
    /// The verdict tells whether some reached state is marked.
    VerdictOfReached,
    /// Only reached states marked.
    MarksCut,
    /// The minimum looked at before the free rule.
    MinimumBeforeFree,
    /// 1,000 rounds of a solved run paid as two started thousands.
    ThousandAsTwo,
    /// The same of a limit: 0 paid as a started thousand.
    LimitAsTwo,
    /// 500 cells paid as two started parts.
    FiveHundredAsTwo,
    /// No solved run free.
    NothingFree,
    /// A solved run free below 100 cells only.
    HundredNotFree,
    /// A solved run free above 100 cells too, below 200.
    MoreFree,
    /// A spent run priced by the rounds of its answer, which are 0.
    SpentByRounds,
    /// A spent run with the minimum.
    SpentWithMinimum,
    /// A spent run that pays its cells too.
    SpentPaysCells,
    /// A spent run of at most 100 cells free.
    SpentFree,
    /// 13 priced as if the run were solved, if the equation file was not written.
    ShortFilePriced,
    /// The same, if it was.
    ShortMemoryPriced,
    /// The cells counted without the added nu's row.
    AddedRowUnpaid,
}

pub const SLIPS: [Slip; 46] = [
    Slip::CopiesKept,
    Slip::LabelsMerged,
    Slip::InnerKept,
    Slip::InsideOut,
    Slip::EmptyBoxFalse,
    Slip::CopiesAnywhere,
    Slip::NumbersSwapped,
    Slip::LostWhenSpent,
    Slip::AlikeMerged,
    Slip::NamesInOrder,
    Slip::NamesAsSet,
    Slip::SilentRefused,
    Slip::NumberedSilent,
    Slip::NumberedNamed,
    Slip::NamesAfterActions,
    Slip::UnusedUnchecked,
    Slip::BehindUnchecked,
    Slip::TallyAfterNames,
    Slip::WordUncounted,
    Slip::AllCounted,
    Slip::SolveCountKept,
    Slip::MarksUnasked,
    Slip::TargetsReached,
    Slip::InitialUncounted,
    Slip::OneStep,
    Slip::OnePass,
    Slip::AcceptedFollowed,
    Slip::SilentNotFollowed,
    Slip::Backwards,
    Slip::FromStateZero,
    Slip::VerdictOfReached,
    Slip::MarksCut,
    Slip::MinimumBeforeFree,
    Slip::ThousandAsTwo,
    Slip::LimitAsTwo,
    Slip::FiveHundredAsTwo,
    Slip::NothingFree,
    Slip::HundredNotFree,
    Slip::MoreFree,
    Slip::SpentByRounds,
    Slip::SpentWithMinimum,
    Slip::SpentPaysCells,
    Slip::SpentFree,
    Slip::ShortFilePriced,
    Slip::ShortMemoryPriced,
    Slip::AddedRowUnpaid,
];

impl Slip {
    /// Is it in how cases with wrong records are refused, and in nothing else?
    pub fn in_wrong_records(self) -> bool {
        use Slip::{BehindUnchecked, NamesAfterActions, TallyAfterNames, UnusedUnchecked};
        matches!(self, NamesAfterActions | UnusedUnchecked | BehindUnchecked | TallyAfterNames)
    }

    /// Is it in the solver? The others are in what comes before it, or in what the routes answer beside it.
    pub fn in_solver(self) -> bool {
        matches!(self, Slip::InnerKept | Slip::WordUncounted)
    }

    /// Is it in which marked states the routes count, or in what they answer beside that?
    pub fn in_reach(self) -> bool {
        (Slip::AllCounted as usize..=Slip::MarksCut as usize).contains(&(self as usize))
    }

    /// Is it in the price, and in nothing else? Those are the last.
    pub fn in_price(self) -> bool {
        self as usize >= Slip::MinimumBeforeFree as usize
    }

    /// Does it show only at counts that hardly any case made by chance has?
    pub fn is_rare(self) -> bool {
        use Slip::{AddedRowUnpaid, FiveHundredAsTwo, HundredNotFree, MoreFree, NothingFree, ThousandAsTwo};
        matches!(self, ThousandAsTwo | FiveHundredAsTwo | NothingFree | HundredNotFree | MoreFree | AddedRowUnpaid)
    }
}

/// What is answered and marked of a set after so many rounds.
type Report<'a> = dyn Fn(&Equations, &[bool], u64) -> (Numbers, [u64; MARK_WORDS]) + 'a;

/// The calls by the reference, with a slip or with none.
pub struct Reference(pub Option<Slip>);

/// A wrong loop may run for ever: it is ended here.
const MOST_ROUNDS: u64 = 200_000;

impl Reference {
    fn equations(&self, case: &Case) -> Equations {
        match self.0 {
            Some(Slip::CopiesKept) => tables::equations_over(case, &case.transitions),
            Some(Slip::LabelsMerged) => tables::equations_over(case, &merged(&case.transitions)),
            Some(Slip::AlikeMerged) => tables::equations_over(case, &alike_merged(case)),
            Some(Slip::InsideOut) => inside_out(tables::equations(case)),
            Some(Slip::EmptyBoxFalse) => empty_boxes_false(case, tables::equations(case)),
            _ => tables::equations(case),
        }
    }

    fn solved(&self, equations: &Equations, limit: u64) -> Result<Solved, Spent> {
        match self.0 {
            Some(Slip::InnerKept) => solved_keeping(equations, limit.min(MOST_ROUNDS)),
            _ => rounds::equations(equations, limit),
        }
    }

    fn directly(&self, case: &Case, limit: u64) -> Result<(Vec<bool>, u64), Spent> {
        match self.0 {
            Some(Slip::LabelsMerged) => {
                let transitions = merged(&case.transitions);
                rounds::direct(&Case { transitions, ..case.clone() }, limit)
            }
            Some(slip @ (Slip::InnerKept | Slip::EmptyBoxFalse)) => {
                let (accepted, held) = (accepted_by_node(case), vec![None; case.formula.len()]);
                let counter = Counter::new(limit.min(MOST_ROUNDS));
                let mut run = WrongDirect { case, slip, accepted, held, counter };
                let set = run.evaluate(0)?;
                Ok((set, run.counter.rounds))
            }
            _ => rounds::direct(case, limit),
        }
    }

    /// What solve reports of a set.
    fn reported(&self, set: &[bool], initial: usize, rounds: u64) -> Numbers {
        let mut report = Numbers::report(set, initial, rounds);
        if self.0 == Some(Slip::WordUncounted) {
            report.count -= set.iter().take(64).filter(|&&marked| marked).count() as u64;
        }
        report
    }

    /// What direct answers on an accepted case, without the numbers of records.
    fn direct_answer(&self, case: &Case, marks: &mut [u64], limit: u64) -> Numbers {
        if marks.len() < MARK_WORDS {
            return Numbers::refused(13);
        }
        match self.directly(case, limit) {
            Err(Spent) => Numbers::refused(14),
            Ok((set, rounds)) => {
                marks[..MARK_WORDS].copy_from_slice(&misreached::marked(self.0, case, &set));
                misreached::reported(self.0, Route::Direct, case, &set, rounds)
            }
        }
    }

    /// Solves an equation file, given what is reported and marked of block 0's set and the rounds.
    fn solve_with(&self, file: &[u8], work: &mut [u8], marks: &mut [u64], limit: u64, report: &Report) -> Numbers {
        let equations = match read_equations(file) {
            Ok(equations) => equations,
            Err(number) => return Numbers::refused(number),
        };
        let cells = equations.cells.len();
        if work.len() < cells || marks.len() < MARK_WORDS {
            return Numbers::refused(13);
        }
        work[..cells].fill(0);
        match self.solved(&equations, limit) {
            Err(Spent) => Numbers::refused(14),
            Ok(solved) => {
                for (byte, &value) in work.iter_mut().zip(&solved.cells) {
                    *byte = value as u8;
                }
                let (numbers, words) = report(&equations, &solved.sets[0], solved.rounds);
                marks[..MARK_WORDS].copy_from_slice(&words);
                numbers
            }
        }
    }

    /// The numbers of records that come with an answer on an accepted case.
    fn recorded(&self, case: &Case, answer: Numbers) -> Recorded {
        let records = case.transitions.len() as u64;
        let distinct = tables::distinct(&case.transitions).len() as u64;
        match self.0 {
            Some(Slip::CopiesAnywhere) => Recorded { records, distinct: without_copies(&case.transitions) },
            Some(Slip::AlikeMerged) => Recorded { records, distinct: alike_merged(case).len() as u64 },
            Some(Slip::NumbersSwapped) => Recorded { records: distinct, distinct: records },
            Some(Slip::LostWhenSpent) if answer.refusal == 14 => Recorded::default(),
            _ => Recorded { records, distinct },
        }
    }

    /// The numbers of the equation route on an accepted case, whose file was written or not.
    fn priced(&self, case: &Case, answer: Numbers, written: bool, limit: u64) -> EquationNumbers {
        let added = !case.root_binds() && self.0 != Some(Slip::AddedRowUnpaid);
        let cells = (case.states * (case.formula.len() + added as usize)) as u64;
        let run = Run { refusal: answer.refusal, rounds: answer.rounds, cells, limit };
        let cents = mispriced::cents(self.0, run, written);
        EquationNumbers { run: RouteNumbers::with(answer, self.recorded(case, answer)), cents }
    }

    /// What a route answers on a case that is not accepted.
    fn refused(&self, bytes: &[u8], number: u64) -> RouteNumbers {
        match read_in_order(bytes, &[6]) {
            Ok(case) if number == 15 && self.0 == Some(Slip::TallyAfterNames) => {
                let answer = Numbers::refused(number);
                RouteNumbers::with(answer, self.recorded(&case, answer))
            }
            _ => RouteNumbers::refused(number),
        }
    }
}

/// How many records have no other record equal to them.
fn without_copies(transitions: &[Transition]) -> u64 {
    let equal = |t: &Transition| transitions.iter().filter(|&u| u == t).count();
    transitions.iter().filter(|&t| equal(t) == 1).count() as u64
}

/// Only the first of the transitions with equal ends.
fn merged(transitions: &[Transition]) -> Vec<Transition> {
    let mut kept: Vec<Transition> = Vec::new();
    for t in transitions {
        if !kept.iter().any(|k| (k.source, k.target) == (t.source, t.target)) {
            kept.push(*t);
        }
    }
    kept
}

/// Only the first of the transitions with equal ends and alike labels.
fn alike_merged(case: &Case) -> Vec<Transition> {
    let mut kept: Vec<Transition> = Vec::new();
    for t in &case.transitions {
        let same =
            |k: &Transition| (k.source, k.target) == (t.source, t.target) && alike(&case.labels, k.label, t.label);
        if !kept.iter().any(same) {
            kept.push(*t);
        }
    }
    kept
}

/// The blocks in the opposite order.
fn inside_out(mut equations: Equations) -> Equations {
    let last = equations.blocks.len() - 1;
    equations.blocks.reverse();
    for cell in &mut equations.cells {
        if let Cell::Variable { block, .. } = cell {
            *block = last - *block;
        }
    }
    equations
}

/// The cells of boxes without transitions made false.
fn empty_boxes_false(case: &Case, mut equations: Equations) -> Equations {
    let added = !case.root_binds() as usize;
    for i in (0..case.formula.len()).filter(|&i| case.formula[i].kind == formula::BOX) {
        for cell in &mut equations.cells[(i + added) * case.states..(i + added + 1) * case.states] {
            if cell.operands().is_empty() {
                *cell = Cell::Or(Vec::new());
            }
        }
    }
    equations
}

/// The equation rounds with blocks that start anew only the first time.
fn solved_keeping(equations: &Equations, limit: u64) -> Result<Solved, Spent> {
    let mut sets: Vec<Vec<bool>> = equations.blocks.iter().map(|b| vec![b.greatest; equations.states]).collect();
    let mut counter = Counter::new(limit);
    keeping_from(equations, 0, &mut sets, &mut counter)?;
    let cells = cell_values(equations, &sets);
    Ok(Solved { sets, cells, rounds: counter.rounds })
}

fn keeping_from(equations: &Equations, k: usize, sets: &mut [Vec<bool>], counter: &mut Counter) -> Result<(), Spent> {
    let first = equations.blocks[k].first;
    loop {
        if k + 1 < equations.blocks.len() {
            keeping_from(equations, k + 1, sets, counter)?;
        }
        counter.count()?;
        let right = cell_values(equations, sets)[first..first + equations.states].to_vec();
        if right == sets[k] {
            return Ok(());
        }
        sets[k] = right;
    }
}

/// Direct with binders that start anew only the first time, or with empty boxes taken as false.
struct WrongDirect<'a> {
    case: &'a Case,
    slip: Slip,
    accepted: Vec<Vec<bool>>,
    held: Vec<Option<Vec<bool>>>,
    counter: Counter,
}

impl WrongDirect<'_> {
    fn evaluate(&mut self, at: usize) -> Result<Vec<bool>, Spent> {
        let (case, n) = (self.case, self.case.states);
        let kind = case.formula[at].kind;
        let mut operands = Vec::new();
        if !formula::is_binder(kind) {
            for i in operands_of(&case.formula, at, formula::operands) {
                operands.push(self.evaluate(i)?);
            }
        }
        let start = vec![kind == formula::NU; n];
        Ok(match kind {
            formula::FALSE => vec![false; n],
            formula::TRUE => vec![true; n],
            formula::AND => (0..n).map(|s| operands[0][s] && operands[1][s]).collect(),
            formula::OR => (0..n).map(|s| operands[0][s] || operands[1][s]).collect(),
            formula::BOX | formula::DIAMOND => (0..n).map(|s| self.modal(at, s, &operands[0])).collect(),
            formula::VARIABLE => self.held[case.formula[at].argument].clone().unwrap(),
            _ => {
                let kept = if self.slip == Slip::InnerKept { self.held[at].take() } else { None };
                let mut set = kept.unwrap_or(start);
                loop {
                    self.held[at] = Some(set.clone());
                    let body = self.evaluate(at + 1)?;
                    self.counter.count()?;
                    if body == set {
                        return Ok(set);
                    }
                    set = body;
                }
            }
        })
    }

    fn modal(&self, at: usize, state: usize, operand: &[bool]) -> bool {
        let leaving = self.case.transitions.iter().filter(|t| t.source == state && self.accepted[at][t.label]);
        let ends: Vec<bool> = leaving.map(|t| operand[t.target]).collect();
        if self.case.formula[at].kind == formula::DIAMOND {
            ends.contains(&true)
        } else {
            let empty_is_true = self.slip != Slip::EmptyBoxFalse;
            !ends.contains(&false) && (empty_is_true || !ends.is_empty())
        }
    }
}

impl Calls for Reference {
    fn translate(&self, case: &[u8], file: &mut [u8]) -> Numbers {
        match misread::read(self.0, case) {
            Err(number) => Numbers::refused(number),
            Ok(case) => {
                let bytes = self.equations(&case).bytes();
                if file.len() < bytes.len() {
                    return Numbers::refused(13);
                }
                file[..bytes.len()].copy_from_slice(&bytes);
                Numbers::written(bytes.len())
            }
        }
    }

    fn solve(&self, file: &[u8], work: &mut [u8], marks: &mut [u64], limit: u64) -> Numbers {
        self.solve_with(file, work, marks, limit, &|equations, set, rounds| {
            (self.reported(set, equations.initial, rounds), mark_words(set))
        })
    }

    fn direct(&self, bytes: &[u8], marks: &mut [u64], limit: u64) -> RouteNumbers {
        match misread::read(self.0, bytes) {
            Err(number) => self.refused(bytes, number),
            Ok(case) => {
                let answer = self.direct_answer(&case, marks, limit);
                RouteNumbers::with(answer, self.recorded(&case, answer))
            }
        }
    }

    fn equation(
        &self,
        bytes: &[u8],
        file: &mut [u8],
        work: &mut [u8],
        marks: &mut [u64],
        limit: u64,
    ) -> EquationNumbers {
        let translated = self.translate(bytes, file);
        match misread::read(self.0, bytes) {
            Err(number) => EquationNumbers { run: self.refused(bytes, number), cents: 0 },
            Ok(case) => {
                let length = translated.length as usize;
                let written = translated.refusal == 0;
                let answer = if written {
                    self.solve_with(&file[..length], work, marks, limit, &|_, set, rounds| {
                        let report = misreached::reported(self.0, Route::Equation, &case, set, rounds);
                        (report, misreached::marked(self.0, &case, set))
                    })
                } else {
                    translated
                };
                self.priced(&case, answer, written, limit)
            }
        }
    }
}
