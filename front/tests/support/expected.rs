//! What a trial has to be refused for: counted on the formula as it is written.

use super::counting::{self, Wrong};
use super::labels;
use super::trial::Trial;
use bithrowy_front::amount;
use bithrowy_front::expand::WRITTEN_OUT;
use bithrowy_front::limits;
use bithrowy_front::source::Fault;
use bithrowy_tests::{formats, reader, rounds, tables};

/// The round limit: so small that some runs are spent.
pub const LIMIT: u64 = 200;

/// The library's numbers for a count outside its range, for too many blocks, and for spent rounds.
pub const COUNT: u64 = 3;
pub const BLOCKS: u64 = 10;
pub const SPENT: u64 = 14;

/// A case file as the independent checker reads it, with the rounds of the equation route and of the direct one.
pub struct File {
    pub read: Result<formats::Case, u64>,
    pub rounds: Option<Result<(u64, u64), rounds::Spent>>,
}

impl File {
    pub fn new(bytes: &[u8]) -> File {
        let read = reader::read_case(bytes);
        let rounds = read.as_ref().ok().map(File::rounds);
        File { read, rounds }
    }

    fn rounds(case: &formats::Case) -> Result<(u64, u64), rounds::Spent> {
        let equation = rounds::equations(&tables::equations(case), LIMIT)?.rounds;
        Ok((equation, rounds::direct(case, LIMIT)?.1))
    }
}

/// The library's number, and what the fault's message has to speak of.
pub fn refusal(trial: &Trial, file: &File) -> Option<(u64, String)> {
    let (states, nodes) = (trial.system.states, counting::size(&trial.formula).nodes);
    let blocks = counting::blocks(&trial.formula);
    let many_actions = counting::action_nodes(&trial.formula) > limits::ACTION_NODES;
    if states > limits::STATES {
        Some((COUNT, amount::of(states, "state")))
    } else if many_actions && file.read == Err(COUNT) {
        // Action formulas may share nodes, so that it is the case file which says whether they are too many.
        Some((COUNT, " node".to_string()))
    } else if nodes > limits::FORMULA_NODES as u64 {
        Some((COUNT, amount::of(nodes, "formula node")))
    } else if blocks > limits::BLOCKS as u64 {
        Some((BLOCKS, amount::of(blocks, "fixed point")))
    } else {
        let spent = file.rounds == Some(Err(rounds::Spent));
        spent.then(|| (SPENT, format!("more than {}", amount::of(LIMIT, "round"))))
    }
}

/// Does a fault about a variable point at a wrong one? Brackets around it belong to its place.
pub fn is_about_variable(fault: &Fault, wrong: &Wrong) -> bool {
    let part = fault.source.slice(fault.span);
    let without_comments: String = part.lines().filter_map(|line| line.split('%').next()).collect();
    let name = without_comments.replace(['(', ')'], "").trim().to_string();
    wrong.unbound.contains(&name) || wrong.negative.contains(&name)
}

/// The labels that a case cannot take: with too many names, or on no transition while that is not allowed. The labels of
/// a formula that is too large to be written out do not matter.
pub fn wrong_labels(trial: &Trial) -> Vec<&str> {
    let (system, formula) = (&trial.system, &trial.formula);
    let many = |label: &str| labels::names(label, system.silent).len() > limits::NAMES_OF_A_LABEL;
    let known = |label: &str| system.transitions.iter().any(|t| labels::alike(label, &t.1, system.silent));
    let written = counting::size(formula).nodes <= WRITTEN_OUT as u64;
    let of_formula = if written { counting::labels(formula) } else { Vec::new() };
    let wrong = |label: &&str| many(label) || !trial.unknown_labels && !known(label);
    let of_model = system.transitions.iter().map(|t| t.1.as_str()).filter(|&label| many(label));
    of_model.chain(of_formula.into_iter().filter(wrong)).collect()
}

/// Does a fault's message speak of one of these labels, as it is or in quotes?
pub fn is_about_label(fault: &Fault, labels: &[&str]) -> bool {
    labels.iter().any(|label| fault.message.contains(label) || fault.message.contains(&labels::quoted(label)))
}
