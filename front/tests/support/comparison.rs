//! One random model and one random formula, written as text, read and checked by `front`, and held against the relations,
//! the counts on the formula as it is written, and the independent checker of the case file.

use super::again::{compare_back, compare_opposites, compare_parts, compare_table, compare_trees};
use super::counting::{self, Wrong};
use super::difference::{differs, fine, same, Compared};
use super::expected::{is_about_label, is_about_variable, refusal, wrong_labels, File, LIMIT, SPENT};
use super::labels;
use super::relations::{self, Reading};
use super::systems::System;
use super::trial::Trial;
use super::writing::Misgrammar;
use bithrowy_front::case::{self, Case};
use bithrowy_front::check::{self, Checked, Trouble};
use bithrowy_front::expand::{self, Expansion};
use bithrowy_front::formula::StateFormula;
use bithrowy_front::model::Model;
use bithrowy_front::source::Source;
use bithrowy_front::{aut, parser};
use bithrowy_tests::{meaning, price, tables};

/// What the trial itself does; a slip is a wrong one.
#[derive(Clone, Copy)]
pub struct Way {
    pub grammar: Option<Misgrammar>,
    /// What the relations take a formula to be; nothing for a formula in which the slip would leave a variable where its
    /// binder does not allow it.
    pub taken: fn(&System, &StateFormula) -> Option<StateFormula>,
    pub reading: Reading,
}

/// The right one.
pub const RIGHT: Way = Way { grammar: None, taken: |_, formula| Some(formula.clone()), reading: relations::RIGHT };

/// What became of a trial in which nothing differs.
#[derive(Debug)]
pub enum Outcome {
    Accepted(Box<Checked>, usize),
    /// The library refused, as the counts say.
    Refused(u64),
    /// A variable that nothing binds, or that stands where it is not allowed.
    WrongVariable,
    /// A label with too many names, or on no transition.
    WrongLabel,
}

/// Compares all that there is to compare about a trial.
pub fn compare(trial: &Trial, way: &Way) -> Compared<Outcome> {
    let silent = trial.system.silent;
    let model = fine("the model's text", aut::read(&Source::new("random.aut", trial.aut()), silent))?;
    compare_model(&model, &trial.system)?;
    let source = Source::new("random.mcf", trial.mcf(way.grammar));
    let formula = fine("the formula's text", parser::read(&source, silent))?;
    let wrong = Wrong::of(&trial.formula);
    let expansion = match expand::expand(&source, &formula) {
        Ok(expansion) if wrong.is_none() => expansion,
        Err(fault) if is_about_variable(&fault, &wrong) => {
            return compare_trees(trial, &formula).map(|()| Outcome::WrongVariable);
        }
        other => return differs("the fault of a variable", format!("{other:?}, and wrong are {wrong:?}")),
    };
    let wrong = wrong_labels(trial);
    let case = match case::write(&model, &expansion, trial.unknown_labels) {
        Ok(case) if wrong.is_empty() => case,
        Err(fault) if is_about_label(&fault, &wrong) => {
            return compare_trees(trial, &formula).map(|()| Outcome::WrongLabel);
        }
        other => return differs("the fault of a label", format!("{other:?}, and wrong are {wrong:?}")),
    };
    compare_case(trial, way, &formula, &case)
}

fn compare_model(model: &Model, system: &System) -> Compared<()> {
    same("the counts of the model", (model.states, model.initial), (system.states, system.initial))?;
    let texts: Vec<&str> = model.labels.iter().map(|label| label.text.as_str()).collect();
    same("the model's labels", texts.clone(), system.labels())?;
    let names: Vec<&[String]> = model.labels.iter().map(|label| label.names.as_slice()).collect();
    let expected: Vec<Vec<&str>> = texts.iter().map(|text| labels::names(text, system.silent)).collect();
    same("the labels' names", format!("{names:?}"), format!("{expected:?}"))?;
    let read = model.transitions.iter().map(|t| (t.source, texts[t.label].to_string(), t.target)).collect::<Vec<_>>();
    same("the transitions", &read, &system.transitions)
}

fn compare_case(trial: &Trial, way: &Way, formula: &StateFormula, case: &Case) -> Compared<Outcome> {
    let file = File::new(&case.bytes);
    let outcome = match (check::check(case, LIMIT), refusal(trial, &file)) {
        (Ok(checked), None) => {
            compare_states(trial, way, &checked)?;
            compare_counts(trial, &checked)?;
            compare_opposites(trial, &case.model, &checked)?;
            compare_table(trial, &checked.table)?;
            compare_parts(trial, &checked)?;
            compare_back(case, &checked)?;
            Outcome::Accepted(Box::new(checked), version(case))
        }
        (Err(Trouble::Refused(fault)), Some((number, why)))
            if fault.refusal == Some(number) && fault.message.contains(&why) =>
        {
            Outcome::Refused(number)
        }
        (answer, expected) => return differs("the refusal", format!("{answer:?}, expected {expected:?}")),
    };
    compare_sizes(trial, case)?;
    compare_version(trial, case)?;
    compare_file(&file, &outcome)?;
    compare_trees(trial, formula)?;
    Ok(outcome)
}

fn version(case: &Case) -> usize {
    case.bytes.first().copied().map_or(0, usize::from)
}

/// The states by the relations on the formula as it was meant.
fn compare_states(trial: &Trial, way: &Way, checked: &Checked) -> Compared<()> {
    let Some(taken) = (way.taken)(&trial.system, &trial.formula) else { return Ok(()) };
    let expected = relations::states(&trial.system, &taken, way.reading);
    same("the states", &checked.holds, &expected)?;
    same("the verdict", checked.verdict, expected[trial.system.initial])?;
    let root = checked.values.first();
    same("the values of the whole formula", root, Some(&expected))
}

fn compare_counts(trial: &Trial, checked: &Checked) -> Compared<()> {
    let system = &trial.system;
    let reached = system.reached();
    let count = reached.iter().zip(&checked.holds).filter(|&(&on, &holds)| on && holds).count() as u64;
    same("the states that are reached", &checked.reached, &reached)?;
    same("the count", checked.count, count)?;
    same("the records", checked.records, system.transitions.len() as u64)?;
    same("the distinct transitions", checked.distinct, system.distinct())
}

/// The sizes as counted on the formula as it is written.
fn compare_sizes(trial: &Trial, case: &Case) -> Compared<()> {
    let size = counting::size(&trial.formula);
    match &case.expansion {
        Expansion::TooLarge { nodes, .. } => same("the nodes that are counted", *nodes as u64, size.nodes),
        Expansion::Table(table) => {
            same("the nodes", table.nodes.len() as u64, size.nodes)?;
            same("the binders", table.binders().len() as u64, size.binders)?;
            same("the blocks", table.blocks() as u64, counting::blocks(&trial.formula))
        }
    }
}

/// The case has version 2 if a label of the model or of the formula that was written out is joined.
fn compare_version(trial: &Trial, case: &Case) -> Compared<()> {
    let joined = |label: &str| label.contains('|');
    let in_model = trial.system.transitions.iter().any(|t| joined(&t.1));
    let written = matches!(case.expansion, Expansion::Table(_));
    let in_formula = written && counting::labels(&trial.formula).into_iter().any(joined);
    same("the version", version(case), 1 + (in_model || in_formula) as usize)
}

/// The case file's meaning, or its refusal, as the independent checker reads it.
fn compare_file(file: &File, outcome: &Outcome) -> Compared<()> {
    match (&file.read, outcome) {
        (Ok(read), Outcome::Accepted(checked, _)) => {
            same("the states by a parity game", &checked.holds, &meaning::states_by_game(read))?;
            let rounds = checked.equation_rounds;
            same("the rounds", file.rounds, Some(Ok((rounds, checked.direct_rounds))))?;
            let cells = tables::equations(read).cells.len() as u64;
            same("the price", checked.cents, price::cents(price::Run { refusal: 0, rounds, cells, limit: LIMIT }))
        }
        (Ok(_), Outcome::Refused(SPENT)) => Ok(()),
        (Err(number), Outcome::Refused(refused)) => same("the refusal of the case file", number, refused),
        (read, outcome) => differs("the case file", format!("{read:?}, {outcome:?}")),
    }
}
