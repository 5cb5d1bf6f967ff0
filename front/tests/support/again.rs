//! What is written again, and read again, means the same: the formula negated and printed, its table and its parts as text,
//! and the case file as text.

use super::difference::{differs, fine, same, Compared};
use super::expected::LIMIT;
use super::relations;
use super::systems::System;
use super::trees::{shape, state};
use super::trial::Trial;
use bithrowy_front::case::{self, Case};
use bithrowy_front::check::{self, Checked};
use bithrowy_front::expand::{self, Expansion};
use bithrowy_front::formula::{State, StateFormula};
use bithrowy_front::label::SILENT;
use bithrowy_front::model::Model;
use bithrowy_front::source::Source;
use bithrowy_front::table::{Kind, Table};
use bithrowy_front::{aut, back, parser, print};

/// A formula and its negation share the states, in as many direct rounds; a formula negated twice is the formula.
pub fn compare_opposites(trial: &Trial, model: &Model, checked: &Checked) -> Compared<()> {
    let text = trial.mcf(None);
    let negated = checked_text(model, format!("!({text})"))?;
    let others: Vec<bool> = checked.holds.iter().map(|holds| !holds).collect();
    same("the negation's states", negated.holds, others)?;
    same("the negation's rounds", negated.direct_rounds, checked.direct_rounds)?;
    let twice = checked_text(model, format!("!!({text})"))?;
    same("the states of the formula negated twice", &twice.holds, &checked.holds)?;
    same("the table of the formula negated twice", kinds(&twice.table), kinds(&checked.table))
}

fn checked_text(model: &Model, text: String) -> Compared<Checked> {
    let source = Source::new("opposite.mcf", text);
    let formula = fine("an opposite's text", parser::read(&source, &model.silent))?;
    let expansion = fine("an opposite's expansion", expand::expand(&source, &formula))?;
    let case = fine("an opposite's case", case::write(model, &expansion, true))?;
    // The equation route's rounds of a negation may be a few more, so the limit is not the trial's.
    check::check(&case, 100 * LIMIT).or_else(|trouble| differs("an opposite's answer", format!("{trouble:?}")))
}

fn kinds(table: &Table) -> Vec<Kind> {
    table.nodes.iter().map(|node| node.kind).collect()
}

/// The table as text gives the same table.
pub fn compare_table(trial: &Trial, table: &Table) -> Compared<()> {
    let source = Source::new("table.mcf", table.text(0));
    let formula = fine("the table's text", parser::read(&source, trial.system.silent))?;
    match fine("the expansion of the table's text", expand::expand(&source, &formula))? {
        Expansion::Table(again) => same("the table of the table's text", kinds(&again), kinds(table))?,
        large => return differs("the table of the table's text", format!("{large:?}")),
    }
    let binders = table.binders();
    let around = |inner: usize| binders.iter().filter(move |&&outer| outer < inner && inner < table.end(outer));
    let alike =
        binders.iter().find(|&&inner| around(inner).any(|&outer| table.nodes[outer].name == table.nodes[inner].name));
    same("binders of one name, one inside the other", alike, None)
}

/// Each closed part of the table, as text and in the words of the formula's own text, means the part's values.
pub fn compare_parts(trial: &Trial, checked: &Checked) -> Compared<()> {
    let table = &checked.table;
    for node in (0..table.nodes.len()).filter(|&node| table.is_closed(node)) {
        for text in [table.text(node), table.part(node)] {
            let formula = fine("a part's text", parser::read(&Source::new("part.mcf", text), trial.system.silent))?;
            let expected = relations::states(&trial.system, &formula, relations::RIGHT);
            same("a part's values", &checked.values[node], &expected)?;
        }
    }
    Ok(())
}

/// The case file as text again means the same.
pub fn compare_back(case: &Case, checked: &Checked) -> Compared<()> {
    let Ok(texts) = back::texts(&case.bytes) else { return differs("the case as text", "it is refused") };
    let model = fine("the case's model", aut::read(&Source::new("back.aut", texts.aut), SILENT))?;
    let formula = fine("the case's formula", parser::read(&Source::new("back.mcf", texts.mcf), SILENT))?;
    let label = |number: usize| model.labels[number].text.clone();
    let transitions = model.transitions.iter().map(|t| (t.source, label(t.label), t.target)).collect();
    let system = System { states: model.states, initial: model.initial, silent: SILENT, transitions };
    let found = (system.initial, system.distinct());
    same("the case's initial state and transitions", found, (case.model.initial, checked.distinct))?;
    same("the case's states", &relations::states(&system, &formula, relations::RIGHT), &checked.holds)
}

/// The formula that was read is the one that was meant, also after it is printed and read again.
pub fn compare_trees(trial: &Trial, formula: &StateFormula) -> Compared<()> {
    same("the formula", shape(formula), shape(&trial.formula))?;
    for (what, text) in [("plain", print::plain(formula)), ("bracketed", print::bracketed(formula))] {
        let source = Source::new(what, text);
        let again = fine("a printed formula", parser::read(&source, trial.system.silent))?;
        same("the formula after printing", shape(&again), shape(formula))?;
        same("the sameness after printing", (again.same(formula), formula.same(&again)), (true, true))?;
    }
    let negated = state(State::Not(Box::new(formula.clone())));
    same("the sameness with the negation", (negated.same(formula), formula.same(&negated)), (false, false))
}
