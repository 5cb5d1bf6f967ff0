//! An answer as text for people.

use crate::load::Answer;
use crate::output::broken;
use bithrowy_front::amount::{self, thousands};

/// How much further in a sentence goes on.
const CONTINUED: usize = 4;

/// The verdict, the facts, and why it is so.
pub fn text(answer: &Answer) -> String {
    let explanation: String = answer.explanation.iter().map(|line| explained("", line)).collect();
    format!("{}\n\n{}\n{explanation}", verdict(answer), rows(&facts(answer)))
}

/// A line of an explanation with something before it; if it is too long it goes on below, further in.
pub fn explained(before: &str, line: &str) -> String {
    let words = line.trim_start();
    let start = format!("{before}{:indent$}", "", indent = line.len() - words.len());
    broken(&start, start.len() + CONTINUED, words)
}

fn verdict(answer: &Answer) -> String {
    let initial = answer.case.model.state(answer.case.model.initial);
    format!("The formula {} in the initial state, {initial}.", word(answer.checked.verdict))
}

/// `holds` or `fails`.
pub fn word(holds: bool) -> &'static str {
    if holds {
        "holds"
    } else {
        "fails"
    }
}

fn facts(answer: &Answer) -> Vec<(&'static str, String)> {
    let checked = &answer.checked;
    let mut facts = vec![("holds in", states(answer, true)), ("fails in", states(answer, false))];
    facts.extend(unreached(answer).map(|states| ("not reached", states)));
    let (equation, direct) = (thousands(checked.equation_rounds), thousands(checked.direct_rounds));
    facts.push(("rounds", format!("{equation} by the equation route, {direct} by the direct one")));
    let records = amount::of(checked.records, "record");
    facts.push(("transitions", format!("{records}, {} distinct", thousands(checked.distinct))));
    facts.push(("price", amount::of(checked.cents, "cent")));
    facts
}

/// The states that can be reached and in which the formula holds, or fails.
fn states(answer: &Answer, holds: bool) -> String {
    let checked = &answer.checked;
    let names: Vec<String> = (0..checked.holds.len())
        .filter(|&state| checked.reached[state] && checked.holds[state] == holds)
        .map(|state| answer.case.model.state(state))
        .collect();
    match names.len() {
        0 => "no state".to_string(),
        count => format!("{}: {}", amount::of(count, "state"), names.join(", ")),
    }
}

/// The states that no run from the initial state comes to, each with its own verdict, if there are any.
fn unreached(answer: &Answer) -> Option<String> {
    let checked = &answer.checked;
    let names: Vec<String> = (0..checked.holds.len())
        .filter(|&state| !checked.reached[state])
        .map(|state| format!("{} ({})", answer.case.model.state(state), word(checked.holds[state])))
        .collect();
    (!names.is_empty()).then(|| format!("{}: {}", amount::of(names.len(), "state"), names.join(", ")))
}

/// Names with their values, which are lined up; a value that is too long for one line goes on below itself.
pub fn rows(facts: &[(&str, String)]) -> String {
    let width = facts.iter().map(|(name, _)| name.len()).max().unwrap_or(0);
    let row = |(name, value): &(&str, String)| broken(&format!("  {name:width$}  "), width + 4, value);
    facts.iter().map(row).collect()
}
