//! The report for people: a line for each formula with the models in which it is as expected, and one for each check that
//! is not, with the reason below it.

use super::result::{Checked, Report, Standing};
use crate::answer;
use crate::faults;
use bithrowy_front::amount;
use std::collections::BTreeSet;
use std::path::Path;

/// Names are lined up, unless they are longer than this.
const WIDEST: usize = 50;

/// More models than this are not named, but counted.
const NAMED: usize = 6;

/// What stands before the lines that say why.
const MARGIN: &str = "       ";

pub fn text(report: &Report) -> String {
    let names = report.results.iter().map(|result| result.name.chars().count()).max().unwrap_or(0).min(WIDEST);
    let formulas = report.results.chunk_by(|one, next| one.formula == next.formula);
    formulas.map(|checks| formula(checks, names)).collect::<String>() + "\n" + &summary(report)
}

/// The checks of one formula.
fn formula(checks: &[Checked], names: usize) -> String {
    let (good, other): (Vec<&Checked>, Vec<&Checked>) =
        checks.iter().partition(|check| check.standing() == Standing::AsExpected);
    let good_ones = as_expected(&good).map(|words| format!("{:<6} {:names$}  {words}\n", "ok", good[0].name));
    good_ones.into_iter().chain(other.iter().map(|check| line(check, names) + &why(check))).collect()
}

/// The models in which a formula holds, and those in which it fails, all of them as expected.
fn as_expected(checks: &[&Checked]) -> Option<String> {
    let (holds, fails): (Vec<&Checked>, Vec<&Checked>) = checks.iter().partition(|check| check.expected);
    let holds = (!holds.is_empty()).then(|| format!("holds in {}", models(&holds)));
    let fails = (!fails.is_empty()).then(|| format!("fails in {}, as expected", models(&fails)));
    let words: Vec<String> = holds.into_iter().chain(fails).collect();
    (!words.is_empty()).then(|| words.join("; "))
}

/// The models by their files' names, without folder and ending.
fn models(checks: &[&Checked]) -> String {
    if checks.len() > NAMED {
        return amount::of(checks.len(), "model");
    }
    let name = |check: &&Checked| Path::new(check.model()).file_stem().map(|name| name.to_string_lossy().into_owned());
    checks.iter().filter_map(name).collect::<Vec<String>>().join(", ")
}

fn line(result: &Checked, names: usize) -> String {
    let standing = match result.standing() {
        Standing::AsExpected => "ok",
        Standing::Unexpected => "WRONG",
        Standing::Fault => "FAULT",
        Standing::Differ => "DIFFER",
    };
    let words = match &result.outcome {
        Ok(_) => result.words(),
        Err(_) => "cannot be checked:".to_string(),
    };
    format!("{standing:<6} {:names$}  {}  {words}\n", result.name, result.model())
}

/// Why a verdict is not as expected, or what is wrong and what to do, for programs that show it in their own way.
pub fn reasons(result: &Checked) -> Vec<String> {
    match &result.outcome {
        Ok(_) if result.standing() == Standing::AsExpected => Vec::new(),
        Ok(answer) => answer.explanation.clone(),
        Err(trouble) => faults::text(trouble).lines().map(str::to_string).collect(),
    }
}

/// The same for people. The lines of a fault stay whole: a caret stands below its place.
fn why(result: &Checked) -> String {
    let whole = |line: &String| format!("{MARGIN}{line}\n");
    let broken = |line: &String| answer::explained(MARGIN, line);
    match &result.outcome {
        Ok(_) => reasons(result).iter().map(broken).collect(),
        Err(_) => reasons(result).iter().map(whole).collect(),
    }
}

fn summary(report: &Report) -> String {
    let formulas: BTreeSet<&str> = report.results.iter().map(|result| result.formula.as_str()).collect();
    let models: BTreeSet<&str> = report.results.iter().filter_map(|result| result.model.as_deref()).collect();
    format!(
        "{} of {} on {}: {}\n",
        amount::of(report.results.len(), "check"),
        amount::of(formulas.len(), "formula"),
        amount::of(models.len(), "model"),
        standings(report)
    )
}

fn standings(report: &Report) -> String {
    let good = report.count(Standing::AsExpected);
    if good == report.planned {
        return "all as expected".to_string();
    }
    let mut said = vec![format!("{good} as expected")];
    let more = [
        (report.count(Standing::Unexpected), "not as expected"),
        (report.count(Standing::Fault), "at fault"),
        (report.count(Standing::Differ), "with routes that differ"),
        (report.skipped(), "not run"),
    ];
    said.extend(more.iter().filter(|(count, _)| *count > 0).map(|(count, what)| format!("{count} {what}")));
    said.join(", ")
}
