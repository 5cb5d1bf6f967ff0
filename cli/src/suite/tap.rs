//! The report in the Test Anything Protocol, version 14.

use super::result::{Checked, Report, Standing};
use super::text;
use crate::json;
use serde_json::{json, Value};

pub fn text(report: &Report) -> String {
    let points: String = report.results.iter().enumerate().map(|(number, result)| point(number + 1, result)).collect();
    let end = match report.skipped() {
        0 => "",
        _ => "Bail out! A check is not as expected.\n",
    };
    format!("TAP version 14\n1..{}\n{points}{end}", report.planned)
}

fn point(number: usize, result: &Checked) -> String {
    let good = result.standing() == Standing::AsExpected;
    let description = escaped(&format!("{}: {}", result.name, result.model()));
    let state = if good { "ok" } else { "not ok" };
    format!("{state} {number} - {description}\n{}", if good { String::new() } else { diagnosis(result) })
}

/// Backslashes and number signs have a meaning in a description, and it is one line.
fn escaped(description: &str) -> String {
    description.replace('\\', "\\\\").replace('#', "\\#").replace('\n', " ")
}

/// What came of it as a block of YAML, in which a string may be written as JSON writes it.
fn diagnosis(result: &Checked) -> String {
    let string = |text: &str| json::text(&Value::from(text));
    let reasons = json!(text::reasons(result)).to_string();
    format!(
        "  ---\n  message: {}  formula: {}  reasons: {}  ...\n",
        string(&result.words()),
        string(&result.formula),
        reasons + "\n"
    )
}
