//! The report as JSON.

use super::result::{Checked, Report, Standing};
use crate::json;
use serde_json::{json, Value};

pub fn document(report: &Report) -> Value {
    json!({
        "checks": report.results.iter().map(check).collect::<Vec<Value>>(),
        "summary": {
            "checks": report.planned,
            "as_expected": report.count(Standing::AsExpected),
            "unexpected": report.count(Standing::Unexpected),
            "faults": report.count(Standing::Fault),
            "differ": report.count(Standing::Differ),
            "not_run": report.skipped(),
            "seconds": report.seconds,
        },
        "exit": report.exit().number(),
    })
}

fn check(result: &Checked) -> Value {
    let answer = result.outcome.as_ref().ok().map(json::answered);
    json!({
        "name": result.name,
        "formula": result.formula,
        "model": result.model,
        "expected": result.expected,
        "as_expected": result.standing() == Standing::AsExpected,
        "answer": answer,
        "fault": result.outcome.as_ref().err().map(json::fault),
        "seconds": result.time.as_secs_f64(),
    })
}
