//! Answers and faults as JSON.

use crate::load::Answer;
use crate::output::is_obeyed;
use crate::trouble::Trouble;
use bithrowy_front::source::Fault;
use serde_json::{json, Map, Value};

/// A document as text. Characters that a terminal would obey are written by their numbers; they stand in strings only.
pub fn text(value: &Value) -> String {
    let plain = format!("{value:#}\n");
    plain.chars().map(|c| if is_obeyed(c) { format!("\\u{:04x}", c as u32) } else { c.to_string() }).collect()
}

/// What `check` prints.
pub fn check(answer: &Result<Answer, Trouble>) -> Value {
    let (mut document, exit, faults) = match answer {
        Ok(answer) => (answered(answer), answer.exit(), Vec::new()),
        Err(trouble) => (Map::new(), trouble.exit(), vec![fault(trouble)]),
    };
    document.insert("exit".to_string(), exit.number().into());
    document.insert("faults".to_string(), faults.into());
    Value::Object(document)
}

/// The verdict, each state, the numbers, and why it is so.
pub fn answered(answer: &Answer) -> Map<String, Value> {
    let checked = &answer.checked;
    let document = json!({
        "model": answer.case.model.source.name,
        "formula": checked.table.source.name,
        "verdict": checked.verdict,
        "initial": answer.case.model.initial,
        "states": (0..checked.holds.len()).map(|state| self::state(answer, state)).collect::<Vec<Value>>(),
        "count": checked.count,
        "rounds": { "equation": checked.equation_rounds, "direct": checked.direct_rounds },
        "records": checked.records,
        "distinct": checked.distinct,
        "cents": checked.cents,
        "explanation": answer.explanation,
    });
    document.as_object().cloned().unwrap_or_default()
}

fn state(answer: &Answer, state: usize) -> Value {
    json!({
        "number": state,
        "name": answer.case.model.names.get(&state),
        "holds": answer.checked.holds[state],
        "reached": answer.checked.reached[state],
    })
}

/// A fault with its place, if it has one.
pub fn fault(trouble: &Trouble) -> Value {
    let mut document = match trouble {
        Trouble::Fault(fault) => place(fault),
        _ => json!({}),
    };
    document["message"] = trouble.message().into();
    document["help"] = trouble.help().into();
    document["differ"] = matches!(trouble, Trouble::Differ(_)).into();
    document
}

fn place(fault: &Fault) -> Value {
    let start = fault.source.place(fault.span.start);
    let end = fault.source.place(fault.span.end);
    json!({
        "file": fault.source.name,
        "line": start.line,
        "column": start.column,
        "end_line": end.line,
        "end_column": end.column,
        "refusal": fault.refusal,
    })
}
