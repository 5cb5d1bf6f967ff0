//! Edits of the largest model and a want on it, on the proved side and on the plain one.

use crate::inputs::largest_named;
use crate::library::{self, RouteNumbers};
use crate::plain::{cases, editor};
use crate::{cell, time, Side, LIMIT};
use editor::Transition;

/// What an edit is lent. Each part has room beyond what is needed, which the edit must leave as it is.
#[derive(Clone, PartialEq)]
struct Lent {
    model: Vec<u8>,
    marks: [u64; 5],
}

#[derive(Clone, Copy)]
enum Call {
    Add(Transition),
    Drop(Transition),
    Want,
}

/// What a call answers: an edit its refusal number, a want six numbers.
#[derive(Clone, Copy, Debug, PartialEq)]
enum Answer {
    One(u64),
    Six(RouteNumbers),
}

fn number(answer: Result<(), u8>) -> Answer {
    Answer::One(answer.err().unwrap_or(0).into())
}

#[inline(never)]
fn run(call: Call, side: Side, lent: &mut Lent) -> Answer {
    let Lent { model, marks } = lent;
    match (call, side) {
        (Call::Add(t), Side::Proved) => Answer::One(library::add(model, t)),
        (Call::Add(t), Side::Plain) => number(editor::add(model, t)),
        (Call::Drop(t), Side::Proved) => Answer::One(library::drop(model, t)),
        (Call::Drop(t), Side::Plain) => number(editor::drop(model, t)),
        (Call::Want, Side::Proved) => Answer::Six(library::want(model, marks, LIMIT)),
        (Call::Want, Side::Plain) => Answer::Six(editor::want(model, marks, LIMIT).into()),
    }
}

/// A call on a model by what it does, and the refusal number that it must answer.
struct Edit {
    name: &'static str,
    call: Call,
    model: Vec<u8>,
    refusal: u64,
}

/// The edits: on 2,048 records, or on one less for a new one. The first and the last record are those of the largest case.
fn edits() -> Vec<Edit> {
    let mut full = largest_named();
    assert_eq!(full.len(), cases::LARGEST, "the largest case");
    full.extend([0xa5; 8]);
    let (first, last, missing) = ([0, 0, 1], [255, 0, 7], [0, 63, 0]);
    let mut fewer = full.clone();
    editor::drop(&mut fewer, last).expect("the last record is held");
    let edit = |name, call, model: &[u8], refusal| Edit { name, call, model: model.to_vec(), refusal };
    vec![
        edit("add a new transition to 2,047", Call::Add(missing), &fewer, 0),
        edit("add the last of 2,048 again", Call::Add(last), &full, 0),
        edit("add a new transition to 2,048: 16", Call::Add(missing), &full, 16),
        edit("drop the first of 2,048", Call::Drop(first), &full, 0),
        edit("drop the last of 2,048", Call::Drop(last), &full, 0),
        edit("drop one that is not among 2,048: 17", Call::Drop(missing), &full, 17),
        edit("want", Call::Want, &full, 0),
    ]
}

/// Times each edit and prints its row.
pub fn print_table() {
    println!("| edit of the largest case | time |");
    println!("|---|---|");
    for Edit { name, call, model, refusal } in edits() {
        let fresh = Lent { model, marks: [0xa5a5; 5] };
        let answered = match run(call, Side::Plain, &mut fresh.clone()) {
            Answer::One(number) => number,
            Answer::Six(numbers) => numbers.refusal,
        };
        assert_eq!(answered, refusal, "{name}");
        println!("| {name} | {} |", cell(&time(name, &fresh, |side, lent| run(call, side, lent))));
    }
}
