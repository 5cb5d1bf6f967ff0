//! Names of states: a side file with a state's number and its name on each line. `%` begins a comment.

use crate::line::{lines, Line, NoNumber};
use crate::model::{unnamed, Model};
use crate::source::{shown, Fault, Source, Span};
use std::collections::{BTreeMap, HashMap};
use std::fmt::Write;
use std::sync::Arc;

const ABOUT_LINE: &str = "write a state's number and then its name, such as 0 open";

/// Reads names into a model; a name for a state that the model does not have is a fault, and so is a second name for
/// the same state, or one name for two states. After a fault the model is as it was.
///
/// A name is the rest of its line, without the blanks around it. A comment begins with `%` at the start of a line or
/// behind a blank, so that `50%` is a name.
pub fn read(source: &Arc<Source>, model: &mut Model) -> Result<(), Fault> {
    let mut named = Named::of(model);
    for mut line in lines(source) {
        if line.rest().starts_with('%') {
            continue;
        }
        let entry = read_line(source, model, &mut line)?;
        if entry.state >= model.states {
            return Err(no_state(source, model, entry.number));
        }
        named.add(source, entry)?;
    }
    model.names = named.names;
    Ok(())
}

/// What a line says, and where it says it.
struct Entry<'a> {
    state: usize,
    number: Span,
    name: &'a str,
    place: Span,
}

fn read_line<'a>(source: &'a Arc<Source>, model: &Model, line: &mut Line<'a>) -> Result<Entry<'a>, Fault> {
    let (state, number) = match line.number() {
        Ok(read) => read,
        Err(NoNumber::Missing) => {
            return Err(line.fault("expected a state's number at the start of the line").with_help(ABOUT_LINE));
        }
        Err(NoNumber::Large(span)) => return Err(no_state(source, model, span)),
    };
    let name = without_comment(line.rest());
    let place = line.take(name.len());
    if place.start == number.end && !name.is_empty() {
        let fault = Fault::new(source, place, "expected a blank between a state's number and its name");
        return Err(fault.with_help(ABOUT_LINE));
    }
    if name.is_empty() {
        let fault = Fault::new(source, number, format!("no name stands behind the number of state {state}"));
        return Err(fault.with_help("write its name behind it, or leave the line out"));
    }
    Ok(Entry { state, number, name, place })
}

/// The text before a comment that begins it, or that stands in it behind a blank.
fn without_comment(text: &str) -> &str {
    let begins = |&(at, _): &(usize, &str)| at == 0 || text[..at].ends_with(char::is_whitespace);
    let end = text.match_indices('%').find(begins).map_or(text.len(), |(at, _)| at);
    text[..end].trim_end()
}

fn no_state(source: &Arc<Source>, model: &Model, number: Span) -> Fault {
    let states = match model.states {
        0 => "no states".to_string(),
        1 => "one state, 0".to_string(),
        more => format!("the states 0 to {}", more - 1),
    };
    Fault::new(source, number, format!("the model has no state {}", shown(source.slice(number))))
        .with_help(format!("{} has {states}", shown(&model.source.name)))
}

/// The states that have a name by now, both ways.
struct Named {
    names: BTreeMap<usize, String>,
    states: HashMap<String, usize>,
}

impl Named {
    fn of(model: &Model) -> Named {
        let states = model.names.iter().map(|(&state, name)| (name.clone(), state)).collect();
        Named { names: model.names.clone(), states }
    }

    /// Gives a state its name, if both are free.
    fn add(&mut self, source: &Arc<Source>, entry: Entry) -> Result<(), Fault> {
        let Entry { state, number, name, place } = entry;
        if let Some(earlier) = self.names.get(&state) {
            let message = format!("state {state} is called `{}` already", shown(earlier));
            return Err(Fault::new(source, number, message).with_help("keep one of its two names"));
        }
        if let Some(other) = self.states.get(name).copied().or(unnamed_as(name)).filter(|&other| other != state) {
            let message = format!("state {other} is called `{}` already", shown(name));
            return Err(Fault::new(source, place, message).with_help("give each state a name of its own"));
        }
        self.states.insert(name.to_string(), state);
        self.names.insert(state, name.to_string());
        Ok(())
    }
}

/// The state that is called so without having a name.
fn unnamed_as(name: &str) -> Option<usize> {
    let state = name.split(' ').nth(1)?.parse().ok()?;
    (unnamed(state) == name).then_some(state)
}

/// The names of a model as such a file; nothing if it has none.
pub fn write(model: &Model) -> String {
    let mut text = String::new();
    for (state, name) in &model.names {
        // Writing to a string does not fail.
        let _ = writeln!(text, "{state} {name}");
    }
    text
}
