//! The Aldebaran format .aut: `des (initial, transitions, states)`, then `(from, "label", to)` a line.

use crate::amount;
use crate::label::Label;
use crate::limits;
use crate::line::{lines, Line, NoNumber};
use crate::model::{Model, Transition};
use crate::quoted;
use crate::source::{shown, Fault, Source, Span};
use std::collections::{BTreeMap, HashMap};
use std::fmt::Write;
use std::sync::Arc;

const ABOUT_HEADER: &str =
    "begin with des (0, 1, 2): the initial state, how many transitions follow, how many states there are";
const ABOUT_ORDER: &str = "is this the formula? The model's file comes first; and a model has no comments";
const ABOUT_TRANSITION: &str = "write (0, \"click\", 1): from state 0, by click, to state 1";
const ABOUT_BACKSLASH: &str = "write \\\\ for one backslash, or leave the quotes of the label out";
const ABOUT_STATES: &str = "states are numbered from 0; a .names file gives them names";
const ABOUT_LARGE: &str = "write a smaller number";

/// Reads a model. `silent` is the name of the silent step.
///
/// Blanks and blank lines are free. A label is in quotes, with `\"` and `\\` for a quote and a backslash, or bare: then it
/// is what stands between the first comma and the last, so that `(0, a(1,2), 1)` is a transition by `a(1,2)`.
pub fn read(source: &Arc<Source>, silent: &str) -> Result<Model, Fault> {
    let mut lines = lines(source);
    let header = match lines.next() {
        Some(mut line) => read_header(source, &mut line)?,
        None => return Err(Fault::new(source, Span::new(0, 0), "the file holds no model").with_help(ABOUT_HEADER)),
    };
    let mut labels = Labels::default();
    let mut transitions = Vec::new();
    for mut line in lines {
        transitions.push(read_transition(source, &mut line, &mut labels, silent)?);
    }
    check_count(source, &header, transitions.len())?;
    Ok(Model {
        source: source.clone(),
        header: header.span,
        states: header.states,
        initial: header.initial,
        labels: labels.list,
        transitions,
        names: BTreeMap::new(),
        silent: silent.to_string(),
    })
}

/// The model as text: the header, then a line for each transition in order. Read again it is the same model.
pub fn write(model: &Model) -> String {
    let mut text = format!("des ({}, {}, {})\n", model.initial, model.transitions.len(), model.states);
    for transition in &model.transitions {
        let label = model.labels[transition.label].in_quotes();
        // Writing to a string does not fail.
        let _ = writeln!(text, "({}, {label}, {})", transition.source, transition.target);
    }
    text
}

struct Header {
    span: Span,
    initial: usize,
    transitions: usize,
    /// Where the number of transitions stands.
    count: Span,
    states: usize,
}

fn read_header(source: &Arc<Source>, line: &mut Line) -> Result<Header, Fault> {
    let about = |fault: Fault| fault.with_help(ABOUT_HEADER);
    if !line.skip("des") {
        let help = match line.rest().starts_with('(') {
            true => ABOUT_HEADER.to_string(),
            false => format!("{ABOUT_HEADER}\n{ABOUT_ORDER}"),
        };
        return Err(line.fault("expected \"des\" at the start of the model").with_help(help));
    }
    sign(line, "(", "expected \"(\" after \"des\"").map_err(about)?;
    let (initial, _) = header_number(source, line, "expected the initial state's number after \"(\"", large_state)?;
    sign(line, ",", "expected \",\" after the initial state's number").map_err(about)?;
    let missing = "expected the number of transitions after the first \",\"";
    let (transitions, count) = header_number(source, line, missing, large_transitions)?;
    sign(line, ",", "expected \",\" after the number of transitions").map_err(about)?;
    let (states, _) =
        header_number(source, line, "expected the number of states after the second \",\"", large_states)?;
    sign(line, ")", "expected \")\" at the end of the header").map_err(about)?;
    end_of_line(line)?;
    Ok(Header { span: line.span, initial, transitions, count, states })
}

/// A number of the header; `large` says what is wrong with one that is too large, from its digits.
fn header_number(
    source: &Arc<Source>,
    line: &mut Line,
    missing: &str,
    large: fn(&str) -> String,
) -> Result<(usize, Span), Fault> {
    line.number().map_err(|reason| match reason {
        NoNumber::Missing => line.fault(missing).with_help(ABOUT_HEADER),
        NoNumber::Large(span) => Fault::new(source, span, large(&shown(source.slice(span)))).with_help(ABOUT_LARGE),
    })
}

fn large_state(digits: &str) -> String {
    format!("state {digits}: the checker takes the states 0 to {}", limits::STATES - 1)
}

fn large_states(digits: &str) -> String {
    format!("{digits} states: the checker takes 1 to {}", limits::STATES)
}

fn large_transitions(digits: &str) -> String {
    format!("{digits} transitions: the checker takes 0 to {}", amount::thousands(limits::TRANSITIONS as u64))
}

/// The header's number of transitions has to be the number of lines that follow: else a line is missing or too many.
fn check_count(source: &Arc<Source>, header: &Header, lines: usize) -> Result<(), Fault> {
    if header.transitions == lines {
        return Ok(());
    }
    let follow = if lines == 1 { "follows" } else { "follow" };
    let says = amount::of(header.transitions, "transition");
    let message = format!("the header says {says}, {} {follow}", amount::thousands(lines as u64));
    let help = match header.transitions.saturating_sub(lines) {
        0 => format!("write {lines}"),
        1 => format!("write {lines}, or add the line that is missing"),
        missing => format!("write {lines}, or add the {} lines that are missing", amount::thousands(missing)),
    };
    Err(Fault::new(source, header.count, message).with_help(help))
}

fn read_transition(
    source: &Arc<Source>,
    line: &mut Line,
    labels: &mut Labels,
    silent: &str,
) -> Result<Transition, Fault> {
    begin_transition(line)?;
    let from = state(source, line, "expected a state's number after \"(\"")?;
    sign(line, ",", "expected \",\" after the first state's number")
        .map_err(|fault| fault.with_help(ABOUT_TRANSITION))?;
    let label = read_label(source, line, silent)?;
    sign(line, ",", "expected \",\" after the label").map_err(|fault| fault.with_help(ABOUT_TRANSITION))?;
    let target = state(source, line, "expected a state's number after the label")?;
    end_transition(source, line)?;
    Ok(Transition { source: from, label: labels.number(label), target, span: line.span })
}

fn begin_transition(line: &mut Line) -> Result<(), Fault> {
    if line.rest().strip_prefix("des").is_some_and(|rest| rest.trim_start().starts_with('(')) {
        let fault = line.fault("expected a transition");
        return Err(fault.with_help("the header stands once, on the first line: keep each model in a file of its own"));
    }
    sign(line, "(", "expected \"(\" at the start of the transition").map_err(|fault| fault.with_help(ABOUT_TRANSITION))
}

fn end_transition(source: &Source, line: &mut Line) -> Result<(), Fault> {
    let read = Span::new(line.span.start, line.rest_span().start);
    let help = format!("write {})", shown(source.slice(read).trim_end()));
    sign(line, ")", "expected \")\" at the end of the transition").map_err(|fault| fault.with_help(help))?;
    end_of_line(line)
}

/// Reads a sign, or says by the message that it is missing.
fn sign(line: &mut Line, sign: &str, message: &str) -> Result<(), Fault> {
    if line.skip(sign) {
        Ok(())
    } else {
        Err(line.fault(message))
    }
}

fn end_of_line(line: &mut Line) -> Result<(), Fault> {
    let rest = line.rest();
    if rest.is_empty() {
        return Ok(());
    }
    let help = match rest.starts_with('(') {
        true => "write each transition on a line of its own",
        false => "leave out what stands behind \")\": these files have no comments",
    };
    Err(line.fault("expected the end of the line after \")\"").with_help(help))
}

fn state(source: &Arc<Source>, line: &mut Line, missing: &str) -> Result<usize, Fault> {
    match line.number() {
        Ok((number, _)) => Ok(number),
        Err(NoNumber::Missing) => Err(line.fault(missing).with_help(ABOUT_STATES)),
        Err(NoNumber::Large(span)) => {
            Err(Fault::new(source, span, large_state(&shown(source.slice(span)))).with_help(ABOUT_LARGE))
        }
    }
}

/// Reads a label, in quotes or bare.
fn read_label(source: &Arc<Source>, line: &mut Line, silent: &str) -> Result<Label, Fault> {
    let (text, span) = match line.rest().starts_with('"') {
        true => {
            let (text, length) = quoted::read(source, line.rest_span().start, ABOUT_BACKSLASH)?;
            (text, line.take(length))
        }
        false => bare(source, line)?,
    };
    Label::read(&text, silent).map_err(|message| {
        Fault::new(source, span, message).with_help("write a name, such as click, or several, such as focus|blur")
    })
}

/// The text up to the last comma of the line.
fn bare(source: &Arc<Source>, line: &mut Line) -> Result<(String, Span), Fault> {
    let Some(comma) = line.rest().rfind(',') else {
        let fault = Fault::new(source, line.rest_span(), "expected \",\" and a state's number after the label");
        return Err(fault.with_help(ABOUT_TRANSITION));
    };
    let text = line.rest()[..comma].trim_end();
    if let Some(length) = transition_end(text) {
        line.take(length);
        end_of_line(line).map_err(|fault| {
            let help = fault.help.clone().unwrap_or_default();
            fault.with_help(help + "\na label with such signs in it stands in quotes")
        })?;
    }
    let span = line.take(text.len());
    if let Some(quote) = text.find('"') {
        let at = Span::new(span.start + quote, span.start + quote + 1);
        return Err(Fault::new(source, at, "a quote stands inside a label that does not begin with one")
            .with_help("write the whole label in quotes, with \\\" for a quote inside it"));
    }
    Ok((text.to_string(), span))
}

/// Where a transition ends inside what should be its label: behind a comma, a number, and a bracket that closes none of
/// the label's own. Then more stands on the line than one transition.
fn transition_end(text: &str) -> Option<usize> {
    let mut open = 0_usize;
    for (at, letter) in text.char_indices() {
        match letter {
            '(' => open += 1,
            ')' if open > 0 => open -= 1,
            ')' if ends_with_number(&text[..at]) => return Some(at + 1),
            _ => {}
        }
    }
    None
}

/// Does a text end with a comma and a number?
fn ends_with_number(text: &str) -> bool {
    let text = text.trim_end();
    let before = text.trim_end_matches(|letter: char| letter.is_ascii_digit());
    before.len() < text.len() && before.trim_end().ends_with(',')
}

/// Labels in order of first appearance, with the place of each text.
#[derive(Default)]
struct Labels {
    list: Vec<Label>,
    numbers: HashMap<String, usize>,
}

impl Labels {
    fn number(&mut self, label: Label) -> usize {
        if let Some(&number) = self.numbers.get(&label.text) {
            return number;
        }
        self.numbers.insert(label.text.clone(), self.list.len());
        self.list.push(label);
        self.list.len() - 1
    }
}
