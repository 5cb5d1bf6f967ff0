//! What is refused by name: words and signs of other languages, and what this checker does not have.

use super::cursor::Cursor;
use super::foreign::{self, did_you_mean, Operands, A_QUANTIFIER};
use crate::formula::{Regular, RegularFormula};
use crate::label;
use crate::lexer::{self, Word};
use crate::source::{shown, Fault, Span};

const NO_SIGN: &str = "is no sign of formulas";

/// The words with which the parts of a specification begin.
const SPECIFICATION: [&str; 9] = ["form", "act", "map", "eqn", "sort", "cons", "var", "proc", "init"];

/// The next word, if it is refused wherever it stands.
pub(super) fn word(cursor: &Cursor) -> Option<Fault> {
    match cursor.word() {
        Word::Sign(sign @ ("&" | "|")) if is_behind_connective(cursor) => Some(one_too_many(cursor, sign)),
        Word::Name(name) => name_refused(cursor, name),
        Word::Number(number) => Some(number_refused(cursor, &shown(number))),
        Word::Sign(sign) => sign_refused(cursor, sign),
        Word::Other(character) => character_refused(cursor, *character),
        Word::Quoted(_) | Word::End => None,
    }
}

fn is_behind_connective(cursor: &Cursor) -> bool {
    cursor.last().is_some_and(|last| matches!(cursor.source.slice(last), "&&" | "||" | "=>"))
}

/// A sign behind a connective, as the third of `&&&`.
fn one_too_many(cursor: &Cursor, sign: &str) -> Fault {
    let connective = cursor.last().map(|last| cursor.text(last)).unwrap_or_default();
    fault(cursor, &format!("\"{sign}\" behind \"{connective}\" is one sign too many"), "leave it out")
}

fn number_refused(cursor: &Cursor, number: &str) -> Fault {
    let help = format!("a label that begins with a digit stands in quotes, as in <\"{number}\">true");
    fault(cursor, &format!("\"{number}\" is a number: data are not supported"), &help)
}

fn name_refused(cursor: &Cursor, name: &str) -> Option<Fault> {
    let (what, help) = match name {
        "forall" | "exists" => (A_QUANTIFIER, foreign::each_case(name)),
        "val" => ("for data expressions: data are not supported", "write true or false, or a label in quotes"),
        "delay" | "yaled" => ("about time: time is not supported", "a label of this name stands in quotes"),
        "nil" => ("the run without a step, which is not supported", "leave the modality out: [nil] X is X"),
        _ => return None,
    };
    Some(fault(cursor, &format!("\"{name}\" is {what}"), help))
}

fn sign_refused(cursor: &Cursor, sign: &str) -> Option<Fault> {
    let help = foreign::sign(sign)?;
    Some(fault(cursor, &format!("\"{sign}\" {NO_SIGN}"), &help))
}

fn character_refused(cursor: &Cursor, character: char) -> Option<Fault> {
    let (what, help) = match character {
        '@' => ("gives a time: time is not supported", "leave \"@\" and the time out".to_string()),
        '∀' | '∃' => ("is a quantifier: quantifiers are not supported", "write each case out".to_string()),
        '“' | '”' | '„' | '\'' => (NO_SIGN, "a label stands in double quotes: \"a b\"".to_string()),
        _ => (NO_SIGN, did_you_mean(foreign::character(character)?)),
    };
    Some(fault(cursor, &format!("\"{character}\" {what}"), &help))
}

/// A word of the language where a label stands.
pub(super) fn word_for_label(cursor: &Cursor) -> Option<Fault> {
    let Word::Name(name) = cursor.word() else { return None };
    let word = label::WORDS.iter().find(|word| *word == name)?;
    let help = format!("a label of this name stands in quotes: \"{word}\"");
    Some(name_refused(cursor, word).unwrap_or_else(|| {
        fault(cursor, &format!("\"{word}\" is a word of the language, and a label is expected here"), &help)
    }))
}

/// A word of the language where a variable is bound.
pub(super) fn word_for_variable(cursor: &Cursor) -> Fault {
    let word = cursor.text(cursor.span());
    let message = format!("\"{word}\" is a word of the language and no name for a variable");
    fault(cursor, &message, "take another name, such as X")
}

/// A label where a formula is expected.
pub(super) fn label_for_formula(cursor: &Cursor) -> Fault {
    let quoted = cursor.text(cursor.span());
    let label = quoted.trim_matches('"');
    let message = format!("expected a formula, found the label {quoted}");
    fault(cursor, &message, &format!("for \"a step {label} is possible\" write <{quoted}>true"))
}

/// Something behind an operand where something else is expected, if other languages have it: what is meant by it.
pub(super) fn meant(cursor: &Cursor, expected: &str, operands: Operands) -> Option<Fault> {
    let last = cursor.last().filter(|_| begins_operand(cursor.word()));
    if let Some(fault) = last.and_then(|last| foreign_word(cursor, last, operands)) {
        return Some(fault);
    }
    if let Some(connective) = foreign::connective(cursor.word(), operands) {
        return Some(cursor.expected(expected, cursor.last(), &did_you_mean(connective)));
    }
    let is_temporal = foreign::temporal(cursor.source.slice(cursor.span())).is_some();
    is_temporal.then(|| foreign_word(cursor, cursor.span(), operands)).flatten()
}

fn begins_operand(word: &Word) -> bool {
    matches!(word, Word::Name(_) | Word::Quoted(_) | Word::Sign("!" | "[" | "<" | "("))
}

/// A word of another language, unless it is the name of a variable.
fn foreign_word(cursor: &Cursor, place: Span, operands: Operands) -> Option<Fault> {
    let name = cursor.source.slice(place);
    let (what, help) = foreign::word(name, operands).filter(|_| !cursor.binds(name))?;
    Some(Fault::new(cursor.source, place, format!("\"{name}\" is {what}")).with_help(help))
}

/// Something behind a whole formula.
pub(super) fn behind_formula(cursor: &Cursor) -> Fault {
    let expected = "\"&&\", \"||\", \"=>\" or the end of the text";
    if let Some(fault) = meant(cursor, expected, Operands::Formulas) {
        return fault;
    }
    let help = match cursor.word() {
        Word::Sign(")") => not_open("("),
        Word::Sign("]") => not_open("["),
        Word::Sign(">") => not_open("<"),
        Word::Other(';') => "leave it out: a file has one formula, and no sign ends it".to_string(),
        _ => "write \"&&\", \"||\" or \"=>\" between two formulas".to_string(),
    };
    cursor.expected(expected, cursor.last(), &help)
}

fn not_open(bracket: &str) -> String {
    format!("no \"{bracket}\" is open here: leave this one out, or write a \"{bracket}\" further left")
}

/// The words of a specification, where a formula is expected to begin.
pub(super) fn specification(cursor: &Cursor) -> Option<Fault> {
    let Word::Name(name) = cursor.word() else { return None };
    let begins = SPECIFICATION.contains(&name.as_str()) && *cursor.word_after(1) != Word::End;
    let help = "write the formula alone, without declarations";
    begins.then(|| fault(cursor, &format!("\"{name}\" begins a specification, which is not supported"), help))
}

/// Parameters of a variable, which begin at the next word.
pub(super) fn parameters(cursor: &Cursor, before: Span) -> Fault {
    let message = format!("\"{}\" has parameters: data are not supported", cursor.text(before));
    foreign_word(cursor, before, Operands::Formulas)
        .unwrap_or_else(|| fault(cursor, &message, "write a variable of its own for each value"))
}

/// Arguments of a label, which begin at the next word.
pub(super) fn arguments(cursor: &Cursor, label: Span) -> Fault {
    let help = match cursor.closing() {
        Some(closing) => format!("the whole label stands in quotes: \"{}\"", cursor.text(label.to(closing))),
        None => "the whole label stands in quotes".to_string(),
    };
    let message = format!("the label \"{}\" has arguments: data are not supported", cursor.text(label));
    foreign_word(cursor, label, Operands::Labels).unwrap_or_else(|| fault(cursor, &message, &help))
}

pub(super) fn empty_modality(cursor: &Cursor, opening: Span) -> Fault {
    let (open, close) = (cursor.source.slice(opening), cursor.source.slice(cursor.span()));
    let message = format!("\"{open}{close}\" names no step");
    Fault::new(cursor.source, opening.to(cursor.span()), message)
        .with_help(format!("for any step write {open}true{close}"))
}

pub(super) fn no_label(cursor: &Cursor, span: Span, message: String) -> Fault {
    Fault::new(cursor.source, span, message).with_help("a label is a name, or several with \"|\" between them")
}

/// What to do about a star or plus that stands behind a modality instead of in it.
pub(super) fn repeated_modality(cursor: &Cursor, before: Option<Span>) -> Option<String> {
    let sign = ["*", "+"].into_iter().find(|sign| cursor.is_at(sign))?;
    let Span { start, end } = before?;
    let (open, close) = [("[", "]"), ("<", ">")].into_iter().find(|(open, close)| {
        let text = cursor.source.slice(Span { start, end });
        text.starts_with(open) && text.ends_with(close)
    })?;
    let steps = cursor.text(lexer::unbracketed(cursor.source, Span::new(start + open.len(), end - close.len())));
    let repeated = match steps.chars().all(label::continues_name) {
        true => format!("{steps}{sign}"),
        false => format!("({steps}){sign}"),
    };
    match steps.contains('%') {
        true => Some(format!("the \"{sign}\" stands inside the brackets, behind the steps that it repeats")),
        false => Some(format!("the \"{sign}\" stands inside the brackets: {open}{repeated}{close}")),
    }
}

/// Several steps where a sign needs the labels of one.
pub(super) fn several_steps(cursor: &Cursor, steps: &RegularFormula, sign: Span) -> Fault {
    let place = lexer::unbracketed(cursor.source, steps.span);
    let text = cursor.text(place);
    let what = match &steps.kind {
        Regular::Sequence(one, other) if one.is_single_step() && other.is_single_step() => "takes two steps",
        Regular::Sequence(..) => "takes several steps",
        Regular::Choice(..) => "is a choice between runs",
        Regular::Star(_) | Regular::Plus(_) => "repeats steps",
        Regular::Step(_) => "is a step",
    };
    let sign = cursor.text(sign);
    let stands = if sign == "!" { "before a single step's labels" } else { "between labels of a single step" };
    Fault::new(cursor.source, place, format!("`{text}` {what}; `{sign}` stands {stands}"))
        .with_help("inside a step write \"!\", \"&&\", \"||\" and \"=>\"; between steps \".\", \"+\" and \"*\"")
}

fn fault(cursor: &Cursor, message: &str, help: &str) -> Fault {
    Fault::new(cursor.source, cursor.span(), message).with_help(help)
}
