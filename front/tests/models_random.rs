//! Random models and names: what is written is what is read, and no text of any kind brings a reader down.

use bithrowy_front::label::{Label, SILENT};
use bithrowy_front::model::Model;
use bithrowy_front::source::{Fault, Source};
use bithrowy_front::{aut, names};
use bithrowy_tests::formats::{Case, Labels, Transition};
use bithrowy_tests::random::Random;
use bithrowy_tests::reach;
use std::sync::Arc;

const MODELS: usize = 20_000;
const TEXTS: usize = 300_000;

/// Texts of labels, without blanks around names. Only the first seven can stand in a file without quotes.
const LABELS: [&str; 12] = [
    "click",
    "focus|blur",
    "blur|focus",
    "tau",
    "a(1,2)",
    "b  c\\",
    "), (",
    "say \"hi\"",
    "\"",
    "\\\"|\\",
    "é✓\t%|',",
    "\"x\"",
];
const BARE: usize = 7;

/// Source, place of the label in `LABELS`, target.
type Record = (usize, usize, usize);

fn records(random: &mut Random, states: usize) -> Vec<Record> {
    let count = random.below(8);
    (0..count).map(|_| (random.below(states), random.below(LABELS.len()), random.below(states))).collect()
}

fn blanks(random: &mut Random) -> &'static str {
    random.pick(&["", "", " ", "  ", "\t", "\u{a0}"])
}

fn line_end(random: &mut Random) -> &'static str {
    random.pick(&["\n", "\n", "\r\n", "\n\n", " \n", "\r\n \r\n"])
}

/// Words with free blanks between them, and a line's end.
fn line(random: &mut Random, words: &[&str]) -> String {
    let mut text = String::new();
    for word in words {
        text.push_str(blanks(random));
        text.push_str(word);
    }
    text + line_end(random)
}

fn label(random: &mut Random, number: usize) -> String {
    let (before, after) = (blanks(random), blanks(random));
    let text = LABELS[number].replace('|', &format!("{before}|{after}"));
    if number < BARE && random.chance(1, 2) {
        return text;
    }
    format!("\"{}\"", text.replace('\\', "\\\\").replace('"', "\\\""))
}

fn text_of(random: &mut Random, initial: usize, states: usize, records: &[Record]) -> String {
    let (initial, count, states) = (initial.to_string(), records.len().to_string(), states.to_string());
    let mut text = line(random, &["des", "(", &initial, ",", &count, ",", &states, ")"]);
    for &(source, number, target) in records {
        let (source, label, target) = (source.to_string(), label(random, number), target.to_string());
        text += &line(random, &["(", &source, ",", &label, ",", &target, ")"]);
    }
    text
}

/// The model's records with the texts of their labels.
fn read_records(model: &Model) -> Vec<(usize, &str, usize)> {
    let text = |transition: &bithrowy_front::model::Transition| model.labels[transition.label].text.as_str();
    model.transitions.iter().map(|transition| (transition.source, text(transition), transition.target)).collect()
}

/// The different texts in order of first appearance.
fn first_texts<'a>(records: &[(usize, &'a str, usize)]) -> Vec<&'a str> {
    let mut texts = Vec::new();
    for &(_, text, _) in records {
        if !texts.contains(&text) {
            texts.push(text);
        }
    }
    texts
}

fn check_reach(model: &Model) {
    let transitions = model.transitions.iter();
    let transitions = transitions.map(|t| Transition { source: t.source, label: t.label, target: t.target }).collect();
    let labels = Labels::Numbered(model.labels.len());
    let (states, initial) = (model.states, model.initial);
    let case = Case { states, labels, initial, transitions, actions: Vec::new(), formula: Vec::new() };
    assert_eq!(model.reachable(), reach::reached(&case));
}

#[test]
fn models_are_read_as_they_are_written() {
    let mut random = Random::new(1);
    let mut partly_reached = 0;
    for _ in 0..MODELS {
        let states = random.between(1, 9);
        let initial = random.below(states);
        let records = records(&mut random, states);
        let text = text_of(&mut random, initial, states, &records);
        let model = aut::read(&Source::new("random.aut", text), SILENT).unwrap_or_else(|fault| panic!("{fault}"));
        let expected: Vec<_> = records.iter().map(|&(source, label, target)| (source, LABELS[label], target)).collect();
        assert_eq!((model.initial, model.states), (initial, states));
        assert_eq!(read_records(&model), expected);
        assert_eq!(model.labels.iter().map(|label| label.text.as_str()).collect::<Vec<_>>(), first_texts(&expected));
        check_written(&model);
        check_reach(&model);
        partly_reached += usize::from(model.reachable().contains(&false) && !model.transitions.is_empty());
    }
    assert!(partly_reached > MODELS / 4);
}

/// The text of a model, read again, is the same model, and has the same text.
fn check_written(model: &Model) {
    let text = aut::write(model);
    let again = aut::read(&Source::new("written.aut", text.as_str()), SILENT).unwrap_or_else(|fault| panic!("{fault}"));
    assert_eq!((again.initial, again.states), (model.initial, model.states));
    assert_eq!(again.labels, model.labels);
    assert_eq!(read_records(&again), read_records(model));
    assert_eq!(aut::write(&again), text);
}

#[test]
fn names_are_read_as_they_are_written() {
    let mut random = Random::new(2);
    let source = Source::new("random.aut", "des (0, 0, 9)");
    let words = ["open", "closed", "é  ✓", "50%", "a%b", "state 02", "\"", "-1", "x\ty"];
    for _ in 0..MODELS {
        let mut model = aut::read(&source, SILENT).expect("a model");
        let mut text = String::new();
        let first = random.below(words.len());
        let states: Vec<usize> = (0..9).filter(|_| random.chance(1, 2)).collect();
        for &state in &states {
            let (state, name) = (state.to_string(), words[(first + state) % words.len()]);
            let comment = random.pick(&["", "", " % comment", "\t%"]);
            text += &line(&mut random, &[&state, " ", name, comment]);
        }
        names::read(&Source::new("random.names", text), &mut model).unwrap_or_else(|fault| panic!("{fault}"));
        let expected = states.iter().map(|&state| (state, words[(first + state) % words.len()].to_string()));
        assert_eq!(model.names, expected.collect());
        let mut again = aut::read(&source, SILENT).expect("a model");
        names::read(&Source::new("written.names", names::write(&model)), &mut again).expect("names");
        assert_eq!(again.names, model.names);
    }
}

/// What `bytes` joins.
const PIECES: [&str; 27] = [
    "des",
    " (",
    "0",
    ", ",
    "1",
    ",",
    "2",
    ")",
    "\n",
    "\r\n",
    "(0, ",
    "(0, \"a\", 1)\n",
    "\"",
    "\\",
    "|",
    "a",
    "tau",
    "%",
    "18446744073709551615",
    "18446744073709551616",
    "-",
    "é",
    "\u{feff}",
    "\u{202e}",
    "\t",
    "des (0, 1, 2)\n",
    "\0",
];

/// Bytes that are no text, half a model, or anything between.
fn bytes(random: &mut Random) -> Vec<u8> {
    let mut bytes = Vec::new();
    if random.chance(1, 2) {
        bytes.extend(b"des (0, 1, 2)\n");
    }
    for _ in 0..random.below(10) {
        match random.chance(1, 30) {
            true => bytes.push(random.below(256) as u8),
            false => bytes.extend(random.pick(&PIECES).bytes()),
        }
    }
    bytes
}

#[test]
fn no_text_brings_a_reader_down() {
    let mut random = Random::new(3);
    let [mut models, mut named, mut faults] = [0; 3];
    let dialog = aut::read(&Source::new("dialog.aut", "des (0, 0, 3)"), SILENT).expect("a model");
    for _ in 0..TEXTS {
        let source = match Source::from_bytes("random", bytes(&mut random)) {
            Ok(source) => source,
            Err(fault) => {
                check_fault(&fault);
                continue;
            }
        };
        match aut::read(&source, SILENT) {
            Ok(model) => {
                check_written(&model);
                assert_eq!(model.reachable().len(), model.states.min(1 << 16));
                models += 1;
            }
            Err(fault) => {
                check_fault(&fault);
                faults += 1;
            }
        }
        named += usize::from(reads_names(&source, dialog.clone()));
    }
    assert!(models > 500 && named > 500 && faults > TEXTS / 2, "{models} models, {named} names, {faults} faults");
}

fn reads_names(source: &Arc<Source>, mut model: Model) -> bool {
    match names::read(source, &mut model) {
        Ok(()) => !model.names.is_empty(),
        Err(fault) => {
            check_fault(&fault);
            assert!(model.names.is_empty());
            false
        }
    }
}

/// A fault has help, its place is in the text, a caret stands below the place, and nothing in it steers a terminal.
fn check_fault(fault: &Fault) {
    let help = fault.help.as_deref().unwrap_or_default();
    assert!(!help.is_empty(), "{fault}");
    assert!(fault.span.start <= fault.span.end && fault.span.end <= fault.source.text.len(), "{fault:?}");
    let place = fault.source.place(fault.span.start);
    let text = fault.to_string();
    let lines: Vec<&str> = text.split('\n').collect();
    assert_eq!(lines.len(), 4 + help.lines().count(), "{text}");
    assert!(lines[0].starts_with(&format!("random:{}:{}: {}", place.line, place.column, fault.message)), "{text}");
    assert!(lines[2].starts_with(&format!("{} |", place.line)), "{text}");
    let carets = lines[3].split_once("| ").expect("a margin").1;
    assert_eq!(carets.find('^').map(|at| carets[..at].chars().count() + 1), Some(place.column), "{text}");
    assert!(text.chars().all(|letter| !letter.is_control() || matches!(letter, '\n' | '\t')), "{text:?}");
}

/// A label as files write it is the same label when it is read again.
#[test]
fn labels_are_read_as_they_are_written() {
    for text in LABELS {
        let label = Label::read(text, SILENT).expect("a label");
        assert_eq!(label.text, text);
        let quoted = label.quoted();
        let inside = match quoted.strip_prefix('"').and_then(|rest| rest.strip_suffix('"')) {
            Some(inside) => inside.replace("\\\"", "\"").replace("\\\\", "\\"),
            None => quoted,
        };
        assert_eq!(Label::read(&inside, SILENT).as_ref(), Ok(&label));
    }
}
