//! docs/TEXT.md: its formulas are read as it says, its idioms hold and fail where they should, and the faults that it shows
//! are those that are printed.

use bithrowy_front::check::{check, Checked, Trouble};
use bithrowy_front::expand::expand;
use bithrowy_front::formula::StateFormula;
use bithrowy_front::label::SILENT;
use bithrowy_front::source::{Fault, Source};
use bithrowy_front::{aut, case, explain, limits, names, parser};
use std::fs;
use std::path::Path;
use std::sync::Arc;

/// The lines of the code blocks in a section, without the blanks before them.
fn code(section: &str) -> Vec<String> {
    let text = text("docs/TEXT.md");
    let (_, behind) = text.split_once(&format!("\n## {section}\n")).expect("the section is there");
    let lines = behind.lines().take_while(|line| !line.starts_with("## "));
    lines.filter_map(|line| line.strip_prefix("    ")).map(str::to_string).collect()
}

fn formula(text: &str) -> StateFormula {
    parser::read(&Source::new(text, text), SILENT).unwrap_or_else(|fault| panic!("{fault}"))
}

/// Lines such as `!<a>true && [b]false     (!(<a>true)) && ([b]false)`.
#[test]
fn formulas_are_read_as_their_brackets_say() {
    let lines = code("Brackets that may be left out");
    assert_eq!(lines.len(), 8);
    for line in lines {
        let (written, read) = line.split_once("  ").expect("two formulas with blanks between them");
        assert!(formula(written).same(&formula(read)), "{line}");
    }
}

/// For each idiom, in order, transitions with which it holds in state 0, and others with which it fails there.
const IDIOMS: [(&str, &str); 10] = [
    ("0 a 0", "0 a 1"),
    ("0 b 0", "0 b 1, 1 a 0"),
    ("0 b 1, 1 a 1", "0 b 1"),
    ("0 a 1, 1 b 0", "0 a 0, 0 b 1"),
    ("0 b 1, 1 a 0", "0 b 0, 0 a 1"),
    ("0 a 1, 1 c 2, 2 b 0", "0 a 1, 1 c 2"),
    ("0 a 1, 1 c 1, 1 b 0", "0 a 1, 1 d 1, 1 b 0"),
    ("0 a 1, 1 b 1", "0 a 1, 1 b 0"),
    ("0 a 1, 1 b 0", "0 c 1, 1 b 0"),
    ("0 a 1, 1 b 0", "0 a 1, 1 b 0, 1 c 0"),
];

#[test]
fn the_idioms_say_what_they_should() {
    let lines = code("Ten things that are often asked");
    assert_eq!(lines.len(), 2 * IDIOMS.len());
    for (pair, (holds, fails)) in lines.chunks(2).zip(IDIOMS) {
        let [meaning, formula] = pair else { unreachable!("chunks of two") };
        assert!(meaning.starts_with("% "), "{meaning}");
        assert!(verdict(formula, holds), "{meaning} {formula} holds in {holds}");
        assert!(!verdict(formula, fails), "{meaning} {formula} fails in {fails}");
    }
}

/// Does a formula hold in state 0 of a model of three states?
fn verdict(formula: &str, transitions: &str) -> bool {
    let lines: Vec<String> = transitions.split(", ").map(|line| format!("({})\n", line.replace(' ', ","))).collect();
    let model = format!("des (0, {}, 3)\n{}", lines.len(), lines.concat());
    let answer = answer(&Source::new("model.aut", model), &Source::new("idiom.mcf", formula), true);
    answer.unwrap_or_else(|fault| panic!("{fault}")).verdict
}

/// The answer for a model and a formula, or the first fault.
fn answer(model: &Arc<Source>, formula: &Arc<Source>, unknown_labels: bool) -> Result<Checked, Fault> {
    let model = aut::read(model, SILENT)?;
    let expansion = expand(formula, &parser::read(formula, SILENT)?)?;
    check(&case::write(&model, &expansion, unknown_labels)?, limits::ROUNDS).map_err(|trouble| match trouble {
        Trouble::Refused(fault) => fault,
        Trouble::Differ(how) => panic!("{how}"),
    })
}

/// A text of the repository.
fn text(path: &str) -> String {
    fs::read_to_string(Path::new(env!("CARGO_MANIFEST_DIR")).join("..").join(path)).expect("the file is there")
}

/// The words of a text, with one blank between them: help that is long may be broken anywhere.
fn words(text: &str) -> String {
    text.split_whitespace().collect::<Vec<_>>().join(" ")
}

/// Each fault that is shown is brought about by the line that it shows: the whole formula for dialog.aut, or the header of
/// that model.
#[test]
fn the_faults_are_those_that_are_printed() {
    let shown = code("What a fault says").join("\n");
    let faults: Vec<&str> = shown.split("error").skip(1).collect();
    assert_eq!(faults.len(), 9);
    for shown in faults {
        let (_, line) = shown.split_once("1 | ").expect("its first line");
        let line = line.lines().next().unwrap_or_default();
        let (mut model, mut formula) = (text("examples/dialog.aut"), "true");
        if shown.contains("dialog.aut:") {
            let (_, transitions) = model.split_once('\n').expect("a header");
            model = format!("{line}\n{transitions}");
        } else {
            formula = line;
        }
        let fault = answer(&Source::new("dialog.aut", model), &Source::new("dialog.mcf", formula), false)
            .expect_err("it is a fault");
        assert_eq!(words(&format!("error{shown}")), words(&printed(&fault)));
    }
}

/// A fault in the order in which the program prints it.
fn printed(fault: &Fault) -> String {
    let number = fault.refusal.map_or(String::new(), |number| format!("[refusal {number}]"));
    let place = fault.source.place(fault.span.start);
    let line = fault.source.line(place.line);
    let carets = "^".repeat(fault.source.slice(fault.span).chars().count());
    let help = fault.help.as_deref().unwrap_or_default();
    format!(
        "error{number}: {} --> {}:{}:{} | {} | {line} | {carets} | = help: {help}",
        fault.message, fault.source.name, place.line, place.column, place.line
    )
}

#[test]
fn the_answer_is_the_one_that_is_printed() {
    let model = Source::new("dialog-no-close.aut", text("examples/dialog-no-close.aut"));
    let formula = Source::new("dialog-close-comes.mcf", text("examples/dialog-close-comes.mcf"));
    let answer = answer(&model, &formula, false).unwrap_or_else(|fault| panic!("{fault}"));
    let mut model = aut::read(&model, SILENT).unwrap_or_else(|fault| panic!("{fault}"));
    let names = Source::new("dialog-no-close.names", text("examples/dialog-no-close.names"));
    names::read(&names, &mut model).unwrap_or_else(|fault| panic!("{fault}"));
    let lines = explain::lines(&model, &answer, &explain::explain(&model, &answer));
    assert_eq!(code("What an answer says"), lines);
}
