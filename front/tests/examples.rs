//! The examples: each is read as the program reads it, and its verdicts are those that its comments say. These were worked
//! out by hand, the reason stands under each, and the independent checker has to agree with them as well.

use bithrowy_front::case::{self, Case};
use bithrowy_front::check::{check, Checked, Trouble};
use bithrowy_front::directives::{self, Directives};
use bithrowy_front::expand::expand;
use bithrowy_front::explain::{explain, lines, Ending};
use bithrowy_front::formula::{Action, ActionFormula, Regular, RegularFormula, State, StateFormula};
use bithrowy_front::label::SILENT;
use bithrowy_front::model::Model;
use bithrowy_front::source::{Fault, Source};
use bithrowy_front::{aut, limits, names, parser};
use bithrowy_tests::{formats, meaning, reader};
use std::collections::BTreeSet;
use std::fs;
use std::path::PathBuf;
use std::sync::Arc;

fn repository() -> PathBuf {
    PathBuf::from(env!("CARGO_MANIFEST_DIR")).join("..")
}

/// The files of examples/ with an ending, in order.
fn files(ending: &str) -> Vec<String> {
    let entries = fs::read_dir(repository().join("examples")).expect("there is examples/");
    let names = entries.map(|entry| entry.expect("it can be listed").file_name().into_string().expect("plain names"));
    let mut names: Vec<String> = names.filter(|name| name.ends_with(ending)).collect();
    names.sort();
    names
}

fn source(name: &str) -> Arc<Source> {
    let bytes = fs::read(repository().join("examples").join(name)).unwrap_or_else(|error| panic!("{name}: {error}"));
    read(Source::from_bytes(name, bytes))
}

/// What was read, or the fault as people see it.
fn read<T>(result: Result<T, Fault>) -> T {
    result.unwrap_or_else(|fault| panic!("{fault}"))
}

/// A model with the names of its states.
fn model(name: &str) -> Model {
    let mut model = read(aut::read(&source(name), SILENT));
    read(names::read(&source(&name.replace(".aut", ".names")), &mut model));
    model
}

/// A formula's file.
struct Example {
    source: Arc<Source>,
    directives: Directives,
    formula: StateFormula,
}

impl Example {
    fn new(name: &str) -> Example {
        let source = source(name);
        let (directives, formula) = (read(directives::read(&source)), read(parser::read(&source, SILENT)));
        Example { source, directives, formula }
    }

    /// The models that it is about, each with the verdict that is expected.
    fn models(&self) -> Vec<(String, bool)> {
        let mut found = Vec::new();
        for expectation in &self.directives.expectations {
            for (pattern, _) in &expectation.patterns {
                let models = files(".aut").into_iter().filter(|name| directives::matches(pattern, name));
                found.extend(models.map(|name| (name, expectation.expected)));
            }
        }
        found
    }

    fn case(&self, model: &str) -> Case {
        let expansion = read(expand(&self.source, &self.formula));
        read(case::write(&self::model(model), &expansion, self.directives.unknown_labels))
    }
}

fn examples() -> Vec<Example> {
    files(".mcf").iter().map(|name| Example::new(name)).collect()
}

fn answer(case: &Case) -> Checked {
    check(case, limits::ROUNDS).unwrap_or_else(|trouble| match trouble {
        Trouble::Refused(fault) => panic!("{fault}"),
        Trouble::Differ(how) => panic!("{how}"),
    })
}

/// A case as the independent checker reads it.
fn independent(case: &Case) -> formats::Case {
    reader::read_case(&case.bytes).unwrap_or_else(|number| panic!("refused with {number}"))
}

#[test]
fn the_verdicts_are_as_expected() {
    for example in examples() {
        for (model, expected) in example.models() {
            let said = format!("{} for {model}", example.source.name);
            let case = example.case(&model);
            let (answer, independent) = (answer(&case), independent(&case));
            let states = meaning::states_by_game(&independent);
            assert_eq!(states[independent.initial], expected, "{said}: the independent checker");
            assert_eq!(answer.verdict, expected, "{said}");
            assert_eq!(answer.holds, states, "{said}: the states where it holds");
        }
    }
}

#[test]
fn there_are_enough_and_each_model_is_used() {
    let examples = examples();
    let pairs: Vec<(String, bool)> = examples.iter().flat_map(Example::models).collect();
    let used: BTreeSet<&str> = pairs.iter().map(|(model, _)| model.as_str()).collect();
    let models = files(".aut");
    assert!(models.len() >= 6 && examples.len() >= 20, "{} models, {} formulas", models.len(), examples.len());
    assert_eq!(used.into_iter().collect::<Vec<_>>(), models, "each model is used");
    assert!(pairs.iter().filter(|(_, expected)| !expected).count() >= 10, "some verdicts are false");
    assert!(examples.iter().all(|example| !example.models().is_empty()), "each formula is about a model");
}

#[test]
fn no_model_is_named_twice_by_a_formula() {
    for example in examples() {
        let models = example.models();
        let different: BTreeSet<&String> = models.iter().map(|(model, _)| model).collect();
        assert_eq!(different.len(), models.len(), "{}", example.source.name);
    }
}

#[test]
fn each_formula_has_a_name_of_its_own() {
    let examples = examples();
    let names: BTreeSet<&str> = examples.iter().filter_map(|example| example.directives.name.as_deref()).collect();
    assert_eq!(names.len(), examples.len());
}

/// First the question, then how to read the formula; both before anything else.
#[test]
fn each_formula_is_explained() {
    for example in examples() {
        let lines: Vec<&str> = example.source.text.lines().collect();
        let comment = lines.iter().take_while(|line| line.starts_with('%')).copied().collect::<Vec<_>>().join(" ");
        let (question, reading) = comment.split_once(" % How to read it. ").unwrap_or_default();
        assert!(
            question.starts_with("% ") && question.trim_end_matches(" %").ends_with('?'),
            "{}",
            example.source.name
        );
        assert!(reading.ends_with(['.', ')']), "{}", example.source.name);
    }
}

/// Below each `expect:` stands why it is so.
#[test]
fn each_verdict_has_its_reason() {
    for example in examples() {
        let lines: Vec<&str> = example.source.text.lines().collect();
        let expected = lines.windows(2).filter(|pair| pair[0].starts_with("% expect: "));
        let reasons = expected.filter(|pair| pair[1].starts_with("%   ") && pair[1].ends_with('.'));
        assert_eq!(reasons.count(), example.directives.expectations.len(), "{}", example.source.name);
    }
}

#[test]
fn models_are_small_and_their_states_have_names() {
    for name in files(".aut") {
        let model = model(&name);
        assert!((3..=12).contains(&model.states), "{name} has {} states", model.states);
        assert_eq!(model.names.len(), model.states, "{name}: names");
        assert!(source(&name.replace(".aut", ".names")).text.starts_with("% "), "{name}: what it is a model of");
    }
}

/// In the menu, and in no other model, a state is left behind that no step leads to: the submenu, state 5.
#[test]
fn a_state_of_the_menu_cannot_be_reached() {
    for name in files(".aut") {
        let reachable = model(&name).reachable();
        let left: Vec<usize> = (0..reachable.len()).filter(|&state| !reachable[state]).collect();
        assert_eq!(left, if name == "menu.aut" { vec![5] } else { vec![] }, "{name}");
    }
}

/// Where the focus goes back, the submenu is the one state in which it does not (see menu-focus-back.mcf): 5 of the 6
/// states hold, all of them can be reached.
#[test]
fn the_state_that_cannot_be_reached_is_not_counted() {
    let answer = answer(&Example::new("menu-focus-back.mcf").case("menu.aut"));
    assert_eq!(answer.holds, [true, true, true, true, true, false]);
    assert_eq!((answer.verdict, answer.count), (true, 5));
}

/// The retargeted click stands twice, and its model and `mu X. [true]X` are the case of `twosides`.
#[test]
fn the_retargeted_click_is_the_case_of_twosides() {
    let case = Example::new("retarget-ends.mcf").case("retarget.aut");
    let stored = fs::read(repository().join("crates/twosides/stdin")).expect("the case of twosides");
    assert_eq!(case.bytes, stored);
    let answer = answer(&case);
    assert_eq!((answer.records, answer.distinct), (3, 2));
}

/// The version is 2 just where a label is written with `|`.
#[test]
fn focus_and_blur_make_cases_of_version_2() {
    for example in examples() {
        for (model, _) in example.models() {
            let version = if model.starts_with("focus") { 2 } else { 1 };
            assert_eq!(independent(&example.case(&model)).labels.version(), version, "{}", example.source.name);
        }
    }
}

/// For verdicts that are false, the labels of the run that shows it: the shortest there is, worked out by hand on the
/// drawn model.
const RUNS: [(&str, &str, &str); 10] = [
    ("dialog-close-comes.mcf", "dialog-no-close.aut", "click toggle keydown cancel"),
    ("dialog-close-comes.mcf", "dialog-hover.aut", "click toggle submit"),
    ("dialog-never-stuck.mcf", "dialog-no-close.aut", "click toggle keydown cancel"),
    ("drag-one-at-a-time.mcf", "drag-lost.aut", "dragstart dragenter dragover drop tau dragstart"),
    ("focus-never-nowhere.mcf", "focus-gap.aut", "click blur|focus blur|focus blur"),
    ("form-no-submit-after-invalid.mcf", "form-careless.aut", "click invalid submit"),
    ("form-sent-once.mcf", "form-double.aut", "input click submit click submit"),
    ("form-submit-due.mcf", "form-careless.aut", "click invalid"),
    ("menu-focus-back.mcf", "menu-lost.aut", "keydown ArrowDown focus menu click"),
    ("retarget-one-click.mcf", "retarget-again.aut", "click click"),
];

#[test]
fn false_verdicts_are_shown_by_the_shortest_runs() {
    for (formula, model, labels) in RUNS {
        let case = Example::new(formula).case(model);
        let explanation = explain(&case.model, &answer(&case));
        let run = explanation.run.iter().map(|&step| case.model.transitions[step].label);
        let run: Vec<&str> = run.map(|label| case.model.labels[label].text.as_str()).collect();
        assert_eq!(run.join(" "), labels, "{formula} in {model}");
    }
}

/// While it fades the pointer may move again and again: the loop is that step alone.
#[test]
fn a_dialog_that_hovers_is_shown_by_a_loop() {
    let case = Example::new("dialog-close-comes.mcf").case("dialog-hover.aut");
    let Ending::Loop { steps, .. } = explain(&case.model, &answer(&case)).ending else { panic!("no loop") };
    let ends: Vec<_> = steps.iter().map(|&step| case.model.transitions[step]).map(|t| (t.source, t.target)).collect();
    assert_eq!(ends, [(4, 4)]);
}

/// No example leaves its reader without a reason.
#[test]
fn each_verdict_is_explained() {
    for example in examples() {
        for (model, _) in example.models() {
            let case = example.case(&model);
            let (answer, said) = (answer(&case), format!("{} for {model}", example.source.name));
            let explanation = explain(&case.model, &answer);
            assert_ne!(explanation.ending, Ending::NoSingleRun, "{said}");
            assert!(!lines(&case.model, &answer, &explanation).is_empty(), "{said}");
        }
    }
}

/// Of all that can be written only two things have no natural use here: `=>` between labels, and `false` as a label.
#[test]
fn the_whole_language_is_used() {
    let mut used = BTreeSet::new();
    for example in examples() {
        state_kinds(&example.formula, &mut used);
    }
    let states = ["false", "true", "variable", "!", "&&", "||", "=>", "[R]", "<R>", "mu", "nu"];
    let regular = [". of steps", "+ of steps", "* of steps", "+ behind a step"];
    let actions =
        ["true of labels", "label", "quoted label", "a|b", "tau", "! of labels", "&& of labels", "|| of labels"];
    let all: BTreeSet<&str> = states.into_iter().chain(regular).chain(actions).collect();
    assert_eq!(used, all);
}

fn state_kinds(formula: &StateFormula, used: &mut BTreeSet<&'static str>) {
    let (kind, operands) = match &formula.kind {
        State::False => ("false", vec![]),
        State::True => ("true", vec![]),
        State::Variable(_) => ("variable", vec![]),
        State::Not(a) => ("!", vec![a]),
        State::And(a, b) => ("&&", vec![a, b]),
        State::Or(a, b) => ("||", vec![a, b]),
        State::Implies(a, b) => ("=>", vec![a, b]),
        State::Must(_, a) => ("[R]", vec![a]),
        State::May(_, a) => ("<R>", vec![a]),
        State::Mu(_, a) => ("mu", vec![a]),
        State::Nu(_, a) => ("nu", vec![a]),
    };
    used.insert(kind);
    if let State::Must(runs, _) | State::May(runs, _) = &formula.kind {
        regular_kinds(runs, used);
    }
    for operand in operands {
        state_kinds(operand, used);
    }
}

fn regular_kinds(formula: &RegularFormula, used: &mut BTreeSet<&'static str>) {
    let (kind, operands) = match &formula.kind {
        Regular::Step(action) => return action_kinds(action, used),
        Regular::Sequence(a, b) => (". of steps", vec![a, b]),
        Regular::Choice(a, b) => ("+ of steps", vec![a, b]),
        Regular::Star(a) => ("* of steps", vec![a]),
        Regular::Plus(a) => ("+ behind a step", vec![a]),
    };
    used.insert(kind);
    for operand in operands {
        regular_kinds(operand, used);
    }
}

fn action_kinds(formula: &ActionFormula, used: &mut BTreeSet<&'static str>) {
    let (kind, operands) = match &formula.kind {
        Action::False => ("false of labels", vec![]),
        Action::True => ("true of labels", vec![]),
        Action::Label(label) if label.is_silent() => ("tau", vec![]),
        Action::Label(label) if label.is_joined() => ("a|b", vec![]),
        Action::Label(label) if label.quoted().starts_with('"') => ("quoted label", vec![]),
        Action::Label(_) => ("label", vec![]),
        Action::Not(a) => ("! of labels", vec![a]),
        Action::And(a, b) => ("&& of labels", vec![a, b]),
        Action::Or(a, b) => ("|| of labels", vec![a, b]),
        Action::Implies(a, b) => ("=> of labels", vec![a, b]),
    };
    used.insert(kind);
    for operand in operands {
        action_kinds(operand, used);
    }
}
