//! Wrong readings that such programs have: the random comparison notices each of them soon, by the states where a formula
//! is said to hold.

mod support;

use support::comparison::{compare, Way, RIGHT};
use support::misreadings::{self, Taken};
use support::relations::{self, Reading};
use support::trial::Trial;
use support::writing::Misgrammar;

/// Within so many trials each slip is noticed.
const TRIALS: u64 = 600;

/// What formulas are taken to be.
const OF_FORMULAS: [(&str, Taken); 15] = [
    ("a box without a run fails", misreadings::box_needs_run),
    ("the box of a choice is a choice of boxes", misreadings::box_of_either),
    ("the diamond of a choice asks for both", misreadings::diamond_of_both),
    ("a negation before a modality is one of its action", misreadings::not_into_modality),
    ("mu is nu", misreadings::mu_as_nu),
    ("a star repeats the last operand only", misreadings::star_of_last),
    ("a star needs a step", misreadings::star_without_zero),
    ("a plus needs no step", misreadings::plus_with_zero),
    ("a plus behind a run is a choice", misreadings::plus_as_choice),
    ("a sequence is turned", misreadings::sequence_turned),
    ("joined names are a sequence", misreadings::joined_as_sequence),
    ("joined names are a choice", misreadings::joined_as_either),
    ("true does not accept the silent step", misreadings::true_without_silent),
    ("an implication of labels is turned", misreadings::implies_turned),
    ("a variable is bound by the outermost binder", misreadings::outer_name),
];

/// How labels are compared, and how binders are worked out.
const OF_MEANING: [(&str, Reading); 5] = [
    ("labels are alike only in the same order", Reading { alike: in_order, ..relations::RIGHT }),
    ("a name counts once", Reading { alike: as_sets, ..relations::RIGHT }),
    ("the silent word is a name", Reading { alike: with_silent, ..relations::RIGHT }),
    ("a label is its text", Reading { alike: by_text, ..relations::RIGHT }),
    ("an inner binder goes on from where it stopped", Reading { inner_kept: true, ..relations::RIGHT }),
];

/// The grammar by which formulas are written.
const OF_GRAMMAR: [(&str, Misgrammar); 6] = [
    ("an implication groups to the left", Misgrammar::ImpliesLeft),
    ("&& is looser than ||", Misgrammar::AndLooser),
    ("a binder stops at the first connective", Misgrammar::BinderStops),
    ("a negation goes on behind &&", Misgrammar::NotLooser),
    ("a modality goes on behind &&", Misgrammar::BoxLooser),
    ("a choice of runs is tighter than a sequence", Misgrammar::ChoiceTighter),
];

fn names<'a>(text: &'a str, silent: &str) -> Vec<&'a str> {
    text.split('|').filter(|&name| name != silent).collect()
}

fn in_order(one: &str, other: &str, silent: &str) -> bool {
    names(one, silent) == names(other, silent)
}

fn as_sets(one: &str, other: &str, silent: &str) -> bool {
    let within = |one: &str, other: &str| names(one, silent).iter().all(|name| names(other, silent).contains(name));
    within(one, other) && within(other, one)
}

fn with_silent(one: &str, other: &str, _: &str) -> bool {
    let sorted = |text: &str| {
        let mut names: Vec<String> = text.split('|').map(str::to_string).collect();
        names.sort();
        names
    };
    sorted(one) == sorted(other)
}

fn by_text(one: &str, other: &str, _: &str) -> bool {
    one == other
}

/// All slips by what they are.
fn ways() -> Vec<(&'static str, Way)> {
    let formulas = OF_FORMULAS.into_iter().map(|(what, taken)| (what, Way { taken, ..RIGHT }));
    let meaning = OF_MEANING.into_iter().map(|(what, reading)| (what, Way { reading, ..RIGHT }));
    let grammar = OF_GRAMMAR.into_iter().map(|(what, grammar)| (what, Way { grammar: Some(grammar), ..RIGHT }));
    formulas.chain(meaning).chain(grammar).collect()
}

/// Does the comparison say that the states differ?
fn is_noticed(trial: &Trial, way: &Way) -> bool {
    compare(trial, way).is_err_and(|difference| difference.what == "the states")
}

#[test]
fn each_slip_is_noticed_by_the_states() {
    let trials: Vec<Trial> = (0..TRIALS).map(Trial::random).collect();
    let missed: Vec<&str> = ways()
        .into_iter()
        .filter(|(_, way)| !trials.iter().any(|trial| is_noticed(trial, way)))
        .map(|(what, _)| what)
        .collect();
    assert!(missed.is_empty(), "in {TRIALS} trials nothing differs although {missed:?}");
}

/// Without a slip nothing differs in the same trials, so that it is the slips that are noticed.
#[test]
fn nothing_is_noticed_without_a_slip() {
    for seed in 0..TRIALS {
        let difference = compare(&Trial::random(seed), &RIGHT).err();
        assert!(difference.is_none(), "trial {seed}: {difference:?}");
    }
}
