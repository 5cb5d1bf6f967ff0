//! Explanations of many models and formulas made by chance.

use crate::chance;
use crate::cut_down::printed;
use crate::read_back::{read, Read, SKIPPED};
use crate::replay::Replay;
use crate::shortest::{printed_steps, Trial};
use crate::told::{tell_if_accepted, Told};
use bithrowy_front::explain::{explain, Claim, Ending};
use bithrowy_tests::formats::formula;
use bithrowy_tests::random::Random;
use std::collections::BTreeMap;

/// A case made by chance that is within the limits, and its text.
fn told(random: &mut Random, most_states: usize) -> (String, Told) {
    told_of(random, most_states, chance::formula)
}

/// The same with formulas of some kind.
fn told_of(random: &mut Random, most_states: usize, formula: fn(&mut Random) -> String) -> (String, Told) {
    loop {
        let (model, formula) = (chance::model(random, most_states), formula(random));
        if let Some(told) = tell_if_accepted(&model, "", &formula) {
            return (format!("{model}{formula}"), told);
        }
    }
}

fn name(ending: &Ending) -> &'static str {
    match ending {
        Ending::Constant => "constant",
        Ending::NoTransition => "no transition",
        Ending::Loop { .. } => "loop",
        Ending::Sides(_) => "sides",
        Ending::Each(_) => "each",
        Ending::Closed { .. } => "closed",
        Ending::NoSingleRun => "no single run",
    }
}

/// Each explanation is replayed by rules written anew, and its claims are confirmed by runs of their own, all but a few
/// whose part is too large for that. The bounds say that each ending, for each verdict, is met often enough to count as
/// tested.
#[test]
fn each_explanation_is_a_proof() {
    let mut random = Random::new(1);
    let mut met: BTreeMap<(&str, bool), usize> = BTreeMap::new();
    let (mut claims, mut confirmed) = (0, 0);
    for _ in 0..8_000 {
        let (text, told) = told(&mut random, 6);
        let mut replay = Replay::of(&told.case);
        if let Err(wrong) = replay.check(&told.explanation) {
            panic!("{wrong}\n{text}\n{:?}\n{}", told.explanation, told.lines().join("\n"));
        }
        assert_eq!(told.explanation.claim, Claim { node: 0, state: told.case.initial, holds: told.checked.verdict });
        claims += replay.claims;
        confirmed += replay.confirmed;
        *met.entry((name(&told.explanation.ending), told.checked.verdict)).or_default() += 1;
    }
    assert!(claims >= 20_000 && confirmed * 100 >= claims * 99, "{confirmed} of {claims} claims confirmed");
    for ending in ["constant", "no transition", "loop", "sides", "each", "closed", "no single run"] {
        for verdict in [false, true] {
            let times = met.get(&(ending, verdict)).copied().unwrap_or(0);
            assert!(times >= 30, "{ending}, {verdict}: only {times} times");
        }
    }
}

/// What the sentences say is so: each is read back, the parts in it as formulas, and checked by a run of its own. The bounds
/// say that each form of sentence is met often enough to count as tested, and that hardly any is skipped.
#[test]
fn each_sentence_is_true() {
    let mut random = Random::new(6);
    let mut met = Read::new();
    for case in 0..12_000 {
        let formula = if case % 3 == 0 { chance::fact_in_each_state } else { chance::formula };
        let (text, told) = told_of(&mut random, 6, formula);
        let read = read(&told).unwrap_or_else(|wrong| panic!("{wrong}\n{text}\n{}", told.lines().join("\n")));
        read.into_iter().for_each(|(form, times)| *met.entry(form).or_default() += times);
    }
    let skipped = met.remove(SKIPPED).unwrap_or(0);
    let all: usize = met.values().sum();
    assert!(all >= 20_000 && skipped * 20 <= all, "{skipped} skipped: {met:?}");
    let forms = [
        ("in", 5_000),
        ("and there", 1_000),
        ("in each of them", 20),
        ("in none of them", 20),
        ("in every state", 100),
        ("in no state", 100),
        ("there", 30),
        ("each transition", 100),
        ("no transition", 1_000),
        ("whatever happens", 100),
        ("the only run", 100),
        ("step", 5_000),
    ];
    for (form, least) in forms {
        assert!(met.get(form).copied().unwrap_or(0) >= least, "{form} too seldom: {met:?}");
    }
}

/// Where an explanation rests on what it prints alone, models with other transitions elsewhere have the same verdict.
#[test]
fn what_is_printed_is_enough() {
    let mut random = Random::new(2);
    let mut met: BTreeMap<&str, usize> = BTreeMap::new();
    for _ in 0..4_000 {
        let (text, told) = told(&mut random, 7);
        if let Some(printed) = printed(&told.case, &told.explanation) {
            let verdict = told.checked.verdict;
            let shown = || format!("{text}\n{:?}", told.explanation);
            assert_eq!(printed.verdict_by_these_alone(&told.case), verdict, "by these alone:\n{}", shown());
            for _ in 0..5 {
                assert_eq!(printed.verdict_with_others(&told.case, &mut random), verdict, "with others:\n{}", shown());
            }
            *met.entry(name(&told.explanation.ending)).or_default() += 1;
        }
    }
    for ending in ["constant", "no transition", "loop", "sides"] {
        assert!(met.get(ending).copied().unwrap_or(0) >= 50, "{ending} too seldom: {met:?}");
    }
}

/// The most steps of the runs that are all tried.
const TRIED: usize = 5;

/// Is it an explanation by facts in each state that can come? Those come before longer runs, and behind a run before loops.
fn has_facts_everywhere(told: &Told) -> bool {
    let Ending::Closed { states, parts } = &told.explanation.ending else { return false };
    let is_fact = |part: &Claim| ![formula::FALSE, formula::TRUE].contains(&told.case.formula[part.node].kind);
    let has_fact = |&state: &usize| parts.iter().any(|part| part.state == state && is_fact(part));
    states.iter().all(has_fact)
}

/// No run to an end takes fewer steps, and no lasso where there is no such run.
#[test]
fn no_run_is_shorter() {
    let mut random = Random::new(3);
    let (mut ends, mut lassos) = (0, 0);
    for _ in 0..1_500 {
        let (text, told) = told(&mut random, 3);
        let explanation = &told.explanation;
        let mut trial = Trial::of(&told.case, explanation.claim, TRIED);
        let to_an_end = trial.steps_to_an_end();
        if has_facts_everywhere(&told) {
            let before = if explanation.run.is_empty() { to_an_end != Some(0) } else { to_an_end.is_none() };
            assert!(before, "{text}\n{explanation:?}");
            continue;
        }
        let expected = to_an_end.or_else(|| trial.lasso(true).as_ref().map(printed_steps));
        let of_this_kind = match explanation.ending {
            Ending::Loop { .. } => to_an_end.is_none(),
            Ending::Closed { .. } | Ending::NoSingleRun => expected.is_none(),
            _ => to_an_end.is_some() || explanation.run.len() > TRIED,
        };
        assert!(of_this_kind, "{expected:?}\n{text}\n{explanation:?}");
        if let Some(steps) = expected {
            assert_eq!(printed_steps(explanation), steps, "{text}\n{explanation:?}");
            *if to_an_end.is_some() { &mut ends } else { &mut lassos } += 1;
        }
    }
    assert!(ends >= 500 && lassos >= 100, "{ends} ends, {lassos} lassos");
}

/// A wrong program that takes loops of the wrong binder too: the replay refuses each, and in many cases the model with
/// the printed transitions alone has the other verdict, so that the test above would see it.
#[test]
fn loops_of_the_wrong_binder_are_noticed() {
    let mut random = Random::new(4);
    let (mut refused, mut other_verdict) = (0, 0);
    for _ in 0..1_500 {
        let (text, told) = told(&mut random, 3);
        let mut trial = Trial::of(&told.case, told.explanation.claim, 3);
        if let Some(wrong) = trial.lasso(false) {
            assert!(Replay::of(&told.case).check(&wrong).is_err(), "{text}\n{wrong:?}");
            refused += 1;
            let printed = printed(&told.case, &wrong).expect("a loop rests on what it prints");
            other_verdict += (printed.verdict_by_these_alone(&told.case) != told.checked.verdict) as usize;
        }
    }
    assert!(refused >= 100 && other_verdict >= 20, "{refused} refused, {other_verdict} with the other verdict");
}

/// Values that no checker would answer: the explanation may be wrong, but there is one.
#[test]
fn wrong_values_do_no_harm() {
    let mut random = Random::new(5);
    for _ in 0..1_000 {
        let (text, mut told) = told(&mut random, 5);
        for values in &mut told.checked.values {
            values.iter_mut().for_each(|value| *value ^= random.chance(1, 3));
        }
        told.checked.verdict ^= random.chance(1, 2);
        told.explanation = explain(&told.model, &told.checked);
        assert_eq!(told.explanation.claim.holds, told.checked.verdict, "{text}");
        assert!(!told.lines().is_empty(), "{text}");
    }
}
