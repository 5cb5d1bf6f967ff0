//! Wrong counts of the routes: slips in which marked states count as reached, in the verdict and in the marks.

use crate::calls::{mark_words, Numbers, MARK_WORDS};
use crate::formats::*;
use crate::meaning::accepted_by_node;
use crate::reach::{self, pass, reached_by_passes};
use crate::slips::Slip;

/// The two routes over a case.
#[derive(Clone, Copy, Debug, PartialEq, Eq)]
pub enum Route {
    Direct,
    Equation,
}

/// What a route with a slip, or with none, reports of the formula's set.
pub fn reported(slip: Option<Slip>, route: Route, case: &Case, set: &[bool], rounds: u64) -> Numbers {
    let reached = reached(slip, route, case);
    let mut report = Numbers::route_report(set, &reached, case.initial, rounds);
    match slip {
        Some(Slip::WordUncounted) => {
            let first = set.len().min(64);
            report.count -= reach::count(&set[..first], &reached[..first]);
        }
        Some(Slip::MarksUnasked) => report.count = reached.iter().filter(|&&on| on).count() as u64,
        Some(Slip::VerdictOfReached) => report.verdict = (report.count > 0) as u64,
        _ => {}
    }
    report
}

/// The mark words that it leaves.
pub fn marked(slip: Option<Slip>, case: &Case, set: &[bool]) -> [u64; MARK_WORDS] {
    if slip != Some(Slip::MarksCut) {
        return mark_words(set);
    }
    let kept: Vec<bool> = set.iter().zip(reached_by_passes(case)).map(|(&marked, on)| marked && on).collect();
    mark_words(&kept)
}

/// The states that it takes as reached.
fn reached(slip: Option<Slip>, route: Route, case: &Case) -> Vec<bool> {
    match slip {
        Some(Slip::AllCounted) => vec![true; case.states],
        Some(Slip::SolveCountKept) if route == Route::Equation => vec![true; case.states],
        Some(Slip::TargetsReached) => with_targets(case, |_| true),
        Some(Slip::OneStep) => with_targets(case, |t| t.source == case.initial),
        Some(Slip::InitialUncounted) => entered(case),
        Some(Slip::OnePass) => {
            let mut found = initial_only(case);
            pass(&case.transitions, &mut found);
            found
        }
        Some(Slip::AcceptedFollowed) => following(case, &accepted(case)),
        Some(Slip::SilentNotFollowed) => following(case, &with_names(case)),
        Some(Slip::Backwards) => reached_by_passes(&backwards(case)),
        Some(Slip::FromStateZero) => reached_by_passes(&Case { initial: 0, ..case.clone() }),
        _ => reached_by_passes(case),
    }
}

fn initial_only(case: &Case) -> Vec<bool> {
    (0..case.states).map(|s| s == case.initial).collect()
}

/// The initial state, and the targets of some transitions.
fn with_targets(case: &Case, some: impl Fn(&Transition) -> bool) -> Vec<bool> {
    let mut found = initial_only(case);
    case.transitions.iter().filter(|&t| some(t)).for_each(|t| found[t.target] = true);
    found
}

/// The states that are reached by one or more transitions.
fn entered(case: &Case) -> Vec<bool> {
    let reached = reached_by_passes(case);
    let mut found = vec![false; case.states];
    case.transitions.iter().filter(|t| reached[t.source]).for_each(|t| found[t.target] = true);
    found
}

/// The reached states along some labels.
fn following(case: &Case, labels: &[bool]) -> Vec<bool> {
    let transitions = case.transitions.iter().copied().filter(|t| labels[t.label]).collect();
    reached_by_passes(&Case { transitions, ..case.clone() })
}

/// The labels that some box or diamond of the formula accepts.
fn accepted(case: &Case) -> Vec<bool> {
    let by_node = accepted_by_node(case);
    (0..case.labels.count()).map(|label| by_node.iter().any(|labels| labels.get(label) == Some(&true))).collect()
}

/// The labels that have a name, which are all in version 1.
fn with_names(case: &Case) -> Vec<bool> {
    (0..case.labels.count()).map(|label| case.labels.records().get(label) != Some(&[0; NAMES])).collect()
}

/// The case with its transitions turned round.
fn backwards(case: &Case) -> Case {
    let turned = |t: &Transition| Transition { source: t.target, label: t.label, target: t.source };
    Case { transitions: case.transitions.iter().map(turned).collect(), ..case.clone() }
}
