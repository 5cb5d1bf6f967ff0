//! Why a part is as it is in a state where a run ends.

use super::parts::quoted;
use super::sentences::by_part;
use super::words::{listed, Words};
use super::{Claim, Ending, Explanation, Step};
use crate::table::Kind;

/// A sentence as it stands behind a colon.
fn uncapitalized(sentence: &str) -> String {
    let mut letters = sentence.chars();
    let first = letters.next().map(|letter| letter.to_ascii_lowercase());
    first.into_iter().chain(letters).collect()
}

pub struct Reasons<'a> {
    pub words: &'a Words<'a>,
}

impl Reasons<'_> {
    /// The reasons for what is neither a loop nor sides nor a constant, the first of them as it stands behind the claim.
    pub fn of(&self, explanation: &Explanation) -> Vec<String> {
        let end = &explanation.end;
        let mut reasons = match &explanation.ending {
            Ending::NoTransition => vec![self.no_transition(end)],
            Ending::Each(steps) => vec![self.each(end, steps)],
            Ending::Closed { states, parts } => self.all_that_comes(end, states, parts),
            _ => vec![self.no_single_run(end)],
        };
        for first in reasons.iter_mut().take(1) {
            *first = format!(": {}", uncapitalized(first));
        }
        reasons
    }

    fn no_transition(&self, end: &Claim) -> String {
        let state = self.words.state(end.state);
        let labels = self.words.labels_from(end.state);
        if labels.is_empty() {
            return format!("no transition leaves {state}.");
        }
        let action = quoted(&self.words.action_text(end.node));
        format!("no transition from {state} is accepted by {action}; there are: {}.", listed(labels))
    }

    /// All transitions that a modality accepts, and what they are called.
    fn transitions(&self, end: &Claim, steps: &[Step]) -> (String, String) {
        let each = match self.words.action_text(end.node).as_str() {
            "true" => format!("each transition from {}", self.words.state(end.state)),
            action => format!("each transition from {} that {} accepts", self.words.state(end.state), quoted(action)),
        };
        (each, listed(steps.iter().map(|&step| self.words.label_and_target(step))))
    }

    fn each(&self, end: &Claim, steps: &[Step]) -> String {
        let operand = Claim { node: end.node + 1, ..*end };
        let (each, list) = self.transitions(end, steps);
        format!("{each} leads to where {}: {list}.", self.words.part_is(&operand))
    }

    fn no_single_run(&self, end: &Claim) -> String {
        let rests = match (self.words.action(end.node), self.words.operands(end.node).as_slice()) {
            (Some(action), _) => {
                let steps = self.words.accepted_from(end.state, action);
                let (each, list) = self.transitions(end, &steps);
                format!("{each}: {list}")
            }
            (None, &[first, second]) => {
                let that = |node: usize| self.words.part_is(&Claim { node, ..*end });
                format!("both: {}, and {}", that(first), that(second))
            }
            _ => "more than one".to_string(),
        };
        format!("no single run shows this. It rests on {rests}.")
    }

    /// Of a binder whose variable comes back without any step.
    pub fn only_by_itself(&self, binder: usize) -> String {
        let name = quoted(self.words.variable(binder));
        match self.words.kind(binder) {
            Kind::Mu => format!("{name} is only defined by itself, and with mu that holds nowhere."),
            _ => format!("{name} is only defined by itself, and with nu that holds everywhere."),
        }
    }

    /// The facts beside a run, those of one part together.
    pub fn beside(&self, explanation: &Explanation, node: usize, states: &[usize]) -> String {
        let turns = matches!(&explanation.ending, Ending::Loop { steps, .. } if !steps.is_empty());
        let place = if turns || !explanation.run.is_empty() { "On the way " } else { "" };
        let (part, holds) = self.words.saying(node, explanation.claim.holds);
        format!("{place}{part} {} in {}, too.", self.words.is(holds), self.words.states(states))
    }

    /// That only these states come, and what is so in them.
    fn all_that_comes(&self, end: &Claim, states: &[usize], parts: &[Claim]) -> Vec<String> {
        let parts = by_part(parts);
        let everywhere = parts.iter().all(|(_, at)| at == states) && self.words.are_all_reached(states);
        let told: Vec<String> = parts.iter().filter_map(|(node, _)| self.everywhere(*node, end.holds)).collect();
        if everywhere && !told.is_empty() {
            return told.into_iter().chain(self.never_for_ever(end)).collect();
        }
        let mut facts: Vec<String> =
            parts.iter().filter_map(|(node, at)| self.fact(*node, at, states, end.holds)).collect();
        if facts.is_empty() {
            let opposite = if end.holds { "fail" } else { "hold" };
            facts.push(format!("Nothing in them can make it {opposite}."));
        }
        let only = vec![self.only_these(end, states)];
        only.into_iter().chain(facts).chain(self.never_for_ever(end)).collect()
    }

    /// What a part is in all states; nothing of `true` and `false`.
    fn everywhere(&self, node: usize, holds: bool) -> Option<String> {
        match self.words.kind(node) {
            Kind::False | Kind::True => None,
            _ => Some(match self.words.saying(node, holds) {
                (part, true) => format!("In every state that can be reached {part} holds."),
                (part, false) => format!("In no state that can be reached {part} holds."),
            }),
        }
    }

    /// Whether these are all the states that can come, by any transitions or by those that are followed, or just those
    /// that count.
    fn only_these(&self, end: &Claim, states: &[usize]) -> String {
        let (come, count) = match states {
            [state] => {
                let state = self.words.state(*state);
                (format!("only {state} comes"), format!("Only {state} counts"))
            }
            _ => {
                let names = self.words.states(states);
                (format!("only these states come: {names}"), format!("Only these states count: {names}"))
            }
        };
        match self.words.followed(end.node).as_slice() {
            _ if self.are_kept_by(states, &|_| true) => format!("Whatever happens, {come}."),
            &[action] if self.are_kept_by(states, &|step| self.words.accepts(action, step)) => {
                format!("By transitions that {} accepts {come}.", quoted(&self.words.action_words(action)))
            }
            _ => format!("{count}."),
        }
    }

    /// Does each accepted transition from these states lead to one of them?
    fn are_kept_by(&self, states: &[usize], accepted: &dyn Fn(Step) -> bool) -> bool {
        let steps = states.iter().flat_map(|&state| self.words.leaving(state));
        steps.filter(|&step| accepted(step)).all(|step| states.contains(&self.words.target(step)))
    }

    /// What a part is in some of the states that come; nothing of `true` and `false`.
    fn fact(&self, node: usize, at: &[usize], states: &[usize], holds: bool) -> Option<String> {
        let (part, holds) = self.words.saying(node, holds);
        match self.words.kind(node) {
            Kind::False | Kind::True => None,
            _ if at != states => Some(format!("{part} {} in {}.", self.words.is(holds), self.words.states(at))),
            _ if at.len() == 1 => Some(format!("There {part} {}.", self.words.is(holds))),
            _ if holds => Some(format!("In each of them {part} holds.")),
            _ => Some(format!("In none of them {part} holds.")),
        }
    }

    /// That no run goes on for ever by a binder of the kind that this would speak against.
    fn never_for_ever(&self, end: &Claim) -> Option<String> {
        let nodes = self.words.open_nodes(end.node);
        let of_kind = |kind: Kind| nodes.iter().copied().find(|&node| self.words.kind(node) == kind);
        let (against, harmless) = if end.holds { (Kind::Mu, Kind::Nu) } else { (Kind::Nu, Kind::Mu) };
        let binder = of_kind(against)?;
        Some(match of_kind(harmless) {
            None => "No run that it follows goes on for ever.".to_string(),
            Some(_) => {
                let (part, _) = self.words.saying(binder, end.holds);
                format!("No run that it follows goes round in {part} alone for ever.")
            }
        })
    }
}
