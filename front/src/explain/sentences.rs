//! An explanation in sentences, for people who have never seen a mu-calculus formula.

use super::reasons::Reasons;
use super::words::Words;
use super::{explained_claim, Claim, Ending, Explanation, Step};
use crate::check::Checked;
use crate::model::Model;
use crate::source::visible_letter;

/// The lines of an explanation.
pub fn all(model: &Model, checked: &Checked, explanation: &Explanation) -> Vec<String> {
    let words = Words::new(model, checked);
    let reasons = Reasons { words: &words };
    let mut sentences = Sentences { model, checked, reasons, words: &words, lines: Vec::new() };
    sentences.explanation(explanation, "");
    sentences.lines
}

struct Sentences<'a> {
    model: &'a Model,
    checked: &'a Checked,
    words: &'a Words<'a>,
    reasons: Reasons<'a>,
    lines: Vec<String>,
}

impl Sentences<'_> {
    fn say(&mut self, indent: &str, text: &str) {
        self.lines.push(indent.chars().chain(text.chars().map(visible_letter)).collect());
    }

    fn explanation(&mut self, explanation: &Explanation, indent: &str) {
        match &explanation.ending {
            Ending::Loop { steps, binder } => self.in_a_loop(explanation, steps, *binder, indent),
            Ending::Constant => self.constant(explanation, indent),
            Ending::Sides(_) => self.sides(explanation, indent),
            _ => self.run_to_part(explanation, &self.reasons.of(explanation), indent),
        }
        self.facts_of_one_state(explanation, indent);
        self.beside(explanation, indent);
    }

    /// The facts beside a run, and of each that is not clear at once in the first of its states, why it is so.
    fn beside(&mut self, explanation: &Explanation, indent: &str) {
        for (node, states) in by_part(&explanation.beside) {
            let fact = self.reasons.beside(explanation, node, &states);
            self.say(indent, &fact);
            for &state in states.iter().take(1) {
                self.fact(&Claim { node, state, ..explanation.claim }, indent);
            }
        }
    }

    /// Why a fact is so, if it is not clear at once.
    fn fact(&mut self, claim: &Claim, indent: &str) {
        let why = explained_claim(self.model, self.checked, claim);
        if !is_clear(&why) {
            self.explanation(&why, &format!("{indent}  "));
        }
    }

    /// Where only one state can come, what is so there is not just said.
    fn facts_of_one_state(&mut self, explanation: &Explanation, indent: &str) {
        if let Ending::Closed { states, parts } = &explanation.ending {
            for part in parts.iter().filter(|_| states.len() == 1) {
                self.fact(part, indent);
            }
        }
    }

    fn steps(&mut self, steps: &[Step], indent: &str) {
        for &step in steps {
            let text = self.words.step(step);
            self.say(indent, &format!("  {text}"));
        }
    }

    /// The claim, with the run if there is one; what is said next says why.
    fn run_then(&mut self, explanation: &Explanation, why: &str, indent: &str) {
        let claim = self.words.claim(&explanation.claim);
        if explanation.run.is_empty() {
            self.say(indent, &format!("{claim}{why}"));
        } else {
            let only = if self.words.is_only_run(explanation) { ", and this is the only run" } else { "" };
            self.say(indent, &format!("{claim}{only}:"));
            self.steps(&explanation.run, indent);
            self.say(indent, &format!("and{why}"));
        }
    }

    /// A run to a part, and why that part is as it is, the first reason in the same line.
    fn run_to_part(&mut self, explanation: &Explanation, reasons: &[String], indent: &str) {
        let end = self.words.spoken(&explanation.end);
        let first = reasons.first().map_or("", String::as_str);
        let why = match (explanation.run.is_empty(), end == explanation.claim) {
            (true, true) => first.to_string(),
            (true, false) => format!(", since {} there{first}", self.words.part_is(&end)),
            (false, _) => format!(" there {}{first}", self.words.part_is(&end)),
        };
        self.run_then(explanation, &why, indent);
        for reason in reasons.iter().skip(1) {
            self.say(indent, reason);
        }
    }

    /// Sides within sides are told side by side.
    fn sides(&mut self, explanation: &Explanation, indent: &str) {
        let sides = flattened(explanation);
        let reasons = match sides.len() {
            2 => ", for two reasons:".to_string(),
            count => format!(", for {count} reasons:"),
        };
        self.run_to_part(explanation, &[reasons], indent);
        let deeper = format!("{indent}  ");
        for side in sides {
            self.explanation(side, &deeper);
        }
    }

    /// What says `true` or `false` is reached by a step that is asked for or ruled out, or else says so by itself.
    fn constant(&mut self, explanation: &Explanation, indent: &str) {
        let holds = explanation.end.holds;
        let why = match self.words.decided_by_step(explanation) {
            Some(modality) => {
                let step = if explanation.run.len() == 1 { "this step" } else { "the last step" };
                let (part, holds) = self.words.saying_or_it(modality, explanation);
                format!(" {step} is one that {part} {}.", if holds { "asks for" } else { "rules out" })
            }
            None if explanation.claim == explanation.end => ", as everywhere.".to_string(),
            None if explanation.run.is_empty() => self.asks_for_constant(holds, ", since it asks for"),
            None => self.asks_for_constant(holds, " there it asks for"),
        };
        self.run_then(explanation, &why, indent);
    }

    fn asks_for_constant(&self, holds: bool, asks: &str) -> String {
        match holds {
            true => format!("{asks} `true`, which holds everywhere."),
            false => format!("{asks} `false`, which holds nowhere."),
        }
    }

    fn in_a_loop(&mut self, explanation: &Explanation, steps: &[Step], binder: usize, indent: &str) {
        if steps.is_empty() {
            let reason = format!(": {}", self.reasons.only_by_itself(binder));
            return self.run_to_part(explanation, &[reason], indent);
        }
        let first = match (explanation.run.is_empty(), self.words.is_only_run(explanation)) {
            (true, true) => ": the only run goes on for ever:",
            (true, false) => ": it can go on like this for ever:",
            (false, _) => " from there on for ever:",
        };
        self.run_then(explanation, first, indent);
        self.steps(steps, indent);
        let (part, holds) = self.words.saying_or_it(binder, explanation);
        match holds {
            true => self.say(indent, &format!("And {part} allows this to go on for ever.")),
            false => self.say(indent, &format!("But {part} does not allow this to go on for ever.")),
        }
    }
}

/// Is a claim clear without a reason, since at most one step is looked at?
fn is_clear(explanation: &Explanation) -> bool {
    match explanation.ending {
        Ending::Constant => explanation.run.len() <= 1,
        Ending::NoTransition => explanation.run.is_empty(),
        _ => false,
    }
}

/// The explanations of all sides: a side that is itself two sides, told in the same state, is taken apart.
fn flattened(explanation: &Explanation) -> Vec<&Explanation> {
    match &explanation.ending {
        Ending::Sides(sides) => sides.iter().flat_map(flattened_side).collect(),
        _ => vec![explanation],
    }
}

fn flattened_side(side: &Explanation) -> Vec<&Explanation> {
    match side.ending {
        Ending::Sides(_) if side.claim == side.end => flattened(side),
        _ => vec![side],
    }
}

/// Claims by their parts, in the order in which the parts come first.
pub fn by_part(claims: &[Claim]) -> Vec<(usize, Vec<usize>)> {
    let mut parts: Vec<(usize, Vec<usize>)> = Vec::new();
    for claim in claims {
        match parts.iter_mut().find(|(node, _)| *node == claim.node) {
            Some((_, states)) => states.push(claim.state),
            None => parts.push((claim.node, vec![claim.state])),
        }
    }
    parts
}
