//! The words for parts of a formula.

use super::naming::{self, Name};
use super::words::Words;
use super::{Claim, Explanation};
use crate::source::shown_up_to;
use crate::table::Kind;

/// A part of more letters than this is cut where a sentence speaks of it.
const PART_SHOWN: usize = 200;

/// The text of a part or of an action formula as it stands in a sentence.
pub fn quoted(text: &str) -> String {
    format!("`{}`", shown_up_to(PART_SHOWN, text))
}

impl Words<'_> {
    pub fn is(&self, holds: bool) -> &'static str {
        if holds {
            "holds"
        } else {
            "fails"
        }
    }

    /// What to say for a part that holds or fails: what it is called, and whether that holds or fails.
    pub fn saying(&self, node: usize, holds: bool) -> (String, bool) {
        let Name { text, negated } = naming::name(self.table, node);
        (format!("{}{}", quoted(&text), self.unwritten_variables(node)), holds != negated)
    }

    /// The same, but of the part that the explanation is of not by its words again.
    pub fn saying_or_it(&self, node: usize, explanation: &Explanation) -> (String, bool) {
        let (part, holds) = self.saying(node, explanation.claim.holds);
        match node == explanation.claim.node {
            true if node == 0 => ("the formula".to_string(), holds),
            true => ("it".to_string(), holds),
            false => (part, holds),
        }
    }

    pub fn part_is(&self, claim: &Claim) -> String {
        let (part, holds) = self.saying(claim.node, claim.holds);
        format!("{part} {}", self.is(holds))
    }

    pub fn claim(&self, claim: &Claim) -> String {
        format!("{} in {}", self.part_is(claim), self.state(claim.state))
    }

    /// The name of a binder's variable.
    pub fn variable(&self, binder: usize) -> &str {
        &self.table.nodes[binder].name
    }

    /// The claim to speak of in place of one of a part that nobody wrote: what is left of a star at its end is, in the
    /// same state, as the star is.
    pub fn spoken(&self, claim: &Claim) -> Claim {
        let mut claim = *claim;
        while let Some(star) = self.star_of(claim.node) {
            let value = self.values.get(star).and_then(|values| values.get(claim.state));
            if value != Some(&claim.holds) {
                break;
            }
            claim.node = star;
        }
        claim
    }

    /// The star whose variable a part is, or one of whose two sides it is.
    fn star_of(&self, node: usize) -> Option<usize> {
        let is_side = |binder: &usize| match self.kind(binder + 1) {
            Kind::And | Kind::Or => self.operands(binder + 1).contains(&node),
            _ => false,
        };
        let star = match self.kind(node) {
            Kind::Variable(binder) => binder,
            _ => self.free_binders(node).into_iter().rev().find(is_side)?,
        };
        (!self.is_written(star)).then_some(star)
    }

    /// Did somebody write the binder as it is? Others come of a star, or stand below a negation.
    fn is_written(&self, binder: usize) -> bool {
        let Name { text, negated } = naming::name(self.table, binder);
        !negated && (text.starts_with("mu ") || text.starts_with("nu "))
    }

    /// For variables of binders that nobody wrote: what they stand for.
    fn unwritten_variables(&self, node: usize) -> String {
        let binders = self.free_binders(node).into_iter().filter(|&binder| !self.is_written(binder));
        let stands = |binder: usize| match naming::name(self.table, binder) {
            Name { text, negated: false } => format!("{} for {}", self.variable(binder), quoted(&text)),
            Name { text, negated: true } => format!("{} for the opposite of {}", self.variable(binder), quoted(&text)),
        };
        let told: Vec<String> = binders.map(stands).collect();
        if told.is_empty() {
            String::new()
        } else {
            format!(" ({})", told.join(", "))
        }
    }

    /// The binders outside a part whose variables stand in it, the outermost first.
    fn free_binders(&self, node: usize) -> Vec<usize> {
        let binder = |inner: usize| match self.kind(inner) {
            Kind::Variable(binder) if binder < node => Some(binder),
            _ => None,
        };
        let mut binders: Vec<usize> = (node..self.table.end(node)).filter_map(binder).collect();
        binders.sort_unstable();
        binders.dedup();
        binders
    }

    /// The modality by whose step the run of an explanation came to `true` or `false`, if that step was chosen.
    pub fn decided_by_step(&self, explanation: &Explanation) -> Option<usize> {
        let before = explanation.end.node.checked_sub(1)?;
        let chosen = match self.kind(before) {
            Kind::Box(_) => !explanation.end.holds,
            Kind::Diamond(_) => explanation.end.holds,
            _ => false,
        };
        (chosen && !explanation.run.is_empty()).then_some(before)
    }

    /// The action formulas of the modalities by which a part goes on, each once.
    pub fn followed(&self, node: usize) -> Vec<usize> {
        let mut actions: Vec<usize> = self.open_nodes(node).into_iter().filter_map(|node| self.action(node)).collect();
        actions.sort_unstable();
        actions.dedup();
        actions
    }

    /// The nodes that a part goes on to, without closed operands: those are facts.
    pub fn open_nodes(&self, node: usize) -> Vec<usize> {
        let mut seen = vec![false; self.table.nodes.len()];
        let mut waiting = vec![node];
        while let Some(node) = waiting.pop() {
            if std::mem::replace(&mut seen[node], true) {
                continue;
            }
            match self.kind(node) {
                Kind::Variable(binder) => waiting.push(binder),
                Kind::Mu | Kind::Nu => waiting.push(node + 1),
                _ => waiting.extend(self.operands(node).into_iter().filter(|&part| !self.table.is_closed(part))),
            }
        }
        (0..seen.len()).filter(|&node| seen[node]).collect()
    }
}
