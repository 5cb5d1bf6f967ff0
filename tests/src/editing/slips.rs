//! Wrong editors, each with a slip. The comparison must notice each of them.

use super::rules::{self, case_of, in_range, room_of, with_file, After};
use crate::calls::{Calls, Edits, RouteNumbers};
use crate::damage::{number_at, with_number};
use crate::formats::*;
use crate::reader::{read_case, read_tables, refuse_if, Refusal};
use crate::slips::{self, Reference};

#[derive(Clone, Copy, Debug, PartialEq, Eq)]
pub enum Slip {
    /// A drop leaves the last record in two places: the count is not lowered.
    LastTwice,
    /// An add keeps a copy of a transition that is held.
    CopyKept,
    /// 16 for a transition that is held, while 2,048 are.
    HeldRefused,
    /// A refused add raises the count.
    RefusedCounted,
    /// The numbers of an edit taken modulo 2 to the 16.
    Wrapped,
    /// 17 looked at before 6.
    MissingFirst,
    /// 16 looked at before 6.
    FullFirst,
    /// 6 looked at for the states only.
    LabelUnchecked,
    /// The copies of the opened case are kept.
    CopiesOpened,
    /// A case opened in a model that has room for the case only.
    RoomUnchecked,
    /// The byte beyond the new file is touched.
    BeyondTouched,
    /// The place of the dropped record's bytes, beyond the new file, is cleared.
    FreedCleared,
    /// The records behind a dropped one move down, and the last does not take its place.
    Shifted,
    /// A drop removes all copies.
    CopiesDropped,
    /// 13 looked at before it is known whether a transition is held and whether 2,048 are.
    ShortFirst,
    /// An edit looks at all conditions on the case, and not at the layout only.
    TablesChecked,
    /// A want takes the whole model as its case.
    WholeModel,
    /// A want counts all marked states, reached by what is held or not.
    AllCounted,
}

pub const SLIPS: [Slip; 18] = [
    Slip::LastTwice,
    Slip::CopyKept,
    Slip::HeldRefused,
    Slip::RefusedCounted,
    Slip::Wrapped,
    Slip::MissingFirst,
    Slip::FullFirst,
    Slip::LabelUnchecked,
    Slip::CopiesOpened,
    Slip::RoomUnchecked,
    Slip::BeyondTouched,
    Slip::FreedCleared,
    Slip::Shifted,
    Slip::CopiesDropped,
    Slip::ShortFirst,
    Slip::TablesChecked,
    Slip::WholeModel,
    Slip::AllCounted,
];

impl Slip {
    /// Does it show only while 2,048 transitions are held?
    pub fn in_full_tables(self) -> bool {
        matches!(self, Slip::HeldRefused | Slip::FullFirst)
    }

    /// Does it show only in a model that no open wrote?
    pub fn in_foreign_models(self) -> bool {
        matches!(self, Slip::CopiesDropped | Slip::ShortFirst | Slip::TablesChecked)
    }

    /// Is it in opening?
    fn in_opening(self) -> bool {
        matches!(self, Slip::CopiesOpened | Slip::RoomUnchecked)
    }
}

/// The calls by the rules, with a slip or with none.
pub struct Editor(pub Option<Slip>);

impl Editor {
    fn has(&self, slip: Slip) -> bool {
        self.0 == Some(slip)
    }

    /// The numbers of an edit as they are looked at.
    fn read(&self, t: Transition) -> Transition {
        let low = |number: usize| if self.has(Slip::Wrapped) { number & 0xffff } else { number };
        Transition { source: low(t.source), label: low(t.label), target: low(t.target) }
    }

    /// The tables of a model that an edit looks at.
    fn tables(&self, model: &[u8]) -> Result<Case, Refusal> {
        if self.has(Slip::TablesChecked) {
            return read_case(case_of(model));
        }
        read_tables(case_of(model))
    }

    fn out_of_range(&self, case: &Case, t: Transition) -> bool {
        let label = if self.has(Slip::LabelUnchecked) { 0 } else { t.label };
        !in_range(case, Transition { label, ..t })
    }

    fn opened(&self, case: &[u8], model: &[u8]) -> After {
        if !self.0.is_some_and(Slip::in_opening) {
            return rules::opened(case, model);
        }
        let mut case = read_case(case)?;
        refuse_if(self.has(Slip::CopiesOpened) && model.len() < room_of(&case), 13)?;
        if self.has(Slip::RoomUnchecked) {
            case.transitions = crate::tables::distinct(&case.transitions);
        }
        with_file(model, &case)
    }

    fn added(&self, model: &[u8], t: Transition) -> After {
        let mut case = self.tables(model)?;
        let full = case.transitions.len() == TRANSITIONS;
        let held = case.transitions.contains(&t);
        let short = model.len() < case.bytes().len() + 6;
        refuse_if(self.has(Slip::FullFirst) && full && !held, 16)?;
        refuse_if(self.out_of_range(&case, t), 6)?;
        refuse_if(self.has(Slip::ShortFirst) && short, 13)?;
        refuse_if(self.has(Slip::HeldRefused) && full, 16)?;
        if held && !self.has(Slip::CopyKept) {
            return Ok(model.to_vec());
        }
        refuse_if(full, 16)?;
        case.transitions.push(t);
        with_file(model, &case)
    }

    fn dropped(&self, model: &[u8], t: Transition) -> After {
        let mut case = self.tables(model)?;
        let place = case.transitions.iter().position(|&record| record == t);
        refuse_if(self.has(Slip::MissingFirst) && place.is_none(), 17)?;
        refuse_if(self.out_of_range(&case, t), 6)?;
        let at = place.ok_or(17u64)?;
        match self.0 {
            Some(Slip::LastTwice) => case.transitions[at] = case.transitions[case.transitions.len() - 1],
            Some(Slip::Shifted) => drop(case.transitions.remove(at)),
            Some(Slip::CopiesDropped) => case.transitions.retain(|&record| record != t),
            _ => drop(case.transitions.swap_remove(at)),
        }
        let after = with_file(model, &case)?;
        let cleared = if self.has(Slip::FreedCleared) { 6 } else { 0 };
        Ok(with_zeros(after, case.bytes().len(), cleared))
    }

    /// Writes what an edit leaves; answers its number.
    fn leave(&self, model: &mut [u8], after: After) -> u64 {
        let bytes = match after {
            Ok(bytes) => bytes,
            Err(number) => return number,
        };
        let changed = *model != bytes[..];
        model.copy_from_slice(&bytes);
        let end = case_of(&bytes).len();
        if self.has(Slip::BeyondTouched) && changed && end < model.len() {
            model[end] = !model[end];
        }
        0
    }
}

/// The bytes with zeros from a place on, as many as there is room for.
fn with_zeros(mut bytes: Vec<u8>, at: usize, count: usize) -> Vec<u8> {
    let end = (at + count).min(bytes.len());
    bytes[at..end].fill(0);
    bytes
}

/// Raises the count of transitions, if there is one.
fn raise_count(model: &mut [u8]) {
    if model.len() >= 6 {
        let raised = (number_at(model, 4, 2) + 1) & 0xffff;
        model.copy_from_slice(&with_number(model, 4, 2, raised));
    }
}

impl Edits for Editor {
    fn open(&self, case: &[u8], model: &mut [u8]) -> u64 {
        let after = self.opened(case, model);
        self.leave(model, after)
    }

    fn add(&self, model: &mut [u8], transition: Transition) -> u64 {
        let after = self.added(model, self.read(transition));
        let number = self.leave(model, after);
        if number != 0 && self.has(Slip::RefusedCounted) {
            raise_count(model);
        }
        number
    }

    fn drop(&self, model: &mut [u8], transition: Transition) -> u64 {
        let after = self.dropped(model, self.read(transition));
        self.leave(model, after)
    }

    fn want(&self, model: &[u8], marks: &mut [u64], limit: u64) -> RouteNumbers {
        let case = if self.has(Slip::WholeModel) { model } else { case_of(model) };
        let slip = self.has(Slip::AllCounted).then_some(slips::Slip::AllCounted);
        Reference(slip).direct(case, marks, limit)
    }
}
