//! Faults in what the calls of an editor leave: they answer rightly, and the model or the marks are spoilt before the
//! caller looks at them. The comparison must notice each of them.

use crate::calls::{Edits, RouteNumbers};
use crate::faults::Fault;
use crate::formats::Transition;
use std::cell::Cell;
use std::ops::Not;

/// A call that a fault may be in. A want's lent place is its marks, that of the others the model.
#[derive(Clone, Copy, Debug, PartialEq, Eq)]
pub enum At {
    Open,
    Add,
    Drop,
    Want,
}

pub const CALLS: [At; 4] = [At::Open, At::Add, At::Drop, At::Want];

/// The faults that there are after an edit: none of these calls leaves anything written after a refusal.
pub const FAULTS: [Fault; 3] = [Fault::TouchedBeyond, Fault::TouchedRefused, Fault::Left];

/// Right calls with a fault in one of them.
pub struct FaultyEdits<'a> {
    pub edits: &'a dyn Edits,
    pub fault: Fault,
    pub at: At,
    /// How often a place was made another than the right one.
    pub spoilt: Cell<u64>,
}

impl FaultyEdits<'_> {
    /// Spoils the place of a call that answered this refusal number if the fault is there.
    fn spoil<T: Copy + PartialEq + Not<Output = T>>(&self, refusal: u64, at: At, lent: &[T], place: &mut [T]) {
        if at == self.at {
            let spoilt = self.fault.spoils(refusal, lent, place);
            self.spoilt.set(self.spoilt.get() + spoilt as u64);
        }
    }
}

impl Edits for FaultyEdits<'_> {
    fn open(&self, case: &[u8], model: &mut [u8]) -> u64 {
        let lent = model.to_vec();
        let answer = self.edits.open(case, model);
        self.spoil(answer, At::Open, &lent, model);
        answer
    }

    fn add(&self, model: &mut [u8], transition: Transition) -> u64 {
        let lent = model.to_vec();
        let answer = self.edits.add(model, transition);
        self.spoil(answer, At::Add, &lent, model);
        answer
    }

    fn drop(&self, model: &mut [u8], transition: Transition) -> u64 {
        let lent = model.to_vec();
        let answer = self.edits.drop(model, transition);
        self.spoil(answer, At::Drop, &lent, model);
        answer
    }

    fn want(&self, model: &[u8], marks: &mut [u64], limit: u64) -> RouteNumbers {
        let lent = marks.to_vec();
        let answer = self.edits.want(model, marks, limit);
        self.spoil(answer.refusal, At::Want, &lent, marks);
        answer
    }
}
