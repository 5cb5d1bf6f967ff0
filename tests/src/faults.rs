//! Faults in what a call leaves: it answers rightly, and a lent place is spoilt before the caller looks at it. The
//! comparison must notice each of them.

use crate::calls::{Calls, EquationNumbers, Numbers, RouteNumbers};
use std::cell::Cell;
use std::ops::Not;

#[derive(Clone, Copy, Debug, PartialEq, Eq)]
pub enum Call {
    Translate,
    Solve,
    Direct,
    Equation,
}

/// A lent place.
#[derive(Clone, Copy, Debug, PartialEq, Eq)]
pub enum Place {
    File,
    Work,
    Marks,
}

/// The lent places of each call.
const LENT: [(Call, Place); 7] = [
    (Call::Translate, Place::File),
    (Call::Solve, Place::Work),
    (Call::Solve, Place::Marks),
    (Call::Direct, Place::Marks),
    (Call::Equation, Place::File),
    (Call::Equation, Place::Work),
    (Call::Equation, Place::Marks),
];

#[derive(Clone, Copy, Debug, PartialEq, Eq)]
pub enum Fault {
    /// After a success the place's last element is changed, which the call had left as it was lent.
    TouchedBeyond,
    /// The same after a refusal.
    TouchedRefused,
    /// After a success the place is as it was lent.
    Left,
    /// After a refusal with this number the place is as it was lent.
    LostAfter(u64),
}

pub const FAULTS: [Fault; 5] =
    [Fault::TouchedBeyond, Fault::TouchedRefused, Fault::Left, Fault::LostAfter(13), Fault::LostAfter(14)];

impl Fault {
    /// The places where it is planted. Only the equation route leaves a place written after a refusal: the file.
    pub fn places(self) -> Vec<(Call, Place)> {
        match self {
            Fault::LostAfter(_) => vec![(Call::Equation, Place::File)],
            _ => LENT.to_vec(),
        }
    }

    /// Does it come after a call that is refused with this number (0: a success)?
    fn follows(self, refusal: u64) -> bool {
        match self {
            Fault::TouchedBeyond | Fault::Left => refusal == 0,
            Fault::TouchedRefused => refusal != 0,
            Fault::LostAfter(number) => refusal == number,
        }
    }

    /// Spoils a place after a call that answered this refusal number if it comes then; answers whether the place is
    /// another than the right one.
    pub fn spoils<T: Copy + PartialEq + Not<Output = T>>(self, refusal: u64, lent: &[T], place: &mut [T]) -> bool {
        if !self.follows(refusal) {
            return false;
        }
        let right = place.to_vec();
        self.spoil(lent, place);
        place != right
    }

    /// Spoils a place, given what it was when it was lent.
    fn spoil<T: Copy + PartialEq + Not<Output = T>>(self, lent: &[T], place: &mut [T]) {
        match self {
            Fault::Left | Fault::LostAfter(_) => place.copy_from_slice(lent),
            Fault::TouchedBeyond | Fault::TouchedRefused => {
                if let Some(last) = place.last_mut().filter(|last| lent.last() == Some(*last)) {
                    *last = !*last;
                }
            }
        }
    }
}

/// Right calls with a fault in one place of one of them.
pub struct Faulty<'a> {
    pub calls: &'a dyn Calls,
    pub fault: Fault,
    pub at: (Call, Place),
    /// How often a place was made another than the right one.
    pub spoilt: Cell<u64>,
}

impl Faulty<'_> {
    /// Spoils a place of a call that answered this refusal number if the fault is there.
    fn spoil<T>(&self, refusal: u64, at: (Call, Place), lent: &[T], place: &mut [T])
    where
        T: Copy + PartialEq + Not<Output = T>,
    {
        if at == self.at {
            let spoilt = self.fault.spoils(refusal, lent, place);
            self.spoilt.set(self.spoilt.get() + spoilt as u64);
        }
    }
}

impl Calls for Faulty<'_> {
    fn translate(&self, case: &[u8], file: &mut [u8]) -> Numbers {
        let lent = file.to_vec();
        let answer = self.calls.translate(case, file);
        self.spoil(answer.refusal, (Call::Translate, Place::File), &lent, file);
        answer
    }

    fn solve(&self, file: &[u8], work: &mut [u8], marks: &mut [u64], limit: u64) -> Numbers {
        let (lent_work, lent_marks) = (work.to_vec(), marks.to_vec());
        let answer = self.calls.solve(file, work, marks, limit);
        self.spoil(answer.refusal, (Call::Solve, Place::Work), &lent_work, work);
        self.spoil(answer.refusal, (Call::Solve, Place::Marks), &lent_marks, marks);
        answer
    }

    fn direct(&self, case: &[u8], marks: &mut [u64], limit: u64) -> RouteNumbers {
        let lent = marks.to_vec();
        let answer = self.calls.direct(case, marks, limit);
        self.spoil(answer.refusal, (Call::Direct, Place::Marks), &lent, marks);
        answer
    }

    fn equation(
        &self,
        case: &[u8],
        file: &mut [u8],
        work: &mut [u8],
        marks: &mut [u64],
        limit: u64,
    ) -> EquationNumbers {
        let (lent_file, lent_work, lent_marks) = (file.to_vec(), work.to_vec(), marks.to_vec());
        let answer = self.calls.equation(case, file, work, marks, limit);
        self.spoil(answer.run.refusal, (Call::Equation, Place::File), &lent_file, file);
        self.spoil(answer.run.refusal, (Call::Equation, Place::Work), &lent_work, work);
        self.spoil(answer.run.refusal, (Call::Equation, Place::Marks), &lent_marks, marks);
        answer
    }
}
