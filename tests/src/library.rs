//! The built library, through its C entry points.

use bithrowy_tests::calls::{Calls, Edits, EquationNumbers, Numbers, RouteNumbers};
use bithrowy_tests::formats::Transition;

extern "C" {
    fn bithrowy_translate(case: *const u8, n: usize, file: *mut u8, m: usize) -> Numbers;
    fn bithrowy_solve(
        file: *const u8,
        n: usize,
        work: *mut u8,
        m: usize,
        marks: *mut u64,
        k: usize,
        limit: u64,
    ) -> Numbers;
    fn bithrowy_direct(case: *const u8, n: usize, marks: *mut u64, k: usize, limit: u64) -> RouteNumbers;
    fn bithrowy_equation(
        case: *const u8,
        n: usize,
        file: *mut u8,
        m: usize,
        work: *mut u8,
        k: usize,
        marks: *mut u64,
        j: usize,
        limit: u64,
    ) -> EquationNumbers;
    fn bithrowy_open(case: *const u8, n: usize, model: *mut u8, m: usize) -> u64;
    fn bithrowy_add(model: *mut u8, m: usize, source: u64, label: u64, target: u64) -> u64;
    fn bithrowy_drop(model: *mut u8, m: usize, source: u64, label: u64, target: u64) -> u64;
    fn bithrowy_want(model: *const u8, m: usize, marks: *mut u64, k: usize, limit: u64) -> RouteNumbers;
}

pub struct Library;

// Each slice is handed over as its own pointer and length, which is all the entry points ask for.
impl Calls for Library {
    fn translate(&self, case: &[u8], file: &mut [u8]) -> Numbers {
        unsafe { bithrowy_translate(case.as_ptr(), case.len(), file.as_mut_ptr(), file.len()) }
    }

    fn solve(&self, file: &[u8], work: &mut [u8], marks: &mut [u64], limit: u64) -> Numbers {
        let (w, m) = (work.len(), marks.len());
        unsafe { bithrowy_solve(file.as_ptr(), file.len(), work.as_mut_ptr(), w, marks.as_mut_ptr(), m, limit) }
    }

    fn direct(&self, case: &[u8], marks: &mut [u64], limit: u64) -> RouteNumbers {
        unsafe { bithrowy_direct(case.as_ptr(), case.len(), marks.as_mut_ptr(), marks.len(), limit) }
    }

    fn equation(
        &self,
        case: &[u8],
        file: &mut [u8],
        work: &mut [u8],
        marks: &mut [u64],
        limit: u64,
    ) -> EquationNumbers {
        let (f, w, m) = (file.len(), work.len(), marks.len());
        let (file, work, marks) = (file.as_mut_ptr(), work.as_mut_ptr(), marks.as_mut_ptr());
        unsafe { bithrowy_equation(case.as_ptr(), case.len(), file, f, work, w, marks, m, limit) }
    }
}

/// The numbers of a transition as the entry points take them.
fn wide(t: Transition) -> [u64; 3] {
    [t.source, t.label, t.target].map(|number| number as u64)
}

// Slices are handed over in the same way, a model that is wanted only to be read.
impl Edits for Library {
    fn open(&self, case: &[u8], model: &mut [u8]) -> u64 {
        unsafe { bithrowy_open(case.as_ptr(), case.len(), model.as_mut_ptr(), model.len()) }
    }

    fn add(&self, model: &mut [u8], transition: Transition) -> u64 {
        let [source, label, target] = wide(transition);
        unsafe { bithrowy_add(model.as_mut_ptr(), model.len(), source, label, target) }
    }

    fn drop(&self, model: &mut [u8], transition: Transition) -> u64 {
        let [source, label, target] = wide(transition);
        unsafe { bithrowy_drop(model.as_mut_ptr(), model.len(), source, label, target) }
    }

    fn want(&self, model: &[u8], marks: &mut [u64], limit: u64) -> RouteNumbers {
        unsafe { bithrowy_want(model.as_ptr(), model.len(), marks.as_mut_ptr(), marks.len(), limit) }
    }
}
