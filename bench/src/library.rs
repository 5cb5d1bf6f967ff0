//! The calls of the proved library.

use crate::plain::editor::Transition;
use crate::plain::routes::{Answer, Priced};
use crate::plain::solver::Report;

/// What translate and solve answer: the refusal number (0 if none), the verdict as 1 or 0, the count of marked states, the rounds, and the
/// length of the file.
#[repr(C)]
#[derive(Clone, Copy, Debug, Default, PartialEq)]
pub struct Numbers {
    pub refusal: u64,
    pub verdict: u64,
    pub count: u64,
    pub rounds: u64,
    pub length: u64,
}

impl From<Result<Report, u8>> for Numbers {
    fn from(answer: Result<Report, u8>) -> Numbers {
        match answer {
            Ok(report) => Numbers {
                verdict: report.verdict.into(),
                count: report.count as u64,
                rounds: report.rounds,
                ..Numbers::default()
            },
            Err(cause) => Numbers { refusal: cause.into(), ..Numbers::default() },
        }
    }
}

impl From<Result<usize, u8>> for Numbers {
    fn from(answer: Result<usize, u8>) -> Numbers {
        match answer {
            Ok(length) => Numbers { length: length as u64, ..Numbers::default() },
            Err(cause) => Numbers { refusal: cause.into(), ..Numbers::default() },
        }
    }
}

/// What a route answers: the refusal number, the verdict, the count and the rounds as above, the records of the table and the distinct ones.
#[repr(C)]
#[derive(Clone, Copy, Debug, PartialEq)]
pub struct RouteNumbers {
    pub refusal: u64,
    pub verdict: u64,
    pub count: u64,
    pub rounds: u64,
    pub records: u64,
    pub distinct: u64,
}

impl From<Answer> for RouteNumbers {
    fn from(answer: Answer) -> RouteNumbers {
        let Numbers { refusal, verdict, count, rounds, .. } = answer.outcome.into();
        RouteNumbers {
            refusal,
            verdict,
            count,
            rounds,
            records: answer.records as u64,
            distinct: answer.distinct as u64,
        }
    }
}

/// What the equation route answers: the numbers of a route, and what the run costs in cents.
#[repr(C)]
#[derive(Clone, Copy, Debug, PartialEq)]
pub struct EquationNumbers {
    pub run: RouteNumbers,
    pub cents: u64,
}

impl From<Priced> for EquationNumbers {
    fn from(Priced { answer, cents }: Priced) -> EquationNumbers {
        EquationNumbers { run: answer.into(), cents }
    }
}

mod c {
    use super::{EquationNumbers, Numbers, RouteNumbers};

    extern "C" {
        pub fn bithrowy_translate(case: *const u8, n: usize, file: *mut u8, m: usize) -> Numbers;
        pub fn bithrowy_solve(
            file: *const u8,
            n: usize,
            work: *mut u8,
            m: usize,
            marks: *mut u64,
            k: usize,
            limit: u64,
        ) -> Numbers;
        pub fn bithrowy_direct(case: *const u8, n: usize, marks: *mut u64, k: usize, limit: u64) -> RouteNumbers;
        pub fn bithrowy_equation(
            case: *const u8,
            n: usize,
            file: *mut u8,
            m: usize,
            work: *mut u8,
            k: usize,
            marks: *mut u64,
            j: usize,
            limit: u64,
        ) -> EquationNumbers;
        pub fn bithrowy_add(model: *mut u8, m: usize, source: u64, label: u64, target: u64) -> u64;
        pub fn bithrowy_drop(model: *mut u8, m: usize, source: u64, label: u64, target: u64) -> u64;
        pub fn bithrowy_want(model: *const u8, m: usize, marks: *mut u64, k: usize, limit: u64) -> RouteNumbers;
    }
}

pub fn translate(case: &[u8], file: &mut [u8]) -> Numbers {
    // SAFETY: each pointer and length is that of a slice, and only the mutable one is written.
    unsafe { c::bithrowy_translate(case.as_ptr(), case.len(), file.as_mut_ptr(), file.len()) }
}

pub fn solve(file: &[u8], work: &mut [u8], marks: &mut [u64], limit: u64) -> Numbers {
    // SAFETY: as in `translate`.
    unsafe {
        c::bithrowy_solve(
            file.as_ptr(),
            file.len(),
            work.as_mut_ptr(),
            work.len(),
            marks.as_mut_ptr(),
            marks.len(),
            limit,
        )
    }
}

pub fn direct(case: &[u8], marks: &mut [u64], limit: u64) -> RouteNumbers {
    // SAFETY: as in `translate`.
    unsafe { c::bithrowy_direct(case.as_ptr(), case.len(), marks.as_mut_ptr(), marks.len(), limit) }
}

pub fn equation(case: &[u8], file: &mut [u8], work: &mut [u8], marks: &mut [u64], limit: u64) -> EquationNumbers {
    // SAFETY: as in `translate`.
    unsafe {
        c::bithrowy_equation(
            case.as_ptr(),
            case.len(),
            file.as_mut_ptr(),
            file.len(),
            work.as_mut_ptr(),
            work.len(),
            marks.as_mut_ptr(),
            marks.len(),
            limit,
        )
    }
}

pub fn add(model: &mut [u8], [source, label, target]: Transition) -> u64 {
    // SAFETY: as in `translate`.
    unsafe { c::bithrowy_add(model.as_mut_ptr(), model.len(), source, label, target) }
}

pub fn drop(model: &mut [u8], [source, label, target]: Transition) -> u64 {
    // SAFETY: as in `translate`.
    unsafe { c::bithrowy_drop(model.as_mut_ptr(), model.len(), source, label, target) }
}

pub fn want(model: &[u8], marks: &mut [u64], limit: u64) -> RouteNumbers {
    // SAFETY: as in `translate`.
    unsafe { c::bithrowy_want(model.as_ptr(), model.len(), marks.as_mut_ptr(), marks.len(), limit) }
}
