//! Runs checks side by side.

use super::collect::{Planned, Task};
use super::result::{Checked, Standing};
use crate::files;
use crate::load::{self, Answer};
use crate::output::is_dumb;
use crate::trouble::Trouble;
use indicatif::{ProgressBar, ProgressStyle};
use std::num::NonZeroUsize;
use std::sync::atomic::{AtomicUsize, Ordering};
use std::sync::Mutex;
use std::thread;
use std::time::{Duration, Instant};

/// More threads than this bring nothing.
const MOST_JOBS: usize = 256;

/// What the threads share. Checks are begun in order, so all those before one that has begun have begun too.
struct Work<'a> {
    planned: &'a [Planned],
    next: AtomicUsize,
    /// Checks from this one on are not begun.
    end: AtomicUsize,
    bail: bool,
    done: Mutex<Vec<(usize, Checked)>>,
    bar: ProgressBar,
}

/// The results in order. With `bail` they end with the first that is not as expected.
pub fn run(planned: &[Planned], jobs: Option<NonZeroUsize>, bail: bool) -> Vec<Checked> {
    let work = Work {
        planned,
        next: AtomicUsize::new(0),
        end: AtomicUsize::new(planned.len()),
        bail,
        done: Mutex::new(Vec::new()),
        bar: bar(planned.len()),
    };
    thread::scope(|scope| {
        for _ in 0..threads(jobs, planned.len()) {
            scope.spawn(|| work.take_turns());
        }
    });
    work.bar.finish_and_clear();
    work.results()
}

fn threads(jobs: Option<NonZeroUsize>, checks: usize) -> usize {
    let jobs = jobs.or_else(|| thread::available_parallelism().ok()).map_or(1, NonZeroUsize::get);
    jobs.min(checks).min(MOST_JOBS)
}

/// A bar on standard error, which is drawn only on a terminal that can move its cursor.
fn bar(checks: usize) -> ProgressBar {
    if is_dumb() {
        return ProgressBar::hidden();
    }
    let bar = ProgressBar::new(checks as u64);
    match ProgressStyle::with_template("{pos} of {len} {bar:40} {elapsed}") {
        Ok(style) => bar.with_style(style),
        Err(_) => bar,
    }
}

impl Work<'_> {
    fn take_turns(&self) {
        loop {
            let number = self.next.fetch_add(1, Ordering::SeqCst);
            if number >= self.end.load(Ordering::SeqCst) {
                return;
            }
            let checked = checked(&self.planned[number]);
            if self.bail && checked.standing() != Standing::AsExpected {
                self.end.fetch_min(number + 1, Ordering::SeqCst);
            }
            self.bar.inc(1);
            self.done.lock().unwrap_or_else(|poisoned| poisoned.into_inner()).push((number, checked));
        }
    }

    fn results(self) -> Vec<Checked> {
        let end = self.end.into_inner();
        let mut done = self.done.into_inner().unwrap_or_else(|poisoned| poisoned.into_inner());
        done.retain(|(number, _)| *number < end);
        done.sort_by_key(|(number, _)| *number);
        done.into_iter().map(|(_, checked)| checked).collect()
    }
}

fn checked(planned: &Planned) -> Checked {
    let start = Instant::now();
    let (model, expected, outcome) = match &planned.task {
        Ok(task) => (Some(files::shown(&task.model)), task.expected, answer(task)),
        Err(trouble) => (None, true, Err(trouble.clone())),
    };
    let time: Duration = start.elapsed();
    Checked { name: planned.name.clone(), formula: planned.formula.clone(), model, expected, outcome, time }
}

fn answer(task: &Task) -> Result<Answer, Trouble> {
    task.text.check(&load::model(&task.model, None, &task.rules)?, &task.rules)
}
