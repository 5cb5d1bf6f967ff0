//! `test`: the formulas of folders against the models that they name.

mod collect;
mod junit;
mod patterns;
mod report;
mod result;
mod run;
mod tap;
mod text;

use crate::arguments::TestArguments;
use crate::exit::Exit;
use crate::faults;
use crate::files;
use crate::json;
use crate::output;
use crate::trouble::Trouble;
use result::Report;
use std::time::Instant;

/// The results are printed first, and each report is written even where another cannot be: none is lost.
pub fn run(arguments: &TestArguments) -> Result<Exit, Trouble> {
    let start = Instant::now();
    let planned = collect::collect(&arguments.paths, arguments.filter.as_deref())?;
    let results = run::run(&planned, arguments.jobs, arguments.bail);
    let report = Report { results, planned: planned.len(), seconds: start.elapsed().as_secs_f64() };
    let mut said = vec![output::text(&if arguments.tap { tap::text(&report) } else { text::text(&report) })];
    said.extend(arguments.junit.iter().map(|file| files::write_text(file, &junit::text(&report))));
    said.extend(arguments.json.iter().map(|file| files::write_text(file, &json::text(&report::document(&report)))));
    Ok(said.into_iter().filter_map(Result::err).map(|trouble| faults::report(&trouble)).fold(report.exit(), Exit::max))
}
