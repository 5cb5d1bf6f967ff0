//! Which checks there are.

use super::patterns;
use crate::arguments::Readings;
use crate::files;
use crate::load::{Formula, Rules};
use crate::trouble::Trouble;
use bithrowy_front::amount::thousands;
use bithrowy_front::source::{shown, Fault, Span};
use std::collections::BTreeSet;
use std::fs;
use std::io;
use std::path::{Path, PathBuf};

/// A check that is to be run, or a formula's file that leads to none.
pub struct Planned {
    pub name: String,
    pub formula: String,
    pub task: Result<Task, Trouble>,
}

pub struct Task {
    pub text: Formula,
    pub rules: Rules,
    pub model: PathBuf,
    pub expected: bool,
}

/// A model with the verdict expected there, and the place that says so.
struct Wanted {
    model: PathBuf,
    /// The same for all ways to write the model's path.
    file: PathBuf,
    expected: bool,
    span: Span,
}

/// The checks of the folders, in order of the folders, the formulas' file names and their directives; of each formula once.
pub fn collect(paths: &[PathBuf], filter: Option<&str>) -> Result<Vec<Planned>, Trouble> {
    let mut planned = Vec::new();
    let mut seen = BTreeSet::new();
    for path in paths {
        let new = formulas(path)?.into_iter().filter(|file| seen.insert(same_for_all(file)));
        planned.extend(new.flat_map(|file| of_formula(&file)));
    }
    planned.retain(|check: &Planned| filter.iter().all(|text| check.mentions(text)));
    if planned.is_empty() {
        return Err(nothing(paths, filter));
    }
    Ok(planned)
}

/// A path that is the same for all ways to write it; itself where its file is not there.
fn same_for_all(path: &Path) -> PathBuf {
    path.canonicalize().unwrap_or_else(|_| path.to_path_buf())
}

fn nothing(paths: &[PathBuf], filter: Option<&str>) -> Trouble {
    let paths: Vec<String> = paths.iter().map(|path| files::shown(path)).collect();
    let found = Trouble::plain(format!("no check found in {}", paths.join(", ")));
    match filter {
        Some(text) => found.with_help(format!("no formula's name or file and no model's file has the text `{text}`")),
        None => {
            found.with_help("a folder has formulas in files *.mcf, which name their models by `% models: NAME.aut`")
        }
    }
}

/// The formulas of a folder, sorted; of a file, itself.
fn formulas(path: &Path) -> Result<Vec<PathBuf>, Trouble> {
    if path == Path::new("-") {
        let help = "write the folder's name, such as . for this one";
        return Err(Trouble::plain("`test` reads folders and files, not standard input").with_help(help));
    }
    if path.is_file() {
        return Ok(vec![path.to_path_buf()]);
    }
    let unreadable = |error: io::Error| files::unread(path, &error);
    let mut found = Vec::new();
    for entry in fs::read_dir(path).map_err(unreadable)? {
        let file = entry.map_err(unreadable)?.path();
        if file.extension().is_some_and(|extension| extension == "mcf") && file.is_file() {
            found.push(file);
        }
    }
    found.sort();
    Ok(found)
}

fn of_formula(file: &Path) -> Vec<Planned> {
    let path = files::shown(file);
    let planned = |name: &str, task| Planned { name: name.to_string(), formula: path.clone(), task };
    let formula = match Formula::in_file(file) {
        Ok(formula) => formula,
        Err(trouble) => return vec![planned(&path, Err(trouble))],
    };
    let name = formula.title();
    match wanted(file, &formula) {
        Ok(wanted) => wanted.into_iter().map(|wanted| planned(&name, Ok(task(&formula, wanted)))).collect(),
        Err(trouble) => vec![planned(&name, Err(trouble))],
    }
}

fn task(formula: &Formula, wanted: Wanted) -> Task {
    let rules = Rules::settle(&Readings::default(), Some(&formula.directives));
    Task { text: formula.clone(), rules, model: wanted.model, expected: wanted.expected }
}

/// The models that a formula names, each once.
fn wanted(file: &Path, formula: &Formula) -> Result<Vec<Wanted>, Trouble> {
    let folder = file.parent().unwrap_or(Path::new(""));
    let mut all: Vec<Wanted> = Vec::new();
    for expectation in &formula.directives.expectations {
        for (pattern, span) in &expectation.patterns {
            for model in models(formula, folder, pattern, *span)? {
                let file = same_for_all(&model);
                add(formula, &mut all, Wanted { model, file, expected: expectation.expected, span: *span })?;
            }
        }
    }
    if all.is_empty() {
        return Err(unnamed(formula));
    }
    Ok(all)
}

fn models(formula: &Formula, folder: &Path, pattern: &str, span: Span) -> Result<Vec<PathBuf>, Trouble> {
    let fault = |message: String, help: String| Fault::new(&formula.source, span, message).with_help(help).into();
    let Some(models) = patterns::files(folder, pattern) else {
        let message = format!("`{}` matches more than {} files", shown(pattern), thousands(patterns::MOST));
        return Err(fault(message, "make the pattern narrower".to_string()));
    };
    if models.is_empty() {
        let help = format!("names are looked up from {}; `*` stands for any characters, `?` for one", place(folder));
        return Err(fault(format!("no file matches `{}`", shown(pattern)), help));
    }
    Ok(models)
}

fn place(folder: &Path) -> String {
    if folder == Path::new("") {
        "this folder".to_string()
    } else {
        files::shown(folder)
    }
}

fn add(formula: &Formula, all: &mut Vec<Wanted>, wanted: Wanted) -> Result<(), Trouble> {
    match all.iter().find(|other| other.file == wanted.file) {
        None => all.push(wanted),
        Some(other) if other.expected == wanted.expected => {}
        Some(other) => return Err(contradiction(formula, other, &wanted)),
    }
    Ok(())
}

fn contradiction(formula: &Formula, first: &Wanted, second: &Wanted) -> Trouble {
    let word = |expected| if expected { "hold" } else { "fail" };
    let message = format!(
        "{} is named twice: the formula is to {} there, and to {}",
        files::shown(&second.model),
        word(first.expected),
        word(second.expected)
    );
    let line = formula.source.place(first.span.start).line;
    let help = format!("line {line} names it first; make one of the two patterns narrower");
    Fault::new(&formula.source, second.span, message).with_help(help).into()
}

fn unnamed(formula: &Formula) -> Trouble {
    Fault::new(&formula.source, Span::new(0, 0), "the formula names no models")
        .with_help("add a line `% models: NAME.aut`, and `% expect: false` below it if the formula is to fail there")
        .into()
}

impl Planned {
    fn mentions(&self, text: &str) -> bool {
        let model = self.task.as_ref().map(|task| files::shown(&task.model)).unwrap_or_default();
        self.name.contains(text) || self.formula.contains(text) || model.contains(text)
    }
}
