//! From arguments to models, formulas, cases and answers.

use crate::arguments::{FormulaArguments, Readings};
use crate::exit::Exit;
use crate::files::{self, Kind};
use crate::trouble::Trouble;
use bithrowy_front::case::{self, Case};
use bithrowy_front::check::{self, Checked};
use bithrowy_front::directives::{self, Directives};
use bithrowy_front::expand;
use bithrowy_front::explain;
use bithrowy_front::formula::StateFormula;
use bithrowy_front::label;
use bithrowy_front::limits;
use bithrowy_front::model::Model;
use bithrowy_front::source::Source;
use bithrowy_front::{aut, library, names, parser, refusal};
use std::path::{Path, PathBuf};
use std::sync::Arc;

/// The name that faults give to a formula among the arguments.
const TYPED: &str = "-e";

/// How a model and a formula are read, and how long they are checked.
#[derive(Clone, Debug)]
pub struct Rules {
    pub silent: String,
    pub unknown_labels: bool,
    pub limit: u64,
}

/// A formula's text with what its comments ask for.
#[derive(Clone, Debug)]
pub struct Formula {
    pub source: Arc<Source>,
    pub directives: Directives,
}

/// A case with its answer, and why the answer is so.
#[derive(Clone, Debug)]
pub struct Answer {
    /// What to call the formula.
    pub title: String,
    pub case: Case,
    pub checked: Checked,
    pub explanation: Vec<String>,
}

impl Answer {
    pub fn exit(&self) -> Exit {
        if self.checked.verdict {
            Exit::Good
        } else {
            Exit::Wrong
        }
    }
}

impl Rules {
    /// An option counts before a directive of the formula's file, and that before what is usual.
    pub fn settle(options: &Readings, directives: Option<&Directives>) -> Rules {
        let silent = directives.and_then(|directives| directives.silent.clone());
        let limit = directives.and_then(|directives| directives.limit);
        let allowed = directives.is_some_and(|directives| directives.unknown_labels);
        Rules {
            silent: options.silent.clone().or(silent).unwrap_or_else(|| label::SILENT.to_string()),
            unknown_labels: options.allow_unknown_labels || allowed,
            limit: limit.unwrap_or(limits::ROUNDS),
        }
    }

    /// The same with another limit, if there is one.
    pub fn limited(self, limit: Option<u64>) -> Rules {
        Rules { limit: limit.unwrap_or(self.limit), ..self }
    }
}

impl Formula {
    /// The formula of the arguments: a file, or the text behind `-e`.
    pub fn of(arguments: &FormulaArguments) -> Result<Option<Formula>, Trouble> {
        match (&arguments.formula, &arguments.expression) {
            (_, Some(text)) => Formula::new(Source::new(TYPED, text.as_str())).map(Some),
            (Some(path), None) => Formula::in_file(path).map(Some),
            (None, None) => Ok(None),
        }
    }

    pub fn in_file(path: &Path) -> Result<Formula, Trouble> {
        Formula::new(text(path, "formula")?)
    }

    pub fn new(source: Arc<Source>) -> Result<Formula, Trouble> {
        let directives = directives::read(&source)?;
        Ok(Formula { source, directives })
    }

    /// What to call it: the name that it has in a comment, else its file, else the text itself.
    pub fn title(&self) -> String {
        let file = if self.source.name == TYPED { self.source.text.trim() } else { &self.source.name };
        self.directives.name.clone().unwrap_or_else(|| file.to_string())
    }

    pub fn read(&self, rules: &Rules) -> Result<StateFormula, Trouble> {
        Ok(parser::read(&self.source, &rules.silent)?)
    }

    pub fn case(&self, model: &Model, rules: &Rules) -> Result<Case, Trouble> {
        let expansion = expand::expand(&self.source, &self.read(rules)?)?;
        Ok(case::write(model, &expansion, rules.unknown_labels)?)
    }

    /// Checks the formula on a model.
    pub fn check(&self, model: &Model, rules: &Rules) -> Result<Answer, Trouble> {
        let case = self.case(model, rules)?;
        let checked = check::check(&case, rules.limit)?;
        let explanation = explain::explain(&case.model, &checked);
        let explanation = explain::lines(&case.model, &checked, &explanation);
        Ok(Answer { title: self.title(), case, checked, explanation })
    }
}

/// The formula of a command that needs one.
pub fn needed(arguments: &FormulaArguments) -> Result<Formula, Trouble> {
    Formula::of(arguments)?
        .ok_or_else(|| Trouble::plain("there is no formula").with_help("name a file, or write the formula behind -e"))
}

/// A model with the names of its states: those of the file given, or of the file beside the model, if there is one.
pub fn model(path: &Path, names_file: Option<&Path>, rules: &Rules) -> Result<Model, Trouble> {
    let mut model = aut::read(&text(path, "model")?, &rules.silent)?;
    if let Some(file) = names_file.map(Path::to_path_buf).or_else(|| beside(path)) {
        names::read(&files::source(&file)?, &mut model)?;
    }
    Ok(model)
}

/// The text of a file that is to hold a model or a formula.
fn text(path: &Path, what: &str) -> Result<Arc<Source>, Trouble> {
    let bytes = files::bytes(path)?;
    if files::kind(&bytes) == Kind::Text {
        return files::text(path, bytes);
    }
    let message = format!("{} is not text, and so no {what}", files::input(path));
    Err(Trouble::plain(message)
        .with_help("if it is a case file or an equation file, `bithrowy convert` makes text of it"))
}

fn beside(path: &Path) -> Option<PathBuf> {
    let file = path.with_extension("names");
    (file != path && file.is_file()).then_some(file)
}

/// The equation file of a case, if the library accepts the case.
pub fn equations(case: &Case) -> Result<Vec<u8>, Trouble> {
    library::translate(&case.bytes).map_err(|number| refusal::fault(case, number, limits::ROUNDS).into())
}

/// Is the model alone within what the checker takes?
pub fn accepted(model: &Model, rules: &Rules) -> Result<(), Trouble> {
    let anything = Formula::new(Source::new("", "true"))?;
    equations(&anything.case(model, rules)?).map(|_| ())
}
