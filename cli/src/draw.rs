//! `draw`: a model as DOT, as SVG, or as a page with the formula.

use crate::arguments::DrawArguments;
use crate::exit::Exit;
use crate::files;
use crate::graphviz;
use crate::load::{self, Answer, Formula, Rules};
use crate::output;
use crate::trouble::Trouble;
use bithrowy_front::check::Checked;
use bithrowy_front::model::Model;
use bithrowy_front::{draw, page};
use std::path::Path;

pub fn run(arguments: &DrawArguments) -> Result<Exit, Trouble> {
    let read = [Some(&arguments.model), arguments.formula.formula.as_ref(), arguments.names.as_ref()];
    files::one_standard("input", &read)?;
    files::one_standard("output", &[arguments.svg.as_ref(), arguments.html.as_ref()])?;
    let formula = Formula::of(&arguments.formula)?;
    let rules = Rules::settle(&arguments.readings, formula.as_ref().map(|formula| &formula.directives))
        .limited(arguments.limit);
    let model = load::model(&arguments.model, arguments.names.as_deref(), &rules)?;
    load::accepted(&model, &rules)?;
    let answer = formula.map(|formula| formula.check(&model, &rules)).transpose()?;
    let checked = answer.as_ref().map(|answer| &answer.checked);
    if let Some(file) = &arguments.html {
        files::write_text(file, &html(&arguments.model, answer.as_ref())?)?;
    }
    if let Some(file) = &arguments.svg {
        files::write_text(file, &svg(&model, checked))?;
    }
    if arguments.html.is_none() && arguments.svg.is_none() {
        output::exact(&draw::dot(&model, checked))?;
    }
    Ok(Exit::Good)
}

fn html(model: &Path, answer: Option<&Answer>) -> Result<String, Trouble> {
    let answer = answer.ok_or_else(|| {
        Trouble::plain("the page needs a formula").with_help("name the formula's file behind the model, or use --svg")
    })?;
    let title = format!("{} ({})", answer.title, files::input(model));
    Ok(page::page(&title, &answer.case.model, &answer.checked, &answer.explanation))
}

/// The drawing of graphviz where that is installed and quick enough, else one of our own.
fn svg(model: &Model, answer: Option<&Checked>) -> String {
    graphviz::svg(&draw::dot(model, answer)).unwrap_or_else(|| draw::svg(model, answer))
}
