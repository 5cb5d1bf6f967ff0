//! `check`: the answer for one model and one formula.

use crate::answer;
use crate::arguments::CheckArguments;
use crate::exit::Exit;
use crate::files;
use crate::json;
use crate::load::{self, Answer, Rules};
use crate::output;
use crate::trouble::Trouble;

pub fn run(arguments: &CheckArguments) -> Result<Exit, Trouble> {
    let answer = answered(arguments);
    if arguments.json {
        output::bytes(json::text(&json::check(&answer)).as_bytes())?;
    }
    let answer = answer?;
    if !arguments.json {
        output::text(&answer::text(&answer))?;
    }
    Ok(answer.exit())
}

fn answered(arguments: &CheckArguments) -> Result<Answer, Trouble> {
    let read = [Some(&arguments.model), arguments.formula.formula.as_ref(), arguments.names.as_ref()];
    files::one_standard("input", &read)?;
    let formula = load::needed(&arguments.formula)?;
    let rules = Rules::settle(&arguments.readings, Some(&formula.directives)).limited(arguments.limit);
    let model = load::model(&arguments.model, arguments.names.as_deref(), &rules)?;
    formula.check(&model, &rules)
}
