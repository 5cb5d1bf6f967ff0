//! `convert`: text to case files and back, and equations to read. Files are known by what they hold.

use crate::arguments::ConvertArguments;
use crate::exit::Exit;
use crate::files::{self, Kind};
use crate::load::{self, Formula, Rules};
use crate::output;
use crate::trouble::Trouble;
use bithrowy_front::case::Case;
use bithrowy_front::{aut, back, library, refusal};
use std::io::{self, IsTerminal};

pub fn run(arguments: &ConvertArguments) -> Result<Exit, Trouble> {
    files::one_standard("input", &[Some(&arguments.file), arguments.formula.formula.as_ref()])?;
    files::one_standard("output", &[arguments.aut.as_ref(), arguments.mcf.as_ref()])?;
    let bytes = files::bytes(&arguments.file)?;
    match files::kind(&bytes) {
        Kind::Text => from_text(arguments, bytes)?,
        Kind::Case => from_case(arguments, &bytes)?,
        Kind::Equations => from_equations(arguments, &bytes)?,
    }
    Ok(Exit::Good)
}

fn from_text(arguments: &ConvertArguments, bytes: Vec<u8>) -> Result<(), Trouble> {
    if arguments.aut.is_some() || arguments.mcf.is_some() {
        return Err(wrong(arguments, "is text already: --aut and --mcf are for a case file", "write -o FILE"));
    }
    let Some(formula) = Formula::of(&arguments.formula)? else {
        return Err(alone(arguments, bytes));
    };
    let rules = Rules::settle(&arguments.readings, Some(&formula.directives));
    let model = aut::read(&files::text(&arguments.file, bytes)?, &rules.silent)?;
    let case = formula.case(&model, &rules)?;
    let equations = load::equations(&case)?;
    if arguments.equations {
        return write_equations(arguments, &equations);
    }
    write_case(arguments, &case)
}

/// What is wrong with a text file that has no formula behind it: it is a model, with or without a fault, or nothing known.
fn alone(arguments: &ConvertArguments, bytes: Vec<u8>) -> Trouble {
    if !files::may_be_model(&bytes) {
        let help = "a model as text begins with `des (`; a formula stands behind a model: bithrowy convert m.aut f.mcf";
        return wrong(arguments, "is neither a model nor a case file nor an equation file", help);
    }
    let silent = Rules::settle(&arguments.readings, None).silent;
    match files::text(&arguments.file, bytes).and_then(|text| Ok(aut::read(&text, &silent)?)) {
        Err(trouble) => trouble,
        Ok(_) => {
            wrong(arguments, "is a model, and a case has a formula too", "name the formula's file behind the model")
        }
    }
}

fn write_case(arguments: &ConvertArguments, case: &Case) -> Result<(), Trouble> {
    match arguments.output.as_deref().filter(|file| !files::is_standard(file)) {
        Some(file) => files::write(file, &case.bytes),
        None if io::stdout().is_terminal() => {
            Err(Trouble::plain("a case file is not text, and a terminal cannot show it").with_help("write -o FILE"))
        }
        None => output::bytes(&case.bytes),
    }
}

fn from_case(arguments: &ConvertArguments, bytes: &[u8]) -> Result<(), Trouble> {
    without_formula(arguments, "a case file")?;
    let refused =
        |number| wrong(arguments, &refusal_words(number), "write a model as text, or a case that is accepted");
    if arguments.equations {
        return write_equations(arguments, &library::translate(bytes).map_err(refused)?);
    }
    if arguments.output.is_some() {
        return Err(wrong(arguments, "is a case file, and its text is two files", "write --aut FILE --mcf FILE"));
    }
    write_texts(arguments, &back::texts(bytes).map_err(refused)?)
}

fn refusal_words(number: u64) -> String {
    format!("is refused as a case file: {} (refusal {number})", refusal::meaning(number))
}

fn write_texts(arguments: &ConvertArguments, texts: &back::Texts) -> Result<(), Trouble> {
    if let Some(file) = &arguments.aut {
        files::write_text(file, &texts.aut)?;
    }
    if let Some(file) = &arguments.mcf {
        files::write_text(file, &texts.mcf)?;
    }
    if arguments.aut.is_none() && arguments.mcf.is_none() {
        output::exact(&format!("Model (.aut):\n{}\nFormula (.mcf):\n{}", texts.aut, texts.mcf))?;
    }
    Ok(())
}

fn from_equations(arguments: &ConvertArguments, bytes: &[u8]) -> Result<(), Trouble> {
    without_formula(arguments, "an equation file")?;
    if arguments.aut.is_some() || arguments.mcf.is_some() {
        return Err(wrong(
            arguments,
            "is an equation file, which has no model and no formula",
            "leave out --aut and --mcf",
        ));
    }
    write_equations(arguments, bytes)
}

fn write_equations(arguments: &ConvertArguments, file: &[u8]) -> Result<(), Trouble> {
    let text = back::equations(file)
        .map_err(|words| wrong(arguments, &format!("cannot be read: {words}"), "see README, \"The equation file\""))?;
    match &arguments.output {
        Some(file) => files::write_text(file, &text),
        None => output::exact(&text),
    }
}

fn without_formula(arguments: &ConvertArguments, holds: &str) -> Result<(), Trouble> {
    match (&arguments.formula.formula, &arguments.formula.expression) {
        (None, None) => Ok(()),
        _ => Err(wrong(
            arguments,
            &format!("is {holds}, and needs no formula"),
            "leave the formula out, or name a model",
        )),
    }
}

fn wrong(arguments: &ConvertArguments, what: &str, help: &str) -> Trouble {
    Trouble::plain(format!("{} {what}", files::input(&arguments.file))).with_help(help)
}
