//! The command `bithrowy`: models and formulas that are written as text, checked by the proved library, and answers that
//! people read. All that is known of models and formulas is in `bithrowy_front`; here are the arguments, the files and the
//! forms of output.

mod answer;
mod arguments;
mod check;
mod convert;
mod draw;
mod exit;
mod faults;
mod files;
mod graphviz;
mod json;
mod load;
mod output;
mod show;
mod suite;
mod trouble;

use arguments::{Arguments, Command};
use clap::Parser;
use exit::Exit;
use std::process::ExitCode;
use trouble::Trouble;

fn main() -> ExitCode {
    run(&Arguments::parse().command).unwrap_or_else(|trouble| faults::report(&trouble)).into()
}

fn run(command: &Command) -> Result<Exit, Trouble> {
    match command {
        Command::Check(arguments) => check::run(arguments),
        Command::Test(arguments) => suite::run(arguments),
        Command::Show(arguments) => show::run(arguments),
        Command::Convert(arguments) => convert::run(arguments),
        Command::Draw(arguments) => draw::run(arguments),
    }
}
