//! The arguments of each command, with their help.

mod values;

use clap::{Args, Parser, Subcommand};
use std::num::NonZeroUsize;
use std::path::PathBuf;
use values::{jobs, report_file, rounds, silent_word};

/// Checks what web components do, written as a model (.aut), against what they should do, written as a formula of the modal
/// mu-calculus (.mcf); the answer comes from a checker that is proved correct.
#[derive(Debug, Parser)]
#[command(name = "bithrowy", version, after_help = AFTER)]
pub struct Arguments {
    #[command(subcommand)]
    pub command: Command,
}

const AFTER: &str = "\
Examples:
  bithrowy check dialog.aut closes.mcf
  bithrowy test examples
  bithrowy draw dialog.aut closes.mcf --html dialog.html
  bithrowy help check

Exit: 0 holds, or all as expected; 1 fails, or some verdict is not as expected; 2 a fault or a refusal;
3 the routes differ, which is proved not to happen. NO_COLOR turns colours off.";

#[derive(Debug, Subcommand)]
pub enum Command {
    /// Does a formula hold in a model, in which states, and why?
    #[command(after_help = CHECK)]
    Check(CheckArguments),
    /// Checks the formulas of folders against the models that they name
    #[command(after_help = TEST)]
    Test(TestArguments),
    /// A formula with all its brackets, and how much of the limits it uses
    #[command(after_help = SHOW)]
    Show(ShowArguments),
    /// Text to a case file, a case file to text, equations to read
    #[command(after_help = CONVERT)]
    Convert(ConvertArguments),
    /// Draws a model, with the states where a formula holds
    #[command(after_help = DRAW)]
    Draw(DrawArguments),
}

/// How texts are read. What a formula's file says is overridden.
#[derive(Clone, Debug, Default, Args)]
pub struct Readings {
    /// The word for the silent step [default: the formula's `% silent:`, else tau]
    #[arg(long, value_name = "WORD", value_parser = silent_word)]
    pub silent: Option<String>,
    /// Accept labels in the formula that no transition of the model has
    #[arg(long)]
    pub allow_unknown_labels: bool,
}

/// A formula: a file, or the text itself.
#[derive(Clone, Debug, Default, Args)]
pub struct FormulaArguments {
    /// The formula's file (.mcf), or - for standard input
    pub formula: Option<PathBuf>,
    /// The formula itself
    #[arg(short, long, value_name = "TEXT", conflicts_with = "formula", allow_hyphen_values = true)]
    pub expression: Option<String>,
}

#[derive(Debug, Args)]
pub struct CheckArguments {
    /// The model's file (.aut), or - for standard input
    pub model: PathBuf,
    #[command(flatten)]
    pub formula: FormulaArguments,
    /// The names of the model's states [default: the model's file with .names, if there is one]
    #[arg(long, value_name = "FILE")]
    pub names: Option<PathBuf>,
    #[command(flatten)]
    pub readings: Readings,
    /// The most rounds of iteration that a route may take [default: the formula's `% limit:`, else 1000000]
    #[arg(long, value_name = "N", value_parser = rounds, allow_negative_numbers = true)]
    pub limit: Option<u64>,
    /// Print the answer as JSON
    #[arg(long)]
    pub json: bool,
}

const CHECK: &str = "\
Examples:
  bithrowy check dialog.aut closes.mcf
  bithrowy check dialog.aut -e '[true*]<true*.close>true'
  bithrowy check dialog.aut -e 'mu X. [true] X' --json

Exit: 0 the formula holds in the initial state, 1 it fails, 2 a fault or a refusal, 3 the routes differ.";

#[derive(Debug, Args)]
pub struct TestArguments {
    /// Folders with formulas (*.mcf), or single formulas
    #[arg(required = true, value_name = "DIR")]
    pub paths: Vec<PathBuf>,
    /// Write a JUnit report, for build servers
    #[arg(long, value_name = "FILE", value_parser = report_file())]
    pub junit: Option<PathBuf>,
    /// Write a report as JSON
    #[arg(long, value_name = "FILE", value_parser = report_file())]
    pub json: Option<PathBuf>,
    /// Print TAP, version 14, in place of lines for people
    #[arg(long)]
    pub tap: bool,
    /// How many checks run at a time [default: one for each processor]
    #[arg(long, value_name = "N", value_parser = jobs, allow_negative_numbers = true)]
    pub jobs: Option<NonZeroUsize>,
    /// Run only checks with this text in the formula's name or file or the model's file
    #[arg(long, value_name = "TEXT")]
    pub filter: Option<String>,
    /// Stop at the first check that is not as expected
    #[arg(long)]
    pub bail: bool,
}

const TEST: &str = "\
A formula's file says in comments what is expected; lines of `% models:` and `% expect:` may come several times:
  % name: The close event always comes
  % models: dialog.aut menu*.aut
  % expect: true

Examples:
  bithrowy test examples
  bithrowy test examples --filter dialog --bail
  bithrowy test examples --junit report.xml --json report.json
  bithrowy test examples --tap

Exit: 0 all as expected, 1 some verdict is not, 2 a fault or a refusal, 3 the routes differ.";

#[derive(Debug, Args)]
pub struct ShowArguments {
    #[command(flatten)]
    pub formula: FormulaArguments,
}

const SHOW: &str = "\
Examples:
  bithrowy show closes.mcf
  bithrowy show -e '[click.true*] <close> true && !nu X. <hover> X'";

#[derive(Debug, Args)]
pub struct ConvertArguments {
    /// A model (.aut), a case file or an equation file, known by what it holds, or - for standard input
    pub file: PathBuf,
    #[command(flatten)]
    pub formula: FormulaArguments,
    /// Where the case file goes, or the equations [default: -, which is standard output]
    #[arg(short, long, value_name = "FILE", conflicts_with_all = ["aut", "mcf"])]
    pub output: Option<PathBuf>,
    /// Where the case file's model goes, as text; - is standard output
    #[arg(long, value_name = "FILE")]
    pub aut: Option<PathBuf>,
    /// Where the case file's formula goes, as text; - is standard output
    #[arg(long, value_name = "FILE")]
    pub mcf: Option<PathBuf>,
    /// Write the equations, for people to read
    #[arg(long, conflicts_with_all = ["aut", "mcf"])]
    pub equations: bool,
    #[command(flatten)]
    pub readings: Readings,
}

const CONVERT: &str = "\
Examples:
  bithrowy convert dialog.aut closes.mcf -o case.bin     text to a case file
  bithrowy convert case.bin                              a case file to text
  bithrowy convert case.bin --aut m.aut --mcf f.mcf      the same, into files
  bithrowy convert dialog.aut closes.mcf --equations     the equations of a case
  bithrowy convert case.bin --equations
  bithrowy convert equations.bin                         an equation file";

#[derive(Debug, Args)]
pub struct DrawArguments {
    /// The model's file (.aut), or - for standard input
    pub model: PathBuf,
    #[command(flatten)]
    pub formula: FormulaArguments,
    /// Write a drawing as SVG, in place of DOT on standard output; - is standard output too
    #[arg(long, value_name = "FILE")]
    pub svg: Option<PathBuf>,
    /// Write one HTML page with the model and the formula, parts of which can be clicked; it needs no network; - is standard output
    #[arg(long, value_name = "FILE")]
    pub html: Option<PathBuf>,
    /// The names of the model's states [default: the model's file with .names, if there is one]
    #[arg(long, value_name = "FILE")]
    pub names: Option<PathBuf>,
    #[command(flatten)]
    pub readings: Readings,
    /// The most rounds of iteration that a route may take [default: the formula's `% limit:`, else 1000000]
    #[arg(long, value_name = "N", value_parser = rounds, allow_negative_numbers = true)]
    pub limit: Option<u64>,
}

const DRAW: &str = "\
Examples:
  bithrowy draw dialog.aut                               DOT, for graphviz
  bithrowy draw dialog.aut closes.mcf --svg dialog.svg   states where the formula holds are filled and ticked
  bithrowy draw dialog.aut closes.mcf --html dialog.html";
