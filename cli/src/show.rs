//! `show`: how a formula is read, and how much of the limits it uses.

use crate::answer::rows;
use crate::arguments::{Readings, ShowArguments};
use crate::exit::Exit;
use crate::load::{self, Rules};
use crate::output;
use crate::trouble::Trouble;
use bithrowy_front::amount::thousands;
use bithrowy_front::case;
use bithrowy_front::expand::{self, Expansion};
use bithrowy_front::limits;
use bithrowy_front::print;

pub fn run(arguments: &ShowArguments) -> Result<Exit, Trouble> {
    let formula = load::needed(&arguments.formula)?;
    let written = formula.read(&Rules::settle(&Readings::default(), Some(&formula.directives)))?;
    let expansion = expand::expand(&formula.source, &written)?;
    let mut shown = vec![("bracketed", print::bracketed(&written))];
    shown.extend(used(&expansion));
    output::text(&rows(&shown))?;
    Ok(Exit::Good)
}

fn used(expansion: &Expansion) -> Vec<(&'static str, String)> {
    let (written_out, nodes, actions, fixed_points) = match expansion {
        Expansion::Table(table) => (table.text(0), table.nodes.len(), case::action_nodes(table), Some(table.blocks())),
        Expansion::TooLarge { nodes, actions, .. } => {
            ("(too large to be written out)".to_string(), *nodes, *actions, None)
        }
    };
    let mut used = vec![
        ("written out", written_out),
        ("formula nodes", of_limit(nodes, limits::FORMULA_NODES)),
        ("action nodes", of_limit(actions, limits::ACTION_NODES)),
    ];
    used.extend(fixed_points.map(|number| ("fixed points", of_limit(number, limits::BLOCKS))));
    used
}

fn of_limit(number: usize, limit: usize) -> String {
    let excess = if number > limit { ": too many, the checker refuses it" } else { "" };
    format!("{} of {limit}{excess}", thousands(number))
}
