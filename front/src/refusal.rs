//! What the library's refusal numbers mean, with the place in the text.

mod binders;
mod counts;
mod model_numbers;
mod names;
mod written_twice;

use crate::amount;
use crate::case::Case;
use crate::source::Fault;

/// The number of a run that did not end within the round limit.
pub const SPENT: u64 = 14;

/// A refusal in words, at the place that brought it about: `300 states: the checker takes 1 to 256`.
pub fn fault(case: &Case, number: u64, limit: u64) -> Fault {
    let fault = match number {
        3 => counts::fault(case),
        6 => model_numbers::fault(&case.model),
        10 => binders::fault(case),
        SPENT => Some(spent(case, "one of the routes", limit)),
        15 => names::fault(case),
        _ => None,
    };
    fault.unwrap_or_else(|| unexpected(case, number)).with_refusal(number)
}

/// A run that did not end within the round limit, by a route in words.
pub fn spent(case: &Case, route: &str, limit: u64) -> Fault {
    let (source, span) = case.formula();
    let message = format!("more than {} by {route}", amount::of(limit, "round"));
    Fault::new(source, span, message).with_refusal(SPENT).with_help(
        "a larger --limit, or a line `% limit: N` in the formula's file, allows more rounds; a formula with fewer mu and nu \
         one inside another takes fewer of them",
    )
}

/// A refusal that no text brings about.
fn unexpected(case: &Case, number: u64) -> Fault {
    let message = format!("the library refuses the case file: {}", meaning(number));
    Fault::new(&case.model.source, case.model.header, message)
        .with_help("no model and no formula should bring this about: please report it with both of them")
}

/// The condition of a number, for a case that did not come from text.
pub fn meaning(number: u64) -> &'static str {
    match number {
        0 => "it is accepted",
        1 => "it is under 20 bytes, or under 22 in version 2",
        2 => "its version is neither 1 nor 2",
        3 => "one of its counts is outside its range",
        4 => "one of its offsets differs from what the counts say",
        5 => "its length differs from what the counts say",
        6 => "its initial state, or a transition's source or target, is no state, or a transition's label is no label",
        7 => "an action node's kind or argument is wrong, or the table is not whole formulas",
        8 => "a formula node's kind or argument is wrong, or the table is not one whole formula",
        9 => "a variable stands outside its binder",
        10 => "it needs more than six blocks: one for each mu and nu, and one more if it begins with neither",
        11 => "the equation file is under 36 bytes, or its version, a count, its initial state, an offset or its length is wrong",
        12 => "a block, cell or operand of the equation file breaks its rule",
        13 => "the memory lent to the run is too short",
        14 => "the rounds exceed the limit",
        15 => "a label record has a name above 255, or a name behind a 0",
        16 => "a new transition where 2,048 are held",
        17 => "the transition is not held",
        _ => "for a reason that this program does not know",
    }
}
