//! From two texts to a case and its answer, as the program goes.

// Each file of tests uses some of these.
#![allow(dead_code)]

use bithrowy_front::case::{self, Case};
use bithrowy_front::check::{check, Checked, Trouble};
use bithrowy_front::expand::expand;
use bithrowy_front::source::{Fault, Source};
use bithrowy_front::{aut, label, parser};

/// A case of a model `m.aut` and a formula `f.mcf`. Labels without a transition are allowed if that is said.
pub fn case_of(model: &str, formula: &str, unknown_labels: bool) -> Result<Case, Fault> {
    let (model, formula) = (Source::new("m.aut", model), Source::new("f.mcf", formula));
    let model = aut::read(&model, label::SILENT)?;
    let expansion = expand(&formula, &parser::read(&formula, label::SILENT)?)?;
    case::write(&model, &expansion, unknown_labels)
}

/// A case that is written without a fault, whatever the library says of it.
pub fn case(model: &str, formula: &str) -> Case {
    case_of(model, formula, false).unwrap_or_else(|fault| panic!("{fault}"))
}

/// The answer with a limit, which is there.
pub fn checked(case: &Case, limit: u64) -> Checked {
    check(case, limit).unwrap_or_else(|trouble| panic!("{trouble:?}"))
}

/// The fault with which the library refuses.
pub fn refused(case: &Case, limit: u64) -> Fault {
    match check(case, limit) {
        Err(Trouble::Refused(fault)) => fault,
        other => panic!("no refusal: {other:?}"),
    }
}
