//! A model and a formula as text, checked and explained.

use bithrowy_front::check::{check, Checked};
use bithrowy_front::explain::{explain, lines, Explanation};
use bithrowy_front::model::Model;
use bithrowy_front::source::Source;
use bithrowy_front::{aut, case, expand, limits, names, parser};
use bithrowy_tests::formats::Case;
use bithrowy_tests::reader::read_case;

/// An explanation with all that it is about; `case` is what the independent checker reads from the case file.
pub struct Told {
    pub model: Model,
    pub checked: Checked,
    pub explanation: Explanation,
    pub case: Case,
}

/// Explains the verdict, if the case is within the limits.
pub fn tell_if_accepted(model: &str, state_names: &str, formula: &str) -> Option<Told> {
    let mut model = aut::read(&Source::new("model.aut", model), "tau").expect("a model");
    names::read(&Source::new("model.names", state_names), &mut model).expect("names");
    let source = Source::new("formula.mcf", formula);
    let parsed = parser::read(&source, "tau").unwrap_or_else(|fault| panic!("{fault}"));
    let expansion = expand::expand(&source, &parsed).unwrap_or_else(|fault| panic!("{fault}"));
    let written = case::write(&model, &expansion, true).expect("a case");
    let checked = check(&written, limits::ROUNDS).ok()?;
    let explanation = explain(&model, &checked);
    let case = read_case(&written.bytes).expect("the independent checker accepts it too");
    Some(Told { model, checked, explanation, case })
}

pub fn tell(model: &str, state_names: &str, formula: &str) -> Told {
    tell_if_accepted(model, state_names, formula).expect("a case within the limits")
}

impl Told {
    pub fn lines(&self) -> Vec<String> {
        lines(&self.model, &self.checked, &self.explanation)
    }
}
