//! What comes of the checks of a folder.

use crate::answer;
use crate::exit::Exit;
use crate::load::Answer;
use crate::trouble::Trouble;
use std::time::Duration;

/// The checks that were run, in order.
pub struct Report {
    pub results: Vec<Checked>,
    /// How many checks there are, those not run included.
    pub planned: usize,
    pub seconds: f64,
}

/// One check, and what came of it.
pub struct Checked {
    /// The formula's name: that of its directive, or its file.
    pub name: String,
    /// The formula's file.
    pub formula: String,
    /// The model's file; nothing where the formula itself is at fault.
    pub model: Option<String>,
    pub expected: bool,
    pub outcome: Result<Answer, Trouble>,
    pub time: Duration,
}

#[derive(Clone, Copy, Debug, PartialEq, Eq)]
pub enum Standing {
    AsExpected,
    Unexpected,
    Fault,
    Differ,
}

impl Checked {
    pub fn standing(&self) -> Standing {
        match &self.outcome {
            Ok(answer) if answer.checked.verdict == self.expected => Standing::AsExpected,
            Ok(_) => Standing::Unexpected,
            Err(Trouble::Differ(_)) => Standing::Differ,
            Err(_) => Standing::Fault,
        }
    }

    pub fn exit(&self) -> Exit {
        match self.standing() {
            Standing::AsExpected => Exit::Good,
            Standing::Unexpected => Exit::Wrong,
            Standing::Fault => Exit::Fault,
            Standing::Differ => Exit::Differ,
        }
    }

    /// What came of it in a few words: `fails, as expected`.
    pub fn words(&self) -> String {
        match &self.outcome {
            Err(trouble) => trouble.message(),
            Ok(answer) if answer.checked.verdict != self.expected => {
                let expected = if self.expected { "hold" } else { "fail" };
                format!("{}, but is expected to {expected}", answer::word(answer.checked.verdict))
            }
            Ok(answer) if answer.checked.verdict => "holds".to_string(),
            Ok(_) => "fails, as expected".to_string(),
        }
    }

    /// The model's file, or what stands in its place.
    pub fn model(&self) -> &str {
        self.model.as_deref().unwrap_or("-")
    }
}

impl Report {
    pub fn exit(&self) -> Exit {
        self.results.iter().map(Checked::exit).max().unwrap_or(Exit::Good)
    }

    pub fn count(&self, standing: Standing) -> usize {
        self.results.iter().filter(|result| result.standing() == standing).count()
    }

    /// Checks that were not run, since an earlier one was not as expected.
    pub fn skipped(&self) -> usize {
        self.planned - self.results.len()
    }
}

#[cfg(test)]
mod tests {
    use super::*;

    fn checked(trouble: Trouble) -> Checked {
        let (name, formula) = ("a name".to_string(), "f.mcf".to_string());
        Checked { name, formula, model: None, expected: true, outcome: Err(trouble), time: Duration::ZERO }
    }

    /// It is proved that the routes do not differ, so no text can show what is said if they do.
    #[test]
    fn routes_that_differ_count_most() {
        let differ = checked(Trouble::Differ("verdict 1 and 0".to_string()));
        assert_eq!((differ.standing(), differ.exit()), (Standing::Differ, Exit::Differ));
        assert_eq!(differ.words(), "the routes differ: verdict 1 and 0");
        let results = vec![differ, checked(Trouble::plain("a fault"))];
        let report = Report { results, planned: 3, seconds: 0.0 };
        assert_eq!((report.exit(), report.exit().number()), (Exit::Differ, 3));
        assert_eq!((report.count(Standing::Differ), report.count(Standing::Fault), report.skipped()), (1, 1, 1));
    }
}
