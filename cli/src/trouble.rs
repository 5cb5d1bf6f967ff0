//! What there may be in place of an answer.

use crate::exit::Exit;
use bithrowy_front::check;
use bithrowy_front::source::Fault;

#[derive(Clone, Debug)]
pub enum Trouble {
    /// Something is wrong at a place in a text.
    Fault(Fault),
    /// Something is wrong that has no place: a file that cannot be read, a folder without formulas.
    Plain { message: String, help: Option<String> },
    /// The routes differ.
    Differ(String),
}

impl Trouble {
    pub fn plain(message: impl Into<String>) -> Trouble {
        Trouble::Plain { message: message.into(), help: None }
    }

    pub fn with_help(self, help: impl Into<String>) -> Trouble {
        match self {
            Trouble::Plain { message, .. } => Trouble::Plain { message, help: Some(help.into()) },
            other => other,
        }
    }

    pub fn exit(&self) -> Exit {
        match self {
            Trouble::Fault(_) | Trouble::Plain { .. } => Exit::Fault,
            Trouble::Differ(_) => Exit::Differ,
        }
    }

    /// What is wrong, without the place.
    pub fn message(&self) -> String {
        match self {
            Trouble::Fault(fault) => fault.message.clone(),
            Trouble::Plain { message, .. } => message.clone(),
            Trouble::Differ(difference) => format!("the routes differ: {difference}"),
        }
    }

    /// What to do about it.
    pub fn help(&self) -> Option<String> {
        match self {
            Trouble::Fault(fault) => fault.help.clone(),
            Trouble::Plain { help, .. } => help.clone(),
            Trouble::Differ(_) => Some(
                "both routes are proved to give the same answer, so the program around them is broken: \
                 please report the model and the formula"
                    .to_string(),
            ),
        }
    }
}

impl From<Fault> for Trouble {
    fn from(fault: Fault) -> Trouble {
        Trouble::Fault(fault)
    }
}

impl From<check::Trouble> for Trouble {
    fn from(trouble: check::Trouble) -> Trouble {
        match trouble {
            check::Trouble::Refused(fault) => Trouble::Fault(fault),
            check::Trouble::Differ(difference) => Trouble::Differ(difference),
        }
    }
}

#[cfg(test)]
mod tests {
    use super::*;

    /// It is proved that the routes do not differ, so no text can show what the exit is if they do.
    #[test]
    fn exits() {
        let differ = Trouble::from(check::Trouble::Differ("the count is 1 and 2".to_string()));
        assert_eq!((differ.exit(), Trouble::plain("a fault").exit()), (Exit::Differ, Exit::Fault));
    }
}
