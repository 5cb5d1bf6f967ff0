//! What the program's exit says; of several the largest counts.

use std::process::ExitCode;

#[derive(Clone, Copy, Debug, PartialEq, Eq, PartialOrd, Ord)]
pub enum Exit {
    /// The formula holds, all verdicts are as expected, what was asked for is written.
    Good,
    /// The formula fails, or some verdict is not as expected.
    Wrong,
    /// A fault in a text or a file, or a refusal.
    Fault,
    /// The routes differ, which is proved not to happen.
    Differ,
}

impl Exit {
    pub fn number(self) -> u8 {
        match self {
            Exit::Good => 0,
            Exit::Wrong => 1,
            Exit::Fault => 2,
            Exit::Differ => 3,
        }
    }
}

impl From<Exit> for ExitCode {
    fn from(exit: Exit) -> ExitCode {
        ExitCode::from(exit.number())
    }
}
