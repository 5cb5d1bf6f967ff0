//! Labels: one name, several that happen together (`focus|blur`), or the silent step.

/// The name of the silent step where nothing else is said.
pub const SILENT: &str = "tau";

/// The name that CADP writes for it.
pub const SILENT_OF_CADP: &str = "i";

/// The words of the language of formulas, which no bare name is: what .mcf files have here, and what they have that is
/// refused by name.
pub const WORDS: [&str; 10] = ["true", "false", "mu", "nu", "forall", "exists", "val", "nil", "delay", "yaled"];

/// A label as it is written, and what it means.
#[derive(Clone, Debug, PartialEq, Eq, Hash)]
pub struct Label {
    /// The names as they are written, joined by `|` without blanks.
    pub text: String,
    /// The names in alphabetical order, each as often as it is written, without the silent step's. The silent step has
    /// none.
    pub names: Vec<String>,
}

impl Label {
    /// Reads a label's text (without quotes), in which `|` stands between names. An error says what is wrong.
    pub fn read(text: &str, silent: &str) -> Result<Label, String> {
        let written: Vec<&str> = text.split('|').map(str::trim).collect();
        if text.trim().is_empty() {
            return Err("a label has a name, and this one is empty".to_string());
        }
        if written.contains(&"") {
            return Err("a name stands before and behind each \"|\", and here one is missing".to_string());
        }
        let joined = written.join("|");
        if joined.contains(['\n', '\r']) {
            return Err("a label stands on one line, and here a line ends inside it".to_string());
        }
        let mut names: Vec<String> =
            written.iter().filter(|&&name| name != silent).map(|name| name.to_string()).collect();
        names.sort();
        Ok(Label { text: joined, names })
    }

    /// Do both have the same names, each as often? Then a label in a formula accepts both.
    pub fn alike(&self, other: &Label) -> bool {
        self.names == other.names
    }

    pub fn is_silent(&self) -> bool {
        self.names.is_empty()
    }

    /// Is it written with `|`? Then the case has version 2, in which labels are compared by their names.
    pub fn is_joined(&self) -> bool {
        self.text.contains('|')
    }

    /// As formulas write it: bare if each of its names can be (`is_bare`), else in quotes.
    pub fn quoted(&self) -> String {
        if self.text.split('|').all(is_bare) {
            self.text.clone()
        } else {
            self.in_quotes()
        }
    }

    /// In quotes, with `\"` and `\\` for a quote and a backslash.
    pub fn in_quotes(&self) -> String {
        format!("\"{}\"", self.text.replace('\\', "\\\\").replace('"', "\\\""))
    }
}

/// Can a formula hold this name without quotes? A letter or `_`, then letters, digits, `_`, `'`, and `-` between two of
/// these; and not a word of the language.
pub fn is_bare(name: &str) -> bool {
    let whole = name.split('-').all(|part| !part.is_empty() && part.chars().all(continues_name));
    whole && name.starts_with(begins_name) && !WORDS.contains(&name)
}

/// Can a bare name begin with this?
pub fn begins_name(letter: char) -> bool {
    letter.is_alphabetic() || letter == '_'
}

/// Can this stand inside a bare name, beside `-`?
pub fn continues_name(letter: char) -> bool {
    begins_name(letter) || letter.is_ascii_digit() || letter == '\''
}
