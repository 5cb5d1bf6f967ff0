//! What a formula's comments say to `test`: `% name: ...`, `% models: dialog*.aut`, `% expect: false`.

use crate::line::lines;
use crate::source::{shown, Fault, Source, Span};
use crate::suggest;
use std::sync::Arc;

/// The models that a line names (patterns with `*` and `?`, relative to the formula's folder), and the verdict expected.
#[derive(Clone, Debug, PartialEq, Eq)]
pub struct Expectation {
    pub patterns: Vec<(String, Span)>,
    /// True where the text says nothing.
    pub expected: bool,
}

#[derive(Clone, Debug, Default, PartialEq, Eq)]
pub struct Directives {
    pub name: Option<String>,
    /// Each `models:` line with the `expect:` line after it, if there is one before the next `models:`.
    pub expectations: Vec<Expectation>,
    /// `% unknown labels: allow`.
    pub unknown_labels: bool,
    /// `% silent: i`.
    pub silent: Option<String>,
    /// `% limit: 5000`.
    pub limit: Option<u64>,
}

/// The words of directives, as they stand before the colon.
const NAME: &str = "name";
const MODELS: &str = "models";
const EXPECT: &str = "expect";
const UNKNOWN_LABELS: &str = "unknown labels";
const SILENT: &str = "silent";
const LIMIT: &str = "limit";
const WORDS: [&str; 6] = [NAME, MODELS, EXPECT, UNKNOWN_LABELS, SILENT, LIMIT];

/// A directive as it is written.
struct Line<'a> {
    source: &'a Arc<Source>,
    word: &'a str,
    word_span: Span,
    value: &'a str,
    value_span: Span,
}

/// Reads the directives; a word before a colon that is nearly one of them is a fault with `did you mean`. A directive has
/// a line of its own. All other comments are free text.
pub fn read(source: &Arc<Source>) -> Result<Directives, Fault> {
    let mut directives = Directives::default();
    // The words that may not come again. A line that names models lets `expect` come again.
    let mut seen: Vec<&str> = Vec::new();
    for line in lines(source).filter_map(|line| Line::read(source, line.span)) {
        line.check_word()?;
        if seen.contains(&line.word) {
            return Err(line.twice());
        }
        match line.word {
            MODELS => seen.retain(|&word| word != EXPECT),
            word => seen.push(word),
        }
        line.add_to(&mut directives)?;
    }
    Ok(directives)
}

impl<'a> Line<'a> {
    /// A comment line with a colon, if the word before it is one of a directive or nearly so.
    fn read(source: &'a Arc<Source>, span: Span) -> Option<Line<'a>> {
        let text = source.slice(span);
        let comment = text.strip_prefix('%')?;
        let (before, after) = comment.split_once(':')?;
        let (word, value) = (before.trim(), after.trim());
        suggest::nearest(word, WORDS)?;
        let word_start = span.start + 1 + before.len() - before.trim_start().len();
        let value_start = span.end - after.trim_start().len();
        Some(Line {
            source,
            word,
            word_span: Span::new(word_start, word_start + word.len()),
            value,
            value_span: Span::new(value_start, value_start + value.len()),
        })
    }

    fn check_word(&self) -> Result<(), Fault> {
        if WORDS.contains(&self.word) {
            return Ok(());
        }
        let nearest = suggest::nearest(self.word, WORDS).unwrap_or(NAME);
        let message = format!("`{}` before a colon is no directive", shown(self.word));
        let help = format!("did you mean `{nearest}`? If it is a comment only, write it without the colon");
        Err(Fault::new(self.source, self.word_span, message).with_help(help))
    }

    fn twice(&self) -> Fault {
        let word = self.word;
        let (of, help) = match word {
            EXPECT => {
                (" for the same models", "leave one of the lines out, or write a `models` line before the second")
            }
            _ => ("", "leave one of the lines out"),
        };
        Fault::new(self.source, self.word_span, format!("`{word}` stands twice{of}")).with_help(help)
    }

    fn add_to(&self, directives: &mut Directives) -> Result<(), Fault> {
        match self.word {
            NAME => directives.name = Some(self.name()?),
            MODELS => directives.expectations.push(Expectation { patterns: self.patterns()?, expected: true }),
            EXPECT => self.add_expected(&mut directives.expectations)?,
            UNKNOWN_LABELS => directives.unknown_labels = self.allow()?,
            SILENT => directives.silent = Some(self.silent()?),
            _ => directives.limit = Some(self.limit()?),
        }
        Ok(())
    }

    fn name(&self) -> Result<String, Fault> {
        match self.value {
            "" => {
                Err(self.bad_value("`name` says what the formula asks", "write for instance % name: The dialog closes"))
            }
            name => Ok(name.to_string()),
        }
    }

    /// The patterns between blanks and commas.
    fn patterns(&self) -> Result<Vec<(String, Span)>, Fault> {
        let mut patterns = Vec::new();
        let mut start = self.value_span.start;
        for piece in self.value.split_inclusive([' ', '\t', ',']) {
            let pattern = piece.trim_end_matches([' ', '\t', ',']);
            if !pattern.is_empty() {
                patterns.push((pattern.to_string(), Span::new(start, start + pattern.len())));
            }
            start += piece.len();
        }
        match patterns.is_empty() {
            true => Err(self.bad_value("`models` names files of models", "write for instance % models: dialog*.aut")),
            false => Ok(patterns),
        }
    }

    /// Sets what is expected for the models of the line before.
    fn add_expected(&self, expectations: &mut [Expectation]) -> Result<(), Fault> {
        let expected = match self.value {
            "true" => true,
            "false" => false,
            _ => return Err(self.bad_value("`expect` is true or false", "write % expect: true or % expect: false")),
        };
        let Some(last) = expectations.last_mut() else {
            let message = "`expect` has no `models` line before it";
            let help = "write the models that it is about before it, for instance % models: dialog*.aut";
            return Err(Fault::new(self.source, self.word_span, message).with_help(help));
        };
        last.expected = expected;
        Ok(())
    }

    fn allow(&self) -> Result<bool, Fault> {
        match self.value {
            "allow" => Ok(true),
            _ => Err(self.bad_value(
                "`unknown labels` can only be allowed",
                "write % unknown labels: allow, or leave the line out",
            )),
        }
    }

    fn silent(&self) -> Result<String, Fault> {
        match is_silent_word(self.value) {
            true => Ok(self.value.to_string()),
            false => {
                Err(self.bad_value("`silent` is the silent step's name", "write one name, for instance % silent: i"))
            }
        }
    }

    fn limit(&self) -> Result<u64, Fault> {
        rounds(self.value).ok_or_else(|| {
            let help = format!("write digits only, for instance % limit: 5000; the largest number is {}", u64::MAX);
            self.bad_value("`limit` is a number of rounds", &help)
        })
    }

    /// A fault at the value, or at the word where there is none.
    fn bad_value(&self, what: &str, help: &str) -> Fault {
        let (span, found) = match self.value {
            "" => (self.word_span, "nothing".to_string()),
            value => (self.value_span, format!("`{}`", shown(value))),
        };
        Fault::new(self.source, span, format!("{what}, found {found}")).with_help(help)
    }
}

/// Can this be the silent step's name?
pub fn is_silent_word(text: &str) -> bool {
    !text.is_empty() && !text.contains(|sign: char| sign.is_whitespace() || "|\"".contains(sign))
}

/// A number of rounds in digits, if it is one that fits.
pub fn rounds(text: &str) -> Option<u64> {
    let is_number = !text.is_empty() && text.chars().all(|sign| sign.is_ascii_digit());
    is_number.then(|| text.parse().ok()).flatten()
}

/// Does a pattern with `*` (any characters) and `?` (one) match a name?
pub fn matches(pattern: &str, name: &str) -> bool {
    let (pattern, name): (Vec<char>, Vec<char>) = (pattern.chars().collect(), name.chars().collect());
    let (mut at, mut read) = (0, 0);
    // Behind the last star: where the pattern goes on, and up to where the star has taken the name.
    let mut star: Option<(usize, usize)> = None;
    while read < name.len() {
        match (pattern.get(at), star) {
            (Some('*'), _) => {
                at += 1;
                star = Some((at, read));
            }
            (Some(&letter), _) if letter == '?' || letter == name[read] => (at, read) = (at + 1, read + 1),
            (_, Some((behind, taken))) => {
                star = Some((behind, taken + 1));
                (at, read) = (behind, taken + 1);
            }
            (_, None) => return false,
        }
    }
    pattern[at..].iter().all(|&letter| letter == '*')
}
