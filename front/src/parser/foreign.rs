//! Words and signs of other languages, and what is written for them here.

use crate::lexer::Word;

/// What stands on the two sides of an operator.
#[derive(Clone, Copy, PartialEq, Eq)]
pub(super) enum Operands {
    Formulas,
    /// Labels and runs, in a modality.
    Labels,
}

const SIGNS: [(&str, &str); 9] = [
    ("&", "&&"),
    ("=", "=>"),
    ("==", "=>"),
    ("->", "=>"),
    ("-->", "=>"),
    ("==>", "=>"),
    ("/\\", "&&"),
    ("\\/", "||"),
    ("~", "!"),
];

const CHARACTERS: [(char, &str); 9] =
    [('¬', "!"), ('∧', "&&"), ('∨', "||"), ('⇒', "=>"), ('→', "=>"), ('·', "."), ('⋅', "."), ('⟨', "<"), ('⟩', ">")];

const CONNECTIVES: [(&str, &str); 3] = [("and", "&&"), ("or", "||"), ("implies", "=>")];

/// Words that stand elsewhere than between two operands.
const WORDS: [(&str, &str); 7] =
    [(NOT, "!"), ("μ", "mu"), ("ν", "nu"), ("min", "mu"), ("max", "nu"), ("tt", "true"), ("ff", "false")];

const NOT: &str = "not";

/// What is said of a word that no formula has.
const NO_WORD: &str = "no word of formulas";

pub(super) const A_QUANTIFIER: &str = "a quantifier: quantifiers are not supported";

/// What to do about a sign.
pub(super) fn sign(sign: &str) -> Option<String> {
    match sign {
        "<=>" => Some("write (a => b) && (b => a)".to_string()),
        "<=" | "=<" => Some("for \"if a, then b\" write a => b".to_string()),
        _ => meant(&SIGNS, sign).map(did_you_mean),
    }
}

pub(super) fn character(character: char) -> Option<&'static str> {
    CHARACTERS.into_iter().find(|(other, _)| *other == character).map(|(_, meant)| meant)
}

/// The connective that is meant by something between two operands.
pub(super) fn connective(word: &Word, operands: Operands) -> Option<&'static str> {
    match word {
        Word::Name(name) => meant(&CONNECTIVES, name),
        Word::Sign("|") => Some("||"),
        Word::Other(',') if operands == Operands::Labels => Some("||"),
        _ => None,
    }
}

/// What is said of a word before an operand, and what to do about it. In a modality it may well be a part of a label.
pub(super) fn word(name: &str, operands: Operands) -> Option<(&'static str, String)> {
    if operands == Operands::Labels && name != NOT {
        return None;
    }
    match meant(&WORDS, name).or_else(|| meant(&CONNECTIVES, name)) {
        Some(meant) => Some((NO_WORD, did_you_mean(meant))),
        None => quantifier(name).or_else(|| temporal(name)).map(|(what, help)| (what, help.to_string())),
    }
}

/// A quantifier with a value for each case, of which the least or the greatest counts.
fn quantifier(name: &str) -> Option<(&'static str, &'static str)> {
    match name {
        "inf" => Some((A_QUANTIFIER, each_case("forall"))),
        "sup" => Some((A_QUANTIFIER, each_case("exists"))),
        _ => None,
    }
}

/// What to write for a quantifier.
pub(super) fn each_case(quantifier: &str) -> &'static str {
    match quantifier {
        "forall" => "write each case out, with \"&&\" between them",
        _ => "write each case out, with \"||\" between them",
    }
}

/// A word of a temporal logic.
pub(super) fn temporal(name: &str) -> Option<(&'static str, &'static str)> {
    let help = match name {
        "AG" | "always" => "write [true*] before what is always so",
        "EF" => "write <true*> before what can come to be so",
        "never" => "for \"a never happens\" write [true* . a]false",
        "AF" | "eventually" => "for \"a comes, whatever is done\" write mu X. <true>true && [!a]X",
        "EG" => "for \"a is always so on some run\" write nu X. a && (<true>X || [true]false)",
        "A" | "E" | "U" | "until" => {
            "for \"a is so until b is, on every run\" write mu X. b || a && <true>true && [true]X"
        }
        _ => return None,
    };
    Some((NO_WORD, help))
}

pub(super) fn did_you_mean(meant: &str) -> String {
    format!("did you mean \"{meant}\"?")
}

fn meant(table: &[(&str, &'static str)], written: &str) -> Option<&'static str> {
    table.iter().find(|(other, _)| *other == written).map(|(_, meant)| *meant)
}
