//! The pieces of an explanation's sentences: parts of the formula in backquotes, the words around them, states.

/// A sentence as the parts that stand in it and the words around them: one more than there are parts.
pub struct Pieces<'l> {
    pub parts: Vec<&'l str>,
    pub words: Vec<String>,
}

/// Takes a sentence apart. The hints behind a part, `(Z for ...)`, are left out.
pub fn pieces(line: &str) -> Pieces<'_> {
    let mut split = line.split('`');
    let mut pieces = Pieces { parts: Vec::new(), words: vec![split.next().unwrap_or("").to_string()] };
    while let (Some(part), Some(next)) = (split.next(), split.next()) {
        match pieces.words.last_mut().filter(|words| is_hint(words)) {
            Some(hint) => *hint = next.strip_prefix(')').unwrap_or(next).to_string(),
            None => {
                pieces.parts.push(part);
                pieces.words.push(next.to_string());
            }
        }
    }
    pieces
}

/// Does a hint's part stand behind these words?
fn is_hint(words: &str) -> bool {
    words.ends_with(" for ") || words.ends_with(" for the opposite of ")
}

/// The states at the start of a text: `state 1, state 3.`
pub fn states(text: &str) -> Vec<usize> {
    let mut states = Vec::new();
    let mut rest = text;
    while let Some(behind) = rest.strip_prefix("state ") {
        let end = behind.find(|letter: char| !letter.is_ascii_digit()).unwrap_or(behind.len());
        states.extend(behind[..end].parse::<usize>());
        rest = behind[end..].strip_prefix(", ").unwrap_or("");
    }
    states
}

/// The states behind some words, wherever those stand in a text.
pub fn states_behind(words: &str, text: &str) -> Option<Vec<usize>> {
    let at = text.find(words)? + words.len();
    Some(states(&text[at..])).filter(|states| !states.is_empty())
}

/// The states of a list of transitions: `a to state 1, b to state 2`.
pub fn targets(text: &str) -> Vec<usize> {
    text.split(" to ").skip(1).filter_map(|target| states(target).first().copied()).collect()
}

/// A formula with a text in the place of a variable.
pub fn replaced(formula: &str, variable: &str, by: &str) -> String {
    let is_letter = |letter: char| letter.is_alphanumeric() || letter == '_';
    let mut replaced = String::new();
    let mut rest = formula;
    while let Some(letter) = rest.chars().next() {
        let end = rest.find(|next| is_letter(next) != is_letter(letter)).unwrap_or(rest.len());
        let (word, behind) = rest.split_at(end);
        replaced.push_str(if word == variable { by } else { word });
        rest = behind;
    }
    replaced
}
