//! How wide a text will be, without the font: a rough sum over its characters, in a font without serifs.

/// The width of a text in a font of a given size.
pub(super) fn width(text: &str, size: f64) -> f64 {
    text.chars().map(share).sum::<f64>() * size
}

/// The text, cut with a mark if it has more characters than `most`.
pub(super) fn cut(text: &str, most: usize) -> String {
    if text.chars().count() <= most {
        return text.to_string();
    }
    let kept: String = text.chars().take(most.saturating_sub(1)).collect();
    format!("{kept}…")
}

/// The text in at most two lines of at most so many characters each, broken where it can be; what is left is cut.
pub(super) fn two_lines(text: &str, most: usize) -> Vec<String> {
    let letters: Vec<char> = text.chars().collect();
    if letters.len() <= most {
        return vec![text.to_string()];
    }
    let within = &letters[..most];
    // A line is not broken in its first half, so that the other one is not much longer.
    let can_break = |&at: &usize| within[at - 1].is_ascii_punctuation() || within[at - 1] == ' ';
    let at = (most / 2..=most).rev().find(can_break).unwrap_or(most);
    let (first, second): (String, String) = (letters[..at].iter().collect(), letters[at..].iter().collect());
    vec![first.trim_end().to_string(), cut(&second, most)]
}

/// A character's width as a part of the font's size.
fn share(character: char) -> f64 {
    match character {
        'i' | 'j' | 'l' | 'I' | '.' | ',' | ':' | ';' | '\'' | '|' | '!' => 0.30,
        'f' | 't' | 'r' | ' ' | '(' | ')' | '[' | ']' | '/' | '\\' | '-' | '"' => 0.38,
        'm' | 'w' | 'M' | 'W' | '@' | '%' => 0.92,
        'A'..='Z' | '&' | '<' | '>' | '=' | '+' | '…' => 0.72,
        '\u{300}'..='\u{36f}' => 0.0,
        '\u{1100}'..='\u{115f}' | '\u{2e80}'..='\u{a4cf}' | '\u{ac00}'..='\u{d7a3}' => 1.05,
        '\u{f900}'..='\u{faff}' | '\u{ff00}'..='\u{ff60}' | '\u{1f000}'..='\u{3fffd}' => 1.25,
        character if character.is_ascii() => 0.57,
        _ => 0.66,
    }
}
