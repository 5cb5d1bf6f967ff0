//! What somebody may have meant.

/// Longer words are not compared: nobody mistypes them, and comparing them is work.
const LONGEST: usize = 64;

/// So many candidates are compared at most.
const CANDIDATES: usize = 4096;

/// The candidate nearest to a word by edit distance, if it is near enough to be a slip: at most a third of the word's
/// characters, and at least one, are to be changed (two neighbours exchanged count as one change; capitals count as equal).
/// Of several that are equally near it is the first.
pub fn nearest<'a>(word: &str, candidates: impl IntoIterator<Item = &'a str>) -> Option<&'a str> {
    let word = letters(word)?;
    let allowed = (word.len() / 3).max(1);
    candidates
        .into_iter()
        .take(CANDIDATES)
        .filter_map(|candidate| Some((distance(&word, &letters(candidate)?, allowed)?, candidate)))
        .min_by_key(|&(distance, _)| distance)
        .map(|(_, candidate)| candidate)
}

/// The characters of a word that is not too long, in small letters.
fn letters(word: &str) -> Option<Vec<char>> {
    let letters: Vec<char> = word.chars().take(LONGEST + 1).flat_map(char::to_lowercase).collect();
    (letters.len() <= LONGEST).then_some(letters)
}

/// The number of changes that make one word the other, if no more than so many are needed. A change puts a character in,
/// takes one out, replaces one or exchanges two neighbours; none touches what another has changed.
fn distance(one: &[char], other: &[char], allowed: usize) -> Option<usize> {
    if one.len().abs_diff(other.len()) > allowed {
        return None;
    }
    let first: Vec<usize> = (0..=other.len()).collect();
    let mut rows = vec![first];
    for end in 1..=one.len() {
        rows.push(row(&one[..end], other, &rows));
    }
    rows.last().and_then(|row| row.last().copied()).filter(|&changes| changes <= allowed)
}

/// The changes that make a beginning of one word each beginning of the other, from those for shorter beginnings.
fn row(one: &[char], other: &[char], rows: &[Vec<usize>]) -> Vec<usize> {
    let above = &rows[one.len() - 1];
    let mut row = vec![one.len()];
    for end in 1..=other.len() {
        let replaced = above[end - 1] + usize::from(one.last() != other[..end].last());
        let mut fewest = replaced.min(above[end] + 1).min(row[end - 1] + 1);
        if let ([.., a, b], [.., c, d]) = (one, &other[..end]) {
            if a == d && b == c {
                fewest = fewest.min(rows[one.len() - 2][end - 2] + 1);
            }
        }
        row.push(fewest);
    }
    row
}
