//! Labels' texts: what they mean, how they are written, and random ones.

use bithrowy_tests::random::Random;

/// Names that can stand bare everywhere.
const PLAIN: [&str; 5] = ["a", "b", "c", "click", "blur"];

/// Names with signs, blanks, words of the language, and quotes.
const ODD: [&str; 14] = [
    "a b",
    "say \"hi\"",
    "back\\slash",
    "true",
    "mu",
    "1",
    "a(1,2)",
    "[x]",
    "50 % off",
    "é",
    "x-1",
    "don't",
    "close.",
    "*",
];

/// Words of the language, which need quotes as names.
const WORDS: [&str; 4] = ["true", "false", "mu", "nu"];

/// The names of a label's text in order, each as often as it is written, without the silent word.
pub fn names<'a>(text: &'a str, silent: &str) -> Vec<&'a str> {
    let mut names: Vec<&str> = text.split('|').filter(|&name| name != silent).collect();
    names.sort_unstable();
    names
}

/// Have both the same names, each as often?
pub fn alike(one: &str, other: &str, silent: &str) -> bool {
    names(one, silent) == names(other, silent)
}

/// Can a formula hold this name without quotes? This is narrower than what the language allows.
pub fn is_bare(name: &str) -> bool {
    let letter = |c: char| c.is_ascii_alphabetic() || c == '_';
    let inner = |c: char| letter(c) || c.is_ascii_digit() || c == '\'';
    let parts: Vec<&str> = name.split('-').collect();
    name.starts_with(letter)
        && parts.iter().all(|part| !part.is_empty() && part.chars().all(inner))
        && !WORDS.contains(&name)
}

/// A text in quotes.
pub fn quoted(text: &str) -> String {
    format!("\"{}\"", text.replace('\\', "\\\\").replace('"', "\\\""))
}

/// Different labels of one case, and the word for the silent step.
#[derive(Clone, Debug)]
pub struct Pool {
    pub silent: &'static str,
    names: Vec<&'static str>,
    labels: Vec<String>,
}

impl Pool {
    /// Labels of one name each, with the silent step among them at times; in half of the pools also labels of several.
    pub fn new(random: &mut Random) -> Pool {
        let silent = if random.chance(1, 4) { "i" } else { "tau" };
        let odd = random.chance(1, 3);
        let mut names: Vec<&str> = (0..random.between(1, 3)).map(|_| random.pick(&PLAIN)).collect();
        names.extend((0..2 * odd as usize).map(|_| random.pick(&ODD)));
        let mut pool = Pool { silent, labels: names.iter().map(|name| name.to_string()).collect(), names };
        if random.chance(1, 3) {
            pool.labels.push(silent.to_string());
        }
        if random.chance(1, 2) {
            pool.join(random);
        }
        pool
    }

    /// Adds labels of several names, and some of them in another order.
    fn join(&mut self, random: &mut Random) {
        for _ in 0..random.between(1, 3) {
            let most = if random.chance(1, 10) { 4 } else { 3 };
            let joined = self.joined(random, most);
            if random.chance(1, 2) {
                self.labels.push(turned(random, &joined));
            }
            self.labels.push(joined);
        }
    }

    fn joined(&self, random: &mut Random, most: usize) -> String {
        let mut name = || if random.chance(1, 4) { self.silent } else { random.pick(&self.names) };
        let first = name();
        let more: Vec<&str> = (1..most).map(|_| name()).collect();
        let count = random.between(1, most - 1);
        std::iter::once(first).chain(more.into_iter().take(count)).collect::<Vec<_>>().join("|")
    }

    /// A label for a transition.
    pub fn of_transition(&self, random: &mut Random) -> String {
        self.labels[random.below(self.labels.len())].clone()
    }

    /// A label for a formula: mostly a transition's, at times with its names in another order, seldom another one, and
    /// very seldom one of more names than a case can hold.
    pub fn of_formula(&self, random: &mut Random) -> String {
        let label = self.of_transition(random);
        match random.below(400) {
            0..=39 => turned(random, &label),
            40..=47 => random.pick(&PLAIN).to_string(),
            48..=51 => random.pick(&ODD).to_string(),
            52 => self.joined(random, 3),
            53 => [random.pick(&PLAIN); 5].join("|"),
            _ => label,
        }
    }
}

/// A label with its names in a random order.
fn turned(random: &mut Random, label: &str) -> String {
    let mut names: Vec<&str> = label.split('|').collect();
    for i in (1..names.len()).rev() {
        names.swap(i, random.below(i + 1));
    }
    names.join("|")
}

/// A label's text with blanks around its names, which do not count.
pub fn spaced(random: &mut Random, text: &str) -> String {
    let mut blank = || random.pick(&["", "", "", " ", "  "]);
    text.split('|').map(|name| format!("{}{name}{}", blank(), blank())).collect::<Vec<_>>().join("|")
}
