//! Random models, and how they are written in the Aldebaran format.

use super::labels::{self, Pool};
use bithrowy_tests::random::Random;
use std::collections::BTreeSet;

/// A labelled transition system. A label is its text, without blanks around its names.
#[derive(Clone, Debug)]
pub struct System {
    pub states: usize,
    pub initial: usize,
    pub silent: &'static str,
    pub transitions: Vec<(usize, String, usize)>,
}

impl System {
    /// A system over a pool's labels, seldom one that is large or beyond the limit. In half of them each transition begins
    /// where the initial state leads.
    pub fn random(random: &mut Random, pool: &Pool) -> System {
        let states = match random.below(300) {
            0..=3 => random.between(60, 256),
            4 => random.between(257, 300),
            _ => random.between(1, 12),
        };
        let initial = random.below(states);
        let mut sources: Vec<usize> = if random.chance(1, 2) { vec![initial] } else { (0..states).collect() };
        let most = random.pick(&[1, 2, 2, 3]) * states;
        let mut transitions = Vec::new();
        for _ in 0..random.between(most / 2, most) {
            let target = random.below(states);
            transitions.push((sources[random.below(sources.len())], pool.of_transition(random), target));
            sources.push(target);
        }
        for _ in 0..random.pick(&[0, 0, 0, 1, 2]).min(transitions.len()) {
            transitions.push(transitions[random.below(transitions.len())].clone());
        }
        System { states, initial, silent: pool.silent, transitions }
    }

    /// The labels' texts in order of first appearance.
    pub fn labels(&self) -> Vec<&str> {
        let mut seen = BTreeSet::new();
        self.transitions.iter().map(|t| t.1.as_str()).filter(|&label| seen.insert(label)).collect()
    }

    /// How many transitions are different.
    pub fn distinct(&self) -> u64 {
        self.transitions.iter().collect::<BTreeSet<_>>().len() as u64
    }

    /// The states that the initial state reaches.
    pub fn reached(&self) -> Vec<bool> {
        let mut reached = vec![false; self.states];
        let mut waiting = vec![self.initial];
        while let Some(state) = waiting.pop() {
            if !std::mem::replace(&mut reached[state], true) {
                waiting.extend(self.transitions.iter().filter(|t| t.0 == state).map(|t| t.2));
            }
        }
        reached
    }

    /// The system as text without needless signs.
    pub fn plain(&self) -> String {
        let line = |t: &(usize, String, usize)| format!("({}, {}, {})\n", t.0, labels::quoted(&t.1), t.2);
        let header = format!("des ({}, {}, {})\n", self.initial, self.transitions.len(), self.states);
        header + &self.transitions.iter().map(line).collect::<String>()
    }

    /// The system as text with blanks anywhere, either end of line, and labels quoted or bare.
    pub fn noisy(&self, random: &mut Random) -> String {
        let end = random.pick(&["\n", "\r\n"]);
        let numbers = [self.initial, self.transitions.len(), self.states].map(|number| number.to_string());
        let mut text = ends(random, end, 10) + &noisy_line(random, "des", &numbers);
        for (source, label, target) in &self.transitions {
            text += &(end.to_string() + &ends(random, end, 20));
            let label = noisy_label(random, label);
            text += &noisy_line(random, "", &[source.to_string(), label, target.to_string()]);
        }
        text + &ends(random, end, 2)
    }
}

/// Ends of lines, more than none in one of so many cases.
fn ends(random: &mut Random, end: &str, seldom: usize) -> String {
    end.repeat(random.chance(1, seldom) as usize * random.between(1, 2))
}

/// A word and three parts in a bracket.
fn noisy_line(random: &mut Random, word: &str, parts: &[String; 3]) -> String {
    let mut blank = || random.pick(&["", "", " ", " ", "  ", "\t"]);
    let mut line = format!("{}{word}{}(", blank(), blank());
    for (i, part) in parts.iter().enumerate() {
        let sign = if i < 2 { "," } else { ")" };
        line += &format!("{}{part}{}{sign}", blank(), blank());
    }
    line + blank()
}

/// A label in quotes, or bare if it holds none.
fn noisy_label(random: &mut Random, label: &str) -> String {
    let text = labels::spaced(random, label);
    if label.contains('"') || random.chance(1, 2) {
        labels::quoted(&text)
    } else {
        text
    }
}
