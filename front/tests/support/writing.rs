//! Formulas as text: the words that say a formula, with the brackets it needs and at random more, and what may stand
//! between words.

use super::labels;
use bithrowy_front::formula::{Action, ActionFormula, Regular, RegularFormula, State, StateFormula};
use bithrowy_tests::random::Random;

/// A wrong grammar that a formula may be written by.
#[derive(Clone, Copy, Debug, PartialEq, Eq)]
pub enum Misgrammar {
    /// `=>` groups to the left.
    ImpliesLeft,
    /// `&&` is looser than `||`.
    AndLooser,
    /// `mu X. a && b` is `(mu X. a) && b`.
    BinderStops,
    /// `!a && b` is `!(a && b)`.
    NotLooser,
    /// `[R]a && b` is `[R](a && b)`.
    BoxLooser,
    /// `R.S + T` is `R.(S + T)`.
    ChoiceTighter,
}

/// A formula as text, with nothing that it does not need.
pub fn plain(formula: &StateFormula, misgrammar: Option<Misgrammar>) -> String {
    let mut pen = Pen { noise: None, misgrammar, words: Vec::new() };
    pen.state(formula, WHOLE);
    pen.words.join(" ")
}

/// A formula as text with further brackets, blanks and comments, and labels quoted or bare.
pub fn noisy(random: &mut Random, formula: &StateFormula, misgrammar: Option<Misgrammar>) -> String {
    let mut pen = Pen { noise: Some(random), misgrammar, words: Vec::new() };
    pen.state(formula, WHOLE);
    let words = pen.words;
    let mut text = gap(random);
    for (i, word) in words.iter().enumerate() {
        text += word;
        text += &gap(random);
        if words.get(i + 1).is_some_and(|next| would_grow(&text, next)) {
            text += random.pick(&[" ", "\n", "\t", "\r\n"]);
        }
    }
    text
}

/// Would a text and a word behind it be read as one word?
fn would_grow(text: &str, word: &str) -> bool {
    let inner = |c: char| c.is_alphanumeric() || "_'-".contains(c);
    text.ends_with(inner) && word.starts_with(inner)
}

/// What may stand between words, or nothing.
fn gap(random: &mut Random) -> String {
    match random.below(24) {
        0..=13 => "",
        14..=19 => " ",
        20 => "\n\n",
        21 => " \t ",
        22 => "\r\n",
        _ => random.pick(&["% [a] X && \"\n", "%\n", "%% mu X. ( é \r\n"]),
    }
    .to_string()
}

/// Where an operand stands: the loosest connective that needs no bracket there, and whether nothing follows it up to the
/// end of the text or to the bracket around it.
#[derive(Clone, Copy)]
struct Place {
    level: usize,
    last: bool,
}

const WHOLE: Place = Place { level: 0, last: true };

struct Pen<'a> {
    noise: Option<&'a mut Random>,
    misgrammar: Option<Misgrammar>,
    words: Vec<String>,
}

impl Pen<'_> {
    fn chance(&mut self, seldom: usize) -> bool {
        self.noise.as_mut().is_some_and(|random| random.chance(1, seldom))
    }

    fn writes_by(&self, misgrammar: Misgrammar) -> bool {
        self.misgrammar == Some(misgrammar)
    }

    fn put(&mut self, word: &str) {
        self.words.push(word.to_string());
    }

    fn state(&mut self, formula: &StateFormula, place: Place) {
        let own = self.state_level(formula);
        let binder = matches!(formula.kind, State::Mu(..) | State::Nu(..)) && !self.writes_by(Misgrammar::BinderStops);
        let needed = if binder { !place.last } else { own < place.level };
        if needed || self.chance(8) {
            self.put("(");
            self.state(formula, WHOLE);
            self.put(")");
        } else {
            self.open_state(formula, own, place.last);
        }
    }

    /// How tightly a state formula holds together, loosest first.
    fn state_level(&self, formula: &StateFormula) -> usize {
        match &formula.kind {
            State::Implies(..) => 1,
            State::Or(..) => 2 + self.writes_by(Misgrammar::AndLooser) as usize,
            State::And(..) => 3 - self.writes_by(Misgrammar::AndLooser) as usize,
            State::Not(_) => 4 - self.writes_by(Misgrammar::NotLooser) as usize,
            State::Must(..) | State::May(..) => 4 - self.writes_by(Misgrammar::BoxLooser) as usize,
            State::Mu(..) | State::Nu(..) => 4,
            State::False | State::True | State::Variable(_) => 5,
        }
    }

    /// A state formula without a bracket around it.
    fn open_state(&mut self, formula: &StateFormula, own: usize, last: bool) {
        match &formula.kind {
            State::False => self.put("false"),
            State::True => self.put("true"),
            State::Variable(name) => self.put(name),
            State::Not(a) => self.prefix("!", a, Place { level: own, last }),
            State::And(a, b) => self.pair(a, "&&", b, own, last),
            State::Or(a, b) => self.pair(a, "||", b, own, last),
            State::Implies(a, b) => self.pair(a, "=>", b, own, last),
            State::Must(r, a) => self.modality(["[", "]"], r, a, Place { level: own, last }),
            State::May(r, a) => self.modality(["<", ">"], r, a, Place { level: own, last }),
            State::Mu(name, a) => self.binder("mu", &name.text, a, last),
            State::Nu(name, a) => self.binder("nu", &name.text, a, last),
        }
    }

    fn prefix(&mut self, sign: &str, operand: &StateFormula, place: Place) {
        self.put(sign);
        self.state(operand, place);
    }

    /// Two operands, the right one of which may be alike without a bracket.
    fn pair(&mut self, left: &StateFormula, sign: &str, right: &StateFormula, own: usize, last: bool) {
        let turned = self.turns(sign);
        self.state(left, Place { level: own + 1 - turned, last: false });
        self.put(sign);
        self.state(right, Place { level: own + turned, last });
    }

    fn modality(&mut self, [open, close]: [&str; 2], run: &RegularFormula, operand: &StateFormula, place: Place) {
        self.put(open);
        self.regular(run, 0);
        self.put(close);
        self.state(operand, place);
    }

    /// A binder, whose body goes as far as it can.
    fn binder(&mut self, word: &str, name: &str, body: &StateFormula, last: bool) {
        self.put(word);
        self.put(name);
        self.put(".");
        let level = if self.writes_by(Misgrammar::BinderStops) { 4 } else { 0 };
        self.state(body, Place { level, last });
    }

    fn regular(&mut self, formula: &RegularFormula, level: usize) {
        let own = self.regular_level(formula);
        if own < level || self.chance(8) {
            self.put("(");
            self.regular(formula, 0);
            self.put(")");
            return;
        }
        match &formula.kind {
            Regular::Step(a) => self.action(a, 0),
            Regular::Sequence(r, s) => self.regular_pair(r, ".", s, own),
            Regular::Choice(r, s) => self.regular_pair(r, "+", s, own),
            Regular::Star(r) => self.repeated(r, "*", own),
            Regular::Plus(r) => self.repeated(r, "+", own),
        }
    }

    fn regular_level(&self, formula: &RegularFormula) -> usize {
        match &formula.kind {
            Regular::Choice(..) => self.writes_by(Misgrammar::ChoiceTighter) as usize,
            Regular::Sequence(..) => 1 - self.writes_by(Misgrammar::ChoiceTighter) as usize,
            Regular::Star(_) | Regular::Plus(_) => 2,
            Regular::Step(_) => 3,
        }
    }

    fn regular_pair(&mut self, left: &RegularFormula, sign: &str, right: &RegularFormula, own: usize) {
        self.regular(left, own + 1);
        self.put(sign);
        self.regular(right, own);
    }

    fn repeated(&mut self, operand: &RegularFormula, sign: &str, own: usize) {
        self.regular(operand, own);
        self.put(sign);
    }

    fn action(&mut self, formula: &ActionFormula, level: usize) {
        let own = action_level(formula);
        if own < level || self.chance(8) {
            self.put("(");
            self.action(formula, 0);
            self.put(")");
            return;
        }
        match &formula.kind {
            Action::False => self.put("false"),
            Action::True => self.put("true"),
            Action::Label(label) => self.label(&label.text),
            Action::Not(a) => {
                self.put("!");
                self.action(a, own);
            }
            Action::And(a, b) => self.action_pair(a, "&&", b, own),
            Action::Or(a, b) => self.action_pair(a, "||", b, own),
            Action::Implies(a, b) => self.action_pair(a, "=>", b, own),
        }
    }

    fn action_pair(&mut self, left: &ActionFormula, sign: &str, right: &ActionFormula, own: usize) {
        let turned = self.turns(sign);
        self.action(left, own + 1 - turned);
        self.put(sign);
        self.action(right, own + turned);
    }

    /// 1 where the left operand may be alike without a bracket, instead of the right one.
    fn turns(&self, sign: &str) -> usize {
        (sign == "=>" && self.writes_by(Misgrammar::ImpliesLeft)) as usize
    }

    /// A label: all of it in quotes, or each name in quotes or bare.
    fn label(&mut self, text: &str) {
        if self.chance(4) {
            let spaced = self.noise.as_mut().map(|random| labels::spaced(random, text));
            self.words.push(labels::quoted(spaced.as_deref().unwrap_or(text)));
            return;
        }
        for (i, name) in text.split('|').enumerate() {
            if i > 0 {
                self.put("|");
            }
            let quotes = !labels::is_bare(name) || self.chance(4);
            self.words.push(if quotes { labels::quoted(name) } else { name.to_string() });
        }
    }
}

fn action_level(formula: &ActionFormula) -> usize {
    match &formula.kind {
        Action::Implies(..) => 0,
        Action::Or(..) => 1,
        Action::And(..) => 2,
        Action::Not(_) => 3,
        Action::False | Action::True | Action::Label(_) => 4,
    }
}
