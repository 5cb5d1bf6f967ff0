//! Random state formulas, as trees.

use super::labels::Pool;
use super::trees::{action, label, name, regular, state};
use bithrowy_front::formula::{Action, ActionFormula, Regular, RegularFormula, State, StateFormula};
use bithrowy_tests::random::Random;

/// Names of variables, some of them also labels' names.
const VARIABLES: [&str; 6] = ["X", "Y", "Z", "a", "X1", "Z1"];

/// A random formula of about so many parts, over a pool's labels. Its variables stand where their binders allow them, but
/// in a few formulas they stand anywhere.
pub fn random(random: &mut Random, pool: &Pool, parts: usize) -> StateFormula {
    let careless = random.chance(1, 60);
    Writer { random, pool, scope: Vec::new(), careless }.state(parts, true)
}

struct Writer<'a> {
    random: &'a mut Random,
    pool: &'a Pool,
    /// The binders around, with whether each stands under an even number of negations.
    scope: Vec<(&'static str, bool)>,
    /// Are variables written without a look at their binders?
    careless: bool,
}

impl Writer<'_> {
    /// A state formula; `even` says that it stands under an even number of negations.
    fn state(&mut self, parts: usize, even: bool) -> StateFormula {
        if parts <= 1 {
            return self.leaf(even);
        }
        let rest = parts - 1;
        let left = self.random.between(0, rest);
        let kind = match self.random.below(100) {
            0..=9 => State::Not(Box::new(self.state(rest, !even))),
            10..=19 => State::And(Box::new(self.state(left, even)), Box::new(self.state(rest - left, even))),
            20..=29 => State::Or(Box::new(self.state(left, even)), Box::new(self.state(rest - left, even))),
            30..=39 => State::Implies(Box::new(self.state(left, !even)), Box::new(self.state(rest - left, even))),
            40..=58 => State::Must(self.run(rest), Box::new(self.state(rest, even))),
            59..=77 => State::May(self.run(rest), Box::new(self.state(rest, even))),
            _ => self.binder(rest, even),
        };
        state(kind)
    }

    /// A binder, in a fifth of the cases with one of the other kind right below it.
    fn binder(&mut self, parts: usize, even: bool) -> State {
        let least = self.random.chance(1, 2);
        if self.random.chance(4, 5) {
            return self.bound(least, even, |writer, _| writer.state(parts.max(2), even));
        }
        self.bound(least, even, |writer, outer| {
            state(writer.bound(!least, even, |writer, inner| {
                let alternating = writer.alternating(least, outer, inner);
                let further = writer.state(parts / 4, even);
                match writer.random.below(4) {
                    0 => state(State::And(Box::new(alternating), Box::new(further))),
                    1 => state(State::Or(Box::new(alternating), Box::new(further))),
                    _ => alternating,
                }
            }))
        })
    }

    /// What the body of two binders of different kinds often says: that a step comes again and again, or that it does not.
    fn alternating(&mut self, least: bool, outer: &str, inner: &str) -> StateFormula {
        let variable = |name: &str| Box::new(state(State::Variable(name.to_string())));
        let (one, other) = (self.regular(1), self.regular(1));
        if least {
            let must = |run, name| Box::new(state(State::Must(run, variable(name))));
            state(State::And(must(one, outer), must(other, inner)))
        } else {
            let may = |run, name| Box::new(state(State::May(run, variable(name))));
            state(State::Or(may(one, outer), may(other, inner)))
        }
    }

    /// A binder with its body.
    fn bound(&mut self, least: bool, even: bool, body: impl FnOnce(&mut Self, &str) -> StateFormula) -> State {
        let variable = self.random.pick(&VARIABLES);
        self.scope.push((variable, even));
        let body = Box::new(body(self, variable));
        self.scope.pop();
        if least {
            State::Mu(name(variable), body)
        } else {
            State::Nu(name(variable), body)
        }
    }

    /// A variable if one is allowed, or whether some step is possible, or a constant.
    fn leaf(&mut self, even: bool) -> StateFormula {
        let allowed: Vec<&str> = VARIABLES.into_iter().filter(|&variable| self.allows(variable, even)).collect();
        let kind = match self.random.below(12) {
            0..=7 if self.careless => State::Variable(self.random.pick(&VARIABLES).to_string()),
            0..=7 if !allowed.is_empty() => State::Variable(self.random.pick(&allowed).to_string()),
            0..=4 => State::May(self.regular(1), Box::new(state(State::True))),
            5..=9 => State::Must(self.regular(1), Box::new(state(State::False))),
            10 => State::True,
            _ => State::False,
        };
        state(kind)
    }

    /// Does the innermost binder of a name allow its variable here?
    fn allows(&self, variable: &str, even: bool) -> bool {
        self.scope.iter().rev().find(|binder| binder.0 == variable).is_some_and(|binder| binder.1 == even)
    }

    /// What stands in a modality: mostly a few steps, and very seldom what doubles again and again when it is written out.
    fn run(&mut self, room: usize) -> RegularFormula {
        match self.random.below(400) {
            0..=149 => self.regular(1),
            150 => self.tower(),
            _ => {
                let parts = self.random.between(1, room.clamp(1, 6));
                self.regular(parts)
            }
        }
    }

    /// A step that is repeated, and that repeated, and so on.
    fn tower(&mut self) -> RegularFormula {
        let mut run = self.regular(1);
        for _ in 0..self.random.between(2, 20) {
            let star = self.random.chance(1, 4);
            run = regular(if star { Regular::Star(Box::new(run)) } else { Regular::Plus(Box::new(run)) });
        }
        run
    }

    fn regular(&mut self, parts: usize) -> RegularFormula {
        let rest = parts.saturating_sub(1);
        let left = self.random.between(0, rest);
        let kind = match self.random.below(8) {
            _ if parts <= 1 => {
                let parts = self.random.pick(&[1, 1, 1, 2, 3, 4]);
                Regular::Step(self.action(parts))
            }
            0..=1 => Regular::Sequence(Box::new(self.regular(left)), Box::new(self.regular(rest - left))),
            2..=3 => Regular::Choice(Box::new(self.regular(left)), Box::new(self.regular(rest - left))),
            4..=6 => Regular::Star(Box::new(self.regular(rest))),
            _ => Regular::Plus(Box::new(self.regular(rest))),
        };
        regular(kind)
    }

    fn action(&mut self, parts: usize) -> ActionFormula {
        let rest = parts.saturating_sub(1);
        let left = self.random.between(0, rest);
        let kind = match self.random.below(8) {
            0..=1 if parts <= 1 => Action::True,
            2 if parts <= 1 && self.random.chance(1, 3) => Action::False,
            _ if parts <= 1 => Action::Label(label(&self.pool.of_formula(self.random))),
            0..=2 => Action::Not(Box::new(self.action(rest))),
            3..=4 => Action::And(Box::new(self.action(left)), Box::new(self.action(rest - left))),
            5..=6 => Action::Or(Box::new(self.action(left)), Box::new(self.action(rest - left))),
            _ => Action::Implies(Box::new(self.action(left)), Box::new(self.action(rest - left))),
        };
        action(kind)
    }
}
