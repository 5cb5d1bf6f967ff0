//! What a formula means as it is written. An action formula is a set of labels, a regular formula a relation between the
//! state where a run begins and the state where it ends, a state formula a set of states: nothing is expanded, pushed
//! inward or renamed.

use super::labels;
use super::systems::System;
use bithrowy_front::formula::{Action, ActionFormula, Regular, RegularFormula, State, StateFormula};
use std::collections::HashMap;
use std::rc::Rc;

/// A set of states as bits.
type Set = [u64; 4];

const NONE: Set = [0; 4];

fn contains(set: &Set, state: usize) -> bool {
    set[state / 64] >> (state % 64) & 1 == 1
}

fn insert(set: &mut Set, state: usize) {
    set[state / 64] |= 1 << (state % 64);
}

fn union(one: &Set, other: &Set) -> Set {
    std::array::from_fn(|i| one[i] | other[i])
}

fn intersection(one: &Set, other: &Set) -> Set {
    std::array::from_fn(|i| one[i] & other[i])
}

/// Is a set within another?
fn within(one: &Set, other: &Set) -> bool {
    intersection(one, other) == *one
}

/// For each state where a run may begin, the states where it may end.
type Relation = Vec<Set>;

/// A run of one relation, and then one of another.
fn composed(first: &Relation, second: &Relation) -> Relation {
    let ends = |between: &Set| {
        let on = (0..second.len()).filter(|&state| contains(between, state));
        on.fold(NONE, |ends, state| union(&ends, &second[state]))
    };
    first.iter().map(ends).collect()
}

/// A run of one relation or of another.
fn either(one: &Relation, other: &Relation) -> Relation {
    one.iter().zip(other).map(|(a, b)| union(a, b)).collect()
}

/// Runs of a relation one after another, at least one: the transitive closure, in which each state in turn may stand
/// between.
fn repeated(once: &Relation) -> Relation {
    let mut closed = once.clone();
    for between in 0..closed.len() {
        let further = closed[between];
        for ends in closed.iter_mut().filter(|ends| contains(ends, between)) {
            *ends = union(ends, &further);
        }
    }
    closed
}

/// The relation with runs of no step added.
fn with_no_step(mut relation: Relation) -> Relation {
    for (state, ends) in relation.iter_mut().enumerate() {
        insert(ends, state);
    }
    relation
}

/// What a slip may change here.
#[derive(Clone, Copy)]
pub struct Reading {
    /// Does a label of a formula accept a label of a model, with a word for the silent step?
    pub alike: fn(&str, &str, &str) -> bool,
    /// Does an inner binder go on from where it stopped in the round before?
    pub inner_kept: bool,
}

/// The right one.
pub const RIGHT: Reading = Reading { alike: labels::alike, inner_kept: false };

/// The states of a system, of at most 256, where a formula holds. Its variables are bound, and each stands where the body
/// of its binder is monotone in it.
pub fn states(system: &System, formula: &StateFormula, reading: Reading) -> Vec<bool> {
    let mut full = NONE;
    (0..system.states).for_each(|state| insert(&mut full, state));
    let (relations, kept) = (HashMap::new(), HashMap::new());
    let set = Meaning { system, reading, full, scope: Vec::new(), relations, kept }.set(formula);
    (0..system.states).map(|state| contains(&set, state)).collect()
}

struct Meaning<'a> {
    system: &'a System,
    reading: Reading,
    full: Set,
    /// The binders around, with the sets that they have now.
    scope: Vec<(&'a str, Set)>,
    /// The relations of the modalities' regular formulas, which depend on nothing around.
    relations: HashMap<*const RegularFormula, Rc<Relation>>,
    /// Where each binder stopped last, at which only a slip looks.
    kept: HashMap<*const StateFormula, Set>,
}

impl<'a> Meaning<'a> {
    fn set(&mut self, formula: &'a StateFormula) -> Set {
        match &formula.kind {
            State::False => NONE,
            State::True => self.full,
            State::Variable(name) => self.variable(name),
            State::Not(a) => {
                let set = self.set(a);
                self.others(&set)
            }
            State::And(a, b) => intersection(&self.set(a), &self.set(b)),
            State::Or(a, b) => union(&self.set(a), &self.set(b)),
            State::Implies(a, b) => {
                let premise = self.set(a);
                union(&self.others(&premise), &self.set(b))
            }
            State::Must(r, a) => {
                let operand = self.set(a);
                self.begins(r, |ends| within(ends, &operand))
            }
            State::May(r, a) => {
                let operand = self.set(a);
                self.begins(r, |ends| intersection(ends, &operand) != NONE)
            }
            State::Mu(name, a) => self.fixed(formula, &name.text, a, NONE),
            State::Nu(name, a) => self.fixed(formula, &name.text, a, self.full),
        }
    }

    fn others(&self, set: &Set) -> Set {
        std::array::from_fn(|i| self.full[i] & !set[i])
    }

    fn variable(&self, name: &str) -> Set {
        self.scope.iter().rev().find(|binder| binder.0 == name).expect("a variable that is bound").1
    }

    /// The states from which the ends of all runs are as asked.
    fn begins(&mut self, run: &'a RegularFormula, asked: impl Fn(&Set) -> bool) -> Set {
        let ends = self.relations.get(&(run as *const _)).cloned().unwrap_or_else(|| Rc::new(self.relation(run)));
        self.relations.insert(run, ends.clone());
        let mut set = NONE;
        (0..ends.len()).filter(|&state| asked(&ends[state])).for_each(|state| insert(&mut set, state));
        set
    }

    /// The set at which a binder's body, worked out again and again from an extreme set, stays. Each round but the last
    /// adds a state, or takes one away, so there are no more rounds than states and one.
    fn fixed(&mut self, binder: &'a StateFormula, name: &'a str, body: &'a StateFormula, extreme: Set) -> Set {
        let kept = self.kept.get(&(binder as *const _)).copied().filter(|_| self.reading.inner_kept);
        let mut set = kept.unwrap_or(extreme);
        for _ in 0..=self.system.states {
            self.scope.push((name, set));
            set = self.set(body);
            let (_, before) = self.scope.pop().expect("the binder that was pushed");
            if set == before {
                break;
            }
        }
        self.kept.insert(binder, set);
        set
    }

    fn relation(&self, run: &RegularFormula) -> Relation {
        match &run.kind {
            Regular::Step(a) => self.steps(a),
            Regular::Sequence(r, s) => composed(&self.relation(r), &self.relation(s)),
            Regular::Choice(r, s) => either(&self.relation(r), &self.relation(s)),
            Regular::Star(r) => with_no_step(repeated(&self.relation(r))),
            Regular::Plus(r) => repeated(&self.relation(r)),
        }
    }

    /// The relation of the transitions that an action formula accepts.
    fn steps(&self, formula: &ActionFormula) -> Relation {
        let mut relation = vec![NONE; self.system.states];
        for (source, label, target) in &self.system.transitions {
            if self.accepts(formula, label) {
                insert(&mut relation[*source], *target);
            }
        }
        relation
    }

    fn accepts(&self, formula: &ActionFormula, label: &str) -> bool {
        match &formula.kind {
            Action::False => false,
            Action::True => true,
            Action::Label(own) => (self.reading.alike)(&own.text, label, self.system.silent),
            Action::Not(a) => !self.accepts(a, label),
            Action::And(a, b) => self.accepts(a, label) && self.accepts(b, label),
            Action::Or(a, b) => self.accepts(a, label) || self.accepts(b, label),
            Action::Implies(a, b) => !self.accepts(a, label) || self.accepts(b, label),
        }
    }
}
