//! Lists of calls on a model, made by chance: on cases of all sizes, on tables that are full or almost, and on tables
//! that are filled.

use super::compare::{Call, List};
use super::held::Held;
use super::rules::room_of;
use crate::damage::damaged;
use crate::formats::*;
use crate::generate::{self, Size};
use crate::random::Random;
use crate::reader::read_case;
use crate::text::case;
use std::collections::BTreeSet;

/// A list on any case but the largest, with calls in every order; in some the table is emptied and filled again, or
/// another case opened in the same model. Where there is no room to open the case, few calls follow.
pub fn list(random: &mut Random) -> List {
    let case = accepted_case(random);
    let mut chosen = Chosen::new(&case);
    let model = noise(random, &case);
    chosen.open(random, &case);
    let adds = random.pick(&[2, 5, 8]);
    let most = if model.len() < room_of(&case) { 6 } else { 50 };
    let count = random.between(5, most);
    chosen.by_chance(random, count, adds);
    if chosen.held.set().len() <= 40 && random.chance(1, 4) {
        chosen.emptied(random);
    }
    if random.chance(1, 8) {
        let other = accepted_case(random);
        chosen.open(random, &other);
        chosen.by_chance(random, 5, adds);
    }
    List { model, calls: chosen.calls }
}

/// A case that is accepted.
fn accepted_case(random: &mut Random) -> Case {
    loop {
        let case = generate::case(random);
        if read_case(&case.bytes()).is_ok() {
            return case;
        }
    }
}

/// A list on a table that is full or lacks a few, with copies up to the limit.
pub fn full_list(random: &mut Random) -> List {
    let size = if random.chance(1, 20) { Size::Full } else { Size::Wide };
    let few = generate::case_of(random, size);
    let held = TRANSITIONS - random.below(6);
    let distinct = distinct_of(random, &few, held);
    let mut transitions = in_any_order(random, distinct);
    for _ in 0..random.below(TRANSITIONS - held + 1) {
        let copy = random.pick(&transitions);
        transitions.insert(random.below(transitions.len() + 1), copy);
    }
    let case = Case { transitions, ..few };
    let mut chosen = Chosen::new(&case);
    chosen.calls.push(Call::Open(case.bytes()));
    let (count, adds) = (random.between(20, 50), random.pick(&[5, 8]));
    chosen.by_chance(random, count, adds);
    List { model: noise(random, &case), calls: chosen.calls }
}

/// A list that adds transitions until as many are held as there may be, and goes on.
pub fn filling_list(random: &mut Random) -> List {
    let case = generate::case_of(random, Size::Wide);
    let mut chosen = Chosen::new(&case);
    chosen.calls.push(Call::Open(case.bytes()));
    let all = distinct_of(random, &case, TRANSITIONS);
    for t in in_any_order(random, all) {
        chosen.add(t);
        if random.chance(1, 200) {
            chosen.want(random);
        }
    }
    chosen.by_chance(random, 80, 8);
    List { model: bytes_by_chance(random, room_of(&case)), calls: chosen.calls }
}

/// The list on eight states and 32 labels, between which there are just 2,048 transitions: all are added, added again,
/// and dropped in another order.
pub fn complete_list(random: &mut Random) -> List {
    let case = case(8, 32, &[(0, 31, 7), (7, 0, 0), (0, 31, 7)], "label 31", "mu X or dia 0 true box 0 X");
    let all = distinct_of(random, &case, TRANSITIONS);
    let mut chosen = Chosen::new(&case);
    chosen.calls.push(Call::Open(case.bytes()));
    for _ in 0..2 {
        in_any_order(random, all.clone()).into_iter().for_each(|t| chosen.add(t));
        chosen.by_chance(random, 20, 10);
        chosen.want(random);
    }
    in_any_order(random, all.clone()).into_iter().for_each(|t| chosen.drop(t));
    chosen.by_chance(random, 20, 2);
    List { model: bytes_by_chance(random, room_of(&case)), calls: chosen.calls }
}

/// Noise for a model: most often room for the case with 2,048 transitions or a little more, sometimes too little.
fn noise(random: &mut Random, case: &Case) -> Vec<u8> {
    let needed = room_of(case);
    let size = match random.below(24) {
        0..=10 => needed,
        11..=21 => needed + random.between(1, 40),
        22 => needed - 1,
        _ => random.below(needed),
    };
    bytes_by_chance(random, size)
}

pub fn bytes_by_chance(random: &mut Random, count: usize) -> Vec<u8> {
    (0..count).map(|_| random.word() as u8).collect()
}

/// So many transitions between the states of a case, under its labels.
fn distinct_of(random: &mut Random, case: &Case, count: usize) -> BTreeSet<Transition> {
    let mut set = BTreeSet::new();
    while set.len() < count {
        set.insert(any_transition(random, case));
    }
    set
}

/// The transitions of a set, shuffled.
pub fn in_any_order(random: &mut Random, set: BTreeSet<Transition>) -> Vec<Transition> {
    let mut all: Vec<Transition> = set.into_iter().collect();
    for i in (1..all.len()).rev() {
        all.swap(i, random.below(i + 1));
    }
    all
}

/// A transition with numbers in range.
pub fn any_transition(random: &mut Random, case: &Case) -> Transition {
    let (n, l) = (case.states, case.labels.count());
    Transition { source: random.below(n), label: random.below(l), target: random.below(n) }
}

/// A list under construction, with the set that it holds so far, from which transitions are chosen.
pub struct Chosen {
    pub held: Held,
    pub calls: Vec<Call>,
}

impl Chosen {
    pub fn new(case: &Case) -> Chosen {
        Chosen { held: Held::new(case.clone()), calls: Vec::new() }
    }

    /// Opens the case, which may be damaged.
    fn open(&mut self, random: &mut Random, case: &Case) {
        let mut bytes = case.bytes();
        if random.chance(1, 30) {
            bytes = damaged(random, &bytes, 2);
        }
        self.calls.push(Call::Open(bytes));
        self.held = Held::new(case.clone());
    }

    pub fn add(&mut self, t: Transition) {
        self.held.add(t);
        self.calls.push(Call::Add(t));
    }

    pub fn drop(&mut self, t: Transition) {
        self.held.drop(t);
        self.calls.push(Call::Drop(t));
    }

    pub fn want(&mut self, random: &mut Random) {
        let words = random.pick(&[4, 4, 4, 4, 4, 5, 3, 0]);
        self.calls.push(Call::Want { words, limit: random.below(5) });
    }

    /// So many calls by chance. Of ten edits so many are adds.
    pub fn by_chance(&mut self, random: &mut Random, count: usize, adds: usize) {
        for _ in 0..count {
            if random.chance(1, 5) {
                self.want(random);
            } else if random.chance(adds, 10) {
                let t = self.transition(random, 2);
                self.add(t);
            } else {
                let t = self.transition(random, 6);
                self.drop(t);
            }
        }
    }

    /// Drops all that is held, one more, and adds it back in another order.
    fn emptied(&mut self, random: &mut Random) {
        let (case, all) = (self.held.opened().clone(), self.held.set().clone());
        in_any_order(random, all.clone()).into_iter().for_each(|t| self.drop(t));
        self.want(random);
        self.drop(any_transition(random, &case));
        in_any_order(random, all).into_iter().for_each(|t| self.add(t));
        self.want(random);
    }

    /// A transition that is held, in so many of ten cases; one that is out of range, in one; else any.
    fn transition(&self, random: &mut Random, held: usize) -> Transition {
        let any = any_transition(random, self.held.opened());
        let one_held = self.held.any(random).unwrap_or(any);
        match random.below(10) {
            9 => out_of_range(random, self.held.opened(), one_held),
            choice if choice < held => one_held,
            _ => any,
        }
    }
}

/// The transition with one of its numbers made too large, in a way that fewer bits would not show.
pub fn out_of_range(random: &mut Random, case: &Case, t: Transition) -> Transition {
    let other = |random: &mut Random, number: usize, bound: usize| {
        let wide = random.pick(&[1 << 8, 1 << 16, 1 << 16, 1 << 32, 1 << 63, usize::MAX - 0xffff]);
        random.pick(&[bound, bound + 1, 0xffff, wide + number, wide + number, usize::MAX])
    };
    match random.below(3) {
        0 => Transition { source: other(random, t.source, case.states), ..t },
        1 => Transition { label: other(random, t.label, case.labels.count()), ..t },
        _ => Transition { target: other(random, t.target, case.states), ..t },
    }
}
