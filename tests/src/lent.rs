//! Memory lent to a call: full of noise, guarded on both sides, and looked at whole after the call.

use crate::compare::Check;
use crate::random::Random;
use std::ops::Not;

/// What a call must leave in the working bytes.
pub enum Work {
    Unchanged,
    /// These values.
    Values(Vec<u8>),
    /// So many bytes, each 0 or 1.
    ZeroOrOne(usize),
}

/// Elements before and behind each lent place, which must not change. Odd, so that lent bytes start at an odd address.
const GUARD: usize = 9;

/// Memory lent to a call, full of noise, with guards around it.
pub struct Lent<T> {
    before: Vec<T>,
    all: Vec<T>,
    size: usize,
}

impl<T: Copy + PartialEq> Lent<T> {
    pub fn new(size: usize, random: &mut Random, noise: fn(u64) -> T) -> Lent<T> {
        let before: Vec<T> = (0..size + 2 * GUARD).map(|_| noise(random.word())).collect();
        Lent { all: before.clone(), before, size }
    }

    pub fn lend(&mut self) -> &mut [T] {
        &mut self.all[GUARD..GUARD + self.size]
    }

    /// The place starts with what was to be written, and nothing else changed.
    pub fn holds(&self, written: &[T], name: &str) -> Check {
        let end = GUARD + written.len();
        if self.all[GUARD..end] != *written {
            let at = (0..written.len()).find(|&i| self.all[GUARD + i] != written[i]);
            return Err(format!("{name} differ first at {}", at.unwrap()));
        }
        self.beyond_unchanged(written.len(), name)
    }

    /// Nothing but the first `count` elements changed.
    fn beyond_unchanged(&self, count: usize, name: &str) -> Check {
        let end = GUARD + count;
        if self.all[..GUARD] != self.before[..GUARD] {
            return Err(format!("{name}: changed before the lent place"));
        }
        match (end..self.all.len()).find(|&i| self.all[i] != self.before[i]) {
            Some(i) => Err(format!("{name}: changed at {} of {} lent, {count} to write", i - GUARD, self.size)),
            None => Ok(()),
        }
    }
}

impl Lent<u8> {
    pub fn bytes(size: usize, random: &mut Random) -> Lent<u8> {
        Lent::new(size, random, |word| word as u8)
    }

    pub fn holds_work(&self, work: &Work) -> Check {
        match work {
            Work::Unchanged => self.holds(&[], "working bytes"),
            Work::Values(values) => self.holds(values, "working bytes"),
            Work::ZeroOrOne(count) => {
                if let Some(i) = (0..*count).find(|&i| self.all[GUARD + i] > 1) {
                    return Err(format!("working byte {i} is {} after 14", self.all[GUARD + i]));
                }
                self.beyond_unchanged(*count, "working bytes")
            }
        }
    }
}

impl Lent<u64> {
    pub fn words(size: usize, random: &mut Random) -> Lent<u64> {
        Lent::new(size, random, |word| word)
    }
}

/// Each element of lent places and of their guards, touched in turn, is noticed; answers how many were.
pub fn check() -> Result<u64, String> {
    let mut random = Random::new(1);
    let mut noticed = 0;
    for (size, written) in [(0, 0), (4, 0), (4, 4), (5, 4)] {
        let mut marks = Lent::words(size, &mut random);
        let words = marks.lend()[..written].to_vec();
        noticed += each_touched(&mut marks, |marks| marks.holds(&words, "mark words"))?;

        let mut work = Lent::bytes(size, &mut random);
        work.lend()[..written].fill(1);
        for values in [Work::Values(vec![1; written]), Work::ZeroOrOne(written)] {
            noticed += each_touched(&mut work, |work| work.holds_work(&values))?;
        }
    }
    Ok(noticed)
}

/// Touches each element of a right place and its guards in turn; answers how many were noticed, which is all of them.
fn each_touched<T>(place: &mut Lent<T>, holds: impl Fn(&Lent<T>) -> Check) -> Result<u64, String>
where
    T: Copy + Not<Output = T>,
{
    holds(place)?;
    for i in 0..place.all.len() {
        place.all[i] = !place.all[i];
        if holds(place).is_ok() {
            return Err(format!("element {i} of {} with its guards was touched and not noticed", place.all.len()));
        }
        place.all[i] = !place.all[i];
    }
    Ok(place.all.len() as u64)
}
