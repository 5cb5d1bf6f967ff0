//! Sets of states in words: state s is bit s mod 64 of word s / 64.

pub const WORDS: usize = 4;
pub const STATES: usize = 64 * WORDS;

pub type Set = [u64; WORDS];

pub const EMPTY: Set = [0; WORDS];

/// The word of the 64 states from `from` on: those below n.
fn word_below(n: usize, from: usize) -> u64 {
    if n <= from {
        0
    } else if n - from >= 64 {
        !0
    } else {
        (1 << (n - from)) - 1
    }
}

/// Where an iteration starts: no state for mu, every state below n for nu.
pub fn initial(n: usize, nu: bool) -> Set {
    if nu {
        std::array::from_fn(|i| word_below(n, 64 * i))
    } else {
        EMPTY
    }
}

pub fn test(set: &Set, s: usize) -> bool {
    set[s / 64] >> (s % 64) & 1 == 1
}

pub fn add(set: &mut Set, s: usize) {
    set[s / 64] |= 1 << (s % 64);
}

/// Takes the first state out of a set, if there is one.
pub fn take(set: &mut Set) -> Option<usize> {
    let i = set.iter().position(|&word| word != 0)?;
    let s = 64 * i + set[i].trailing_zeros() as usize;
    set[i] &= set[i] - 1;
    Some(s)
}

/// How many states are in the set.
pub fn count(set: &Set) -> usize {
    set.iter().map(|word| word.count_ones() as usize).sum()
}

/// The states in both sets, or (either) in at least one.
pub fn combine(a: &Set, b: &Set, either: bool) -> Set {
    std::array::from_fn(|i| if either { a[i] | b[i] } else { a[i] & b[i] })
}

/// The states below n that are not in the set.
pub fn complement(set: &Set, n: usize) -> Set {
    std::array::from_fn(|i| word_below(n, 64 * i) ^ set[i])
}
