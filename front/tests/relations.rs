//! The relations, against which the random texts are held, on formulas worked out by hand.

mod support;

use bithrowy_front::parser;
use bithrowy_front::source::Source;
use support::relations;
use support::systems::System;

/// A ring 0, 1, 2 by a, b and the silent step; from 2 also to 3, where nothing goes on, by b and a together.
fn ring() -> System {
    let transitions = [(0, "a", 1), (1, "b", 2), (2, "tau", 0), (2, "b|a", 3)];
    let transitions = transitions.map(|(source, label, target)| (source, label.to_string(), target)).to_vec();
    System { states: 4, initial: 0, silent: "tau", transitions }
}

/// Each formula with the states where it holds, worked out by hand.
const WORKED_OUT: [(&str, &[usize]); 25] = [
    ("<true>true", &[0, 1, 2]),
    ("[false]false", &[0, 1, 2, 3]),
    // Only 3 has no transition by any label.
    ("[true]false", &[3]),
    ("[a + b]false", &[2, 3]),
    // From 1 the run is b and the silent step; from 2 and 3 there is none.
    ("<a.b>true", &[0]),
    ("<b.tau + tau.a>true", &[1, 2]),
    // Where no run of both steps is, all of them lead where they should.
    ("[a.b]false", &[1, 2, 3]),
    ("<true+>[true]false", &[0, 1, 2]),
    ("<true*>[true]false", &[0, 1, 2, 3]),
    ("[true*]<true>true", &[]),
    // Each run of a and b in turn, from 0, ends in 0 or 2.
    ("[(a.b)*](<a>true || <tau>true)", &[0, 2]),
    ("<(a.b)+>true", &[0]),
    ("<(a.b)*>true", &[0, 1, 2, 3]),
    // One label with two names is neither of both, and their order does not count.
    ("<a|b>true", &[2]),
    ("<a|b|tau>true", &[2]),
    ("<a || b>true", &[0, 1]),
    ("<!a && !b>true", &[2]),
    // Accepted are all labels but a.
    ("<a => b>true", &[1, 2]),
    // The premise holds in 1 alone, where no silent step is.
    ("![b]false => <tau>true", &[0, 2, 3]),
    // From the ring one can go round for ever.
    ("mu X. [true]X", &[3]),
    ("nu X. <true>X", &[0, 1, 2]),
    ("mu X. <a|b>true || <!a>X", &[1, 2]),
    ("nu X. mu X. <true>X", &[]),
    // On the ring b comes again and again; in 3 it does not.
    ("nu X. mu Y. <b>X || <!b>Y", &[0, 1, 2]),
    ("mu X. nu Y. <b>X || <!b>Y", &[]),
];

#[test]
fn relations_give_what_is_worked_out_by_hand() {
    let ring = ring();
    for (text, expected) in WORKED_OUT {
        let source = Source::new("worked out", text);
        let formula = parser::read(&source, "tau").unwrap_or_else(|fault| panic!("{fault}"));
        let states = relations::states(&ring, &formula, relations::RIGHT);
        let found: Vec<usize> = (0..ring.states).filter(|&state| states[state]).collect();
        assert_eq!(found, expected, "{text}");
    }
}
