//! Explanations: worked out by hand, replayed by rules of their own, and from models that are cut down to what they print.

mod by_chance;
mod by_hand;
mod chance;
mod cut_down;
mod read_back;
mod region;
mod replay;
mod rules;
mod shortest;
mod told;
mod truth;
mod wording;
