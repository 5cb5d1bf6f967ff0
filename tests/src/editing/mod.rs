//! Models that change while a component is edited: the rules of the four calls for a model of any bytes, the set of
//! transitions that a list of calls holds, and the comparison of the calls with both.

pub mod compare;
pub mod faults;
pub mod foreign;
pub mod held;
pub mod lists;
pub mod rules;
pub mod same_set;
pub mod slips;
pub mod stream;
pub mod worked;
