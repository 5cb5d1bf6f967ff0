//! What the tests of text share: random models and formulas, how they are written, and what they mean by relations on
//! states.

// Each test program uses its own part of this.
#![allow(dead_code)]

pub mod again;
pub mod comparison;
pub mod counting;
pub mod difference;
pub mod expected;
pub mod formulas;
pub mod labels;
pub mod misreadings;
pub mod relations;
pub mod shrinking;
pub mod systems;
pub mod trees;
pub mod trial;
pub mod writing;
