//! A random model with a random formula, and how both are written.

use super::formulas;
use super::labels::Pool;
use super::systems::System;
use super::writing::{self, Misgrammar};
use bithrowy_front::formula::StateFormula;
use bithrowy_tests::random::Random;

/// A model and a formula, and how they are written.
#[derive(Clone, Debug)]
pub struct Trial {
    pub system: System,
    pub formula: StateFormula,
    pub unknown_labels: bool,
    /// What the blanks, comments and further brackets come from; nothing for the plain texts.
    pub noise: Option<u64>,
}

impl Trial {
    pub fn random(seed: u64) -> Trial {
        let mut random = Random::new(seed);
        let pool = Pool::new(&mut random);
        let system = System::random(&mut random, &pool);
        let parts = random.between(1, if system.states > 12 { 6 } else { 16 });
        let formula = formulas::random(&mut random, &pool, parts);
        Trial { system, formula, unknown_labels: random.chance(9, 10), noise: Some(random.word()) }
    }

    pub fn aut(&self) -> String {
        match self.noise {
            Some(seed) => self.system.noisy(&mut Random::new(seed)),
            None => self.system.plain(),
        }
    }

    pub fn mcf(&self, grammar: Option<Misgrammar>) -> String {
        match self.noise {
            Some(seed) => writing::noisy(&mut Random::new(!seed), &self.formula, grammar),
            None => writing::plain(&self.formula, grammar),
        }
    }
}
