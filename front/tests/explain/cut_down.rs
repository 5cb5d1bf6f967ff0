//! What an explanation prints is enough: in a model that has no other transitions, or in which all states that it does not
//! visit are made anew by chance, the verdict is the same.

use bithrowy_front::explain::{Ending, Explanation, Step};
use bithrowy_tests::formats::*;
use bithrowy_tests::meaning::states_by_game;
use bithrowy_tests::random::Random;
use std::collections::BTreeSet;

/// The transitions that are printed, and the states that are visited.
pub struct Printed {
    transitions: Vec<Transition>,
    states: BTreeSet<usize>,
}

/// What an explanation prints, if it rests on that alone: not on sides that are facts by themselves, nor on all that can
/// come.
pub fn printed(case: &Case, explanation: &Explanation) -> Option<Printed> {
    let mut printed = Printed { transitions: Vec::new(), states: BTreeSet::new() };
    printed.add(case, explanation).then_some(printed)
}

impl Printed {
    fn add(&mut self, case: &Case, explanation: &Explanation) -> bool {
        self.states.insert(explanation.claim.state);
        self.go(case, &explanation.run);
        let alone = match &explanation.ending {
            Ending::Constant | Ending::NoTransition => true,
            Ending::Loop { steps, .. } => {
                self.go(case, steps);
                true
            }
            Ending::Sides(sides) => sides.iter().all(|side| self.add(case, side)),
            Ending::Each(_) | Ending::Closed { .. } | Ending::NoSingleRun => false,
        };
        alone && explanation.beside.is_empty()
    }

    fn go(&mut self, case: &Case, steps: &[Step]) {
        let gone = steps.iter().map(|&step| case.transitions[step]);
        self.states.extend(gone.clone().map(|transition| transition.target));
        self.transitions.extend(gone);
    }

    /// The verdict in the model that has the printed transitions alone.
    pub fn verdict_by_these_alone(&self, case: &Case) -> bool {
        verdict(&Case { transitions: self.transitions.clone(), ..case.clone() })
    }

    /// The verdict in a model that has the visited states' transitions, and others by chance.
    pub fn verdict_with_others(&self, case: &Case, random: &mut Random) -> bool {
        let mut transitions = case.transitions.clone();
        transitions.retain(|transition| self.states.contains(&transition.source));
        for source in (0..case.states).filter(|state| !self.states.contains(state)) {
            for _ in 0..random.below(4) {
                let label = random.below(case.labels.count());
                transitions.push(Transition { source, label, target: random.below(case.states) });
            }
        }
        verdict(&Case { transitions, ..case.clone() })
    }
}

fn verdict(case: &Case) -> bool {
    states_by_game(case)[case.initial]
}
