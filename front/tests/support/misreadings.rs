//! Formulas as wrong programs take them: each is the formula with one kind of part replaced, which is then given its right
//! meaning.

use super::counting::Wrong;
use super::systems::System;
use super::trees::{action, label, name, regular, state, step};
use bithrowy_front::formula::{Action, ActionFormula, Regular, RegularFormula, State, StateFormula};

/// What a formula is taken to be; nothing where the slip leaves a variable where its binder does not allow it.
pub type Taken = fn(&System, &StateFormula) -> Option<StateFormula>;

/// What becomes of each part of a formula, once its own parts are replaced.
struct Rules<'a> {
    state: &'a dyn Fn(State) -> State,
    run: &'a dyn Fn(Regular) -> Regular,
    action: &'a dyn Fn(Action) -> Action,
}

const AS_WRITTEN: Rules = Rules { state: &|kind| kind, run: &|kind| kind, action: &|kind| kind };

fn by_states(formula: &StateFormula, rule: &dyn Fn(State) -> State) -> Option<StateFormula> {
    allowed(Rules { state: rule, ..AS_WRITTEN }.of_state(formula))
}

fn by_runs(formula: &StateFormula, rule: &dyn Fn(Regular) -> Regular) -> Option<StateFormula> {
    allowed(Rules { run: rule, ..AS_WRITTEN }.of_state(formula))
}

fn by_actions(formula: &StateFormula, rule: &dyn Fn(Action) -> Action) -> Option<StateFormula> {
    allowed(Rules { action: rule, ..AS_WRITTEN }.of_state(formula))
}

fn allowed(formula: StateFormula) -> Option<StateFormula> {
    Wrong::of(&formula).is_none().then_some(formula)
}

impl Rules<'_> {
    fn of_state(&self, formula: &StateFormula) -> StateFormula {
        let again = |a: &StateFormula| Box::new(self.of_state(a));
        let kind = match &formula.kind {
            State::False => State::False,
            State::True => State::True,
            State::Variable(name) => State::Variable(name.clone()),
            State::Not(a) => State::Not(again(a)),
            State::And(a, b) => State::And(again(a), again(b)),
            State::Or(a, b) => State::Or(again(a), again(b)),
            State::Implies(a, b) => State::Implies(again(a), again(b)),
            State::Must(r, a) => State::Must(self.of_run(r), again(a)),
            State::May(r, a) => State::May(self.of_run(r), again(a)),
            State::Mu(name, a) => State::Mu(name.clone(), again(a)),
            State::Nu(name, a) => State::Nu(name.clone(), again(a)),
        };
        state((self.state)(kind))
    }

    fn of_run(&self, run: &RegularFormula) -> RegularFormula {
        let again = |r: &RegularFormula| Box::new(self.of_run(r));
        let kind = match &run.kind {
            Regular::Step(a) => Regular::Step(self.of_action(a)),
            Regular::Sequence(r, s) => Regular::Sequence(again(r), again(s)),
            Regular::Choice(r, s) => Regular::Choice(again(r), again(s)),
            Regular::Star(r) => Regular::Star(again(r)),
            Regular::Plus(r) => Regular::Plus(again(r)),
        };
        regular((self.run)(kind))
    }

    fn of_action(&self, formula: &ActionFormula) -> ActionFormula {
        let again = |a: &ActionFormula| Box::new(self.of_action(a));
        let kind = match &formula.kind {
            Action::False => Action::False,
            Action::True => Action::True,
            Action::Label(label) => Action::Label(label.clone()),
            Action::Not(a) => Action::Not(again(a)),
            Action::And(a, b) => Action::And(again(a), again(b)),
            Action::Or(a, b) => Action::Or(again(a), again(b)),
            Action::Implies(a, b) => Action::Implies(again(a), again(b)),
        };
        action((self.action)(kind))
    }
}

/// `[R]a` fails where R has no run.
pub fn box_needs_run(_: &System, formula: &StateFormula) -> Option<StateFormula> {
    by_states(formula, &|kind| match kind {
        State::Must(r, a) => {
            let some = State::May(r.clone(), Box::new(state(State::True)));
            State::And(Box::new(state(State::Must(r, a))), Box::new(state(some)))
        }
        kind => kind,
    })
}

/// `[R+S]a` is `[R]a || [S]a`.
pub fn box_of_either(_: &System, formula: &StateFormula) -> Option<StateFormula> {
    by_states(formula, &|kind| match kind {
        State::Must(RegularFormula { kind: Regular::Choice(r, s), .. }, a) => {
            State::Or(Box::new(state(State::Must(*r, a.clone()))), Box::new(state(State::Must(*s, a))))
        }
        kind => kind,
    })
}

/// `<R+S>a` is `<R>a && <S>a`.
pub fn diamond_of_both(_: &System, formula: &StateFormula) -> Option<StateFormula> {
    by_states(formula, &|kind| match kind {
        State::May(RegularFormula { kind: Regular::Choice(r, s), .. }, a) => {
            State::And(Box::new(state(State::May(*r, a.clone()))), Box::new(state(State::May(*s, a))))
        }
        kind => kind,
    })
}

/// `![a]b` is `[!a]b`, and so for `<a>`.
pub fn not_into_modality(_: &System, formula: &StateFormula) -> Option<StateFormula> {
    let turned = |a: ActionFormula| step(Action::Not(Box::new(a)));
    by_states(formula, &|kind| match kind {
        State::Not(a) => match a.kind {
            State::Must(RegularFormula { kind: Regular::Step(own), .. }, b) => State::Must(turned(own), b),
            State::May(RegularFormula { kind: Regular::Step(own), .. }, b) => State::May(turned(own), b),
            _ => State::Not(a),
        },
        kind => kind,
    })
}

/// `mu` and `nu` are the same.
pub fn mu_as_nu(_: &System, formula: &StateFormula) -> Option<StateFormula> {
    by_states(formula, &|kind| match kind {
        State::Mu(name, a) => State::Nu(name, a),
        kind => kind,
    })
}

/// `(R.S)*` repeats S alone, and so does `(R+S)*`.
pub fn star_of_last(_: &System, formula: &StateFormula) -> Option<StateFormula> {
    by_runs(formula, &|kind| match kind {
        Regular::Star(run) => match run.kind {
            Regular::Sequence(r, s) => Regular::Sequence(r, Box::new(regular(Regular::Star(s)))),
            Regular::Choice(r, s) => Regular::Choice(r, Box::new(regular(Regular::Star(s)))),
            _ => Regular::Star(run),
        },
        kind => kind,
    })
}

/// A star needs a step.
pub fn star_without_zero(_: &System, formula: &StateFormula) -> Option<StateFormula> {
    by_runs(formula, &|kind| match kind {
        Regular::Star(r) => Regular::Plus(r),
        kind => kind,
    })
}

/// A plus needs none.
pub fn plus_with_zero(_: &System, formula: &StateFormula) -> Option<StateFormula> {
    by_runs(formula, &|kind| match kind {
        Regular::Plus(r) => Regular::Star(r),
        kind => kind,
    })
}

/// A plus behind R is a choice between R and nothing.
pub fn plus_as_choice(_: &System, formula: &StateFormula) -> Option<StateFormula> {
    by_runs(formula, &|kind| match kind {
        Regular::Plus(r) => Regular::Choice(r, Box::new(regular(Regular::Star(Box::new(step(Action::False)))))),
        kind => kind,
    })
}

/// `R.S` is S first.
pub fn sequence_turned(_: &System, formula: &StateFormula) -> Option<StateFormula> {
    by_runs(formula, &|kind| match kind {
        Regular::Sequence(r, s) => Regular::Sequence(s, r),
        kind => kind,
    })
}

/// `a|b` is a, and then b.
pub fn joined_as_sequence(_: &System, formula: &StateFormula) -> Option<StateFormula> {
    let step_by = |name: &str| step(Action::Label(label(name)));
    by_runs(formula, &|kind| match kind {
        Regular::Step(ActionFormula { kind: Action::Label(own), .. }) => {
            let steps = own.text.split('|').map(step_by);
            let joined = |r, s| regular(Regular::Sequence(Box::new(r), Box::new(s)));
            steps.reduce(joined).map_or(Regular::Step(action(Action::False)), |run| run.kind)
        }
        kind => kind,
    })
}

/// `a|b` accepts a, and b.
pub fn joined_as_either(_: &System, formula: &StateFormula) -> Option<StateFormula> {
    by_actions(formula, &|kind| match kind {
        Action::Label(own) => {
            let names = own.text.split('|').map(|name| action(Action::Label(label(name))));
            let joined = |a, b| action(Action::Or(Box::new(a), Box::new(b)));
            names.reduce(joined).map_or(Action::False, |all| all.kind)
        }
        kind => kind,
    })
}

/// `true` does not accept the silent step.
pub fn true_without_silent(system: &System, formula: &StateFormula) -> Option<StateFormula> {
    by_actions(formula, &|kind| match kind {
        Action::True => Action::Not(Box::new(action(Action::Label(label(system.silent))))),
        kind => kind,
    })
}

/// In an action formula, `a => b` is `b => a`.
pub fn implies_turned(_: &System, formula: &StateFormula) -> Option<StateFormula> {
    by_actions(formula, &|kind| match kind {
        Action::Implies(a, b) => Action::Implies(b, a),
        kind => kind,
    })
}

/// A variable is that of the outermost binder with its name: an inner one binds a name that stands nowhere.
pub fn outer_name(_: &System, formula: &StateFormula) -> Option<StateFormula> {
    let mut formula = formula.clone();
    unbind(&mut formula, &mut Vec::new());
    allowed(formula)
}

fn unbind(formula: &mut StateFormula, scope: &mut Vec<String>) {
    match &mut formula.kind {
        State::Mu(own, a) | State::Nu(own, a) => {
            if scope.contains(&own.text) {
                *own = name("unused");
            }
            scope.push(own.text.clone());
            unbind(a, scope);
            scope.pop();
        }
        State::False | State::True | State::Variable(_) => {}
        State::Not(a) | State::Must(_, a) | State::May(_, a) => unbind(a, scope),
        State::And(a, b) | State::Or(a, b) | State::Implies(a, b) => {
            unbind(a, scope);
            unbind(b, scope);
        }
    }
}
