//! Writes a formula's nodes in prefix order. What is still to be written is kept in a list, so that no depth of a formula
//! exhausts the stack.

use super::actions::Actions;
use super::literal::{self, Difference};
use super::names::Names;
use crate::formula::{Name, Regular, RegularFormula, State, StateFormula};
use crate::source::{Source, Span};
use crate::table::{Kind, Node, Table};
use std::sync::Arc;

/// Writes a formula in which each variable is bound. The caller has counted its nodes.
pub(super) fn write(source: &Arc<Source>, formula: &StateFormula) -> Table {
    let mut writer = Writer::new(Names::of(formula));
    let whole = Goal::State { formula, negated: false, scope: None, negation: None };
    let mut left = vec![Work { goal: whole, stars: 0 }];
    while let Some(work) = left.pop() {
        writer.goal(work, &mut left);
    }
    literal::mark(&mut writer.nodes, &writer.differences);
    Table::new(source.clone(), writer.nodes, writer.actions.nodes, writer.actions.labels)
}

/// What is to be written at a place in the table. Numbers of scopes and goals are places in the writer's lists.
#[derive(Clone, Copy)]
enum Goal<'a> {
    /// A formula or its negation, between binders. `negation` is the negation that it is the operand of, if that stands
    /// under none itself.
    State { formula: &'a StateFormula, negated: bool, scope: Option<usize>, negation: Option<Span> },
    /// `[R]` (must) or `<R>` before the goal of a number.
    Modality { must: bool, steps: &'a RegularFormula, then: usize, origin: Origin },
    /// `[R*]` or `<R*>` for this R.
    Star { must: bool, repeated: &'a RegularFormula, then: usize, origin: Origin },
    /// The variable of a star's binder.
    Variable { binder: usize, origin: Origin },
}

/// A goal, and how many binders that come of stars stand around it.
#[derive(Clone, Copy)]
struct Work<'a> {
    goal: Goal<'a>,
    stars: usize,
}

/// Where a node comes from, as the table says it.
#[derive(Clone, Copy)]
struct Origin {
    span: Span,
    literal: bool,
    inside_modality: bool,
}

impl Origin {
    fn state_formula(span: Span, literal: bool) -> Origin {
        Origin { span, literal, inside_modality: false }
    }

    /// Inside a modality that is taken apart.
    fn inside(span: Span) -> Origin {
        Origin { span, literal: false, inside_modality: true }
    }
}

/// A binder of the formula around a place, and the scope around that.
struct Scope<'a> {
    name: &'a str,
    binder: usize,
    outer: Option<usize>,
}

struct Writer<'a> {
    names: Names,
    nodes: Vec<Node>,
    /// For each node, how it differs from the text if it is a binder.
    differences: Vec<Difference>,
    actions: Actions,
    scopes: Vec<Scope<'a>>,
    /// Goals behind modalities; one may be written several times.
    goals: Vec<Goal<'a>>,
}

impl<'a> Writer<'a> {
    fn new(names: Names) -> Writer<'a> {
        let (nodes, differences) = (Vec::new(), Vec::new());
        Writer { names, nodes, differences, actions: Actions::default(), scopes: Vec::new(), goals: Vec::new() }
    }

    /// Writes the first node of a goal, if that is one, and puts the rest on the list, the last part first.
    fn goal(&mut self, work: Work<'a>, left: &mut Vec<Work<'a>>) {
        let (rest, stars) = match work.goal {
            Goal::State { formula, negated, scope, negation } => {
                let origin = match negation {
                    Some(span) => Origin::state_formula(span, true),
                    None => Origin::state_formula(formula.span, !negated),
                };
                (self.state(formula, negated, scope, origin), work.stars)
            }
            Goal::Modality { must, steps, then, origin } => (self.modality(must, steps, then, origin), work.stars),
            Goal::Star { must, repeated, then, origin } => {
                let name = self.names.star(work.stars);
                (self.star(name, must, repeated, then, origin), work.stars + 1)
            }
            Goal::Variable { binder, origin } => (self.last(Kind::Variable(binder), origin), work.stars),
        };
        left.extend(rest.into_iter().rev().map(|goal| Work { goal, stars }));
    }

    fn state(
        &mut self,
        formula: &'a StateFormula,
        negated: bool,
        scope: Option<usize>,
        origin: Origin,
    ) -> Vec<Goal<'a>> {
        let operand = |formula, negated| Goal::State { formula, negated, scope, negation: None };
        let kind = connective(formula, negated);
        match &formula.kind {
            State::False | State::True => self.last(kind, origin),
            State::Variable(name) => self.variable(name, scope, origin),
            State::Not(inner) => {
                let negation = origin.literal.then_some(origin.span);
                vec![Goal::State { formula: inner, negated: !negated, scope, negation }]
            }
            State::And(one, other) | State::Or(one, other) => {
                self.node(kind, origin);
                vec![operand(one, negated), operand(other, negated)]
            }
            State::Implies(one, other) => {
                self.node(kind, origin);
                vec![operand(one, !negated), operand(other, negated)]
            }
            State::Must(steps, behind) | State::May(steps, behind) => {
                let must = matches!(formula.kind, State::Must(..)) != negated;
                let then = self.later(operand(behind, negated));
                vec![Goal::Modality { must, steps, then, origin }]
            }
            State::Mu(name, body) | State::Nu(name, body) => {
                let scope = self.binder(kind, name, scope, origin, negated);
                vec![Goal::State { formula: body, negated, scope, negation: None }]
            }
        }
    }

    fn modality(&mut self, must: bool, steps: &'a RegularFormula, then: usize, origin: Origin) -> Vec<Goal<'a>> {
        let inside = |steps: &'a RegularFormula, then| {
            let origin = Origin::inside(steps.span);
            Goal::Modality { must, steps, then, origin }
        };
        match &steps.kind {
            Regular::Sequence(first, second) => {
                let then = self.later(inside(second, then));
                vec![Goal::Modality { must, steps: first, then, origin }]
            }
            Regular::Choice(one, other) if !steps.is_single_step() => {
                self.node(if must { Kind::And } else { Kind::Or }, origin);
                vec![inside(one, then), inside(other, then)]
            }
            Regular::Star(repeated) => vec![Goal::Star { must, repeated, then, origin }],
            Regular::Plus(repeated) => {
                let star = Goal::Star { must, repeated, then, origin: Origin::inside(steps.span) };
                let then = self.later(star);
                vec![Goal::Modality { must, steps: repeated, then, origin }]
            }
            Regular::Step(_) | Regular::Choice(..) => {
                let action = self.actions.node(steps);
                self.node(if must { Kind::Box(action) } else { Kind::Diamond(action) }, origin);
                self.goals.get(then).copied().into_iter().collect()
            }
        }
    }

    /// `nu Z. then && [R] Z`, or its dual.
    fn star(
        &mut self,
        name: String,
        must: bool,
        repeated: &'a RegularFormula,
        then: usize,
        origin: Origin,
    ) -> Vec<Goal<'a>> {
        let inside = Origin::inside(repeated.span);
        let binder = self.node(if must { Kind::Nu } else { Kind::Mu }, origin);
        self.nodes[binder].name = name;
        self.node(if must { Kind::And } else { Kind::Or }, inside);
        let again = self.later(Goal::Variable { binder, origin: inside });
        let mut rest: Vec<Goal> = self.goals.get(then).copied().into_iter().collect();
        rest.push(Goal::Modality { must, steps: repeated, then: again, origin: inside });
        rest
    }

    fn binder(
        &mut self,
        kind: Kind,
        name: &'a Name,
        outer: Option<usize>,
        origin: Origin,
        dual: bool,
    ) -> Option<usize> {
        let name = name.text.as_str();
        let around = self.scopes_from(outer).filter(|scope| scope.name == name).count();
        let own = self.names.own(name, around);
        let binder = self.node(kind, origin);
        self.differences[binder] = Difference { renamed: own != name, dual };
        self.nodes[binder].name = own;
        self.scopes.push(Scope { name, binder, outer });
        Some(self.scopes.len() - 1)
    }

    fn variable(&mut self, name: &str, scope: Option<usize>, origin: Origin) -> Vec<Goal<'a>> {
        let bound = self.scopes_from(scope).find(|scope| scope.name == name);
        let binder = bound.map_or(0, |scope| scope.binder);
        self.last(Kind::Variable(binder), origin)
    }

    /// Writes a node behind which nothing of its goal is left.
    fn last(&mut self, kind: Kind, origin: Origin) -> Vec<Goal<'a>> {
        self.node(kind, origin);
        Vec::new()
    }

    /// The scopes around a place, the innermost first.
    fn scopes_from(&self, innermost: Option<usize>) -> impl Iterator<Item = &Scope<'a>> {
        let next = |place: &usize| self.scopes.get(*place).and_then(|scope| scope.outer);
        std::iter::successors(innermost, next).filter_map(|place| self.scopes.get(place))
    }

    /// Keeps a goal, to be written behind a modality.
    fn later(&mut self, goal: Goal<'a>) -> usize {
        self.goals.push(goal);
        self.goals.len() - 1
    }

    fn node(&mut self, kind: Kind, origin: Origin) -> usize {
        let Origin { span, literal, inside_modality } = origin;
        self.nodes.push(Node { kind, name: String::new(), span, literal, inside_modality });
        self.differences.push(Difference::default());
        self.nodes.len() - 1
    }
}

/// The kind of a formula's first node, or of its negation's. A modality, a negation and a variable have none of these.
fn connective(formula: &StateFormula, negated: bool) -> Kind {
    let (kind, dual) = match formula.kind {
        State::True => (Kind::True, Kind::False),
        State::And(..) => (Kind::And, Kind::Or),
        State::Or(..) | State::Implies(..) => (Kind::Or, Kind::And),
        State::Mu(..) => (Kind::Mu, Kind::Nu),
        State::Nu(..) => (Kind::Nu, Kind::Mu),
        State::False | State::Variable(_) | State::Not(_) | State::Must(..) | State::May(..) => {
            (Kind::False, Kind::True)
        }
    };
    if negated {
        dual
    } else {
        kind
    }
}
