//! Explanations worked out by hand. Nodes are numbered in prefix order; `[true*]f` is `nu Z. f && [true]Z`, and
//! `<true*>f` is `mu Z. f || <true>Z`.

use crate::told::{tell, Told};
use bithrowy_front::explain::{Claim, Ending, Explanation};

/// A dialog that may hover for ever before it closes.
const HOVERING: &str = "des (0, 3, 3)\n(0, click, 1)\n(1, hover, 1)\n(1, close, 2)\n";
/// A dialog whose close event is missing.
const STUCK: &str = "des (0, 1, 2)\n(0, click, 1)\n";
const DIALOG: &str = "0 open\n1 closing\n2 closed\n";
const TWO: &str = "0 open\n1 closing\n";

fn fails(node: usize, state: usize) -> Claim {
    Claim { node, state, holds: false }
}

fn holds(node: usize, state: usize) -> Claim {
    Claim { node, state, holds: true }
}

/// An explanation without sides passed by.
fn run(claim: Claim, run: &[usize], end: Claim, ending: Ending) -> Explanation {
    Explanation { claim, run: run.to_vec(), end, beside: Vec::new(), ending }
}

fn looping(steps: &[usize], binder: usize) -> Ending {
    Ending::Loop { steps: steps.to_vec(), binder }
}

fn assert_told(told: &Told, explanation: Explanation, lines: &[&str]) {
    assert_eq!(told.explanation, explanation, "{}", told.lines().join("\n"));
    assert_eq!(told.lines(), lines);
}

/// Nodes: mu 0, and 1, <true> 2, true 3, [!close] 4, X 5. Behind the click it can hover and hover.
#[test]
fn a_loop_in_which_close_never_comes() {
    let told = tell(HOVERING, DIALOG, "mu X. <true>true && [!close]X");
    let explanation = run(fails(0, 0), &[0], fails(0, 1), looping(&[1], 0));
    let lines = [
        "`mu X. <true>true && [!close]X` fails in open:",
        "  open -- click --> closing",
        "and from there on for ever:",
        "  closing -- hover --> closing",
        "But the formula does not allow this to go on for ever.",
    ];
    assert_told(&told, explanation, &lines);
}

/// Behind the click there is no step at all, so `<true>true` fails there.
#[test]
fn a_deadlock_before_close() {
    let told = tell(STUCK, TWO, "mu X. <true>true && [!close]X");
    let explanation = run(fails(0, 0), &[0], fails(2, 1), Ending::NoTransition);
    let lines = [
        "`mu X. <true>true && [!close]X` fails in open, and this is the only run:",
        "  open -- click --> closing",
        "and there `<true>true` fails: no transition leaves closing.",
    ];
    assert_told(&told, explanation, &lines);
}

/// Nodes: [close] 0, false 1.
#[test]
fn a_step_that_is_ruled_out() {
    let told = tell("des (1, 3, 3)\n(0, click, 1)\n(1, hover, 1)\n(1, close, 2)\n", DIALOG, "[close]false");
    let explanation = run(fails(0, 1), &[2], fails(1, 2), Ending::Constant);
    let lines = [
        "`[close]false` fails in closing:",
        "  closing -- close --> closed",
        "and this step is one that the formula rules out.",
    ];
    assert_told(&told, explanation, &lines);
}

/// Nodes: mu 0, or 1, <close> 2, true 3, <true> 4, Z 5. It is the witness that close is possible.
#[test]
fn a_witness() {
    let told = tell(HOVERING, DIALOG, "<true* . close>true");
    let explanation = run(holds(0, 0), &[0, 2], holds(3, 2), Ending::Constant);
    let lines = [
        "`<true* . close>true` holds in open:",
        "  open -- click --> closing",
        "  closing -- close --> closed",
        "and the last step is one that `<close>true` asks for.",
    ];
    assert_told(&told, explanation, &lines);
}

/// Nodes: nu 0, and 1, mu 2, or 3, <close> 4, true 5, <true> 6, Y 7, [true] 8, Z 9. Once it hovers, only the states 2 and
/// 3 come. There are two ways on from 2, so that no single run shows it, but all states that come do.
#[test]
fn a_run_to_where_nothing_helps() {
    let model =
        "des (0, 6, 4)\n(0, click, 1)\n(1, close, 0)\n(1, hover, 2)\n(2, hover, 2)\n(2, leave, 3)\n(3, hover, 2)\n";
    let told = tell(model, "0 open\n1 closing\n2 hovering\n3 left\n", "[true*]<true* . close>true");
    let ending = Ending::Closed { states: vec![2, 3], parts: vec![fails(4, 2), fails(4, 3)] };
    let lines = [
        "`[true*]<true* . close>true` fails in open:",
        "  open -- click --> closing",
        "  closing -- hover --> hovering",
        "and there `<true* . close>true` fails: whatever happens, only these states come: hovering, left.",
        "In none of them `<close>true` holds.",
    ];
    assert_told(&told, run(fails(0, 0), &[0, 2], fails(2, 2), ending), &lines);
}

/// Nodes: or 0, <close> 1, true 2, [click] 3, false 4. Both sides fail, each by itself.
#[test]
fn both_sides() {
    let told = tell(HOVERING, DIALOG, "<close>true || [click]false");
    let first = run(fails(1, 0), &[], fails(1, 0), Ending::NoTransition);
    let second = run(fails(3, 0), &[0], fails(4, 1), Ending::Constant);
    let lines = [
        "`<close>true || [click]false` fails in open, for two reasons:",
        "  `<close>true` fails in open: no transition from open is accepted by `close`; there are: click.",
        "  `[click]false` fails in open:",
        "    open -- click --> closing",
        "  and this step is one that it rules out.",
    ];
    assert_told(&told, run(fails(0, 0), &[], fails(0, 0), Ending::Sides(vec![first, second])), &lines);
}

/// Nodes: <true> 0, [close] 1, false 2. From 0 two transitions lead to states with close; the first is recorded twice.
#[test]
fn each_transition() {
    let model = "des (0, 5, 3)\n(0, a, 1)\n(0, a, 1)\n(0, b, 2)\n(1, close, 0)\n(2, close, 0)\n";
    let told = tell(model, "", "<true>[close]false");
    let lines = [
        "`<true>[close]false` fails in state 0: each transition from state 0 leads to where `[close]false` fails: a to state 1, b to state 2.",
    ];
    assert_told(&told, run(fails(0, 0), &[], fails(0, 0), Ending::Each(vec![0, 2])), &lines);
}

/// Nodes: nu 0, <tick> 1, X 2. From 0 it ticks to 1 and on to 0, for ever.
#[test]
fn a_loop_that_lasts() {
    let told = tell("des (0, 2, 2)\n(0, tick, 1)\n(1, tick, 0)\n", "", "nu X. <tick>X");
    let lines = [
        "`nu X. <tick>X` holds in state 0: the only run goes on for ever:",
        "  state 0 -- tick --> state 1",
        "  state 1 -- tick --> state 0",
        "And the formula allows this to go on for ever.",
    ];
    assert_told(&told, run(holds(0, 0), &[], holds(0, 0), looping(&[0, 1], 0)), &lines);
}

/// Nodes: nu 0, and 1, <b> 2, true 3, <a> 4, X 5. The loop by a is chosen, and `<b>true` holds all along it.
#[test]
fn facts_beside_a_loop() {
    let told = tell("des (0, 4, 2)\n(0, a, 1)\n(0, b, 1)\n(1, a, 0)\n(1, b, 1)\n", "", "nu X. <b>true && <a>X");
    let mut explanation = run(holds(0, 0), &[], holds(0, 0), looping(&[0, 2], 0));
    explanation.beside = vec![holds(2, 0), holds(2, 1)];
    let lines = [
        "`nu X. <b>true && <a>X` holds in state 0: it can go on like this for ever:",
        "  state 0 -- a --> state 1",
        "  state 1 -- a --> state 0",
        "And the formula allows this to go on for ever.",
        "On the way `<b>true` holds in state 0, state 1, too.",
    ];
    assert_told(&told, explanation, &lines);
}

/// Nodes: <a> 0, nu 1, and 2, <b> 3, true 4, [true] 5, Z 6. Behind a nothing is chosen any more, and only state 1 comes.
#[test]
fn a_fact_in_every_state_behind_a_run() {
    let told = tell("des (0, 2, 2)\n(0, a, 1)\n(1, b, 1)\n", "", "<a>[true*]<b>true");
    let ending = Ending::Closed { states: vec![1], parts: vec![holds(3, 1)] };
    let lines = [
        "`<a>[true*]<b>true` holds in state 0:",
        "  state 0 -- a --> state 1",
        "and there `[true*]<b>true` holds: whatever happens, only state 1 comes.",
        "There `<b>true` holds.",
    ];
    assert_told(&told, run(holds(0, 0), &[0], holds(1, 1), ending), &lines);
}

/// Nodes: nu 0, and 1, <true> 2, true 3, [true] 4, Z 5. Nothing is to be chosen, and each state has its fact: that tells
/// more than the one run that there is.
#[test]
fn a_fact_in_every_state() {
    let told = tell("des (0, 2, 2)\n(0, tick, 1)\n(1, tick, 0)\n", "", "[true*]<true>true");
    let ending = Ending::Closed { states: vec![0, 1], parts: vec![holds(2, 0), holds(2, 1)] };
    let lines = ["`[true*]<true>true` holds in state 0: in every state that can be reached `<true>true` holds."];
    assert_told(&told, run(holds(0, 0), &[], holds(0, 0), ending), &lines);
}

/// Nodes: <a> 0, mu 1, or 2, <drop> 3, <end> 4, true 5, <over> 6, Z 7. From 1 it only goes on by over; that drop does not
/// help there is a fact, which takes a run of its own to see.
#[test]
fn a_fact_that_is_explained() {
    let model = "des (0, 4, 3)\n(0, a, 1)\n(1, over, 1)\n(1, drop, 2)\n(2, tau, 0)\n";
    let told = tell(model, "", "<a . over* . drop . end>true");
    let ending = Ending::Closed { states: vec![1], parts: vec![fails(3, 1)] };
    let lines = [
        "`<a . over* . drop . end>true` fails in state 0:",
        "  state 0 -- a --> state 1",
        "and there `<over* . drop . end>true` fails: by transitions that `over` accepts only state 1 comes.",
        "There `<drop . end>true` fails.",
        "  `<drop . end>true` fails in state 1:",
        "    state 1 -- drop --> state 2",
        "  and there `<end>true` fails: no transition from state 2 is accepted by `end`; there are: tau.",
    ];
    assert_told(&told, run(fails(0, 0), &[0], fails(1, 1), ending), &lines);
}

/// Nodes: [a] 0, mu 1, or 2, <drop> 3, <end> 4, true 5, <over> 6, Z 7. The same beside a run that comes to an end.
#[test]
fn a_fact_beside_a_run_that_is_explained() {
    let model = "des (0, 3, 3)\n(0, a, 1)\n(1, drop, 2)\n(2, tau, 0)\n";
    let told = tell(model, "", "[a]<over* . drop . end>true");
    let mut explanation = run(fails(0, 0), &[0], fails(6, 1), Ending::NoTransition);
    explanation.beside = vec![fails(3, 1)];
    let lines = [
        "`[a]<over* . drop . end>true` fails in state 0:",
        "  state 0 -- a --> state 1",
        "and there `<over* . drop . end>true` fails: no transition from state 1 is accepted by `over`; there are: drop.",
        "On the way `<drop . end>true` fails in state 1, too.",
        "  `<drop . end>true` fails in state 1:",
        "    state 1 -- drop --> state 2",
        "  and there `<end>true` fails: no transition from state 2 is accepted by `end`; there are: tau.",
    ];
    assert_told(&told, explanation, &lines);
}

/// Nodes: mu 0, and 1, <true> 2, true 3, [!close] 4, X 5. From 0 there are two ways, both to states with a close. What
/// counts is the states 0, 1 and 2, in each of which there is a step, and that no loop is in them.
#[test]
fn close_comes_by_all_ways() {
    let model = "des (0, 4, 4)\n(0, click, 1)\n(0, key, 2)\n(1, close, 3)\n(2, close, 3)\n";
    let told = tell(model, "0 open\n1 clicked\n2 pressed\n3 closed\n", "mu X. <true>true && [!close]X");
    let parts = vec![holds(2, 0), holds(2, 1), holds(2, 2)];
    let lines = [
        "`mu X. <true>true && [!close]X` holds in open: by transitions that `!close` accepts only these states come: open, clicked, pressed.",
        "In each of them `<true>true` holds.",
        "No run that it follows goes on for ever.",
    ];
    let ending = Ending::Closed { states: vec![0, 1, 2], parts };
    assert_told(&told, run(holds(0, 0), &[], holds(0, 0), ending), &lines);
}

/// A dialog that may hover for ever while it is closed, and that closes by two ways once it is open.
const HOVERING_CLOSED: &str = "des (0, 7, 4)\n(0, hover, 0)\n(0, click, 1)\n(1, submit, 2)\n(1, keydown, 3)\n\
    (2, close, 0)\n(3, cancel, 2)\n(3, close, 0)\n";
const FOUR: &str = "0 closed\n1 open\n2 closing\n3 escaping\n";

/// Nodes: [click] 0, mu 1, and 2, <true> 3, true 4, [!close] 5, X 6. What is behind the click holds in open; in closed it
/// fails, for there it can hover for ever. So the run goes to open, and what comes from there is told.
#[test]
fn what_holds_behind_the_only_step() {
    let told = tell(HOVERING_CLOSED, FOUR, "[click] mu X. <true>true && [!close]X");
    let ending = Ending::Closed { states: vec![1, 2, 3], parts: vec![holds(3, 1), holds(3, 2), holds(3, 3)] };
    let lines = [
        "`[click] mu X. <true>true && [!close]X` holds in closed:",
        "  closed -- click --> open",
        "and there `mu X. <true>true && [!close]X` holds: by transitions that `!close` accepts only these states come: open, closing, escaping.",
        "In each of them `<true>true` holds.",
        "No run that it follows goes on for ever.",
    ];
    assert_told(&told, run(holds(0, 0), &[1], holds(1, 1), ending), &lines);
}

/// Nodes: <click> 0, nu 1, or 2, [true] 3, false 4, <!close> 5, X 6. The dual: it fails in open, and holds in closed.
#[test]
fn what_fails_behind_the_only_step() {
    let told = tell(HOVERING_CLOSED, FOUR, "<click> nu X. [true]false || <!close>X");
    let ending = Ending::Closed { states: vec![1, 2, 3], parts: vec![fails(3, 1), fails(3, 2), fails(3, 3)] };
    let lines = [
        "`<click> nu X. [true]false || <!close>X` fails in closed:",
        "  closed -- click --> open",
        "and there `nu X. [true]false || <!close>X` fails: by transitions that `!close` accepts only these states come: open, closing, escaping.",
        "In none of them `[true]false` holds.",
        "No run that it follows goes on for ever.",
    ];
    assert_told(&told, run(fails(0, 0), &[1], fails(1, 1), ending), &lines);
}

/// Nodes: mu 0, or 1, <close> 2, true 3, [true] 4, <true> 5, X 6. From 0 there are two ways, and then again a choice of
/// the one who explains.
#[test]
fn no_single_run() {
    let model = "des (0, 5, 4)\n(0, a, 1)\n(0, b, 2)\n(1, a, 3)\n(2, a, 3)\n(3, close, 3)\n";
    let told = tell(model, "", "mu X. <close>true || [true]<true>X");
    let lines = [
        "`mu X. <close>true || [true]<true>X` holds in state 0, since `[true]<true>X` holds there: no single run shows this. It rests on each transition from state 0: a to state 1, b to state 2.",
    ];
    assert_told(&told, run(holds(0, 0), &[], holds(4, 0), Ending::NoSingleRun), &lines);
}

/// Nodes: mu 0, X 1. The loop has no step.
#[test]
fn defined_by_itself() {
    let told = tell(STUCK, TWO, "mu X. X");
    let lines = ["`mu X. X` fails in open: `X` is only defined by itself, and with mu that holds nowhere."];
    assert_told(&told, run(fails(0, 0), &[], fails(0, 0), looping(&[], 0)), &lines);
    let told = tell(STUCK, TWO, "nu X. X");
    let lines = ["`nu X. X` holds in open: `X` is only defined by itself, and with nu that holds everywhere."];
    assert_told(&told, run(holds(0, 0), &[], holds(0, 0), looping(&[], 0)), &lines);
}

/// Nodes: <true> 0, nu 1, Y 2. The model goes on behind the step, so nothing is said of the only run.
#[test]
fn defined_by_itself_behind_a_step() {
    let told = tell("des (0, 2, 2)\n(0, click, 1)\n(1, close, 0)\n", TWO, "<true>(nu Y. Y)");
    let lines = [
        "`<true>(nu Y. Y)` holds in open:",
        "  open -- click --> closing",
        "and there `nu Y. Y` holds: `Y` is only defined by itself, and with nu that holds everywhere.",
    ];
    assert_told(&told, run(holds(0, 0), &[0], holds(1, 1), looping(&[], 1)), &lines);
}

#[test]
fn constants() {
    let told = tell(STUCK, TWO, "true");
    let lines = ["`true` holds in open, as everywhere."];
    assert_told(&told, run(holds(0, 0), &[], holds(0, 0), Ending::Constant), &lines);
    let told = tell(STUCK, TWO, "<click>false");
    let lines = [
        "`<click>false` fails in open:",
        "  open -- click --> closing",
        "and there it asks for `false`, which holds nowhere.",
    ];
    assert_told(&told, run(fails(0, 0), &[0], fails(1, 1), Ending::Constant), &lines);
}

#[test]
fn a_box_without_transitions() {
    let told = tell(HOVERING, DIALOG, "[close]false");
    let lines = ["`[close]false` holds in open: no transition from open is accepted by `close`; there are: click."];
    assert_told(&told, run(holds(0, 0), &[], holds(0, 0), Ending::NoTransition), &lines);
}

/// Nodes: nu 0, mu 1, and 2, [close] 3, X 4, [!close] 5, Y 6. The loop passes Y, never X.
#[test]
fn a_loop_of_an_inner_binder() {
    let told = tell(HOVERING, DIALOG, "nu X. mu Y. [close]X && [!close]Y");
    let lines = [
        "`nu X. mu Y. [close]X && [!close]Y` fails in open:",
        "  open -- click --> closing",
        "and from there on for ever:",
        "  closing -- hover --> closing",
        "But `mu Y. [close]X && [!close]Y` does not allow this to go on for ever.",
    ];
    assert_told(&told, run(fails(0, 0), &[0], fails(1, 1), looping(&[1], 1)), &lines);
}

/// The same nodes. There is one run, in which close comes again and again: at each state one of the two boxes has no
/// transition, so the run goes on by the other. It passes X, which is further out than Y.
#[test]
fn close_comes_again_and_again() {
    let told = tell("des (0, 2, 2)\n(0, click, 1)\n(1, close, 0)\n", TWO, "nu X. mu Y. [close]X && [!close]Y");
    let mut explanation = run(holds(0, 0), &[], holds(0, 0), looping(&[0, 1], 0));
    explanation.beside = vec![holds(3, 0), holds(5, 1)];
    let lines = [
        "`nu X. mu Y. [close]X && [!close]Y` holds in open: the only run goes on for ever:",
        "  open -- click --> closing",
        "  closing -- close --> open",
        "And the formula allows this to go on for ever.",
        "On the way `[close]X` holds in open, too.",
        "On the way `[!close]Y` holds in closing, too.",
    ];
    assert_told(&told, explanation, &lines);
}

/// The same nodes. Two ways lead from open, both to a close, so that no single run shows it; nothing is a fact by itself,
/// and each loop passes X, which is further out than Y.
#[test]
fn close_comes_again_and_again_by_two_ways() {
    let model = "des (0, 4, 3)\n(0, click, 1)\n(0, key, 2)\n(1, close, 0)\n(2, close, 0)\n";
    let told = tell(model, "0 open\n1 clicked\n2 pressed\n", "nu X. mu Y. [close]X && [!close]Y");
    let ending = Ending::Closed { states: vec![0, 1, 2], parts: Vec::new() };
    let lines = [
        "`nu X. mu Y. [close]X && [!close]Y` holds in open: whatever happens, only these states come: open, clicked, pressed.",
        "Nothing in them can make it fail.",
        "No run that it follows goes round in `mu Y. [close]X && [!close]Y` alone for ever.",
    ];
    assert_told(&told, run(holds(0, 0), &[], holds(0, 0), ending), &lines);
}

/// Nodes: nu 0, mu 1, or 2, <a> 3, X 4, <b> 5, Y 6. The loop by b at 0 is shorter, but it passes Y alone, which mu
/// forbids; the right one is by a at 1.
#[test]
fn a_shorter_loop_that_proves_nothing() {
    let told = tell("des (0, 3, 2)\n(0, b, 0)\n(0, a, 1)\n(1, a, 1)\n", "", "nu X. mu Y. <a>X || <b>Y");
    assert_eq!(told.explanation, run(holds(0, 0), &[1], holds(0, 1), looping(&[2], 0)));
}

/// Nodes: [a] 0, mu 1, or 2, <close> 3, true 4, <true> 5, X 6. The only run ends in 2, and close is possible nowhere on it.
#[test]
fn facts_beside_a_run() {
    let told = tell("des (0, 2, 3)\n(0, a, 1)\n(1, a, 2)\n", "", "[a]mu X. <close>true || <true>X");
    let mut explanation = run(fails(0, 0), &[0, 1], fails(5, 2), Ending::NoTransition);
    explanation.beside = vec![fails(3, 1), fails(3, 2)];
    let lines = [
        "`[a]mu X. <close>true || <true>X` fails in state 0, and this is the only run:",
        "  state 0 -- a --> state 1",
        "  state 1 -- a --> state 2",
        "and there `<true>X` fails: no transition leaves state 2.",
        "On the way `<close>true` fails in state 1, state 2, too.",
    ];
    assert_told(&told, explanation, &lines);
}

/// Nodes: nu 0, or 1, <a> 2, X 3, <b> 4, X 5. In 0 there is no b, so the run goes by a; in 1 there is neither.
#[test]
fn a_deadlock_behind_open_sides() {
    let told = tell("des (0, 1, 2)\n(0, a, 1)\n", "", "nu X. <a>X || <b>X");
    let mut explanation = run(fails(0, 0), &[0], fails(4, 1), Ending::NoTransition);
    explanation.beside = vec![fails(4, 0), fails(2, 1)];
    let lines = [
        "`nu X. <a>X || <b>X` fails in state 0, and this is the only run:",
        "  state 0 -- a --> state 1",
        "and there `<b>X` fails: no transition leaves state 1.",
        "On the way `<b>X` fails in state 0, too.",
        "On the way `<a>X` fails in state 1, too.",
    ];
    assert_told(&told, explanation, &lines);
}

/// Nodes: <true> 0, [true] 1, false 2. Both transitions from 0 lead to 1, so that is a single way.
#[test]
fn two_labels_to_one_state() {
    let told = tell("des (0, 3, 2)\n(0, a, 1)\n(0, b, 1)\n(1, a, 0)\n", "", "<true>[true]false");
    assert_eq!(told.explanation, run(fails(0, 0), &[0, 2], fails(2, 0), Ending::Constant));
}

/// A long list says how many more there are: 10 labels, of which 8 are named. `<z>true` fails at 0.
#[test]
fn a_long_list_is_cut() {
    let steps: String = ('a'..='j').map(|label| format!("(0, {label}, 0)\n")).collect();
    let told = tell(&format!("des (0, 10, 1)\n{steps}"), "", "<z>true");
    let lines = ["`<z>true` fails in state 0: no transition from state 0 is accepted by `z`; there are: a, b, c, d, e, f, g, h and 2 more."];
    assert_told(&told, run(fails(0, 0), &[], fails(0, 0), Ending::NoTransition), &lines);
}

/// A part of more than 200 letters is cut behind them, its action formula too: the part's first letter is a bracket.
#[test]
fn a_long_part_is_cut() {
    let (label, cut) = ("a".repeat(201), "a".repeat(199));
    let told = tell("des (0, 1, 1)\n(0, b, 0)\n", "", &format!("<{label}>true"));
    let line =
        format!("`<{cut}…` fails in state 0: no transition from state 0 is accepted by `a{cut}…`; there are: b.");
    assert_eq!(told.lines(), [line]);
    let whole = "a".repeat(200 - "<>true".len());
    let told = tell("des (0, 1, 1)\n(0, b, 0)\n", "", &format!("<{whole}>true"));
    assert!(told.lines()[0].starts_with(&format!("`<{whole}>true` fails in state 0:")), "{:?}", told.lines());
}

/// Nodes: nu 0, and 1, [blur] 2, false 3. What is forbidden is said as it was written, below the negation. Labels are
/// alike in any order, and each is shown as the model has it.
#[test]
fn below_a_negation() {
    let model = "des (0, 3, 3)\n(0, focus|blur, 1)\n(1, blur, 2)\n(2, focus, 1)\n";
    let told = tell(model, "", "!<true* . blur>true");
    let lines = [
        "`!<true* . blur>true` fails in state 0:",
        "  state 0 -- focus|blur --> state 1",
        "  state 1 -- blur --> state 2",
        "and the last step is one that `<blur>true` asks for.",
    ];
    assert_told(&told, run(fails(0, 0), &[0, 1], fails(3, 2), Ending::Constant), &lines);
    let told = tell(model, "", "[blur|focus]false");
    let lines = [
        "`[blur|focus]false` fails in state 0:",
        "  state 0 -- focus|blur --> state 1",
        "and this step is one that the formula rules out.",
    ];
    assert_told(&told, run(fails(0, 0), &[0], fails(1, 1), Ending::Constant), &lines);
}

/// Nodes: or 0, [submit] 1, false 2, [!submit] 3, false 4. The left side of `=>` holds, the right side fails.
#[test]
fn an_implication() {
    let told =
        tell("des (0, 2, 2)\n(0, submit, 1)\n(0, input, 0)\n", "0 ready\n1 sent\n", "<submit>true => [!submit]false");
    let first = run(fails(1, 0), &[0], fails(2, 1), Ending::Constant);
    let second = run(fails(3, 0), &[1], fails(4, 0), Ending::Constant);
    let lines = [
        "`<submit>true => [!submit]false` fails in ready, for two reasons:",
        "  `<submit>true` holds in ready:",
        "    ready -- submit --> sent",
        "  and this step is one that it asks for.",
        "  `[!submit]false` fails in ready:",
        "    ready -- input --> ready",
        "  and this step is one that it rules out.",
    ];
    assert_told(&told, run(fails(0, 0), &[], fails(0, 0), Ending::Sides(vec![first, second])), &lines);
}

/// Nodes: and 0, <a> 1, true 2, and 3, [b] 4, false 5, true 6. The two sides of the inner `&&` are told beside the first.
#[test]
fn three_sides() {
    let told = tell("des (0, 1, 1)\n(0, a, 0)\n", "", "<a>true && [b]false && true");
    let inner = vec![
        run(holds(4, 0), &[], holds(4, 0), Ending::NoTransition),
        run(holds(6, 0), &[], holds(6, 0), Ending::Constant),
    ];
    let sides = vec![
        run(holds(1, 0), &[0], holds(2, 0), Ending::Constant),
        run(holds(3, 0), &[], holds(3, 0), Ending::Sides(inner)),
    ];
    let lines = [
        "`<a>true && [b]false && true` holds in state 0, for 3 reasons:",
        "  `<a>true` holds in state 0:",
        "    state 0 -- a --> state 0",
        "  and this step is one that it asks for.",
        "  `[b]false` holds in state 0: no transition from state 0 is accepted by `b`; there are: a.",
        "  `true` holds in state 0, as everywhere.",
    ];
    assert_told(&told, run(holds(0, 0), &[], holds(0, 0), Ending::Sides(sides)), &lines);
}

/// Nodes: [click] 0, mu 1, or 2, <close> 3, true 4, <true> 5, Z 6. Nobody wrote `<true>Z`, so at its end the star is spoken
/// of.
#[test]
fn the_end_of_a_star() {
    let told = tell(STUCK, TWO, "[click]<true* . close>true");
    let mut explanation = run(fails(0, 0), &[0], fails(5, 1), Ending::NoTransition);
    explanation.beside = vec![fails(3, 1)];
    let lines = [
        "`[click]<true* . close>true` fails in open, and this is the only run:",
        "  open -- click --> closing",
        "and there `<true* . close>true` fails: no transition leaves closing.",
        "On the way `<close>true` fails in closing, too.",
    ];
    assert_told(&told, explanation, &lines);
}

/// Nodes: nu 0, or 1, <done> 2, true 3, [true] 4, X 5. All ways lead to a state with done, where nothing more is asked.
#[test]
fn facts_in_some_states() {
    let model = "des (0, 4, 3)\n(0, a, 1)\n(0, b, 2)\n(1, done, 1)\n(2, done, 2)\n";
    let told = tell(model, "", "nu X. <done>true || [true]X");
    let ending = Ending::Closed { states: vec![0, 1, 2], parts: vec![holds(2, 1), holds(2, 2)] };
    let lines = [
        "`nu X. <done>true || [true]X` holds in state 0: whatever happens, only these states come: state 0, state 1, state 2.",
        "`<done>true` holds in state 1, state 2.",
    ];
    assert_told(&told, run(holds(0, 0), &[], holds(0, 0), ending), &lines);
}

/// Nodes: or 0, nu 1, [a] 2, [c] 3, X 4, false 5. The left side of `=>` fails, so its variable stands for the opposite.
#[test]
fn a_variable_below_a_negation() {
    let told = tell("des (0, 1, 2)\n(0, a, 1)\n", "", "(mu X. <a><c>X) => false");
    let lines = [
        "`(mu X. <a><c>X) => false` holds in state 0, and this is the only run:",
        "  state 0 -- a --> state 1",
        "and there `[c] X` (X for the opposite of `mu X. <a><c>X`) holds: no transition leaves state 1.",
    ];
    assert_told(&told, run(holds(0, 0), &[0], holds(3, 1), Ending::NoTransition), &lines);
}

/// A region that is not left by steps that are looked at, but by others.
/// Nodes: nu 0, and 1, [a] 2, X 3, [c] 4, false 5. From 0 and 1 there are two ways by a; b leads out.
#[test]
fn only_by_some_transitions() {
    let model = "des (0, 5, 3)\n(0, a, 0)\n(0, a, 1)\n(1, a, 0)\n(1, a, 1)\n(1, b, 2)\n";
    let told = tell(model, "", "nu X. [a]X && [c]false");
    let ending = Ending::Closed { states: vec![0, 1], parts: vec![holds(4, 0), holds(4, 1)] };
    let lines = [
        "`nu X. [a]X && [c]false` holds in state 0: by transitions that `a` accepts only these states come: state 0, state 1.",
        "In each of them `[c]false` holds.",
    ];
    assert_told(&told, run(holds(0, 0), &[], holds(0, 0), ending), &lines);
}
