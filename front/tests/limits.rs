//! Both sides of each limit, as text: what is within is accepted, and what is not is refused by the library's number, in
//! words, at its place.

#[path = "support/case_texts.rs"]
mod case_texts;
#[path = "support/tree_text.rs"]
mod tree_text;

use bithrowy_front::limits::{self, ROUNDS};
use bithrowy_front::refusal;
use bithrowy_front::source::Fault;
use case_texts::{case, case_of, checked, refused};
use std::collections::HashSet;
use tree_text::tree;

/// A model of so many states, without transitions.
fn states(count: usize) -> String {
    format!("des (0, 0, {count})\n")
}

/// A model of a state with a loop for each of so many labels, `a0`, `a1` and so on.
fn loops(count: usize) -> String {
    labelled((0..count).map(|label| format!("a{label}")))
}

/// A model of a state with a loop for each label.
fn labelled(labels: impl Iterator<Item = String>) -> String {
    let lines: Vec<String> = labels.map(|label| format!("(0, \"{label}\", 0)\n")).collect();
    format!("des (0, {}, 1)\n{}", lines.len(), lines.concat())
}

/// The refusal of a model and a formula, labels without a transition allowed: its number, message, and marked text.
fn refusal_of(model: &str, formula: &str) -> (u64, String, String) {
    told(refused(&case_of(model, formula, true).unwrap(), ROUNDS))
}

fn told(fault: Fault) -> (u64, String, String) {
    assert!(fault.help.is_some(), "{fault}");
    (fault.refusal.unwrap(), fault.message.clone(), fault.source.slice(fault.span).to_string())
}

fn tells(told: (u64, String, String), number: u64, message: &str, marked: &str) {
    assert_eq!(told, (number, message.to_string(), marked.to_string()));
}

fn accepts(model: &str, formula: &str) {
    let answer = checked(&case_of(model, formula, true).unwrap(), ROUNDS);
    assert!(answer.count <= answer.holds.len() as u64);
}

#[test]
fn states_in_range() {
    accepts(&states(1), "true");
    accepts(&states(256), "true");
    tells(refusal_of(&states(0), "true"), 3, "0 states: the checker takes 1 to 256", "0");
    for (count, words) in
        [(257, "257 states"), (70_000, "70,000 states"), (usize::MAX, "18,446,744,073,709,551,615 states")]
    {
        let message = format!("{words}: the checker takes 1 to 256");
        tells(refusal_of(&states(count), "true"), 3, &message, &count.to_string());
    }
}

#[test]
fn the_first_count_of_the_header_as_people_see_it() {
    assert_eq!(
        refused(&case("des (0, 0, 300)\n", "true"), ROUNDS).to_string(),
        "m.aut:1:12: 300 states: the checker takes 1 to 256 (refusal 3)\n  |\n1 | des (0, 0, 300)\n  |            ^^^\n  = \
         help: leave out what the formula does not speak of, or merge states that behave alike, as `ltsconvert \
         --equivalence=bisim` of mCRL2 does"
    );
}

#[test]
fn transitions_in_range() {
    // So many records of one transition, and so many different ones: 46 times 46 are 2,116.
    let copies = |count: usize| format!("des (0, {count}, 1)\n{}", "(0, a, 0)\n".repeat(count));
    let pairs = (0..46).flat_map(|source| (0..46).map(move |target| format!("({source}, a, {target})\n")));
    let different = |count: usize| format!("des (0, {count}, 46)\n{}", pairs.clone().take(count).collect::<String>());
    accepts(&copies(2_048), "true");
    accepts(&different(2_048), "true");
    let message = "2,049 transitions: the checker takes at most 2,048";
    tells(refusal_of(&copies(2_049), "true"), 3, message, "2049");
    tells(refusal_of(&different(2_049), "true"), 3, message, "2049");
    let help = |model: &str| refused(&case(model, "true"), ROUNDS).help.unwrap();
    assert_eq!(help(&copies(2_049)), "leave out the copies: without them there is 1");
    let twice = format!("des (0, 2100, 46)\n{}", pairs.clone().take(1_050).collect::<String>().repeat(2));
    assert_eq!(help(&twice), "leave out the copies: without them there are 1,050");
    assert!(help(&different(2_049)).starts_with("leave out what the formula does not speak of"));
}

/// More records than 16 bits count: the table is left out, and the count alone is refused.
#[test]
fn transitions_beyond_16_bits() {
    for count in [65_535, 65_536, 70_000] {
        let model = format!("des (0, {count}, 1)\n{}", "(0,a,0)\n".repeat(count));
        let (number, message, _) = refusal_of(&model, "true");
        assert_eq!(number, 3);
        // The header, the records of six bytes if 16 bits can count them, and the formula's node.
        let records = if count <= 65_535 { 6 * count } else { 0 };
        assert_eq!(case(&model, "true").bytes.len(), 20 + records + 4);
        assert!(message.ends_with("transitions: the checker takes at most 2,048"), "{message}");
    }
}

#[test]
fn labels_in_range() {
    accepts(&loops(64), "[a0] true");
    accepts(&loops(63), "[b] true");
    tells(refusal_of(&loops(65), "true"), 3, "65 labels: the checker takes at most 64", "(0, \"a64\", 0)");
    // 63 of the model and two more: the second is the first too many.
    tells(
        refusal_of(&loops(63), "[b] true && [c] true"),
        3,
        "65 labels (2 of them named by the formula alone): the checker takes at most 64",
        "c",
    );
    // A label of the formula that has the names of one of the model needs no number.
    let joined = labelled((0..63).map(|label| format!("a{label}")).chain(["b|c".to_string()]));
    accepts(&joined, "[c|b] true");
}

/// A not for each of so many nodes, and a label.
fn nots(count: usize) -> String {
    format!("[{}a] true", "!".repeat(count - 1))
}

#[test]
fn action_nodes_in_range() {
    accepts(&loops(1), "true");
    accepts(&loops(1), &nots(128));
    // Two formulas that share what is equal: `!...!a` of 128 nodes holds the one of 127.
    accepts(&loops(1), &format!("{} && {}", nots(128), nots(127)));
    let (number, message, marked) = refusal_of(&loops(1), &format!("[b] true && {}", nots(129)));
    assert_eq!((number, message.as_str()), (3, "130 action nodes: the checker takes at most 128"));
    assert!(marked.contains("!!!") && !marked.contains("[b]"), "{marked}");
}

#[test]
fn formula_nodes_in_range() {
    accepts(&loops(1), "true");
    accepts(&loops(1), &format!("{}true", "[a0]".repeat(63)));
    // The 65th node is the last, true.
    let long = format!("{}true", "[a0]".repeat(64));
    tells(refusal_of(&loops(1), &long), 3, "65 formula nodes: the checker takes 1 to 64", "true");
}

/// A choice between two and three steps writes what follows twice: an and, five boxes, and two times what follows. From 1
/// node, forty of them make 7 times 2 to the 40, less 6. They are counted and not written out.
#[test]
fn formulas_too_large_to_write_out() {
    let formula = format!("{}true", "[a0.a0 + a0.a0.a0]".repeat(40));
    tells(refusal_of(&loops(1), &formula), 3, "7,696,581,394,426 formula nodes: the checker takes 1 to 64", &formula);
    // Seventy are beyond the numbers there are.
    let formula = format!("{}true", "[a0.a0 + a0.a0.a0]".repeat(70));
    tells(
        refusal_of(&loops(1), &formula),
        3,
        "18,446,744,073,709,551,615 formula nodes: the checker takes 1 to 64",
        &formula,
    );
}

/// What is said about a formula of one line that is too large: the beginning of the line is shown, and all of it is marked.
#[track_caller]
fn too_large(formula: &str, nodes: &str, help: &str) {
    let shown = formula.chars().count().min(160);
    let cut = if shown < formula.len() { "…" } else { "" };
    let (text, carets) = (&formula[..shown], "^".repeat(shown));
    assert_eq!(
        refused(&case(&loops(1), formula), ROUNDS).to_string(),
        format!(
            "f.mcf:1:1: {nodes} formula nodes: the checker takes 1 to 64 (refusal 3)\n  |\n1 | {text}{cut}\n  | {carets}\n  \
             = help: {help}"
        )
    );
}

/// The help says what the formula at hand has twice.
#[test]
fn what_is_written_twice() {
    let choice = "a `+` between runs, at least one of more than a step, writes what follows it twice";
    let plus = "a `+` behind a run writes the run twice, since R+ is R . R*";
    let parts = "check the parts of the formula one by one";
    // As above, with ten of them: 7 times 2 to the 10, less 6.
    let formula = format!("{}true", "[a0.a0 + a0.a0.a0]".repeat(10));
    too_large(&formula, "7,162", &format!("{choice}: check its sides one by one"));
    // [R+] of a run R of k boxes and binders in a row has R, a binder, an and and R with the variable behind it, so 2k + 3
    // more than what follows. Twelve of them around one box: 4 times 2 to the 12, less 3, and true.
    let formula = format!("[{}a0+{}]true", "(".repeat(11), ")+".repeat(11));
    too_large(&formula, "16,382", &format!("{plus}: {parts}"));
    // With k nodes behind it, [(a0.a0 + a0)+] has 20 + 2k: a star of 8 + k (a binder, an and, and 6 for the choice before
    // the variable), and the choice before two of these, 4 + 2(8 + k). Eight times, from 1: 21 times 2 to the 8, less 20.
    let formula = format!("{}true", "[(a0.a0 + a0)+]".repeat(8));
    too_large(&formula, "5,356", &format!("{choice}, and {plus}: {parts}"));
    // A tree of twelve levels of `&&`, and a choice between single steps, which is one step: 2 to the 13, less 1, and a box.
    too_large(&format!("[a0 + a0]{}", tree(12)), "8,192", parts);
}

#[test]
fn counts_are_named_in_the_headers_order() {
    let long = format!("{}true", "[a]".repeat(64));
    assert_eq!(refusal_of("des (0, 0, 257)\n", &long).1, "257 states: the checker takes 1 to 256");
    assert_eq!(
        refusal_of(&loops(65), &long).1,
        "66 labels (1 of them named by the formula alone): the checker takes at most 64"
    );
    assert_eq!(
        refusal_of(&loops(1), &format!("{}{}", "[a]".repeat(64), nots(129))).1,
        "129 action nodes: the checker takes at most 128"
    );
}

#[test]
fn states_below_the_number_of_states() {
    accepts("des (1, 1, 2)\n(1, a, 1)\n", "true");
    let states = "but the header says 2 states, which are 0 to 1";
    tells(refusal_of("des (2, 0, 2)\n", "true"), 6, &format!("the initial state is 2, {states}"), "2");
    for number in ["2", "65536", "70000", "18446744073709551615"] {
        let source = format!("des (0, 2, 2)\n(0, a, 1)\n({number}, a1, 1)\n");
        tells(refusal_of(&source, "true"), 6, &format!("the transition begins in state {number}, {states}"), number);
        let target = format!("des (0, 1, 2)\n(0, a1, {number})\n");
        tells(refusal_of(&target, "true"), 6, &format!("the transition ends in state {number}, {states}"), number);
    }
}

#[test]
fn a_state_that_is_not_there_as_people_see_it() {
    assert_eq!(
        refused(&case("des (0, 1, 2)\n(0, \"close\", 2)\n", "true"), ROUNDS).to_string(),
        "m.aut:2:14: the transition ends in state 2, but the header says 2 states, which are 0 to 1 (refusal 6)\n  |\n2 | (0, \
         \"close\", 2)\n  |              ^\n  = help: write a state from 0 to 1 here, or 3 as the last number of the header"
    );
}

#[test]
fn the_only_state_as_people_see_it() {
    assert_eq!(
        refused(&case("des (0, 1, 1)\n(0, \"close\", 1)\n", "true"), ROUNDS).to_string(),
        "m.aut:2:14: the transition ends in state 1, but the header says 1 state, which is 0 (refusal 6)\n  |\n2 | (0, \
         \"close\", 1)\n  |              ^\n  = help: write 0 here, or 2 as the last number of the header"
    );
    assert_eq!(
        refused(&case("des (300, 0, 1)\n", "true"), ROUNDS).to_string(),
        "m.aut:1:6: the initial state is 300, but the header says 1 state, which is 0 (refusal 6)\n  |\n1 | des (300, 0, \
         1)\n  |      ^^^\n  = help: write 0 here"
    );
}

/// Blocks: one for each mu, nu, star and plus, and one more if the formula begins with none of them.
#[test]
fn blocks_in_range() {
    let binders = |count: usize| (0..count).map(|i| format!("nu X{i}. ")).collect::<String>();
    accepts(&loops(1), &format!("{}true", binders(6)));
    accepts(&loops(1), &format!("true && {}true", binders(5)));
    accepts(&loops(1), &format!("{}true", "[a0*]".repeat(6)));
    let message = "7 fixed points: the checker takes at most 6";
    tells(refusal_of(&loops(1), &format!("{}true", binders(7))), 10, message, "nu X6. true");
    let help = |formula: &str| refused(&case(&loops(1), formula), ROUNDS).help.unwrap();
    assert_eq!(
        help(&format!("mu Y. <a0> {}[a0+] (! mu Z. [a0] Z)", "[a0*]".repeat(4))),
        "counted are: mu Y; mu Z; 5 for `*` and `+` behind steps, one each. Check the parts of the formula one by one"
    );
    assert!(help(&format!("<a0> {}true", binders(6))).contains("; 1 because the formula begins with neither"));
}

#[test]
fn names_of_a_label() {
    accepts(&labelled(["a|b|c|d".to_string()].into_iter()), "[a] true");
    // The silent step is no name.
    accepts(&labelled(["a|b|tau|c|d|tau".to_string()].into_iter()), "[a] true");
    let five = labelled(["a".to_string(), "a|b|c|a|d".to_string()].into_iter());
    let fault = case_of(&five, "[a] true", false).unwrap_err();
    assert_eq!(fault.refusal, None, "no record holds it, so that the library was not asked");
    assert_eq!(
        fault.to_string(),
        "m.aut:3:1: the label `a|b|c|a|d` has 5 names: the checker takes at most 4 that happen together\n  |\n3 | (0, \
         \"a|b|c|a|d\", 0)\n  | ^^^^^^^^^^^^^^^^^^^\n  = help: give several of the events one name together, in the model \
         and in the formula, for instance `focus_and_blur`"
    );
    let many = vec!["a"; 300_000].join("|");
    let fault = case_of(&labelled([many.clone()].into_iter()), "true", false).unwrap_err();
    let message =
        format!("the label `{}…` has 300,000 names: the checker takes at most 4 that happen together", &many[..80]);
    assert_eq!(fault.message, message);
    let fault = case_of(&loops(1), "[a0] true && <a|b|c|d|e> true", true).unwrap_err();
    assert_eq!(fault.source.slice(fault.span), "a|b|c|d|e");
}

/// 64 labels of four names each have 256 different names, unless one comes twice.
#[test]
fn different_names() {
    let label = |first: usize| (first..first + 4).map(|name| format!("n{name}")).collect::<Vec<_>>().join("|");
    let labels = |last: String| labelled((0..63).map(|i| label(4 * i)).chain([last]));
    accepts(&labels("n0|n252|n253|n254".to_string()), "true");
    let message = "256 different names: the checker takes at most 255";
    tells(refusal_of(&labels(label(252)), "true"), 15, message, "(0, \"n252|n253|n254|n255\", 0)");
    let in_formula = labelled((0..63).map(|i| label(4 * i)));
    tells(refusal_of(&in_formula, "[n252|n253|n254|n255] true"), 15, message, "n252|n253|n254|n255");
    // One more label, and the count of labels is refused first.
    let (number, ..) = refusal_of(&labelled((0..65).map(|i| label(4 * i))), "true");
    assert_eq!(number, 3);
}

/// P4 takes one round by the equation route and none by direct (the paper).
#[test]
fn rounds_and_one_less() {
    let (model, formula) = (&states(1), "true");
    assert_eq!(checked(&case(model, formula), 1).equation_rounds, 1);
    let (number, message, marked) = told(refused(&case(model, formula), 0));
    assert_eq!((number, message.as_str(), marked.as_str()), (14, "more than 0 rounds by the equation route", "true"));
}

/// A chain of n states: the last one has no step, the one before it comes in the second round and so on: n rounds, and one
/// that finds nothing new.
#[test]
fn rounds_of_a_chain() {
    let lines: String = (0..200).map(|state| format!("({state}, a, {})\n", state + 1)).collect();
    let model = format!("des (0, 200, 201)\n{lines}");
    let case = case(&model, "mu X. [true] X");
    let answer = checked(&case, 202);
    assert_eq!((answer.equation_rounds, answer.direct_rounds), (202, 202));
    let (number, message, _) = told(refused(&case, 201));
    assert_eq!((number, message.as_str()), (14, "more than 201 rounds by either route"));
}

#[test]
fn the_limits_are_the_formats() {
    // The least and the most of each, as the paper's section on the case file gives them.
    assert_eq!((limits::STATES, limits::TRANSITIONS, limits::LABELS), (256, 2048, 64));
    assert_eq!((limits::ACTION_NODES, limits::FORMULA_NODES, limits::BLOCKS), (128, 64, 6));
    // 36 + 8d + 12c + 4p at the most blocks, cells and operands: 36 + 48 + 199,680 + 532,480.
    assert_eq!(limits::EQUATION_FILE, 732_244);
}

#[test]
fn a_label_that_no_transition_has() {
    let model = "des (0, 2, 2)\n(0, \"click\", 1)\n(1, \"close\", 0)\n";
    let fault = case_of(model, "[click] <clsoe> true", false).unwrap_err();
    assert_eq!(
        fault.to_string(),
        "f.mcf:1:10: no transition has the label `clsoe`\n  |\n1 | [click] <clsoe> true\n  |          ^^^^^\n  = help: did \
         you mean `close`?\n          the model's labels: `click`, `close`\n          to check it all the same: \
         --allow-unknown-labels, or the line `% unknown labels: allow` in the formula's file"
    );
    assert_eq!(fault.refusal, None);
    // It then is a label like any other, which no transition has: the box holds.
    let answer = checked(&case_of(model, "[clsoe] false", true).unwrap(), ROUNDS);
    assert_eq!(answer.holds, [true, true]);
}

#[test]
fn labels_are_known_by_their_names() {
    let model = "des (0, 1, 1)\n(0, \"focus|blur\", 0)\n";
    assert!(checked(&case(model, "<blur|focus> true"), ROUNDS).verdict);
    assert!(checked(&case(model, "<blur|tau|focus> true"), ROUNDS).verdict);
    let fault = case_of(model, "<blur> true", false).unwrap_err();
    assert_eq!(fault.message, "no transition has the label `blur`");
    let lines = "it happens only together with others, as in `focus|blur`\nthe model's labels: `focus|blur`\n";
    assert!(fault.help.unwrap().starts_with(lines));
}

/// The first line of the help says what may have been meant.
#[test]
fn what_an_unknown_label_may_be() {
    let model = "des (0, 3, 1)\n(0, click, 0)\n(0, close, 0)\n(0, focus|blur, 0)\n";
    let with_i = "des (0, 2, 1)\n(0, click, 0)\n(0, i, 0)\n";
    let lacks = "if some step should have it, the component or its recording lacks that step";
    let one_step = "it is one step with all of these names; for a step with any of them write `click || close`";
    let called =
        "is it called `i` in the model? Then say so: --silent i, or the line `% silent: i` in the formula's file";
    for (model, formula, meant) in [
        (model, "<clsoe>true", "did you mean `close`?"),
        (model, "<click|close>true", one_step),
        (model, "<blur>true", "it happens only together with others, as in `focus|blur`"),
        (model, "<submit>true", lacks),
        (model, "<tau>true", "the model has no silent step"),
        (model, "<tau|tau>true", "the model has no silent step"),
        (model, "<click|click|click>true", lacks),
        (model, "<blur|blur|blur>true", lacks),
        (with_i, "<tau>true", called),
    ] {
        let help = case_of(model, formula, false).unwrap_err().help.unwrap();
        assert_eq!(help.lines().next(), Some(meant), "{formula}");
    }
}

#[test]
fn the_help_lists_a_dozen_labels() {
    let fault = case_of(&loops(40), "<nothing_like_it> true", false).unwrap_err();
    let listed: Vec<String> = (0..12).map(|label| format!("`a{label}`")).collect();
    let line = format!("the model's labels: {} and 28 more", listed.join(", "));
    assert_eq!(fault.help.unwrap().lines().nth(1), Some(line.as_str()));
    let fault = case_of(&states(1), "<a> true", false).unwrap_err();
    assert_eq!(fault.help.unwrap().lines().nth(1), Some("the model has no transitions"));
    let fault = case_of(&loops(1), "[true*]<ture> true", false).unwrap_err();
    assert!(fault.help.unwrap().starts_with("did you mean `true`?\n"));
}

#[test]
fn numbers_that_text_does_not_bring_about() {
    let case = case(&states(1), "true");
    for number in [1, 2, 4, 5, 7, 8, 9, 11, 12, 13, 16, 17] {
        let fault = refusal::fault(&case, number, ROUNDS);
        let meaning = refusal::meaning(number);
        assert_eq!(fault.refusal, Some(number));
        assert_eq!(fault.message, format!("the library refuses the case file: {meaning}"));
        assert!(fault.help.unwrap().contains("please report it"));
    }
    // A condition that holds of no count, number or name of this case is not made up.
    for number in [3, 6, 10, 15] {
        assert!(refusal::fault(&case, number, ROUNDS).help.unwrap().contains("please report it"));
    }
}

#[test]
fn each_number_has_a_meaning_of_its_own() {
    let meanings: HashSet<&str> = (0..=18).map(refusal::meaning).collect();
    assert_eq!(meanings.len(), 19);
    assert_eq!(refusal::meaning(18), refusal::meaning(u64::MAX));
}

#[test]
fn a_formula_too_large_as_people_see_it() {
    // An and, a box and true, and 61 boxes are 64 nodes, and the last true is the 65th.
    let boxes = "[a0]".repeat(61);
    let formula = format!("[a0] true &&\n{boxes}true");
    assert_eq!(
        refused(&case(&loops(1), &formula), ROUNDS).to_string(),
        format!(
            "f.mcf:2:245: 65 formula nodes: the checker takes 1 to 64 (refusal 3)\n  |\n2 | …{}true\n  | {}^^^^\n  = help: node \
             65 begins at the mark; check the parts of the formula one by one",
            &boxes[164..],
            " ".repeat(81)
        )
    );
}
