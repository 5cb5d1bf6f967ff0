//! Models as text: what is read, what is written, and what labels mean.

use bithrowy_front::label::{Label, SILENT};
use bithrowy_front::model::Model;
use bithrowy_front::source::{Source, Span};
use bithrowy_front::{aut, label};

fn read(text: &str) -> Model {
    aut::read(&Source::new("dialog.aut", text), SILENT).unwrap_or_else(|fault| panic!("{fault}"))
}

fn texts(model: &Model) -> Vec<&str> {
    model.labels.iter().map(|label| label.text.as_str()).collect()
}

/// Source, label and target of each transition.
fn records(model: &Model) -> Vec<(usize, usize, usize)> {
    model.transitions.iter().map(|transition| (transition.source, transition.label, transition.target)).collect()
}

fn label(text: &str) -> Label {
    Label::read(text, SILENT).expect("a label")
}

/// The model of the paper's P1: a dialog that is open, closing and closed, and whose click was recorded twice.
#[test]
fn model_of_p1() {
    let text = "des (0, 3, 3)\n(0, \"click\", 1)\n(0, \"click\", 1)\n(1, \"close\", 2)\n";
    let model = read(text);
    assert_eq!((model.initial, model.states, model.silent.as_str()), (0, 3, "tau"));
    assert_eq!(texts(&model), ["click", "close"]);
    assert_eq!(records(&model), [(0, 0, 1), (0, 0, 1), (1, 1, 2)]);
    assert_eq!(model.reachable(), [true, true, true]);
    assert_eq!(aut::write(&model), text);
}

#[test]
fn transitions_and_the_header_know_their_lines() {
    let text = "\n  des (0, 2, 2) \r\n\r\n\t(0, é, 1)\r\n (1, b, 0)";
    let model = read(text);
    let parts: Vec<&str> = model.transitions.iter().map(|transition| model.source.slice(transition.span)).collect();
    assert_eq!(parts, ["(0, é, 1)", "(1, b, 0)"]);
    assert_eq!(model.source.slice(model.header), "des (0, 2, 2)");
    assert_eq!(model.header, Span::new(3, 16));
}

#[test]
fn blanks_are_free() {
    let wide = read(" des  (  1 ,  2 ,\t3 ) \n\n\t( 0 , \"a\" , 1 )\n(0,b c,2)   \n\n");
    let narrow = read("des(1,2,3)\r\n(0,\"a\",1)\r\n(0,\"b c\",2)");
    assert_eq!(records(&wide), records(&narrow));
    assert_eq!(texts(&wide), ["a", "b c"]);
    assert_eq!(texts(&narrow), ["a", "b c"]);
    assert_eq!((wide.initial, wide.states), (1, 3));
}

/// A bare label is what stands between the first comma and the last, without the blanks around it.
#[test]
fn bare_labels_hold_anything_but_quotes() {
    let model = read("des (0, 5, 2)\n(0, a(1,2), 1)\n(0,a(1,2),1)\n(0, ), 1)\n(0, \\n % (, 1)\n(0,,,1)\n");
    assert_eq!(texts(&model), ["a(1,2)", ")", "\\n % (", ","]);
    assert_eq!(records(&model), [(0, 0, 1), (0, 0, 1), (0, 1, 1), (0, 2, 1), (0, 3, 1)]);
}

/// `"say \"hi\""` is `say "hi"`, and `"C:\\"` is `C:\`.
#[test]
fn quoted_labels_hold_quotes_and_backslashes() {
    let text = "des (0, 3, 2)\n(0, \"say \\\"hi\\\"\", 1)\n(0, \"C:\\\\\", 1)\n(0, \"), (\", 1)\n";
    let model = read(text);
    assert_eq!(texts(&model), ["say \"hi\"", "C:\\", "), ("]);
    assert_eq!(aut::write(&model), text);
}

/// Labels with the same names in another order are two labels, and alike. The silent word says nothing of its own.
#[test]
fn labels_of_several_names() {
    let model = read("des (0, 5, 1)\n(0, focus | blur, 0)\n(0, \"blur|focus\", 0)\n(0, tau, 0)\n(0, focus|tau, 0)\n(0, focus|blur, 0)\n");
    assert_eq!(texts(&model), ["focus|blur", "blur|focus", "tau", "focus|tau"]);
    assert_eq!(records(&model).iter().map(|record| record.1).collect::<Vec<_>>(), [0, 1, 2, 3, 0]);
    let names: Vec<Vec<&str>> =
        model.labels.iter().map(|label| label.names.iter().map(String::as_str).collect()).collect();
    assert_eq!(names, [vec!["blur", "focus"], vec!["blur", "focus"], vec![], vec!["focus"]]);
    assert!(model.labels[0].alike(&model.labels[1]));
    assert!(!model.labels[0].alike(&model.labels[3]));
}

#[test]
fn another_word_may_be_silent() {
    let source = Source::new("cadp.aut", "des (0, 2, 1)\n(0, i, 0)\n(0, tau, 0)\n");
    let model = aut::read(&source, "i").expect("a model");
    assert_eq!(model.silent, "i");
    assert_eq!(model.labels.iter().map(Label::is_silent).collect::<Vec<_>>(), [true, false]);
}

#[test]
fn numbers_may_be_out_of_range() {
    let largest = usize::MAX;
    let model = read(&format!("des ({largest}, 2, {largest})\n({largest}, a, 0)\n(0, a, {largest})\n"));
    assert_eq!((model.initial, model.states), (largest, largest));
    assert_eq!(records(&model), [(largest, 0, 0), (0, 0, largest)]);
    assert!(model.reachable().iter().all(|&reached| !reached));

    let model = read("des (0, 3, 2)\n(0, a, 7)\n(7, a, 1)\n(9, a, 0)\n");
    assert_eq!(model.reachable(), [true, false], "state 7 is no state, so nothing leads through it");
    assert_eq!(read("des (0, 0, 0)").reachable(), [false; 0]);
}

#[test]
fn reachable_states_need_a_path() {
    let model = read("des (1, 5, 5)\n(3, a, 4)\n(2, a, 1)\n(1, a, 3)\n(4, tau, 1)\n(0, a, 1)\n");
    assert_eq!(model.reachable(), [false, true, false, true, true]);
}

#[test]
fn labels_are_read_without_the_blanks_around_names() {
    let read = label(" a  b |\tc ");
    assert_eq!((read.text.as_str(), read.names), ("a  b|c", vec!["a  b".to_string(), "c".to_string()]));
    assert_eq!(label("b|a|b").names, ["a", "b", "b"]);
    assert!(!label("b|a|b").alike(&label("a|b")), "a name counts as often as it is written");
    assert!(label("tau|tau").is_silent() && label("tau|tau").is_joined());
    assert!(label("tau").is_silent() && !label("tau").is_joined());
}

#[test]
fn labels_that_are_refused() {
    let error = |text: &str| Label::read(text, SILENT).expect_err("an error");
    for text in ["", " ", "\n"] {
        assert_eq!(error(text), "a label has a name, and this one is empty");
    }
    for text in ["|", "a|", "|a", "a||b", "a| |b"] {
        assert_eq!(error(text), "a name stands before and behind each \"|\", and here one is missing");
    }
    for text in ["a\nb", "a|b\rc"] {
        assert_eq!(error(text), "a label stands on one line, and here a line ends inside it");
    }
}

#[test]
fn labels_are_bare_where_formulas_can_read_them_so() {
    let quoted = |text: &str| label(text).quoted();
    for text in ["click", "tau", "_", "a1'", "focus-in", "a-b-c'd", "focus|blur", "größer", "truely", "a-1"] {
        assert_eq!(quoted(text), text);
    }
    for text in ["true", "mu", "1a", "-a", "a-", "a--b", "'a", "a b", "a(1,2)", "a.b", "focus|true", "50%", "*"] {
        assert_eq!(quoted(text), format!("\"{text}\""));
    }
    assert_eq!(quoted("say \"hi\""), "\"say \\\"hi\\\"\"");
    assert_eq!(quoted("C:\\"), "\"C:\\\\\"");
    assert!(!label::is_bare(""));
}
