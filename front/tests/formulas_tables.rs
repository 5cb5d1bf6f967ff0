//! Formulas as tables: what each construct becomes, worked out by hand; names, parts and sizes.

mod support;
#[path = "support/tree_text.rs"]
mod tree_text;

use bithrowy_front::expand::{expand, Expansion};
use bithrowy_front::label::{Label, SILENT};
use bithrowy_front::parser;
use bithrowy_front::source::Source;
use bithrowy_front::table::{ActionNode, Kind, Table};
use bithrowy_tests::random::Random;
use support::labels::Pool;
use support::{counting, formulas, writing};
use tree_text::tree;

fn expansion(text: &str, silent: &str) -> Expansion {
    let source = Source::new("test.mcf", text);
    let formula = parser::read(&source, silent).unwrap_or_else(|fault| panic!("{fault}"));
    expand(&source, &formula).unwrap_or_else(|fault| panic!("{fault}"))
}

fn table(text: &str) -> Table {
    table_with(text, SILENT)
}

fn table_with(text: &str, silent: &str) -> Table {
    match expansion(text, silent) {
        Expansion::Table(table) => table,
        large => panic!("{text}: {large:?}"),
    }
}

fn kinds(table: &Table) -> Vec<Kind> {
    table.nodes.iter().map(|node| node.kind).collect()
}

fn names(table: &Table) -> Vec<&str> {
    table.binders().into_iter().map(|binder| table.nodes[binder].name.as_str()).collect()
}

fn labels(table: &Table) -> Vec<&str> {
    table.labels.iter().map(|(label, _)| label.text.as_str()).collect()
}

/// P1 of the paper: action node true; formula mu, box on action node 0, variable of node 0.
#[test]
fn the_first_of_the_paper() {
    let table = table("mu X. [true] X");
    assert_eq!(table.actions, [ActionNode::True]);
    assert_eq!(kinds(&table), [Kind::Mu, Kind::Box(0), Kind::Variable(0)]);
}

/// By hand, node by node: a star in a sequence, under a binder.
#[test]
fn a_table_in_full() {
    let table = table("nu X. <!a . b*> X && [b] true");
    use Kind::*;
    let expected = [Nu, And, Diamond(0), Mu, Or, Variable(0), Diamond(2), Variable(3), Box(2), True];
    assert_eq!(kinds(&table), expected);
    assert_eq!(table.actions, [ActionNode::Not, ActionNode::Label(0), ActionNode::Label(1)]);
    assert_eq!((labels(&table), names(&table), table.binders()), (vec!["a", "b"], vec!["X", "Z"], vec![0, 3]));
    assert_eq!([1, 2, 4, 8, 9].map(|node| table.operands(node)), [vec![2, 8], vec![3], vec![5, 6], vec![9], vec![]]);
    assert_eq!([0, 2, 3, 6, 8].map(|node| table.end(node)), [10, 8, 8, 8, 10]);
    let closed: Vec<usize> = (0..10).filter(|&node| table.is_closed(node)).collect();
    assert_eq!(closed, [0, 8, 9]);
    assert_eq!((table.blocks(), self::table("true && nu X. X").blocks()), (2, 2));
    assert_eq!((table.operands(10), table.end(10)), (vec![], 10));
}

/// Formulas, and others that are written out by hand and have the same table.
const WRITTEN_OUT: [(&str, &str); 32] = [
    ("A => B", "!A || B"),
    ("!(A => B)", "A && !B"),
    ("!(A && B)", "!A || !B"),
    ("!(A || B)", "!A && !B"),
    ("!!A", "A"),
    ("!!![a] A", "<a> !A"),
    ("!true", "false"),
    ("!false || !true", "true || false"),
    ("![a && !b] A", "<a && !b> !A"),
    ("!<a> (A => B)", "[a] (A && !B)"),
    ("!(mu X. [a] X && B)", "nu X. <a> X || !B"),
    ("!(nu X. !(mu Y. !X && A))", "mu X. mu Y. X && A"),
    ("[a . b] A", "[a] [b] A"),
    ("<a . b . c> A", "<a> <b> <c> A"),
    ("[a . b + c] A", "[a] [b] A && [c] A"),
    ("<a . b + c> A", "<a> <b> A || <c> A"),
    ("[a + b] A", "[a || b] A"),
    ("<a + b && c + d> A", "<a || (b && c || d)> A"),
    ("[a + b + c . d] A", "[a] A && [b] A && [c] [d] A"),
    ("[(a + b) . c + (d + e)] A", "[a || b] [c] A && [d || e] A"),
    ("[a*] A", "nu Z. A && [a] Z"),
    ("<a*> A", "mu Z. A || <a> Z"),
    ("[a+] A", "[a] nu Z. A && [a] Z"),
    ("<a+> A", "<a> mu Z. A || <a> Z"),
    ("[(a + b)*] A", "nu Z. A && [a || b] Z"),
    ("[(a . b)*] A", "nu Z. A && [a] [b] Z"),
    ("[(a . b + c)*] A", "nu Z. A && ([a] [b] Z && [c] Z)"),
    ("[a* . b] A", "nu Z. [b] A && [a] Z"),
    ("[a**] A", "nu Z. A && nu Y. Z && [a] Y"),
    ("<(a+)*> A", "mu Z. A || <a> mu Y. Z || <a> Y"),
    ("![a* . b] A", "mu Z. <b> !A || <a> Z"),
    ("[a* + b] A", "(nu Z. A && [a] Z) && [b] A"),
];

#[test]
fn constructs_are_written_out() {
    for (text, by_hand) in WRITTEN_OUT {
        // The parts that are left open are two closed formulas without a modality.
        let closed = |text: &str| text.replace('A', "(mu U. U)").replace('B', "(nu V. V)");
        let (one, other) = (table(&closed(text)), table(&closed(by_hand)));
        assert_eq!(kinds(&one), kinds(&other), "{text}");
        assert_eq!((&one.actions, labels(&one)), (&other.actions, labels(&other)), "{text}");
    }
}

#[test]
fn equal_action_formulas_stand_once() {
    let table = table("[b || a] <b || a> ([a] true && <b> [a||b] <(b || a)> true)");
    let boxes: Vec<usize> = table
        .nodes
        .iter()
        .filter_map(|node| match node.kind {
            Kind::Box(action) | Kind::Diamond(action) => Some(action),
            _ => None,
        })
        .collect();
    use ActionNode::*;
    assert_eq!(table.actions, [Or, Label(0), Label(1), Label(1), Label(0), Or, Label(1), Label(0)]);
    assert_eq!(boxes, [0, 0, 3, 4, 5, 0]);
    assert_eq!(labels(&table), ["b", "a"]);
    let places: Vec<usize> = table.labels.iter().map(|(_, span)| span.start).collect();
    assert_eq!(places, [1, 6]);
}

/// A label stands in the list once for each text; which labels are accepted is up to the names.
#[test]
fn action_formulas_accept_labels() {
    let table = table("[a|b] [b|a] [\"a\" | b] [tau] [!(a || b)] [a => b] [a && true] [false || a|tau] true");
    assert_eq!(labels(&table), ["a|b", "b|a", "tau", "a", "b", "a|tau"]);
    let accepted = |text: &str| -> String {
        let label = Label::read(text, SILENT).unwrap_or_else(|message| panic!("{message}"));
        let accepts = |node: &Kind| match node {
            Kind::Box(action) => {
                if table.accepts(*action, &label) {
                    "1"
                } else {
                    "0"
                }
            }
            _ => "",
        };
        kinds(&table).iter().map(accepts).collect()
    };
    assert_eq!(accepted("b|a"), "11101100");
    assert_eq!(accepted("a|b|tau"), "11101100");
    assert_eq!(accepted("a"), "00000011");
    assert_eq!(accepted("b"), "00000100");
    assert_eq!(accepted("tau|tau"), "00011100");
    assert_eq!(accepted("a|a"), "00001100");
    assert!(!table.accepts(table.actions.len(), &table.labels[0].0));
}

/// Names of binders: a name bound inside itself is made different, a star's is new, and none is one that is used.
#[test]
fn names_of_binders() {
    for (text, expected) in [
        ("mu X. [a] mu Y. X && Y", vec!["X", "Y"]),
        ("(mu X. X) && nu X. X", vec!["X", "X"]),
        ("mu X. X && nu X. X && mu X. X", vec!["X", "X1", "X2"]),
        ("mu X. mu X1. mu X. X1", vec!["X", "X1", "X_1"]),
        ("[a*] <b*> true", vec!["Z", "Z1"]),
        ("[a*] true && [b*] true", vec!["Z", "Z"]),
        ("mu Z. [a*] Z", vec!["Z", "Z_"]),
        ("mu Z. mu Z. mu Z_1. [a*] <b*> Z", vec!["Z", "Z1", "Z_1", "Z__", "Z__1"]),
        ("mu Z7. [(a* . b)*] true", vec!["Z7", "Z_", "Z_1"]),
    ] {
        assert_eq!(names(&table(text)), expected, "{text}");
    }
}

/// What the parts are called: their own words where these say the same, with the names of the table.
#[test]
fn parts_in_words() {
    let parts = |text: &str| -> Vec<String> {
        let table = table(text);
        (0..table.nodes.len()).map(|node| table.part(node)).collect()
    };
    assert_eq!(
        parts("mu X.[ a ]  X\n% or\n || (<\"b  c\">true)"),
        ["mu X.[ a ] X || (<\"b  c\">true)", "[ a ] X || (<\"b  c\">true)", "[ a ] X", "X", "<\"b  c\">true", "true",]
    );
    assert_eq!(
        parts("!(<a>true && ![b]false)"),
        ["!(<a>true && ![b]false)", "[a] false", "false", "[b]false", "false",]
    );
    assert_eq!(parts("[a* . b](true)"), ["[a* . b](true)", "[b] true && [a] Z", "[b] true", "true", "[a] Z", "Z",]);
    // Below the negation X has the states that the text's X has not, so the inner part is not literal.
    assert_eq!(parts("!(mu X. !(X => [a]!X))"), ["!(mu X. !(X => [a]!X))", "X || [a] X", "X", "[a] X", "X"]);
    assert_eq!(
        parts("nu X. <a>X && mu X. [b]X"),
        ["nu X. <a> X && mu X1. [b] X1", "<a> X && mu X1. [b] X1", "<a>X", "X", "mu X1. [b] X1", "[b] X1", "X1",]
    );
}

/// A node's subtree with variables bound outside by name, and action formulas as text.
fn subtree(table: &Table, root: usize) -> Vec<String> {
    let node = |at: usize| match table.nodes[at].kind {
        Kind::Variable(binder) if binder < root => table.nodes[binder].name.clone(),
        Kind::Variable(binder) => format!("{}", binder - root),
        Kind::Box(action) => format!("[{}]", table.action_text(action)),
        Kind::Diamond(action) => format!("<{}>", table.action_text(action)),
        kind => format!("{kind:?}"),
    };
    (root..table.end(root)).map(node).collect()
}

/// The binders around a node, the outermost first.
fn around(table: &Table, node: usize) -> Vec<&str> {
    let binders = table.binders().into_iter().filter(|&binder| binder < node && node < table.end(binder));
    binders.map(|binder| table.nodes[binder].name.as_str()).collect()
}

/// A random formula's table, if its variables stand where they may and it is not too large.
fn random_table(random: &mut Random, parts: usize) -> Option<(String, &'static str, Table)> {
    let pool = Pool::new(random);
    let tree = formulas::random(random, &pool, parts);
    let text = writing::noisy(random, &tree, None);
    let small = counting::Wrong::of(&tree).is_none() && counting::size(&tree).nodes < 200;
    small.then(|| (text.clone(), pool.silent, table_with(&text, pool.silent)))
}

/// Both names of each node, read again with the binders around it, give its subtree; and the names of binders that are
/// one inside the other differ.
#[test]
fn texts_and_parts_say_what_the_nodes_say() {
    let mut random = Random::new(21);
    let (mut literal, mut open) = (0, 0);
    for _ in 0..2_500 {
        let parts = random.between(1, 14);
        let Some((text, silent, table)) = random_table(&mut random, parts) else { continue };
        for node in 0..table.nodes.len() {
            let names = around(&table, node);
            assert!(!names.contains(&table.nodes[node].name.as_str()), "{text}: node {node}");
            let binders: String = names.iter().map(|name| format!("mu {name}. ")).collect();
            for words in [table.text(node), table.part(node)] {
                let again = table_with(&format!("{binders}({words})"), silent);
                assert_eq!(subtree(&again, names.len()), subtree(&table, node), "{text}: {words}");
            }
            literal += usize::from(table.nodes[node].literal);
            open += usize::from(!table.is_closed(node));
        }
    }
    assert!(literal > 3_000 && open > 3_000, "{literal} literal nodes, {open} open ones");
}

#[test]
fn a_formula_negated_twice_has_its_table() {
    let mut random = Random::new(22);
    for _ in 0..2_500 {
        let parts = random.between(1, 14);
        let Some((text, silent, table)) = random_table(&mut random, parts) else { continue };
        let twice = table_with(&format!("!!({text})"), silent);
        assert_eq!(kinds(&twice), kinds(&table), "{text}");
        assert_eq!((&twice.actions, labels(&twice)), (&table.actions, labels(&table)), "{text}");
        assert_eq!(names(&twice), names(&table), "{text}");
    }
}

/// Sizes as counted are sizes as written: behind a tree of constants that is too large to be written out alone, a formula
/// counts as many nodes as its table has, and as many action nodes as its modalities have, each time anew.
#[test]
fn sizes_as_counted_are_sizes_as_written() {
    let tree = tree(12);
    let mut random = Random::new(23);
    for _ in 0..150 {
        let parts = random.between(1, 14);
        let Some((text, silent, table)) = random_table(&mut random, parts) else { continue };
        let of_modality = |kind: Kind| match kind {
            Kind::Box(action) | Kind::Diamond(action) => table.action_end(action) - action,
            _ => 0,
        };
        let expected: usize = kinds(&table).into_iter().map(of_modality).sum();
        match expansion(&format!("{tree} && ({text})"), silent) {
            // The tree has 2^13 - 1 nodes, and the `&&` before the formula is one more.
            Expansion::TooLarge { nodes, actions, .. } => {
                assert_eq!((nodes, actions), (8_192 + table.nodes.len(), expected), "{text}");
            }
            other => panic!("{other:?}"),
        }
    }
}
