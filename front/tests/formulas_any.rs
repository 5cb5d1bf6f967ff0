//! No text makes the reader, the printers or the expansion panic, exhaust the stack or take long. Tests run in threads of
//! two megabytes, and in debug builds too.

#[path = "support/tree_text.rs"]
mod tree_text;

use bithrowy_front::expand::{self, expand, Expansion};
use bithrowy_front::label::SILENT;
use bithrowy_front::lexer;
use bithrowy_front::parser::{self, NESTED, PARTS};
use bithrowy_front::print;
use bithrowy_front::source::Source;
use bithrowy_tests::random::Random;
use tree_text::tree;

/// Does all that there is to do with a text; says what became of it.
fn outcome(text: &str) -> String {
    let source = Source::new("any.mcf", text);
    let formula = match parser::read(&source, SILENT) {
        Ok(formula) => formula,
        Err(fault) => {
            assert!(!fault.to_string().is_empty() && fault.help.is_some(), "{text:?} has a fault without help");
            return fault.message;
        }
    };
    for printed in [print::plain(&formula), print::bracketed(&formula)] {
        let again = parser::read(&Source::new("printed.mcf", printed.clone()), SILENT);
        assert!(again.is_ok_and(|again| again.same(&formula)), "{printed}");
    }
    match expand(&source, &formula) {
        Err(fault) => {
            assert!(!fault.to_string().is_empty() && fault.help.is_some(), "{text:?} has a fault without help");
            fault.message
        }
        Ok(Expansion::TooLarge { .. }) => "too large".to_string(),
        Ok(Expansion::Table(table)) => {
            for node in 0..table.nodes.len().min(70) {
                assert!(!table.part(node).is_empty() && !table.text(node).is_empty());
            }
            "a table".to_string()
        }
    }
}

const WORDS: [&str; 56] = [
    "true", "false", "X", "Y", "mu", "nu", "mu X.", "nu Y.", ".", "!", "&&", "||", "=>", "[", "]", "<", ">", "(", ")",
    "+", "*", "|", "a", "b", "[a]", "<b>", "[a*]", "<a.b>", "\"a b\"", "\"a|b\"", "\"", "\\", "%", "% x\n", "\n", "1",
    "1.5", "&", "=", "==", "->", "~", "@", "forall", "exists", "val", "nil", "delay", "tau", "x-1", "don't", "-", "é",
    "\u{202e}", "\0", "form",
];

#[test]
fn random_words() {
    let mut random = Random::new(7);
    let mut tables = 0;
    for _ in 0..60_000 {
        let count = random.between(0, 14);
        let blank = random.pick(&["", " "]);
        let words: Vec<&str> = (0..count).map(|_| random.pick(&WORDS)).collect();
        tables += usize::from(outcome(&words.join(blank)) == "a table");
    }
    assert!(tables > 100, "{tables} tables");
}

#[test]
fn random_bytes() {
    let mut random = Random::new(8);
    let mut read = 0;
    for _ in 0..60_000 {
        let bytes: Vec<u8> = (0..random.between(0, 20)).map(|_| random.below(256) as u8).collect();
        if let Ok(source) = Source::from_bytes("any.mcf", bytes) {
            outcome(&source.text);
            read += 1;
        }
    }
    assert!(read > 3_000, "{read} texts");
}

/// A good formula with one of its characters changed, left out or doubled.
#[test]
fn damaged_formulas() {
    let mut random = Random::new(9);
    let good = "nu X. mu Y. [!\"a b\" . (c || d|e)* + f+](X && !<g>true) || <true>Y % ends";
    for _ in 0..30_000 {
        let mut letters: Vec<char> = good.chars().collect();
        let at = random.below(letters.len());
        match random.below(3) {
            0 => letters[at] = char::from(random.between(32, 126) as u8),
            1 => drop(letters.remove(at)),
            _ => letters.insert(at, letters[at]),
        }
        outcome(&letters.iter().collect::<String>());
    }
    assert_eq!(outcome(good), "a table");
}

const DEEP: &str = "more than 500 parts of the formula stand one inside the other";
const MANY: &str = "more than 10,000 parts are in the formula";

/// Short pieces, a whole text with each of them some times behind another, and what is said of very many.
const REPEATED: [(&str, &str, &str, &str); 18] = [
    ("", "(", "true", "expected \")\" after \"true\", found the end of the text"),
    ("", "!", "true", DEEP),
    ("", "[a]", "true", MANY),
    ("", "<a>", "true", MANY),
    ("", "mu X. ", "true", DEEP),
    ("", "true && ", "true", MANY),
    ("", "true || ", "true", MANY),
    ("", "true => ", "true", MANY),
    ("", "(true && ", "true", MANY),
    ("[", "(", "a]true", "expected \")\" after \"a\", found \"]\""),
    ("[", "!", "a]true", DEEP),
    ("[", "a && ", "a]true", MANY),
    ("[", "a . ", "a]true", MANY),
    ("[", "a + ", "a]true", MANY),
    ("[a", "*", "]true", DEEP),
    ("[a", "+", "]true", DEEP),
    ("[a", "|b", "]true", "a table"),
    ("", "% \n", "true", "a table"),
];

#[test]
fn long_chains_and_deep_nesting() {
    for (before, piece, behind, expected) in REPEATED {
        for count in [10, 199, 480, 520, 5_000, 100_000] {
            let text = format!("{before}{}{behind}", piece.repeat(count));
            let outcome = outcome(&text);
            if count == 100_000 {
                assert_eq!(outcome, expected, "{count} times {piece:?}");
            }
        }
    }
}

#[test]
fn brackets_alone_are_never_too_deep() {
    let (open, close) = ("(".repeat(100_000), ")".repeat(100_000));
    assert_eq!(outcome(&format!("{open}true{close}")), "a table");
    assert_eq!(outcome(&format!("[{open}a{close}]true")), "a table");
    assert_eq!(outcome(&format!("[{open}a.b{close}]true")), "a table");
}

/// Brackets in pairs around `true` are an odd number of words, and one or two negations before them are the rest.
#[test]
fn words_in_range() {
    let pairs = lexer::WORDS / 2 - 1;
    let text = format!("{}true{}", "(".repeat(pairs), ")".repeat(pairs));
    assert_eq!(outcome(&format!("!{text}")), "a table");
    assert_eq!(outcome(&format!("!!{text}")), "more than 500,000 words and signs are in the formula");
}

/// Both sides of the limits. A chain of so many operands is so many parts deep, and has twice as many parts but one.
#[test]
fn limits() {
    let chain = |operands: usize| format!("{}true", "true && ".repeat(operands - 1));
    assert_eq!(outcome(&chain(NESTED)), "a table");
    assert_eq!(outcome(&chain(NESTED + 1)), DEEP);
    // Each `!` is a part as well, though it costs no node.
    let negated = |negations: usize| format!("{}true", "!".repeat(negations));
    assert_eq!(outcome(&negated(NESTED - 1)), "a table");
    assert_eq!(outcome(&negated(NESTED)), DEEP);
    // Each of the brackets has three parts, and the `||` between two of them is one more.
    let wide = |brackets: usize| vec!["(true && X)"; brackets].join(" || ");
    let halves = |brackets: usize| format!("mu X. ({}) && ({})", wide(brackets / 2), wide(brackets - brackets / 2));
    assert_eq!(outcome(&halves(400)), "a table");
    // Trees have 2^13 - 1, 2^10 - 1 and 2^9 - 1 parts, two more join them, and each `!` is one: 273 of them make 10,000.
    let trees = format!("({} && {} && {})", tree(12), tree(9), tree(8));
    assert_eq!(PARTS, 8_191 + 1_023 + 511 + 2 + 273);
    assert_eq!(outcome(&format!("{}{trees}", "!".repeat(273))), "too large");
    assert_eq!(outcome(&format!("{}{trees}", "!".repeat(274))), MANY);
}

/// The formula doubles with each level, so it cannot be written out; it is counted all the same. By hand: with k nodes
/// behind it `[a . b + c . d]` has 5 + 2k nodes (one `&&` and four modalities), so n levels over one node have
/// 6 * 2^n - 5; and 4 action nodes more each time than twice those behind it, so 4 * 2^n - 4.
#[test]
fn what_is_too_large_is_counted() {
    for (levels, expected) in
        [(10, (6_139, 4_092)), (12, (24_571, 16_380)), (40, (6_597_069_766_651, 4_398_046_511_100))]
    {
        let text = format!("{}true", "[a . b + c . d]".repeat(levels));
        assert_eq!(counted(&text), expected, "{levels} levels");
    }
    assert_eq!(counted(&format!("{}true", "[a . b + c . d]".repeat(80))), (usize::MAX, usize::MAX));
    let sequence = format!("[{}]true", vec!["(a . b + c . d)"; 40].join(" . "));
    assert_eq!(counted(&sequence), counted(&format!("{}true", "[a . b + c . d]".repeat(40))));
}

fn counted(text: &str) -> (usize, usize) {
    let source = Source::new("large.mcf", text);
    let formula = parser::read(&source, SILENT).unwrap_or_else(|fault| panic!("{fault}"));
    match expand(&source, &formula) {
        Ok(Expansion::TooLarge { nodes, actions, .. }) => {
            assert!(nodes > expand::WRITTEN_OUT);
            (nodes, actions)
        }
        other => panic!("{text}: {other:?}"),
    }
}
