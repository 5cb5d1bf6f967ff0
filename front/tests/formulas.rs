//! Formulas read and printed: precedence as bracketed forms that were worked out by hand, random formulas that are the
//! same after printing, and tables.

mod support;

use bithrowy_front::formula::StateFormula;
use bithrowy_front::label::SILENT;
use bithrowy_front::source::Source;
use bithrowy_front::{parser, print};
use bithrowy_tests::random::Random;
use support::labels::Pool;
use support::trees::shape;
use support::{formulas, writing};

fn read(text: &str, silent: &str) -> StateFormula {
    parser::read(&Source::new("test.mcf", text), silent).unwrap_or_else(|fault| panic!("{fault}"))
}

/// Formulas, and the same with brackets around each operand that is more than a word. Worked out by hand from the order
/// from loose to tight: binders as far to the right as possible, `=>`, `||`, `&&`, modalities, `!`; in a modality `+`,
/// `.`, star and plus, `=>`, `||`, `&&`, `!`. Operators between operands group to the right.
const PRECEDENCE: [(&str, &str); 40] = [
    ("X", "X"),
    ("A && B && C", "A && (B && C)"),
    ("A || B || C", "A || (B || C)"),
    ("A => B => C", "A => (B => C)"),
    ("A && B || C && D", "(A && B) || (C && D)"),
    ("A || B && C || D", "A || ((B && C) || D)"),
    ("A || B => C || D", "(A || B) => (C || D)"),
    ("A => B && C => D", "A => ((B && C) => D)"),
    ("A && B => C || D && E", "(A && B) => (C || (D && E))"),
    ("(A => B) => C", "(A => B) => C"),
    ("(A || B) && C", "(A || B) && C"),
    ("!A && B", "(!A) && B"),
    ("!(A && B)", "!(A && B)"),
    ("!!A || !B", "(!(!A)) || (!B)"),
    ("[a] A && B", "([a] A) && B"),
    ("[a] <b> A || B", "([a] (<b> A)) || B"),
    ("![a] A => B", "(!([a] A)) => B"),
    ("[a] !A && B", "([a] (!A)) && B"),
    ("mu X. A && B", "mu X. (A && B)"),
    ("mu X. A => nu Y. B || C", "mu X. (A => (nu Y. (B || C)))"),
    ("[a] mu X. X && Y", "[a] (mu X. (X && Y))"),
    ("A && mu X. X || B", "A && (mu X. (X || B))"),
    ("!mu X. X => Y", "!(mu X. (X => Y))"),
    ("(mu X. X) && A", "(mu X. X) && A"),
    ("A || mu X. B && [a] nu Y. X => Y", "A || (mu X. (B && ([a] (nu Y. (X => Y)))))"),
    ("[a && b*] X", "[(a && b)*] X"),
    ("[!a*] X", "[(!a)*] X"),
    ("[!(a || b)*] X", "[(!(a || b))*] X"),
    ("[a || b && c => d] X", "[(a || (b && c)) => d] X"),
    ("[!a && b] X", "[(!a) && b] X"),
    ("[a . b + c . d] X", "[(a . b) + (c . d)] X"),
    ("[a + b . c + d] X", "[a + ((b . c) + d)] X"),
    ("[a . b . c] X", "[a . (b . c)] X"),
    ("[a . b*] X", "[a . (b*)] X"),
    ("[(a . b)*] X", "[(a . b)*] X"),
    ("[a* . b+ + c] X", "[((a*) . (b+)) + c] X"),
    ("[a++b] X", "[(a+) + b] X"),
    ("[a+.b] X", "[(a+) . b] X"),
    ("[a+*] <a**> X", "[(a+)*] (<(a*)*> X)"),
    ("[true* . a|b || \"c d\"+] X", "[(true*) . ((a|b || \"c d\")+)] X"),
];

#[test]
fn precedence() {
    for (text, expected) in PRECEDENCE {
        let formula = read(text, SILENT);
        assert_eq!(print::bracketed(&formula), expected, "{text}");
        assert!(read(expected, SILENT).same(&formula), "{text}");
    }
}

/// Formulas with more brackets and other blanks than the reading needs, and the same with as few as it needs.
const NEEDED: [(&str, &str); 12] = [
    ("((X))", "X"),
    ("(A&&B)||C", "A && B || C"),
    ("A&&(B||C)", "A && (B || C)"),
    ("(A&&B)&&C", "(A && B) && C"),
    ("A&&(B&&C)", "A && B && C"),
    ("A && (mu X. (X || B))", "A && mu X. X || B"),
    ("(A && mu X. X) || B", "A && (mu X. X) || B"),
    ("([a] (mu X. X)) || B", "[a] (mu X. X) || B"),
    ("([(a)+((b).(c))](X))", "[a + b . c] X"),
    ("[((!a))*]X", "[!a*] X"),
    ("[(a+b)*]X", "[(a + b)*] X"),
    ("% a comment\n<a | b>\r\n\ttrue% and another", "<a|b> true"),
];

#[test]
fn no_more_brackets_than_needed() {
    for (text, expected) in NEEDED {
        assert_eq!(print::plain(&read(text, SILENT)), expected, "{text}");
    }
}

/// The places of a bracket and of the one that closes it, for all round brackets of a text whose labels hold none.
fn brackets(text: &str) -> Vec<(usize, usize)> {
    let mut open = Vec::new();
    let mut pairs = Vec::new();
    for (at, letter) in text.char_indices() {
        match letter {
            '(' => open.push(at),
            ')' => pairs.extend(open.pop().map(|opening| (opening, at))),
            _ => {}
        }
    }
    pairs
}

/// Is the text another formula, or none, without a pair of brackets?
fn is_needed(formula: &StateFormula, text: &str, (opening, closing): (usize, usize)) -> bool {
    let without = [&text[..opening], &text[opening + 1..closing], &text[closing + 1..]].concat();
    match parser::read(&Source::new("test.mcf", without), SILENT) {
        Ok(other) => !other.same(formula),
        Err(_) => true,
    }
}

#[test]
fn without_any_bracket_it_is_another_formula() {
    let mut random = Random::new(4);
    let mut tried = 0;
    while tried < 3_000 {
        let pool = Pool::new(&mut random);
        let parts = random.between(4, 20);
        let text = print::plain(&formulas::random(&mut random, &pool, parts));
        // A label in quotes may hold brackets of its own.
        if pool.silent != SILENT || text.contains('"') {
            continue;
        }
        let formula = read(&text, SILENT);
        for pair in brackets(&text) {
            assert!(is_needed(&formula, &text, pair), "{text} needs no brackets at {pair:?}");
            tried += 1;
        }
    }
}

#[test]
fn random_formulas_are_the_same_after_printing() {
    let mut random = Random::new(18);
    let (mut binders, mut stars) = (0, 0);
    for trial in 0..20_000 {
        let pool = Pool::new(&mut random);
        let parts = random.between(1, 30);
        let tree = formulas::random(&mut random, &pool, parts);
        let formula = read(&writing::noisy(&mut random, &tree, None), pool.silent);
        assert_eq!(shape(&formula), shape(&tree), "trial {trial}");
        let (plain, bracketed) = (print::plain(&formula), print::bracketed(&formula));
        for text in [&plain, &bracketed] {
            let again = read(text, pool.silent);
            assert!(again.same(&formula), "trial {trial}: {text}");
            assert_eq!(shape(&again), shape(&tree), "trial {trial}: {text}");
        }
        binders += usize::from(plain.contains("mu ") || plain.contains("nu "));
        stars += usize::from(plain.contains("*] ") || plain.contains("*> "));
    }
    assert!(binders > 4_000 && stars > 1_000, "{binders} formulas with binders, {stars} with stars");
}

/// A formula differs from each one in which a single word is another.
#[test]
fn different_formulas_are_not_the_same() {
    let texts = [
        "mu X. [a] X && true",
        "nu X. [a] X && true",
        "mu Y. [a] Y && true",
        "mu X. <a> X && true",
        "mu X. [b] X && true",
        "mu X. [a] X || true",
        "mu X. [a] X => true",
        "mu X. [a] X && false",
        "mu X. [a] (X && true)",
        "mu X. [a*] X && true",
        "mu X. [a+] X && true",
        "mu X. [a . a] X && true",
        "mu X. [a + a] X && true",
        "mu X. [a && a] X && true",
        "mu X. [a || a] X && true",
        "mu X. [a => a] X && true",
        "mu X. [!a] X && true",
        "mu X. [true] X && true",
        "mu X. [false] X && true",
        "mu X. ![a] X && true",
        "mu X. [a|b] X && true",
    ];
    for (one, text) in texts.iter().enumerate() {
        for (other, again) in texts.iter().enumerate() {
            assert_eq!(read(text, SILENT).same(&read(again, SILENT)), one == other, "{text}, {again}");
        }
    }
}
