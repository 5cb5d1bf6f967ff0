//! What a formula's comments say: the directives, the faults in them, and patterns.

use bithrowy_front::directives::{matches, read, Directives};
use bithrowy_front::source::{Source, Span};
use bithrowy_tests::random::Random;

fn directives(text: &str) -> Directives {
    read(&Source::new("close.mcf", text)).expect("directives without a fault")
}

/// The whole printed text of the fault.
fn fault(text: &str) -> String {
    read(&Source::new("close.mcf", text)).expect_err("a fault").to_string()
}

/// The patterns of each line, and what is expected of their models.
fn patterns(directives: &Directives) -> Vec<(Vec<&str>, bool)> {
    let lines = directives.expectations.iter();
    lines.map(|line| (line.patterns.iter().map(|(text, _)| text.as_str()).collect(), line.expected)).collect()
}

#[test]
fn a_text_without_directives_says_nothing() {
    for text in ["", "nu X. [a] X", "% a comment\ntrue", "% note: this is free text\ntrue", "% http://example.org\n"] {
        assert_eq!(directives(text), Directives::default(), "{text}");
    }
}

#[test]
fn each_directive_is_read() {
    let text =
        "% Does it close?\n% name: The close event always comes \n%models: a.aut\n% silent: i\n% limit: 5000\n  \
                % unknown labels: allow\nmu X. [true] X\n";
    let read = directives(text);
    assert_eq!(read.name.as_deref(), Some("The close event always comes"));
    assert_eq!(patterns(&read), [(vec!["a.aut"], true)]);
    assert_eq!(read.silent.as_deref(), Some("i"));
    assert_eq!(read.limit, Some(5000));
    assert!(read.unknown_labels);
}

#[test]
fn lines_may_end_with_a_return() {
    let read = directives("% name: x\r\n% models: a.aut\r\n% expect: false\r\ntrue\r\n");
    assert_eq!((read.name.as_deref(), patterns(&read)), (Some("x"), vec![(vec!["a.aut"], false)]));
}

#[test]
fn what_is_expected_belongs_to_the_models_before_it() {
    let text = "% models: a.aut\n% models: b.aut, c*.aut\td.aut\n% because:\n% expect: false\n% models: e.aut\n";
    assert_eq!(
        patterns(&directives(text)),
        [(vec!["a.aut"], true), (vec!["b.aut", "c*.aut", "d.aut"], false), (vec!["e.aut"], true)]
    );
}

#[test]
fn a_pattern_has_its_place() {
    // "% models: " has 10 bytes, and "ä.aut, " has 8, for ä has two.
    let read = directives("% models: ä.aut, b.aut\n");
    let spans: Vec<Span> = read.expectations[0].patterns.iter().map(|(_, span)| *span).collect();
    assert_eq!(spans, [Span::new(10, 16), Span::new(18, 23)]);
}

#[test]
fn a_name_may_hold_colons_and_percent_signs() {
    assert_eq!(directives("% name: 100 % sure: yes").name.as_deref(), Some("100 % sure: yes"));
}

#[test]
fn a_directive_behind_a_formula_is_free_text() {
    assert_eq!(directives("true % name: x"), Directives::default());
}

#[test]
fn the_largest_limit_is_read() {
    // The largest number of 64 bits, and 0.
    assert_eq!(directives("% limit: 18446744073709551615").limit, Some(u64::MAX));
    assert_eq!(directives("% limit: 0").limit, Some(0));
}

#[test]
fn nearly_a_directive_is_a_fault() {
    assert_eq!(
        fault("% A dialog.\n%  model: dialog.aut\ntrue\n"),
        "close.mcf:2:4: `model` before a colon is no directive\n  |\n2 | %  model: dialog.aut\n  |    ^^^^^\n  = help: did \
         you mean `models`? If it is a comment only, write it without the colon"
    );
    for (word, meant) in [
        ("Name", "name"),
        ("modles", "models"),
        ("expected", "expect"),
        ("unknown label", "unknown labels"),
        ("silnet", "silent"),
        ("limits", "limit"),
    ] {
        let text = fault(&format!("% {word}: x\n"));
        assert!(text.contains(&format!("help: did you mean `{meant}`?")), "{text}");
    }
}

#[test]
fn bad_values_are_faults_at_the_value() {
    assert_eq!(
        fault("% models: a.aut\n% expect: yes\n"),
        "close.mcf:2:11: `expect` is true or false, found `yes`\n  |\n2 | % expect: yes\n  |           ^^^\n  = help: \
         write % expect: true or % expect: false"
    );
    assert_eq!(
        fault("% limit: 5,000"),
        "close.mcf:1:10: `limit` is a number of rounds, found `5,000`\n  |\n1 | % limit: 5,000\n  |          ^^^^^\n  = \
         help: write digits only, for instance % limit: 5000; the largest number is 18446744073709551615"
    );
    // One more than the largest number.
    assert!(fault("% limit: 18446744073709551616").contains("1:10: `limit` is a number of rounds"));
    assert!(fault("% limit: -1").contains("1:10: `limit` is a number of rounds"));
    assert!(fault("% limit: +1").contains("1:10: `limit` is a number of rounds"));
    assert!(fault("% silent: i | j").contains("1:11: `silent` is the silent step's name, found `i | j`"));
    assert!(fault("% unknown labels: yes").contains("1:19: `unknown labels` can only be allowed, found `yes`"));
}

#[test]
fn values_that_are_missing_are_faults_at_the_word() {
    assert_eq!(
        fault("% models:\n"),
        "close.mcf:1:3: `models` names files of models, found nothing\n  |\n1 | % models:\n  |   ^^^^^^\n  = help: write \
         for instance % models: dialog*.aut"
    );
    assert!(fault("% models: , ,\n").contains("1:11: `models` names files of models, found `, ,`"));
    assert!(fault("% name:  \n").contains("1:3: `name` says what the formula asks, found nothing"));
    assert!(fault("% silent:\n").contains("1:3: `silent` is the silent step's name, found nothing"));
    assert!(fault("% limit:\n").contains("1:3: `limit` is a number of rounds, found nothing"));
}

#[test]
fn what_is_expected_needs_models() {
    assert_eq!(
        fault("% expect: false\n% models: a.aut\n"),
        "close.mcf:1:3: `expect` has no `models` line before it\n  |\n1 | % expect: false\n  |   ^^^^^^\n  = help: write \
         the models that it is about before it, for instance % models: dialog*.aut"
    );
}

#[test]
fn twice_is_a_fault() {
    assert_eq!(
        fault("% models: a.aut\n% expect: true\n% expect: false\n"),
        "close.mcf:3:3: `expect` stands twice for the same models\n  |\n3 | % expect: false\n  |   ^^^^^^\n  = help: \
         leave one of the lines out, or write a `models` line before the second"
    );
    for line in ["name: x", "silent: i", "limit: 5", "unknown labels: allow"] {
        let word = line.split(':').next().unwrap();
        let text = fault(&format!("% {line}\n%\n% {line}\n"));
        assert!(text.starts_with(&format!("close.mcf:3:3: `{word}` stands twice\n")), "{text}");
    }
}

#[test]
fn patterns_match_names() {
    for (pattern, name) in [
        ("", ""),
        ("*", ""),
        ("*", "dialog.aut"),
        ("dialog*.aut", "dialog.aut"),
        ("dialog*.aut", "dialog-hover.aut"),
        ("*.aut", ".aut"),
        ("?.aut", "ä.aut"),
        ("a*b*c", "abbbcabc"),
        ("**a**", "a"),
        ("a?*", "ab"),
    ] {
        assert!(matches(pattern, name), "{pattern} {name}");
    }
    for (pattern, name) in [
        ("", "a"),
        ("?", ""),
        ("a?*", "a"),
        ("dialog*.aut", "dialog.names"),
        ("dialog.aut", "dialog.aut.bak"),
        ("dialog?aut", "dialogaut"),
        ("a*b*c", "acb"),
        ("*.aut", "a.AUT"),
    ] {
        assert!(!matches(pattern, name), "{pattern} {name}");
    }
}

/// A match by its definition: a star takes some of the name's beginning, and the rest matches.
fn matches_by_trying(pattern: &[u8], name: &[u8]) -> bool {
    match pattern.split_first() {
        None => name.is_empty(),
        Some((b'*', rest)) => (0..=name.len()).any(|taken| matches_by_trying(rest, &name[taken..])),
        Some((sign, rest)) => {
            name.first().is_some_and(|letter| *sign == b'?' || sign == letter) && matches_by_trying(rest, &name[1..])
        }
    }
}

#[test]
fn patterns_match_as_their_definition_says() {
    let mut random = Random::new(18);
    let mut matched = 0;
    for _ in 0..20_000 {
        let pattern: String = (0..random.below(7)).map(|_| random.pick(&['a', 'b', '*', '?'])).collect();
        let name: String = (0..random.below(7)).map(|_| random.pick(&['a', 'b'])).collect();
        let expected = matches_by_trying(pattern.as_bytes(), name.as_bytes());
        assert_eq!(matches(&pattern, &name), expected, "{pattern} {name}");
        matched += usize::from(expected);
    }
    assert!((2_000..18_000).contains(&matched), "{matched} matched");
}

#[test]
fn many_stars_cost_little() {
    // By trying all lengths this would never end.
    let pattern = "a*".repeat(1_000);
    assert!(!matches(&format!("{pattern}b"), &"a".repeat(5_000)));
}

#[test]
fn likely_pieces_never_panic() {
    let pieces =
        ["% ", "\n", "\r\n", "\n% name:", "\n%expect: ", "% models", "\n% limt:", "true", "9", "ä", ",", ":", " "];
    let mut random = Random::new(19);
    let mut faults = 0;
    for _ in 0..50_000 {
        let text: String = (0..random.below(12)).map(|_| random.pick(&pieces)).collect();
        if let Err(fault) = read(&Source::new("f", text.as_str())) {
            assert!(fault.span.start <= fault.span.end && fault.span.end <= text.len(), "{text:?}");
            assert!(fault.help.is_some(), "{text:?}");
            faults += 1;
        }
    }
    assert!(faults > 1_000, "{faults} faults");
}
