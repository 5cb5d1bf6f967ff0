//! What the tests of the drawings and of the page share.

#![allow(dead_code)]

pub mod browser;
pub mod programs;
pub mod sha256;
pub mod xml;

use bithrowy_front::aut;
use bithrowy_front::label::SILENT;
use bithrowy_front::model::Model;
use bithrowy_front::names;
use bithrowy_front::source::Source;
use bithrowy_tests::random::Random;

/// A model from its text, with names of states.
pub fn model(text: &str, state_names: &str) -> Model {
    let mut model = aut::read(&Source::new("model.aut", text), SILENT).unwrap_or_else(|fault| panic!("{fault}"));
    names::read(&Source::new("model.names", state_names), &mut model).unwrap_or_else(|fault| panic!("{fault}"));
    model
}

/// A model from its transitions; labels may be any text without a line's end.
pub fn model_of(states: usize, transitions: &[(usize, &str, usize)], state_names: &str) -> Model {
    let quoted = |label: &str| label.replace('\\', "\\\\").replace('"', "\\\"");
    let line =
        |&(source, label, target): &(usize, &str, usize)| format!("({source}, \"{}\", {target})\n", quoted(label));
    let lines: String = transitions.iter().map(line).collect();
    model(&format!("des (0, {}, {states})\n{lines}", transitions.len()), state_names)
}

/// A model by chance, in which most states can be reached.
pub fn random_model(random: &mut Random, states: usize, transitions: usize, labels: &[&str]) -> Model {
    let list: Vec<(usize, &str, usize)> = (0..transitions)
        .map(|place| {
            let target = if place + 1 < states { place + 1 } else { random.below(states) };
            let source = if random.chance(9, 10) { random.below(target.max(1)) } else { random.below(states) };
            (source, random.pick(labels), target)
        })
        .collect();
    model_of(states, &list, "")
}

/// Labels, and names of states, that would do harm if they got out of their text, each with how it is shown.
pub const HOSTILE: [(&str, &str); 12] = [
    (r#""><script>document.title = "broken"</script>"#, r#""><script>document.title = "broken"</script>"#),
    ("</script><script>document.title = 'broken'</script>", "</script><script>document.title = 'broken'</script>"),
    ("<!--", "<!--"),
    ("]]>", "]]>"),
    ("&amp; &lt; &#65;", "&amp; &lt; &#65;"),
    (r"\N \G \l \n", r"\N \G \l \n"),
    (r"ends with \", r"ends with \"),
    ("' onload='document.title=1", "' onload='document.title=1"),
    ("bell\u{7} null\u{0} escape\u{1b}[31m", "bell\u{fffd} null\u{fffd} escape\u{fffd}[31m"),
    ("turned \u{202e}round", "turned \u{fffd}round"),
    ("two\u{2028}lines", "two\u{fffd}lines"),
    ("no character \u{fffe}", "no character \u{fffd}"),
];
