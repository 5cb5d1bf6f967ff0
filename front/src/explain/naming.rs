//! What parts of a formula are called. A part that a modality was taken apart into is called by the words that are left of
//! that modality: of `[a . b* . c]true`, behind the `a`, `[b* . c]true`. A part below a negation is called by the words
//! below it, of which the part says the opposite.

use crate::source::Span;
use crate::table::{own_words, Kind, Node, Table};

/// What a part is called.
#[derive(Debug, PartialEq, Eq)]
pub struct Name {
    pub text: String,
    /// Does the part say the opposite of this text?
    pub negated: bool,
}

/// A part by the words of the text where they say what it says, or just the opposite, else written out.
pub fn name(table: &Table, node: usize) -> Name {
    let plain = || Name { text: table.part(node), negated: false };
    rest_of_modality(table, node).or_else(|| opposite(table, node)).unwrap_or_else(plain)
}

/// The words that a part came from, if it is their negation.
fn opposite(table: &Table, node: usize) -> Option<Name> {
    let words = words_in_its_place(table, node, false)?;
    let starts = |any: &[&str]| any.iter().any(|start| words.starts_with(start));
    let negated = match table.nodes[node].kind {
        Kind::False => words == "true",
        Kind::True => words == "false",
        Kind::Box(_) => starts(&["<"]),
        Kind::Diamond(_) => starts(&["["]),
        Kind::Mu => starts(&["[", "nu "]),
        Kind::Nu => starts(&["<", "mu "]),
        _ => false,
    };
    (negated && table.is_closed(node)).then_some(Name { text: words, negated })
}

/// The words at the place of a part that they do not just say, if that place is inside a modality, or if it is not.
fn words_in_its_place(table: &Table, node: usize, inside_modality: bool) -> Option<String> {
    let is_there = |node: &&Node| !node.literal && node.inside_modality == inside_modality;
    own_words(&table.source, table.nodes.get(node).filter(is_there)?.span)
}

/// What is left of a modality from a node inside it on, with what stands behind the modality.
fn rest_of_modality(table: &Table, node: usize) -> Option<Name> {
    let words = words_in_its_place(table, node, true)?;
    let Node { kind, span, .. } = table.nodes.get(node)?;
    let must = match kind {
        Kind::Box(_) | Kind::Nu => true,
        Kind::Diamond(_) | Kind::Mu => false,
        _ => return None,
    };
    let behind = behind_modality(table, node, *span)?;
    let Name { text, negated } = name(table, behind);
    let operand = as_operand(table.nodes[behind].kind, text);
    let steps = if is_binder(*kind) { repeated_again(words) } else { words };
    let text = if must != negated { format!("[{steps}]{operand}") } else { format!("<{steps}>{operand}") };
    Some(Name { text, negated })
}

fn is_binder(kind: Kind) -> bool {
    matches!(kind, Kind::Mu | Kind::Nu)
}

/// The node behind a modality whose text this is; nothing in a star, where the way goes back to the star.
fn behind_modality(table: &Table, node: usize, modality: Span) -> Option<usize> {
    let mut at = node;
    loop {
        at = match table.nodes.get(at)?.kind {
            Kind::Box(_) | Kind::Diamond(_) => at + 1,
            Kind::Mu | Kind::Nu => at + 2,
            _ => return None,
        };
        let next = table.nodes.get(at)?;
        let within = modality.start <= next.span.start && next.span.end <= modality.end;
        if !within || next.literal {
            return Some(at);
        }
    }
}

/// Behind the first step of `R+` the rest is `R*`.
fn repeated_again(words: String) -> String {
    match words.strip_suffix('+') {
        Some(repeated) if is_one_piece(repeated) => format!("{}*", repeated.trim_end()),
        _ => words,
    }
}

/// Does the text have no `.` or `+` outside brackets and quotes?
fn is_one_piece(words: &str) -> bool {
    let (mut depth, mut quoted, mut escaped) = (0, false, false);
    for letter in words.chars() {
        match letter {
            _ if escaped => escaped = false,
            '\\' if quoted => escaped = true,
            '"' => quoted = !quoted,
            _ if quoted => {}
            '(' => depth += 1,
            ')' => depth -= 1,
            '.' | '+' if depth == 0 => return false,
            _ => {}
        }
    }
    true
}

/// A part behind a modality, in brackets if it needs them.
fn as_operand(kind: Kind, name: String) -> String {
    match kind {
        Kind::And | Kind::Or => format!("({name})"),
        Kind::Mu | Kind::Nu if !name.starts_with(['[', '<']) => format!(" {name}"),
        _ => name,
    }
}

#[cfg(test)]
mod tests {
    use super::*;
    use crate::expand::{expand, Expansion};
    use crate::parser;
    use crate::source::Source;

    fn table(text: &str) -> Table {
        let source = Source::new("formula.mcf", text);
        let formula = parser::read(&source, "tau").expect("a formula");
        match expand(&source, &formula) {
            Ok(Expansion::Table(table)) => table,
            other => panic!("{other:?}"),
        }
    }

    /// A subtree without names and places, its variables by how far above them their binders stand.
    fn shape(table: &Table, node: usize) -> Vec<String> {
        let part = |at: usize| match table.nodes[at].kind {
            Kind::Box(action) => format!("[{}]", table.action_text(action)),
            Kind::Diamond(action) => format!("<{}>", table.action_text(action)),
            Kind::Variable(binder) => format!("variable {}", at - binder),
            kind => format!("{kind:?}"),
        };
        (node..table.end(node)).map(part).collect()
    }

    /// Each closed part's name, read again, is that part; a negated one has to be negated again.
    #[test]
    fn a_name_reads_as_its_part() {
        let formulas = [
            "[true* . keydown . (!cancel)* . close]false",
            "<dragstart . dragenter . dragover+ . drop . dragend>true",
            "[true* . drop] mu X. <true>true && [!dragend]X",
            "[true* . click](<toggle>true && [!toggle]false)",
            "[true*](<submit>true => [!submit]false)",
            "!<true* . blur>true",
            "!(<true* . blur>true || !<a . b+>(a2 && [c]false))",
            "<a* . b>(mu X. [a]X) => !(nu Y. <a . b>Y && [true*]a2)",
            "<(a . b)* . (c + d . a)* . c>[a+]true",
            "[a* . b+]<(a* . b)+ . c>true",
            "[(a . b) . c]false || !([a . b]false => <c>true)",
            "<a . \"x+\"+ . b>true && <a . \"x . y\"* . b>true",
            "nu X. [a . b]X && <c . true*>(true && <b>true)",
            "mu X. (mu X. <a . b>X) || [a . c]X",
            "!(!(nu Y. nu Y. nu Y. a2))",
            "!(!(nu Y. <a . b*>nu Y. [!(a) . b]Y))",
        ];
        for text in formulas.map(|text| text.replace("a2", "<a>true")) {
            let table = table(&text);
            for node in (0..table.nodes.len()).filter(|&node| table.is_closed(node)) {
                let name = name(&table, node);
                let again = if name.negated { format!("!({})", name.text) } else { name.text };
                assert_eq!(shape(&self::table(&again), 0), shape(&table, node), "{again}, node {node} of {text}");
            }
        }
    }

    fn names(text: &str, nodes: &[usize]) -> Vec<(String, bool)> {
        let table = table(text);
        let name = |&node: &usize| name(&table, node);
        nodes.iter().map(name).map(|name| (name.text, name.negated)).collect()
    }

    fn expected(names: &[(&str, bool)]) -> Vec<(String, bool)> {
        names.iter().map(|(text, negated)| (text.to_string(), *negated)).collect()
    }

    /// What is left of a modality is called by what is left of its words. Nodes: nu 0, and 1, [keydown] 2, nu 3, and 4,
    /// [close] 5; <dragover> 0, mu 1, or 2, <drop> 3.
    #[test]
    fn what_is_left_keeps_its_words() {
        let left = [
            ("[true* . keydown . (!cancel)* . close]false", false),
            ("[keydown . (!cancel)* . close]false", false),
            ("[(!cancel)* . close]false", false),
            ("[close]false", false),
        ];
        assert_eq!(names("[true* . keydown . (!cancel)* . close]false", &[0, 2, 3, 5]), expected(&left));
        let left = [("<dragover+ . drop>true", false), ("<dragover*><drop>true", false), ("<drop>true", false)];
        assert_eq!(names("<dragover+ . drop>true", &[0, 1, 3]), expected(&left));
    }

    /// Below a negation the words say the opposite. Nodes: nu 0, and 1, [blur] 2, false 3; or 0, [a] 1, false 2, [b] 3.
    #[test]
    fn below_a_negation_the_words_are_kept() {
        let kept = [("!<true* . blur>true", false), ("<blur>true", true), ("true", true)];
        assert_eq!(names("!<true* . blur>true", &[0, 2, 3]), expected(&kept));
        let kept = [("<a>true => [b]false", false), ("<a>true", true), ("[b]false", false)];
        assert_eq!(names("<a>true => [b]false", &[0, 1, 3]), expected(&kept));
    }
}
