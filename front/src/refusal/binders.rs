//! Refusal 10: more blocks than an equation file has, one for each fixed point.

use crate::amount;
use crate::case::Case;
use crate::limits;
use crate::source::Fault;
use crate::table::Table;

/// A fault at the first binder too many, with what was counted.
pub fn fault(case: &Case) -> Option<Fault> {
    let table = case.table()?;
    let (binders, blocks) = (table.binders(), table.blocks());
    if blocks <= limits::BLOCKS {
        return None;
    }
    let added = blocks - binders.len();
    let place = binders.get(limits::BLOCKS.saturating_sub(added)).and_then(|&node| table.nodes.get(node));
    let span = place.map_or(case.formula().1, |node| node.span);
    let message = format!("{}: the checker takes at most {}", amount::of(blocks, "fixed point"), limits::BLOCKS);
    Some(Fault::new(&table.source, span, message).with_help(counted(table, &binders, added)))
}

/// Where the fixed points come from.
fn counted(table: &Table, binders: &[usize], added: usize) -> String {
    let mut parts: Vec<String> = binders.iter().filter_map(|&node| written(table, node)).collect();
    let repeated = binders.len() - parts.len();
    if repeated > 0 {
        parts.push(format!("{} for `*` and `+` behind steps, one each", amount::thousands(repeated)));
    }
    if added > 0 {
        parts.push("1 because the formula begins with neither mu nor nu".to_string());
    }
    format!("counted are: {}. Check the parts of the formula one by one", parts.join("; "))
}

/// A binder as the text has it, if it stands there: not so for the binder of a `*`. A negation in front of it does not
/// change how it is written.
fn written(table: &Table, node: usize) -> Option<String> {
    let node = table.nodes.get(node)?;
    let text = behind_brackets(table.source.text.get(node.span.start..node.span.end)?);
    let word = ["mu", "nu"].into_iter().find(|word| begins_with_word(text, word))?;
    let name: String =
        text[word.len()..].trim_start().chars().take_while(|sign| !sign.is_whitespace() && *sign != '.').collect();
    Some(format!("{word} {name}"))
}

/// A part's text behind brackets, negations, blanks and comments at its start.
fn behind_brackets(text: &str) -> &str {
    let mut rest = text;
    loop {
        let inner = rest.trim_start_matches(|sign: char| matches!(sign, '(' | '!') || sign.is_whitespace());
        match inner.strip_prefix('%') {
            Some(comment) => rest = comment.split_once('\n').map_or("", |(_, behind)| behind),
            None => return inner,
        }
    }
}

fn begins_with_word(text: &str, word: &str) -> bool {
    text.strip_prefix(word).is_some_and(|rest| rest.starts_with(char::is_whitespace))
}
