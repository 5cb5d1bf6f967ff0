//! Reads the sentences of an explanation back: what each says of a part and of states is checked by a run of its own, in
//! which the part is read from the sentence as a formula.

use crate::told::Told;
use crate::wording::{pieces, replaced, states, states_behind, targets};
use bithrowy_front::expand::{self, Expansion};
use bithrowy_front::source::Source;
use bithrowy_front::table::Table;
use bithrowy_front::{case, parser};
use bithrowy_tests::formats::Transition;
use bithrowy_tests::meaning::states_by_game;
use bithrowy_tests::reader::read_case;
use std::collections::{BTreeMap, BTreeSet};

/// Parts of a longer text, with the binders of their variables in place, are not read.
const LONGEST: usize = 1_000;

/// What stands at the end of a part that is cut.
const CUT: char = '…';

/// The forms of sentences, and how often each was read and found true.
pub type Read = BTreeMap<&'static str, usize>;

/// What is counted where a part could not be read.
pub const SKIPPED: &str = "skipped";

/// Reads an explanation; an error says which sentence is false. The states have no names.
pub fn read(told: &Told) -> Result<Read, String> {
    let mut reader = Reader::of(told);
    for line in told.lines() {
        reader.line(line.trim_start()).map_err(|wrong| format!("{wrong}: {line}"))?;
    }
    reader.no_run_is_left()?;
    Ok(reader.read)
}

struct Reader<'a> {
    told: &'a Told,
    /// The state of the last claim, or where the steps behind it led.
    there: usize,
    /// The states that come, or count.
    them: Vec<usize>,
    /// What is still to come of a run that is said to be the only one.
    only_run: BTreeSet<Transition>,
    /// Where each part holds that was asked for, or what is wrong with its text.
    known: BTreeMap<String, Result<Option<Vec<bool>>, String>>,
    read: Read,
}

/// What a sentence says of a part: that it holds, or fails, in these states.
struct Said {
    form: &'static str,
    part: String,
    holds: bool,
    states: Vec<usize>,
}

impl<'a> Reader<'a> {
    fn of(told: &'a Told) -> Reader<'a> {
        let (there, known) = (told.model.initial, BTreeMap::new());
        Reader { told, there, them: Vec::new(), only_run: BTreeSet::new(), known, read: Read::new() }
    }

    fn line(&mut self, line: &str) -> Result<(), String> {
        let pieces = pieces(line);
        if let (true, Some((source, step))) = (pieces.parts.is_empty(), line.split_once(" -- ")) {
            return self.step(source, step);
        }
        for (part, words) in pieces.parts.iter().zip(pieces.words.windows(2)) {
            self.states_that_come(&words[0])?;
            self.begin(words)?;
            if let Some(said) = self.said(&words[0], part, &words[1]) {
                self.check(&said)?;
            }
        }
        self.states_that_come(pieces.words.last().map_or("", String::as_str))?;
        match states_behind("no transition leaves ", line) {
            Some(states) => self.check(&no_transition("true", states)),
            None => Ok(()),
        }
    }

    fn count(&mut self, form: &'static str) {
        *self.read.entry(form).or_default() += 1;
    }

    /// `state 0 -- click --> state 1`: there is such a transition, and it is where the run is.
    fn step(&mut self, source: &str, step: &str) -> Result<(), String> {
        let model = &self.told.model;
        let (label, target) = step.rsplit_once(" --> ").ok_or("a step to nowhere")?;
        let numbers = (states(source), states(target));
        let is_said =
            |t: &&Transition| (vec![t.source], vec![t.target]) == numbers && model.labels[t.label].quoted() == label;
        let transitions = &self.told.case.transitions;
        let gone = *transitions.iter().find(is_said).filter(|t| t.source == self.there).ok_or("no such step")?;
        self.only_run.remove(&gone);
        self.there = gone.target;
        self.count("step");
        Ok(())
    }

    /// A sentence that begins with a part and a state is about that state.
    fn begin(&mut self, words: &[String]) -> Result<(), String> {
        let is_verb = words[1].starts_with(" holds in ") || words[1].starts_with(" fails in ");
        if !words[0].is_empty() || !is_verb {
            return Ok(());
        }
        self.no_run_is_left()?;
        self.there = *states(&words[1][" holds in ".len()..]).first().ok_or("no state")?;
        if words[1].contains("the only run") {
            self.only_run = self.run_without_choice().ok_or("there are other runs")?;
            self.count("the only run");
        }
        Ok(())
    }

    /// All steps of a run that was said to be the only one have come.
    fn no_run_is_left(&self) -> Result<(), String> {
        if self.only_run.is_empty() {
            Ok(())
        } else {
            Err("the only run goes on".to_string())
        }
    }

    /// The transitions of the run from here on if each state has one at most.
    fn run_without_choice(&self) -> Option<BTreeSet<Transition>> {
        let (mut run, mut at) = (BTreeSet::new(), self.there);
        loop {
            let here = self.told.case.transitions.iter().filter(|t| t.source == at);
            let leaving: Vec<Transition> = here.copied().collect::<BTreeSet<_>>().into_iter().collect();
            match leaving.as_slice() {
                [] => return Some(run),
                &[next] if run.insert(next) => at = next.target,
                [_] => return Some(run),
                _ => return None,
            }
        }
    }

    /// `only these states come: state 1, state 2`, and the like.
    fn states_that_come(&mut self, words: &str) -> Result<(), String> {
        let lists = ["nly these states come: ", "nly these states count: ", "nly "];
        let Some(them) = lists.iter().find_map(|list| states_behind(list, words)) else { return Ok(()) };
        self.them = them;
        if words.to_lowercase().contains("whatever happens, only ") {
            let leaves = |t: &Transition| self.them.contains(&t.source) && !self.them.contains(&t.target);
            if self.told.case.transitions.iter().any(leaves) {
                return Err("other states come".to_string());
            }
            self.count("whatever happens");
        }
        Ok(())
    }

    /// What a sentence says of a part, by the words before and behind it.
    fn said(&self, before: &str, part: &str, behind: &str) -> Option<Said> {
        if before.ends_with(" is accepted by ") {
            return Some(no_transition(part, states_behind("no transition from ", before)?));
        }
        let (holds, behind) = match (behind.strip_prefix(" holds"), behind.strip_prefix(" fails")) {
            (Some(behind), _) => (true, behind),
            (None, Some(behind)) => (false, behind),
            (None, None) => return None,
        };
        let (form, holds, states) = match behind.strip_prefix(" in ") {
            Some(list) => ("in", holds, states(list)),
            None => self.said_of(before, holds, behind),
        };
        Some(Said { form, part: part.to_string(), holds, states })
    }

    /// What is said of states that are not named just behind the verb.
    fn said_of(&self, before: &str, holds: bool, behind: &str) -> (&'static str, bool, Vec<usize>) {
        let reached = || (0..self.told.model.states).filter(|&state| self.told.checked.reached[state]).collect();
        let them = || self.them.clone();
        let before = before.to_lowercase();
        match () {
            _ if before.ends_with("in each of them ") => ("in each of them", holds, them()),
            _ if before.ends_with("in none of them ") => ("in none of them", !holds, them()),
            _ if before.ends_with("in every state that can be reached ") => ("in every state", holds, reached()),
            _ if before.ends_with("in no state that can be reached ") => ("in no state", !holds, reached()),
            _ if before == "there " => ("there", holds, them()),
            _ if before.ends_with(" leads to where ") => ("each transition", holds, targets(behind)),
            _ => ("and there", holds, vec![self.there]),
        }
    }

    fn check(&mut self, Said { form, part, holds, states }: &Said) -> Result<(), String> {
        let told = self.told;
        let known = self.known.entry(part.clone()).or_insert_with(|| states_of(told, part)).clone()?;
        let is_so = |state: &usize| known.as_ref().map_or(true, |values| values.get(*state) == Some(holds));
        match states.iter().find(|state| !is_so(state)) {
            _ if states.is_empty() => Err(format!("`{part}` is said of no state")),
            Some(state) => Err(format!("not so of `{part}` in state {state}")),
            None => {
                self.count(if known.is_some() { form } else { SKIPPED });
                Ok(())
            }
        }
    }
}

/// That an action formula accepts no transition from a state.
fn no_transition(action: &str, states: Vec<usize>) -> Said {
    Said { form: "no transition", part: format!("<{action}>true"), holds: false, states }
}

/// The states of a part by the independent checker; nothing of what is cut, or too large, or still has variables. All other
/// parts have to be formulas.
fn states_of(told: &Told, part: &str) -> Result<Option<Vec<bool>>, String> {
    let Some(text) = closed(&told.checked.table, part).filter(|text| !text.contains(CUT)) else { return Ok(None) };
    let source = Source::new("part.mcf", text);
    let formula = parser::read(&source, &told.model.silent).map_err(|fault| fault.to_string())?;
    let Ok(expansion @ Expansion::Table(_)) = expand::expand(&source, &formula) else { return Ok(None) };
    let written = case::write(&told.model, &expansion, true).map_err(|fault| fault.to_string())?;
    Ok(read_case(&written.bytes).ok().map(|case| states_by_game(&case)))
}

/// A part with a binder's formula for each variable that is not bound in it; nothing if a name has several binders, or
/// the text becomes too long.
fn closed(table: &Table, part: &str) -> Option<String> {
    let mut text = part.to_string();
    for binder in table.binders().into_iter().rev() {
        let name = &table.nodes[binder].name;
        let binds =
            |text: &str| [format!("mu {name}."), format!("nu {name}.")].iter().any(|start| text.contains(start));
        let replaced = replaced(&text, name, &format!("({})", table.text(binder)));
        if binds(&text) || replaced == text {
            continue;
        }
        let bearers = table.binders().into_iter().filter(|&other| table.nodes[other].name == *name).count();
        if bearers > 1 || replaced.len() > LONGEST {
            return None;
        }
        text = replaced;
    }
    Some(text)
}
