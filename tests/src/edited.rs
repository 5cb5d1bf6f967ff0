//! Lists of calls on models, compared with the library, and wrong editors planted in the comparison, which must notice
//! each of them.

use crate::library::Library;
use crate::{report, BUDGET};
use bithrowy_tests::calls::Edits;
use bithrowy_tests::compare::Check;
use bithrowy_tests::editing::compare::{call_text, Call, Editing, List, Tally};
use bithrowy_tests::editing::faults::{FaultyEdits, CALLS, FAULTS};
use bithrowy_tests::editing::slips::{Editor, Slip, SLIPS};
use bithrowy_tests::editing::{foreign, lists, same_set, stream, worked};
use bithrowy_tests::listing;
use bithrowy_tests::random::Random;
use std::cell::Cell;
use std::path::Path;
use std::process::exit;
use std::time::Instant;

/// How a list is made.
type Make = fn(&mut Random) -> List;

/// Lists made one by one from seeds and compared with the library.
struct Group {
    name: &'static str,
    tally: Tally,
    start: Instant,
}

impl Group {
    fn new(name: &'static str) -> Group {
        Group { name, tally: Tally::default(), start: Instant::now() }
    }

    /// A group of so many lists.
    fn made(name: &'static str, seed: u64, count: u64, make: Make) -> Group {
        let mut group = Group::new(name);
        for seed in seed..seed + count {
            group.compare(seed, &make(&mut Random::new(seed)));
        }
        group
    }

    fn compare(&mut self, seed: u64, list: &List) {
        let mut editing = editing(&Library, list, seed);
        if let Err(text) = editing.all(&list.calls) {
            self.fail(seed, list, &text);
        }
        self.tally.add(&editing.tally);
    }

    fn fail(&self, seed: u64, list: &List, text: &str) -> ! {
        println!("FAILED {}, seed {seed}: {text}", self.name);
        let small = smallest(list, &|list| held_to(&Library, list, seed).is_err());
        let text = held_to(&Library, &small, seed).expect_err("still fails");
        println!("fewest calls found: {text}\nmodel of {} bytes", small.model.len());
        small.calls.iter().for_each(|call| println!("{}", call_text(call)));
        if let Some(bytes) = first_opened(&small) {
            println!("the case that is opened first: {}\nbytes {bytes:?}", listing::case(bytes));
        } else {
            println!("model bytes {:?}", small.model);
        }
        exit(1)
    }

    /// Each of these answers of each of these calls was given so many times at least.
    fn assert_answered(&self, least: u64, answers: &[(&str, &[usize])]) {
        for &(call, numbers) in answers {
            for &number in numbers {
                let given = self.tally.answered(call, number);
                assert!(given >= least, "{}: {call} answered {number} only {given} times", self.name);
            }
        }
    }

    /// Prints the group's line.
    fn end(self) {
        let Tally { lists, named, held_again, held_full, both_routes, .. } = self.tally;
        assert!(lists > 0 && self.tally.calls() >= 2 * lists, "{}: nothing compared", self.name);
        println!(
            "{}: {lists} lists, {} calls ({}), opened in version 2: {named}, added again: {held_again}, while full: \
             {held_full}, saved and solved by both routes: {both_routes}; {:.1} s",
            self.name,
            self.tally.calls(),
            self.tally.text(),
            self.start.elapsed().as_secs_f64()
        );
    }
}

/// The case that a list opens first, if that is its first call.
fn first_opened(list: &List) -> Option<&[u8]> {
    match list.calls.first() {
        Some(Call::Open(case)) => Some(case),
        _ => None,
    }
}

fn editing<'a>(edits: &'a dyn Edits, list: &List, seed: u64) -> Editing<'a> {
    Editing::new(edits, &Library, &list.model, BUDGET, seed)
}

/// All comparisons of a list with an editor.
fn held_to(edits: &dyn Edits, list: &List, seed: u64) -> Check {
    editing(edits, list, seed).all(&list.calls)
}

/// The list without some of its calls, as few as are found, that still fails.
fn smallest(list: &List, fails: &dyn Fn(&List) -> bool) -> List {
    let mut best = list.clone();
    let mut part = best.calls.len();
    while part > 0 {
        let mut at = 0;
        while at < best.calls.len() {
            let mut next = best.clone();
            next.calls.drain(at..(at + part).min(best.calls.len()));
            if fails(&next) {
                best = next;
            } else {
                at += part;
            }
        }
        part /= 2;
    }
    best
}

/// All tests of the editor's calls, and the stored files of the program.
pub fn check(seed: u64, root: &Path) {
    report("edits worked out by hand, rules", Instant::now(), worked::check(&Editor(None)));
    report("edits worked out by hand, library", Instant::now(), worked::check(&Library));
    by_chance(seed);
    full(seed);
    foreign_models(seed);
    each_place(seed);
    report("the same set by two lists of calls, library", Instant::now(), same_set::check(&Library, seed));
    slips(seed);
    faults(seed);
    report("files of the program editor, bytes", Instant::now(), stream::files(&root.join("crates/editor")));
}

fn by_chance(seed: u64) {
    let group = Group::made("lists of edits", seed, 4_000, lists::list);
    let calls: [(&str, &[usize]); 4] =
        [("open", &[0, 13]), ("add", &[0, 6]), ("drop", &[0, 6, 17]), ("want", &[0, 13, 14])];
    group.assert_answered(200, &calls);
    assert!(group.tally.held_again >= 2_000, "transitions that are held are added again");
    assert!(2 * group.tally.both_routes >= group.tally.lists, "half of the saved models solved by both routes");
    let (named, opened) = (group.tally.named, group.tally.answered("open", 0));
    assert!(3 * named >= opened && 3 * (opened - named) >= opened, "{named} of {opened} opened in version 2");
    group.end();
}

/// Tables that are full or almost, and tables that are filled.
fn full(seed: u64) {
    let group = Group::made("lists of edits, 2,048 held or almost", seed, 120, lists::full_list);
    group.assert_answered(50, &[("add", &[0, 6, 16]), ("drop", &[0, 6, 17]), ("want", &[0])]);
    assert!(group.tally.held_full >= 100, "transitions that are held are added again while 2,048 are");
    group.end();
    let mut group = Group::made("lists of edits, filled up to 2,048", seed, 5, lists::filling_list);
    group.compare(seed, &lists::complete_list(&mut Random::new(seed)));
    group.assert_answered(20, &[("add", &[16])]);
    group.end();
}

fn foreign_models(seed: u64) {
    let group = Group::made("edits of models that no open wrote", seed, 8_000, foreign::list);
    let layout = [0, 1, 2, 3, 4, 5, 6];
    group.assert_answered(50, &[("add", &layout), ("add", &[13, 16]), ("drop", &layout), ("drop", &[17])]);
    group.assert_answered(20, &[("open", &[13]), ("want", &[0, 1, 2, 3, 4, 5, 6, 7, 8, 9, 13, 14, 15])]);
    group.end();
}

/// Some files as models, damaged at each byte and at each number of the header, and cut at each length.
fn each_place(seed: u64) {
    let mut group = Group::new("edits of models damaged at each place");
    for seed in seed..seed + 16 {
        let (random, file) = (&mut Random::new(seed), foreign::file(seed));
        let ways = [foreign::every_byte, foreign::every_header_number, foreign::every_length];
        for list in ways.into_iter().flat_map(|way| way(random, &file)) {
            group.compare(seed, &list);
        }
    }
    group.end();
}

/// Lists of a kind, made from seeds, for wrong editors.
struct Lists {
    name: &'static str,
    all: Vec<(u64, List)>,
}

impl Lists {
    fn new(name: &'static str, seed: u64, count: u64, make: Make) -> Lists {
        let all = (seed..seed + count).map(|seed| (seed, make(&mut Random::new(seed)))).collect();
        Lists { name, all }
    }

    /// The lists in which the comparison notices a wrong editor.
    fn noticed(&self, edits: &dyn Edits) -> Vec<&(u64, List)> {
        self.all.iter().filter(|(seed, list)| held_to(edits, list, *seed).is_err()).collect()
    }

    /// Of how many lists.
    fn size(&self) -> String {
        format!("{} {}", self.all.len(), self.name)
    }

    /// A slip is noticed, and a list in which it is made shorter; answers in how many lists it is noticed.
    fn notice(&self, slip: Slip) -> String {
        let wrong = Editor(Some(slip));
        let noticed = self.noticed(&wrong);
        let (seed, list) = noticed.first().unwrap_or_else(|| panic!("{slip:?} is not noticed in {}", self.name));
        let small = smallest(list, &|list| held_to(&wrong, list, *seed).is_err());
        assert!(held_to(&wrong, &small, *seed).is_err() && small.calls.len() <= list.calls.len());
        format!("{slip:?} in {} {} (fewest calls {})", noticed.len(), self.name, small.calls.len())
    }
}

/// The comparison passes the rules themselves and notices each slip.
fn slips(seed: u64) {
    let start = Instant::now();
    let kinds = [
        Lists::new("lists", seed, 100, lists::list),
        Lists::new("lists on full tables", seed, 10, lists::full_list),
        Lists::new("lists on other models", seed, 300, foreign::list),
    ];
    let [ordinary, full, foreign] = &kinds;
    for kind in &kinds {
        assert!(kind.noticed(&Editor(None)).is_empty(), "the rules themselves pass in {}", kind.name);
    }
    let counts = SLIPS.map(|slip| match slip {
        _ if slip.in_full_tables() => full.notice(slip),
        _ if slip.in_foreign_models() => foreign.notice(slip),
        _ => ordinary.notice(slip),
    });
    let sizes = kinds.map(|kind| kind.size()).join(", ");
    println!("wrong editors, noticed of {sizes}: {}; {:.1} s", counts.join(", "), start.elapsed().as_secs_f64());
}

/// Each time that a fault spoils the model or the marks the comparison notices it, and it does so in some lists.
fn faults(seed: u64) {
    let start = Instant::now();
    let lists = Lists::new("lists", seed, 200, lists::list);
    let mut counts = Vec::new();
    for fault in FAULTS {
        for at in CALLS {
            let edits = FaultyEdits { edits: &Library, fault, at, spoilt: Cell::new(0) };
            let noticed = lists.noticed(&edits).len();
            let text = format!("{fault:?} {at:?} in {noticed}");
            // The first difference ends a comparison, so each noticed list has one.
            assert!(noticed > 0 && noticed as u64 == edits.spoilt.get(), "{text}");
            counts.push(text);
        }
    }
    let (size, time) = (lists.size(), start.elapsed().as_secs_f64());
    println!("faults in edits, noticed of {size}: {}; {time:.1} s", counts.join(", "));
}
