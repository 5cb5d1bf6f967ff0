//! Streams that the program `editor` reads, and the lines that it prints, by the plain set and the reference.

use super::compare::{Call, List};
use super::held::Held;
use crate::calls::{Calls, MARK_WORDS};
use crate::formats::*;
use crate::meaning;
use crate::reach;
use crate::reader::read_case;
use crate::slips::Reference;
use crate::stream::{line, same_files};
use crate::text::{case, named};
use std::path::Path;

/// A stream under construction.
pub struct Stream(pub Vec<u8>);

impl Stream {
    /// A stream that starts with a case.
    pub fn new(case: &[u8]) -> Stream {
        let length = u16::try_from(case.len()).expect("a case is that short");
        Stream([&length.to_le_bytes(), case].concat())
    }

    fn edit(&mut self, call: u8, (source, label, target): Triple) {
        self.0.push(call);
        self.0.extend([source, label, target].into_iter().flat_map(u16::to_le_bytes));
    }

    pub fn add(&mut self, t: Triple) {
        self.edit(ADD, t);
    }

    pub fn drop(&mut self, t: Triple) {
        self.edit(DROP, t);
    }

    pub fn want(&mut self, limit: u64) {
        self.0.push(WANT);
        self.0.extend(limit.to_le_bytes());
    }
}

/// Source, label and target in a stream.
type Triple = (u16, u16, u16);

/// The bytes that calls start with.
const ADD: u8 = 1;
const DROP: u8 = 2;
const WANT: u8 = 3;

/// The low 16 bits of a transition's numbers, which is all that a stream has.
fn low(t: Transition) -> Triple {
    (t.source as u16, t.label as u16, t.target as u16)
}

/// The stream of a list that starts with the opening of a case.
pub fn of_list(list: &List) -> Vec<u8> {
    let Some(Call::Open(case)) = list.calls.first() else { panic!("a list that opens a case") };
    let mut stream = Stream::new(case);
    for call in &list.calls[1..] {
        match call {
            Call::Open(_) => {}
            Call::Add(t) => stream.add(low(*t)),
            Call::Drop(t) => stream.drop(low(*t)),
            Call::Want { limit, .. } => stream.want([0, 3, 17, 200, 2_000][*limit]),
        }
    }
    stream.0
}

/// What is left of a stream.
struct Rest<'a>(&'a [u8]);

impl<'a> Rest<'a> {
    /// So many bytes, or fewer if the stream ends.
    fn up_to(&mut self, count: usize) -> &'a [u8] {
        let (part, rest) = self.0.split_at(count.min(self.0.len()));
        self.0 = rest;
        part
    }

    /// So many bytes; none if the stream ends before.
    fn all<const N: usize>(&mut self) -> Option<[u8; N]> {
        self.up_to(N).try_into().ok()
    }

    fn number(&mut self) -> Option<usize> {
        self.all().map(|bytes| u16::from_le_bytes(bytes) as usize)
    }

    fn transition(&mut self) -> Option<Transition> {
        Some(Transition { source: self.number()?, label: self.number()?, target: self.number()? })
    }

    fn limit(&mut self) -> Option<u64> {
        self.all().map(u64::from_le_bytes)
    }

    /// The line of the next call; none where the stream ends.
    fn next_line(&mut self, held: &mut Held) -> Option<String> {
        Some(match self.all()? {
            [ADD] => format!("add {}\n", held.add(self.transition()?)),
            [DROP] => format!("drop {}\n", held.drop(self.transition()?)),
            [WANT] => wanted(&held.case(), self.limit()?),
            _ => return None,
        })
    }
}

/// The line of a want on a case; the parity game must agree.
fn wanted(case: &Case, limit: u64) -> String {
    let x = Reference(None).direct(&case.bytes(), &mut [0; MARK_WORDS], limit);
    if x.refusal == 0 {
        let game = meaning::states_by_game(case);
        let count = reach::count(&game, &reach::reached(case));
        assert_eq!((x.verdict, x.count), (game[case.initial] as u64, count), "rounds and game");
    }
    line("want", &[x.refusal, x.verdict, x.count, x.rounds, x.records, x.distinct]) + "\n"
}

/// What the program prints on a stream.
pub fn printed(stream: &[u8]) -> String {
    let mut rest = Rest(stream);
    let Some(length) = rest.number() else { return String::new() };
    match read_case(rest.up_to(length)) {
        Err(number) => format!("open {number}\n"),
        Ok(case) => {
            let mut held = Held::new(case);
            let lines = std::iter::from_fn(|| rest.next_line(&mut held));
            ["open 0\n".to_string()].into_iter().chain(lines).collect()
        }
    }
}

/// The case of the stored stream: a dialog of twelve states, with copies in its table, where labels 0 and 1 (focus and
/// blur), 4 and 5, 10 and 11, 3 and 12 (silent) are alike. Always, after each focus and blur, some way without a silent
/// step leads to a click.
fn dialog() -> Case {
    let triples = [(0, 0, 1), (1, 1, 2), (0, 0, 1), (2, 4, 3), (3, 2, 4), (1, 1, 2), (4, 3, 0), (2, 12, 5), (0, 0, 1)];
    let names: [&[usize]; 16] = [
        &[1, 2],
        &[2, 1],
        &[3],
        &[],
        &[1, 1, 2],
        &[1, 2, 1],
        &[2, 2, 1],
        &[4],
        &[4, 4],
        &[255],
        &[4, 3],
        &[3, 4],
        &[],
        &[5],
        &[6],
        &[9, 8, 7, 6],
    ];
    let words = "nu X and box 0 X box 1 mu Y or dia 2 true dia 3 Y";
    named(case(12, 16, &triples, "true label 0 label 2 not label 3", words), &names)
}

/// The stored stream: all answers that can come up with a small table, then as many transitions as there may be.
fn stored() -> Vec<u8> {
    let mut stream = Stream::new(&dialog().bytes());
    held_and_missing(&mut stream);
    out_of_range(&mut stream);
    emptied(&mut stream);
    filled(&mut stream);
    stream.0
}

/// Wants around the rounds; transitions that are held, new and missing; labels that are alike.
fn held_and_missing(stream: &mut Stream) {
    for limit in [0, 1, 5, 6, 7, 8, 9, 1_000, u64::MAX] {
        stream.want(limit);
    }
    stream.add((0, 0, 1));
    stream.add((1, 1, 2));
    stream.want(1_000);
    // The way to a click is closed, and opened again by a longer one.
    stream.drop((3, 2, 4));
    stream.want(1_000);
    stream.drop((3, 2, 4));
    stream.add((3, 7, 6));
    stream.add((6, 8, 7));
    stream.add((7, 2, 4));
    stream.want(1_000);
    // Focus and blur in the other order, to where no click comes; then a silent step, which does not help, and a click.
    stream.add((4, 0, 8));
    stream.want(1_000);
    stream.add((8, 3, 3));
    stream.want(1_000);
    stream.add((8, 2, 8));
    stream.want(1_000);
    // A transition whose label is alike to that of one which is held is another.
    stream.drop((0, 1, 1));
    stream.add((0, 1, 1));
    stream.drop((0, 0, 1));
    stream.want(1_000);
    stream.drop((0, 0, 1));
    stream.add((0, 0, 1));
    stream.want(1_000);
}

/// Each number of an edit at its bound and far above it.
fn out_of_range(stream: &mut Stream) {
    for wrong in [(12, 0, 1), (0, 16, 1), (0, 0, 12), (256, 0, 1), (0, 64, 1), (0, 0, 65_535)] {
        stream.add(wrong);
        stream.drop(wrong);
    }
    stream.want(1_000);
}

/// All that is held is dropped, and some of it added back.
fn emptied(stream: &mut Stream) {
    let held = [
        (0, 0, 1),
        (0, 1, 1),
        (1, 1, 2),
        (2, 4, 3),
        (2, 12, 5),
        (3, 7, 6),
        (4, 0, 8),
        (4, 3, 0),
        (6, 8, 7),
        (7, 2, 4),
        (8, 2, 8),
        (8, 3, 3),
    ];
    for t in held {
        stream.drop(t);
    }
    stream.want(0);
    stream.want(2);
    stream.want(1_000);
    stream.drop(held[0]);
    for t in [held[3], held[2], held[0]] {
        stream.add(t);
    }
    stream.want(1_000);
}

/// Adds until 2,048 are held and further: 2,304 are possible. What is held is accepted still, and a dropped one makes
/// room for another.
fn filled(stream: &mut Stream) {
    let all = (0..12u16).flat_map(|s| (0..16).flat_map(move |l| (0..12).map(move |t| (s, (l + t) % 16, t))));
    for t in all.take(TRANSITIONS + 5) {
        stream.add(t);
    }
    stream.want(1_000);
    stream.add((0, 0, 1));
    stream.add((11, 11, 11));
    stream.add((12, 0, 0));
    stream.drop((11, 11, 11));
    stream.drop((5, 5, 5));
    stream.add((5, 5, 5));
    stream.drop((5, 5, 5));
    stream.add((11, 11, 11));
    stream.add((5, 5, 5));
    stream.want(1);
    stream.want(1_000);
}

/// What the program reads and what it must print.
pub fn stdin_and_stdout() -> (Vec<u8>, String) {
    let stdin = stored();
    let stdout = printed(&stdin);
    (stdin, stdout)
}

/// The program's files `stdin` and `stdout` in a folder are what is written now, and bring up each answer; answers how
/// many bytes were compared.
pub fn files(folder: &Path) -> Result<u64, String> {
    let (stdin, stdout) = stdin_and_stdout();
    for answer in
        ["open 0", "add 0", "add 6", "add 16", "drop 0", "drop 6", "drop 17", "want 0 1 ", "want 0 0 ", "want 14 "]
    {
        let starts = |line: &str| line == answer || answer.ends_with(' ') && line.starts_with(answer);
        assert!(stdout.lines().any(starts), "no line {answer}");
    }
    same_files(folder, "edits", &stdin, &stdout)
}
