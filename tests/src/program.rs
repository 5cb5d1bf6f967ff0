//! The built programs `twosides`, `solvefile` and `editor`: a file or a stream on standard input, lines of numbers on
//! standard output.

use crate::calls::{Calls, MARK_WORDS};
use crate::counted;
use crate::damage::with_number;
use crate::editing::lists;
use crate::editing::stream::{of_list, printed, stdin_and_stdout, Stream};
use crate::formats::*;
use crate::generate::{case_in, equations, Size};
use crate::paper::{named_runs, p1_file, refused_cases, refused_names, runs, LIMIT};
use crate::random::Random;
use crate::reader::read_case;
use crate::slips::Reference;
use crate::stream::{line, reference_lines};
use crate::text::case;
use crate::worked;
use std::io::{ErrorKind, Write};
use std::path::Path;
use std::process::{Command, Stdio};
use std::time::Duration;

/// Runs the program on the input, handed over in pieces of a given size; answers what it prints.
fn output(binary: &Path, input: &[u8], piece: usize) -> Result<String, String> {
    let mut child = Command::new(binary)
        .stdin(Stdio::piped())
        .stdout(Stdio::piped())
        .spawn()
        .map_err(|error| format!("cannot start {}: {error}", binary.display()))?;
    let mut stdin = child.stdin.take().expect("a pipe");
    let pieces = input.chunks(piece.max(1));
    let pause = pieces.len() > 1;
    for part in pieces {
        match stdin.write_all(part).and_then(|()| stdin.flush()) {
            // The program need not read an input that is too long to its end.
            Err(error) if error.kind() == ErrorKind::BrokenPipe => break,
            result => result.map_err(|error| format!("writing the input: {error}"))?,
        }
        if pause {
            std::thread::sleep(Duration::from_millis(5));
        }
    }
    drop(stdin);
    let output = child.wait_with_output().map_err(|error| error.to_string())?;
    if !output.status.success() {
        return Err(format!("ended with {}", output.status));
    }
    String::from_utf8(output.stdout).map_err(|error| error.to_string())
}

const LARGE: &str = "an equation file over 65,536 bytes";
const SPENT: &str = "more rounds than the limit in the equation route";

/// Inputs by name.
type Inputs = Vec<(&'static str, Vec<u8>)>;

fn cases() -> Inputs {
    let runs = [runs(), named_runs(), worked::runs(), counted::runs()].concat();
    let mut all: Inputs = runs.iter().map(|run| (run.name, run.case.bytes())).collect();
    all.extend(numbered_cases());
    all.extend(named_cases());
    all
}

/// A number of zeros by which an input is longer than any case.
const ZEROS: [u8; 7_000] = [0; 7_000];

/// Cases of version 2 around the ends of the header and of the room for a case.
fn named_cases() -> Inputs {
    let p1 = named_runs()[0].case.bytes();
    let full = worked::largest().bytes();
    assert!(full.len() == LARGEST_NAMED_CASE && full.len() == 13_590 && read_case(&full).is_ok());
    let any = case_in(&mut Random::new(5), Size::Full, 2).bytes();
    assert!(any.len() == LARGEST_NAMED_CASE && read_case(&any).is_ok());
    let long = [&full[..], &ZEROS].concat();
    vec![
        ("version 2, 20 bytes", p1[..20].to_vec()),
        ("version 2, 21 bytes", p1[..21].to_vec()),
        ("version 2, a header only", p1[..22].to_vec()),
        ("version 2, a byte too short", p1[..p1.len() - 1].to_vec()),
        ("version 2, a byte too long", [&p1[..], &[0]].concat()),
        ("version 3, 20 bytes", with_number(&p1, 0, 2, 3)[..20].to_vec()),
        ("version 3", with_number(&p1, 0, 2, 3)),
        ("a name above 255", with_number(&p1, 22, 2, 256)),
        ("a name after padding", with_number(&p1, 28, 2, 1)),
        ("the largest case of version 2", full.clone()),
        ("a largest case of version 2 by chance", any),
        ("a wrong name in the largest case's last record", with_number(&full, 22 + 8 * LABELS - 2, 2, 9)),
        ("a byte less than the largest case of version 2", full[..full.len() - 1].to_vec()),
        ("a byte more than the largest case of version 2", long[..LARGEST_NAMED_CASE + 1].to_vec()),
        ("two bytes more than the largest case of version 2", long[..LARGEST_NAMED_CASE + 2].to_vec()),
        ("longer than any case, version 2", long),
    ]
}

fn numbered_cases() -> Inputs {
    let p1 = runs()[0].case.bytes();
    let full = case_in(&mut Random::new(5), Size::Full, 1);
    assert!(full.bytes().len() == LARGEST_CASE && read_case(&full.bytes()).is_ok());
    let large = case(256, 1, &[(0, 0, 1), (0, 0, 1), (1, 0, 2)], "true", &("box 0 ".repeat(24) + "false"));
    let mut path: Vec<(usize, usize, usize)> = (0..15).map(|s| (s, 0, s + 1)).collect();
    path.extend([(7, 0, 8), (0, 0, 1), (7, 0, 8)]);
    let spent = case(16, 1, &path, "true", &("and ".repeat(4) + &"mu X box 0 X ".repeat(5)));
    let long = [&full.bytes()[..], &ZEROS].concat();
    vec![
        ("empty", Vec::new()),
        ("a byte too long", [&p1[..], &[0]].concat()),
        ("a byte too short", p1[..53].to_vec()),
        ("19 bytes", p1[..19].to_vec()),
        (LARGE, large.bytes()),
        (SPENT, spent.bytes()),
        ("the largest case", full.bytes()),
        ("a byte more than the largest case", long[..LARGEST_CASE + 1].to_vec()),
        ("longer than any case", long),
        ("a megabyte of zeros", vec![0; 1_000_000]),
    ]
}

fn files() -> Inputs {
    let p1 = p1_file();
    let mut all = vec![
        ("P1's file", p1.clone()),
        ("the file of P1 without (1,1,2)", counted::p1_without_its_last_file().0),
        ("empty", Vec::new()),
        ("a byte too long", [&p1[..], &[0]].concat()),
        ("a byte too short", p1[..159].to_vec()),
        ("longer than any equation file", vec![1; 1_000_000]),
    ];
    all.extend((0..8).map(|seed| ("any equation file", equations(&mut Random::new(seed)).bytes())));
    all
}

/// What `twosides` prints by the reference.
fn both_routes(bytes: &[u8]) -> String {
    reference_lines(bytes).join("\n") + "\n"
}

/// What `solvefile` prints by the reference.
fn solved(bytes: &[u8]) -> String {
    let (mut work, mut marks) = (vec![0; CELLS], [0; MARK_WORDS]);
    let x = Reference(None).solve(bytes, &mut work, &mut marks, LIMIT);
    line("S", &[x.refusal, x.verdict, x.count, x.rounds]) + "\n"
}

/// Compares what a program prints with the reference; answers how many runs were compared.
fn compare(binary: &Path, inputs: Inputs, expected: fn(&[u8]) -> String) -> Result<u64, String> {
    if !binary.exists() {
        return Err(format!("{} is missing: run tools/build first", binary.display()));
    }
    let mut compared = 0;
    for (name, input) in inputs {
        let expected = expected(&input);
        let pieces = if input.len() < 75 { vec![input.len(), 7] } else { vec![input.len()] };
        for piece in pieces {
            let got = output(binary, &input, piece).map_err(|text| format!("{name}: {text}"))?;
            if got != expected {
                return Err(format!("{name}: printed {got:?}, expected {expected:?}"));
            }
            compared += 1;
        }
    }
    Ok(compared)
}

/// The program `twosides` of a folder.
pub fn twosides(folder: &Path) -> Result<u64, String> {
    assert_eq!(both_routes(&runs()[0].case.bytes()), "E 0 1 3 4\nD 0 1 3 4\nT 3 2\n");
    for (wanted, first, last) in [(LARGE, "E 13 0 0 0\nD 0 ", "\nT 3 2\n"), (SPENT, "E 14 0 0 0\nD 0 ", "\nT 18 15\n")]
    {
        let bytes = cases().into_iter().find(|(name, _)| *name == wanted).expect("a case by its name").1;
        let lines = both_routes(&bytes);
        assert!(lines.starts_with(first) && lines.ends_with(last), "{wanted}: a case that only direct solves");
    }
    compare(&folder.join("twosides"), cases(), both_routes)
}

/// The program `solvefile` of a folder.
pub fn solvefile(folder: &Path) -> Result<u64, String> {
    assert_eq!(solved(&p1_file()), "S 0 1 3 4\n");
    assert_eq!(solved(&counted::p1_without_its_last_file().0), "S 0 1 3 3\n");
    compare(&folder.join("solvefile"), files(), solved)
}

/// A stream of P1 with each call once; in version 2 it has 74 bytes before its calls.
fn each_call(case: &[u8]) -> Vec<u8> {
    let mut stream = Stream::new(case);
    stream.add((1, 0, 1));
    stream.drop((0, 0, 1));
    stream.want(2);
    stream.0
}

/// Streams that end in the length, in the case, in a call and behind one.
fn cut_streams() -> Inputs {
    let whole = each_call(&named_runs()[0].case.bytes());
    let calls_at = whole.len() - 23;
    let lengths = [0, 1, 2, 3, 21, 40, calls_at - 1, calls_at].into_iter().chain(calls_at + 1..=whole.len());
    lengths.map(|length| ("a stream that is cut", whole[..length].to_vec())).collect()
}

/// Streams whose case is refused, with calls behind it, and streams with a call that does not exist.
fn ended_streams() -> Inputs {
    let refused = [refused_cases(1), refused_cases(2), refused_names()].concat();
    let mut all: Inputs = refused.iter().map(|(_, bytes)| ("a refused case", each_call(bytes))).collect();
    let p1 = runs()[0].case.bytes();
    for byte in [0, 4, 49, 255] {
        let mut stream = Stream::new(&p1);
        stream.want(9);
        stream.0.push(byte);
        stream.want(9);
        all.push(("a call that does not exist", stream.0));
    }
    let longer = [&p1[..], &[0; 65_535 - 54]].concat();
    all.push(("a case of 65,535 bytes", each_call(&longer)));
    let mut short = each_call(&p1);
    short[0] += 1;
    all.push(("a length that takes a byte of the calls", short));
    let mut accepted = Stream::new(&p1).0;
    accepted[1] = 1;
    all.push(("a stream that ends in the case, which is accepted", accepted));
    all
}

/// The stored stream, streams of lists by chance, and calls on the largest case.
fn edit_streams() -> Inputs {
    let mut all = vec![("the stored stream", stdin_and_stdout().0)];
    all.extend((0..40).map(|seed| ("a list by chance", of_list(&lists::list(&mut Random::new(seed))))));
    all.extend((0..3).map(|seed| ("a list on a full table", of_list(&lists::full_list(&mut Random::new(seed))))));
    let mut largest = Stream::new(&worked::largest().bytes());
    largest.add((0, 0, 0));
    largest.drop((0, 0, 1));
    largest.add((255, 63, 255));
    largest.want(1_000);
    all.push(("the largest case", largest.0));
    all
}

/// The program `editor` of a folder.
pub fn editor(folder: &Path) -> Result<u64, String> {
    let p1 = runs()[0].case.bytes();
    // Without the click 0 and 2 have no transition and are marked in the first round; 1 has a loop. Only 0 is reached.
    assert_eq!(printed(&each_call(&p1)), "open 0\nadd 0\ndrop 0\nwant 0 1 1 2 2 2\n");
    let binary = folder.join("editor");
    let compared = compare(&binary, [cut_streams(), ended_streams(), edit_streams()].concat(), printed)?;
    let (stdin, stdout) = stdin_and_stdout();
    if output(&binary, &stdin, 701)? != stdout {
        return Err("the stored stream, handed over in pieces: other lines".to_string());
    }
    Ok(compared + 1)
}
