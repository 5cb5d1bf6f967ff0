//! Times the proved library beside the same procedures in plain Rust, on the same inputs, in one process, and the program `twosides`
//! beside a plain one; then edits of the largest case. Prints two tables of ratios; fails if an answer differs.

mod edits;
mod inputs;
mod library;
mod plain;

use inputs::Input;
use library::{EquationNumbers, Numbers, RouteNumbers};
use std::fmt::Debug;
use std::fs::{self, File};
use std::hint::black_box;
use std::path::{Path, PathBuf};
use std::process::{Command, Stdio};
use std::time::{Duration, Instant};

const LIMIT: u64 = 1_000_000;

/// What a call is lent. Each part has room beyond what is needed, which the call must leave as it is.
#[derive(Clone, PartialEq)]
struct Lent {
    file: Vec<u8>,
    work: Vec<u8>,
    marks: [u64; 5],
}

impl Lent {
    /// For a file of a length, whose cells take 12 bytes each.
    fn of(length: usize) -> Lent {
        Lent { file: vec![0xa5; length + 8], work: vec![0xa5; length / 12 + 8], marks: [0xa5a5; 5] }
    }
}

/// The calls that are timed, each on the proved side or the plain one.
#[derive(Clone, Copy)]
enum Call {
    Direct,
    Solve,
    Translate,
    Equation,
}

const CALLS: [Call; 4] = [Call::Direct, Call::Solve, Call::Translate, Call::Equation];

#[derive(Clone, Copy)]
enum Side {
    Proved,
    Plain,
}

const SIDES: [Side; 2] = [Side::Proved, Side::Plain];

/// What a call answers: direct six numbers, the equation route those and its price, the others five.
#[derive(Clone, Copy, Debug, PartialEq)]
enum Answer {
    Five(Numbers),
    Six(RouteNumbers),
    Seven(EquationNumbers),
}

#[inline(never)]
fn run(call: Call, side: Side, case: &[u8], equations: &[u8], lent: &mut Lent) -> Answer {
    let Lent { file, work, marks } = lent;
    match (call, side) {
        (Call::Direct, Side::Proved) => Answer::Six(library::direct(case, marks, LIMIT)),
        (Call::Direct, Side::Plain) => Answer::Six(plain::routes::direct(case, marks, LIMIT).into()),
        (Call::Solve, Side::Proved) => Answer::Five(library::solve(equations, work, marks, LIMIT)),
        (Call::Solve, Side::Plain) => Answer::Five(plain::solver::solve(equations, work, marks, LIMIT).into()),
        (Call::Translate, Side::Proved) => Answer::Five(library::translate(case, file)),
        (Call::Translate, Side::Plain) => Answer::Five(plain::translate::translate(case, file).into()),
        (Call::Equation, Side::Proved) => Answer::Seven(library::equation(case, file, work, marks, LIMIT)),
        (Call::Equation, Side::Plain) => Answer::Seven(plain::routes::equation(case, file, work, marks, LIMIT).into()),
    }
}

/// The best times of the proved and of the plain side.
struct Times {
    proved: Duration,
    plain: Duration,
}

impl Times {
    fn none() -> Times {
        Times { proved: Duration::MAX, plain: Duration::MAX }
    }

    fn note(&mut self, side: Side, time: Duration) {
        let best = match side {
            Side::Proved => &mut self.proved,
            Side::Plain => &mut self.plain,
        };
        *best = time.min(*best);
    }

    fn ratio(&self) -> f64 {
        self.proved.as_secs_f64() / self.plain.as_secs_f64()
    }
}

/// How long each side of a cell of the table is tried, and how often at least.
const TRIED: Duration = Duration::from_millis(1500);
const LEAST: usize = 5;

/// Takes samples of both sides in turn, until there are enough.
fn sample(mut take: impl FnMut(Side) -> Duration) -> Times {
    let mut times = Times::none();
    let began = Instant::now();
    let mut taken = 0;
    while taken < LEAST || began.elapsed() < 2 * TRIED {
        for i in 0..2 {
            let side = SIDES[(i + taken) % 2];
            times.note(side, take(side));
        }
        taken += 1;
    }
    times
}

/// Times what is run with lent memory. A sample is up to eight runs, each lent memory of its own. The answer and all lent memory of each run are
/// compared with those of plain Rust.
fn time<L: Clone + PartialEq, A: Clone + PartialEq + Debug>(
    name: &str,
    fresh: &L,
    run: impl Fn(Side, &mut L) -> A,
) -> Times {
    let mut wanted = fresh.clone();
    let began = Instant::now();
    let right = run(Side::Plain, &mut wanted);
    let runs = (50_000 / began.elapsed().as_nanos().max(1)).clamp(1, 8) as usize;
    let mut answers = vec![(None, fresh.clone()); runs];
    sample(|side| {
        for (_, lent) in &mut answers {
            lent.clone_from(fresh);
        }
        let began = Instant::now();
        for (answer, lent) in &mut answers {
            *answer = Some(run(black_box(side), lent));
        }
        let time = began.elapsed() / runs as u32;
        for (answer, lent) in &answers {
            assert!(answer.as_ref() == Some(&right), "{name}: {answer:?} instead of {right:?}");
            assert!(*lent == wanted, "{name}: other lent memory");
        }
        time
    })
}

/// Times a call on a case and its equation file.
fn time_call(call: Call, input: &Input, equations: &[u8]) -> Times {
    time(input.name, &Lent::of(equations.len()), |side, lent| {
        run(black_box(call), side, black_box(&input.case), black_box(equations), lent)
    })
}

/// Times the program on a case from its standard input. What it prints is compared.
fn time_program(proved: &Path, input: &Input, at: &Path) -> Times {
    fs::write(at, &input.case).expect("the case is written");
    let itself = std::env::current_exe().expect("the bench's own path");
    let mut printed = None;
    sample(|side| {
        let mut command = match side {
            Side::Proved => Command::new(proved),
            Side::Plain => {
                let mut command = Command::new(&itself);
                command.arg("twosides");
                command
            }
        };
        command.stdin(File::open(at).expect("the case is there")).stderr(Stdio::inherit());
        let began = Instant::now();
        let output = command.output().expect("the program runs");
        let time = began.elapsed();
        assert!(output.status.success(), "{}: the program fails", input.name);
        assert!(printed.get_or_insert(output.stdout.clone()) == &output.stdout, "{}: other lines", input.name);
        time
    })
}

/// Three digits of a time.
fn shown(time: Duration) -> String {
    let micros = time.as_secs_f64() * 1e6;
    let (number, unit) = match micros {
        ..0.9995 => (micros * 1e3, "ns"),
        ..999.5 => (micros, "us"),
        _ => (micros / 1e3, "ms"),
    };
    let digits = if number < 9.995 { 2 } else { usize::from(number < 99.95) };
    format!("{number:.digits$} {unit}")
}

fn cell(times: &Times) -> String {
    format!("{:.2} ({} / {})", times.ratio(), shown(times.proved), shown(times.plain))
}

fn size(input: &Input) -> String {
    let number = |i: usize| u16::from_le_bytes([input.case[2 * i], input.case[2 * i + 1]]);
    format!("{}: {} states, {} transitions, {} nodes", input.name, number(1), number(2), number(6))
}

fn main() -> std::io::Result<()> {
    if std::env::args().nth(1).as_deref() == Some("twosides") {
        return plain::program::twosides();
    }
    let target: PathBuf = Path::new(env!("CARGO_MANIFEST_DIR")).join("../target");
    let program = target.join("bin/twosides");
    fs::create_dir_all(target.join("bench"))?;
    println!("proved time / plain time (proved / plain)\n");
    println!("| input | direct | solve | translate | equation | twosides |");
    println!("|---|---|---|---|---|---|");
    for input in inputs::inputs() {
        let mut row = vec![size(&input)];
        let mut equations = vec![0; plain::solver::LARGEST];
        let length = plain::translate::translate(&input.case, &mut equations).expect("an accepted case");
        equations.truncate(length);
        for call in CALLS {
            row.push(cell(&time_call(call, &input, &equations)));
        }
        row.push(if program.exists() {
            cell(&time_program(&program, &input, &target.join("bench/case")))
        } else {
            "no target/bin/twosides".into()
        });
        println!("| {} |", row.join(" | "));
    }
    println!();
    edits::print_table();
    Ok(())
}
