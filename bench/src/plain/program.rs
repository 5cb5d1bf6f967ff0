//! The program `twosides`: a case from standard input by both routes, three lines.

use super::routes::{self, Answer};
use super::{cases, sets, solver};
use std::io::{self, Read};

const LIMIT: u64 = 1_000_000;
const FILE: usize = 65_536;

fn line(route: char, answer: &Answer) {
    match &answer.outcome {
        Ok(report) => println!("{route} 0 {} {} {}", report.verdict as u8, report.count, report.rounds),
        Err(cause) => println!("{route} {cause} 0 0 0"),
    }
}

pub fn twosides() -> io::Result<()> {
    let mut room = [0u8; cases::LARGEST + 1];
    let mut length = 0;
    let mut input = io::stdin().lock();
    while length < room.len() {
        match input.read(&mut room[length..])? {
            0 => break,
            more => length += more,
        }
    }
    let case = &room[..length];
    let mut file = [0u8; FILE];
    let mut work = [0u8; solver::CELLS];
    let mut marks = [0u64; sets::WORDS];
    line('E', &routes::equation(case, &mut file, &mut work, &mut marks, LIMIT).answer);
    let direct = routes::direct(case, &mut marks, LIMIT);
    line('D', &direct);
    println!("T {} {}", direct.records, direct.distinct);
    Ok(())
}
