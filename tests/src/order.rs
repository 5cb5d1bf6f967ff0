//! Cases of both versions with several faults at once: the condition that is looked at first gives the number, and the
//! numbers are no order, for 15 stands between 6 and 7.

use crate::damage::with_number;
use crate::formats::*;
use crate::reader::Refusal;
use crate::rules::Broken;
use crate::text::{case, named};

/// A fault that makes one condition hold and undoes no other fault.
struct Fault {
    condition: Refusal,
    name: &'static str,
    planted: Box<Change>,
}

/// How a fault changes a case.
type Change = dyn Fn(&[u8]) -> Vec<u8>;

/// A case with six blocks, to which each fault can be done.
fn right(version: usize) -> Case {
    let words = "nu A nu B nu C mu D mu E mu F or box 0 A dia 1 F";
    let case = case(2, 3, &[(0, 0, 1), (1, 1, 0)], "label 0 not label 1", words);
    if version == 1 {
        return case;
    }
    named(case, &[&[3, 5, 5], &[5, 3, 5], &[]])
}

/// A number of the case changed.
fn edit(condition: Refusal, name: &'static str, at: usize, number: u64) -> Fault {
    Fault { condition, name, planted: Box::new(move |bytes| with_number(bytes, at, 2, number)) }
}

/// A fault for each condition of a version and some further ones, in the order in which the conditions are looked at.
fn faults(version: usize) -> Vec<Fault> {
    let case = right(version);
    let formula_at = case.bytes().len() - 4 * case.formula.len();
    let actions_at = formula_at - 4 * case.actions.len();
    let transitions_at = actions_at - 6 * case.transitions.len();
    let formula = |i: usize, part: usize| formula_at + 4 * i + 2 * part;
    let cut = |bytes: &[u8]| bytes[..CASE_HEADER - 1].to_vec();
    let longer = |bytes: &[u8]| [bytes, &[0]].concat();
    let mut all = vec![
        Fault { condition: 1, name: "19 bytes", planted: Box::new(cut) },
        edit(2, "version 9", 0, 9),
        edit(3, "257 states", 2, 257),
        edit(4, "formula's offset", 18, formula_at as u64 + 1),
        Fault { condition: 5, name: "a byte extra", planted: Box::new(longer) },
        edit(6, "initial state", 8, 2),
        edit(6, "target", transitions_at + 4, 2),
    ];
    if version == 2 {
        all.insert(4, edit(4, "label records' offset", 20, 23));
        all.extend(name_faults());
    }
    all.extend([
        edit(7, "action kind", actions_at, 7),
        edit(7, "label of an action", actions_at + 10, 3),
        edit(8, "formula kind", formula(9, 0), 9),
        edit(9, "variable of an or", formula(8, 1), 6),
        edit(10, "a box made a seventh binder", formula(7, 0), formula::NU as u64),
    ]);
    all
}

/// Names above 255 and names behind a zero, in labels that are used and in the last one, which is not.
fn name_faults() -> Vec<Fault> {
    let name = |label: usize, i: usize| NAMED_HEADER + 8 * label + 2 * i;
    vec![
        edit(15, "a name above 255", name(0, 1), 256),
        edit(15, "a name behind a zero", name(1, 0), 0),
        edit(15, "a name above 255, unused", name(2, 0), 0xffff),
        edit(15, "a name behind a zero, unused", name(2, 3), 1),
    ]
}

/// Some faults of a version done to a case, the first one last, with the number that it must be refused with: that of
/// the first fault.
fn broken(version: usize, faults: &[&Fault]) -> Broken {
    let bytes = faults.iter().rev().fold(right(version).bytes(), |bytes, fault| (fault.planted)(&bytes));
    let names: Vec<&str> = faults.iter().map(|fault| fault.name).collect();
    let rule = format!("version {version}: {}", names.join(", then "));
    Broken { rule, refusal: faults[0].condition, bytes }
}

/// Each fault alone, each with each that comes after it, and each with all that come after it, in both versions.
pub fn broken_cases() -> Vec<Broken> {
    let mut all = Vec::new();
    for version in VERSIONS {
        let faults = faults(version);
        let faults: Vec<&Fault> = faults.iter().collect();
        for (i, first) in faults.iter().enumerate() {
            all.push(broken(version, &faults[i..=i]));
            all.push(broken(version, &faults[i..]));
            all.extend(faults[i + 1..].iter().map(|second| broken(version, &[first, second])));
        }
    }
    all
}
