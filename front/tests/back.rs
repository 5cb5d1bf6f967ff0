//! Case files back to text: every accepted case can be read, and reading the text again gives a case with equal answers.
//! Equation files as equations.

#[path = "support/case_texts.rs"]
mod case_texts;

use bithrowy_front::back::{equations, texts, Texts};
use bithrowy_front::library;
use bithrowy_front::{aut, directives, label, source::Source};
use bithrowy_tests::formats::{self, action, formula, node, Block, Case, Cell, Equations};
use bithrowy_tests::generate::{self, Size};
use bithrowy_tests::paper::{p1_file, runs};
use bithrowy_tests::random::Random;
use bithrowy_tests::reader::{read_case, read_equations};
use bithrowy_tests::text::{case, named};
use bithrowy_tests::{damage, rules, tables};

/// Rounds that a random case may take; the few that take more are compared as spent.
const LIMIT: u64 = 3_000;

/// The case file that is read from texts. The flag is what the formula's directives say.
fn read_again(texts: &Texts) -> Vec<u8> {
    let allowed = directives::read(&Source::new("f.mcf", texts.mcf.as_str())).unwrap().unknown_labels;
    let case = case_texts::case_of(&texts.aut, &texts.mcf, allowed);
    case.unwrap_or_else(|fault| panic!("{fault}\n{}\n{}", texts.aut, texts.mcf)).bytes
}

/// Both routes answer the same on both files; the cells of both are the same too, for the formula is.
fn same_answers(bytes: &[u8], again: &[u8], limit: u64, texts: &Texts) {
    let told = || format!("{}\n{}", texts.aut, texts.mcf);
    assert_eq!(library::equation(bytes, limit), library::equation(again, limit), "{}", told());
    assert_eq!(library::direct(bytes, limit), library::direct(again, limit), "{}", told());
}

#[test]
fn p1_as_text() {
    let texts = texts(&runs()[0].case.bytes()).unwrap();
    assert_eq!(texts.aut, "des (0, 3, 3)\n(0, \"label0\", 1)\n(0, \"label0\", 1)\n(1, \"label1\", 2)\n");
    let comment =
        "% From a case file of version 1: 3 states, 3 transitions, 2 labels.\n% label0 is the label with number 0, and so on.\n";
    assert_eq!(texts.mcf, format!("{comment}mu X0. [true] X0\n"));
}

/// Three labels of the names 7 and 30, two silent ones, and one that only the formula names. Mu is node 5, behind nu, or,
/// diamond, a variable and box.
#[test]
fn a_case_with_names_as_text() {
    let triples = [(0, 0, 1), (0, 1, 1), (1, 2, 0), (1, 3, 0), (0, 4, 0)];
    let case = named(
        case(2, 6, &triples, "and label 0 not label 5", "nu X or dia 0 X box 1 mu Y and X Y"),
        &[&[7, 30], &[30, 7], &[7, 30], &[], &[], &[9]],
    );
    let texts = texts(&case.bytes()).unwrap();
    assert_eq!(
        texts.aut,
        "des (0, 5, 2)\n(0, \"name7|name30\", 1)\n(0, \"name30|name7\", 1)\n(1, \"name7|name30|tau\", 0)\n(1, \"tau\", \
         0)\n(0, \"tau|tau\", 0)\n"
    );
    let formula = texts.mcf.lines().filter(|line| !line.starts_with('%')).collect::<String>();
    assert_eq!(formula, "nu X0. <name7|name30 && !name9> X0 || [name7|name30] mu X5. X0 && X5");
    let comments: Vec<&str> = texts.mcf.lines().filter(|line| line.starts_with('%')).collect();
    assert_eq!(
        comments,
        [
            "% From a case file of version 2: 2 states, 5 transitions, 6 labels.",
            "% name1 is the name with number 1, and so on; tau is the silent step.",
            "% No transition has some of the labels below.",
            "% unknown labels: allow"
        ]
    );
    same_answers(&case.bytes(), &read_again(&texts), LIMIT, &texts);
}

/// How many of the random cases had what is worth having.
#[derive(Default, Debug)]
struct Seen {
    versions: [usize; 2],
    verdicts: [usize; 2],
    unknown: usize,
    silent: usize,
    spent: usize,
}

impl Seen {
    fn add(&mut self, case: &Case, texts: &Texts, run: &library::Run) {
        self.versions[case.labels.version() - 1] += 1;
        self.verdicts[usize::from(run.verdict)] += 1;
        self.unknown += usize::from(texts.mcf.contains("unknown labels: allow"));
        self.silent += usize::from(texts.aut.contains("\"tau|tau\""));
        self.spent += usize::from(run.refusal == 14);
    }
}

#[test]
fn accepted_cases_have_equal_answers_as_text() {
    let mut random = Random::new(1806);
    let mut seen = Seen::default();
    let mut accepted = 0;
    while accepted < 3_000 {
        let case = generate::case(&mut random);
        let bytes = case.bytes();
        if read_case(&bytes).is_err() {
            assert!(texts(&bytes).is_err());
            continue;
        }
        let texts = texts(&bytes).expect("an accepted case");
        same_answers(&bytes, &read_again(&texts), LIMIT, &texts);
        seen.add(&case, &texts, &library::equation(&bytes, LIMIT));
        accepted += 1;
    }
    assert!(seen.versions.iter().all(|&count| count > 1_000), "{seen:?}");
    assert!(seen.verdicts.iter().all(|&count| count > 600), "{seen:?}");
    assert!(seen.unknown > 100 && seen.silent > 30 && seen.spent < 300, "{seen:?}");
}

/// Both tables of nodes and that of the transitions near their limits.
#[test]
fn full_cases_have_equal_answers_as_text() {
    let mut random = Random::new(1807);
    let mut accepted = 0;
    for _ in 0..20 {
        let bytes = generate::case_of(&mut random, Size::Full).bytes();
        if read_case(&bytes).is_ok() {
            let texts = texts(&bytes).expect("an accepted case");
            same_answers(&bytes, &read_again(&texts), 300, &texts);
            accepted += 1;
        }
    }
    assert!(accepted > 10, "{accepted}");
}

/// A chain of nodes of one operand, and a table in which left operands lie as deep as there is room.
fn deep_case(actions: Vec<formats::Node>, formula: Vec<formats::Node>) -> Case {
    Case { actions, formula, ..case(2, 2, &[(0, 0, 1), (1, 1, 0)], "", "true") }
}

/// So many nodes of a kind, and one more leaf than operands need: each is the first operand of the one before it.
fn leaning(kind: usize, count: usize, leaf: formats::Node) -> Vec<formats::Node> {
    let mut table = vec![node(kind, 0); count];
    table.extend(vec![leaf; count + 1]);
    table
}

#[test]
fn the_deepest_cases_have_equal_answers_as_text() {
    let nots = || [vec![node(action::NOT, 0); 127], vec![node(action::LABEL, 1)]].concat();
    let boxes = |arguments: &dyn Fn(usize) -> usize| -> Vec<formats::Node> {
        (0..63).map(|i| node(formula::BOX + i % 2, arguments(i))).chain([node(formula::FALSE, 0)]).collect()
    };
    let binders =
        [vec![node(formula::NU, 0); 6], vec![node(formula::AND, 0); 28], vec![node(formula::VARIABLE, 3); 29]];
    let label = node(action::LABEL, 0);
    let cases = [
        // Each modality writes the largest action formula out: 63 times 128 nodes as text.
        deep_case(nots(), boxes(&|_| 0)),
        // Each points into the middle of it.
        deep_case(nots(), boxes(&|i| 2 * i + 1)),
        deep_case(leaning(action::IMPLIES, 63, label), boxes(&|i| i)),
        deep_case(leaning(action::AND, 63, label), boxes(&|_| 0)),
        deep_case(vec![label], binders.concat()),
        deep_case(vec![label], leaning(formula::OR, 31, node(formula::TRUE, 0))),
    ];
    for case in cases {
        let bytes = case.bytes();
        assert!(read_case(&bytes).is_ok());
        let texts = texts(&bytes).unwrap();
        same_answers(&bytes, &read_again(&texts), LIMIT, &texts);
    }
}

#[test]
fn refused_cases_are_refused_with_the_librarys_number() {
    let mut numbers = std::collections::BTreeSet::new();
    for broken in bithrowy_tests::case_rules::broken_cases() {
        let answer = texts(&broken.bytes).map(|_| 0).unwrap_or_else(|number| number);
        assert_eq!(answer, broken.refusal, "{}", broken.rule);
        numbers.insert(answer);
    }
    assert_eq!(numbers.into_iter().collect::<Vec<_>>(), [0, 1, 2, 3, 4, 5, 6, 7, 8, 9, 10, 15]);
}

#[test]
fn damaged_cases_never_panic() {
    let mut random = Random::new(1808);
    let mut refused = 0;
    for _ in 0..3_000 {
        let mut bytes = generate::case(&mut random).bytes();
        for _ in 0..random.between(1, 3) {
            let at = random.below(bytes.len());
            bytes[at] = random.pick(&[0, 1, 2, 3, 255]);
        }
        bytes.truncate(random.between(bytes.len() / 2, 4 * bytes.len()));
        let expected = read_case(&bytes).map(|_| ());
        assert_eq!(texts(&bytes).map(|_| ()), expected);
        refused += usize::from(expected.is_err());
    }
    assert!(refused > 1_000, "{refused}");
}

/// The model that is written is read again as it is, its label list too.
#[test]
fn the_models_text_is_its_own() {
    let texts = texts(&runs()[1].case.bytes()).unwrap();
    let model = aut::read(&Source::new("m.aut", texts.aut.as_str()), label::SILENT).unwrap();
    assert_eq!(aut::write(&model), texts.aut);
    assert_eq!(model.labels.len(), 2);
}

const HEADING: &str =
    "% X0(1) is the variable of block 0 in state 1. The least solution of a mu block and the greatest of \
                       a nu block is meant,\n% the first block outermost.\n";

/// P1's cells 3 to 5 are the right sides: an and of cell 7, one of cell 8, and an empty one; 7 and 8 are the variable in
/// states 1 and 2 (the paper).
#[test]
fn p1_as_equations() {
    let text = equations(&p1_file()).unwrap();
    let first = "% 3 states, 1 block, 9 cells; the initial state is 0.\n";
    assert_eq!(text, format!("{first}{HEADING}\nmu X0\n  X0(0) = X0(1)\n  X0(1) = X0(2)\n  X0(2) = true\n"));
}

/// Cells 0 and 1 are the right sides of block 0, 2 and 3 those of block 1. Cell 2 stands in three places: as a right side
/// and twice in cell 1. Cell 4 is an or of one, which is that one, and 5 is an empty or. Cell 8 is part of no equation.
#[test]
fn parts_in_several_places_have_names() {
    let block = |greatest, first| Block { greatest, first };
    let variable = |block, state| Cell::Variable { block, state };
    let file = Equations {
        states: 2,
        initial: 1,
        blocks: vec![block(true, 0), block(false, 2)],
        cells: vec![
            Cell::Or(vec![3, 7]),
            Cell::And(vec![2, 4, 2]),
            Cell::Or(vec![6, 7]),
            Cell::And(vec![6, 5]),
            Cell::Or(vec![5]),
            Cell::Or(vec![]),
            variable(0, 1),
            variable(1, 0),
            Cell::And(vec![]),
        ],
    };
    let first = "% 2 states, 2 blocks, 9 cells; the initial state is 1.\n";
    assert_eq!(
        equations(&file.bytes()).unwrap(),
        format!(
            "{first}{HEADING}\nnu X0\n  X0(0) = c3 || X1(0)\n  X0(1) = c2 && false && c2\n\nmu X1\n  X1(0) = c2\n  X1(1) = \
             c3\n\nParts that stand in several places\n  c2 = X0(1) || X1(0)\n  c3 = X0(1) && false\n"
        )
    );
}

/// Both right sides are lists of cell 2 alone.
#[test]
fn a_part_of_two_right_sides_has_a_name() {
    let file = Equations {
        states: 2,
        initial: 0,
        blocks: vec![Block { greatest: true, first: 0 }],
        cells: vec![
            Cell::Or(vec![2]),
            Cell::And(vec![2]),
            Cell::And(vec![3, 3]),
            Cell::Variable { block: 0, state: 1 },
        ],
    };
    let text = equations(&file.bytes()).unwrap();
    let expected = "nu X0\n  X0(0) = c2\n  X0(1) = c2\n\nParts that stand in several places\n  c2 = X0(1) && X0(1)\n";
    assert!(text.ends_with(expected), "{text}");
}

#[test]
fn lists_in_lists_have_brackets() {
    let file = Equations {
        states: 1,
        initial: 0,
        blocks: vec![Block { greatest: false, first: 0 }],
        cells: vec![
            Cell::Or(vec![1, 2]),
            Cell::And(vec![3, 4]),
            Cell::Or(vec![3, 4]),
            Cell::Variable { block: 0, state: 0 },
            Cell::And(vec![]),
        ],
    };
    let text = equations(&file.bytes()).unwrap();
    assert!(text.ends_with("  X0(0) = (X0(0) && true) || (X0(0) || true)\n"), "{text}");
}

/// Equations that are read again and solved by the checker of tests, with sets for the blocks that make each side one way
/// or the other: the text says what the cells say.
#[test]
fn equations_say_what_the_cells_say() {
    let mut random = Random::new(1809);
    let mut sides = [0; 2];
    for _ in 0..400 {
        let file = generate::equations(&mut random);
        let text = equations(&file.bytes()).unwrap();
        for _ in 0..3 {
            let mut set = || (0..file.states).map(|_| random.chance(1, 2)).collect::<Vec<bool>>();
            let sets: Vec<Vec<bool>> = file.blocks.iter().map(|_| set()).collect();
            let values = bithrowy_tests::meaning::cell_values(&file, &sets);
            let mut reader = TextReader::new(&text, &sets);
            for (number, block) in file.blocks.iter().enumerate() {
                for state in 0..file.states {
                    let value = values[block.first + state];
                    assert_eq!(reader.value_of(&format!("X{number}({state})")), value, "{text}");
                    sides[usize::from(value)] += 1;
                }
            }
        }
    }
    assert!(sides.iter().all(|&count| count > 1_000), "{sides:?}");
}

/// Works out right sides of equations as text, each name once.
struct TextReader<'a> {
    sides: std::collections::HashMap<&'a str, &'a str>,
    parts: std::collections::HashMap<String, bool>,
    sets: &'a [Vec<bool>],
}

impl<'a> TextReader<'a> {
    fn new(text: &'a str, sets: &'a [Vec<bool>]) -> TextReader<'a> {
        let sides = text.lines().filter_map(|line| line.trim().split_once(" = ")).collect();
        TextReader { sides, parts: Default::default(), sets }
    }

    /// The value of the right side of a variable or a part.
    fn value_of(&mut self, name: &str) -> bool {
        let side = self.sides[name];
        let spaced = side.replace('(', " ( ").replace(')', " ) ");
        // A variable's state stands in brackets too: X0 ( 1 ).
        let words: Vec<&str> = spaced.split_whitespace().collect();
        let (value, end) = self.list(&words, 0);
        assert_eq!(end, words.len(), "{side}");
        value
    }

    /// Operands with one sign between them, up to a closing bracket or the end.
    fn list(&mut self, words: &[&str], at: usize) -> (bool, usize) {
        let (mut value, mut at) = self.operand(words, at);
        let sign = words.get(at).copied().filter(|&word| word != ")");
        while words.get(at).copied().filter(|&word| word != ")").is_some() {
            assert_eq!(words.get(at).copied(), sign, "one sign in a list");
            let (next, end) = self.operand(words, at + 1);
            value = if sign == Some("&&") { value & next } else { value | next };
            at = end;
        }
        (value, at)
    }

    fn operand(&mut self, words: &[&str], at: usize) -> (bool, usize) {
        match words[at] {
            "true" => (true, at + 1),
            "false" => (false, at + 1),
            "(" => {
                let (value, end) = self.list(words, at + 1);
                assert_eq!(words[end], ")");
                (value, end + 1)
            }
            name if name.starts_with('X') => {
                let (block, state): (usize, usize) = (name[1..].parse().unwrap(), words[at + 2].parse().unwrap());
                (self.sets[block][state], at + 4)
            }
            name => (self.part(name), at + 1),
        }
    }

    fn part(&mut self, name: &str) -> bool {
        if let Some(&value) = self.parts.get(name) {
            return value;
        }
        let value = self.value_of(name);
        self.parts.insert(name.to_string(), value);
        value
    }
}

/// Each cell stands twice in the one before it: without names the text would double with each cell. And a cell in a cell,
/// as deep as there are cells.
#[test]
fn equations_never_grow_beyond_the_file() {
    let cells = |operands: fn(usize) -> Vec<usize>| -> Vec<Cell> {
        let inner =
            (0..formats::CELLS - 1).map(|i| if i % 2 == 0 { Cell::And(operands(i)) } else { Cell::Or(operands(i)) });
        inner.chain([Cell::Variable { block: 0, state: 0 }]).collect()
    };
    let file = |cells: Vec<Cell>| {
        Equations { states: 1, initial: 0, blocks: vec![Block { greatest: true, first: 0 }], cells }.bytes()
    };
    let doubled = file(cells(|i| vec![i + 1, i + 1]));
    let deep = file(cells(|i| vec![i + 1, formats::CELLS - 1]));
    let single = file(cells(|i| vec![i + 1]));
    for bytes in [&doubled, &deep, &single] {
        let text = equations(bytes).unwrap();
        assert!(text.len() < 4 * bytes.len(), "{} bytes of text", text.len());
    }
    assert!(equations(&single).unwrap().ends_with("  X0(0) = X0(0)\n"));
}

#[test]
fn what_is_no_equation_file_is_said_in_words() {
    let p1 = p1_file();
    let with = |at: usize, number: u64| equations(&damage::with_number(&p1, at, 4, number)).unwrap_err();
    assert_eq!(equations(&[]).unwrap_err(), "its header needs 36 bytes, and it has 0");
    assert_eq!(with(0, 2), "its version is 2 in place of 1");
    assert_eq!(with(4, 257), "it has 257 states, and an equation file has 1 to 256");
    assert_eq!(with(8, 7), "it has 7 blocks, and an equation file has 1 to 6");
    assert_eq!(with(12, 16_641), "it has 16,641 cells, and an equation file has 1 to 16,640");
    assert_eq!(with(16, 133_121), "it has 133,121 operands, and an equation file has 0 to 133,120");
    assert_eq!(with(20, 3), "its initial state is 3, and it has 3 states");
    assert_eq!(with(24, 35), "an offset differs from what its counts say");
    assert_eq!(equations(&[&p1[..], &[0]].concat()).unwrap_err(), "its counts say 160 bytes, and it has 161");
    assert_eq!(with(36, 2), "the sign of block 0 is neither 0 (mu) nor 1 (nu)");
    assert_eq!(with(40, 7), "block 0 has no cell for each state");
    assert_eq!(with(44, 3), "the kind of cell 0 is not 0 (and), 1 (or) or 2 (variable)");
    assert_eq!(with(48, 1), "cell 0 names a block or a state that is not there");
    assert_eq!(with(84, 1), "the operands of cell 3 do not follow those of the cells before it");
    assert_eq!(with(88, 9), "cell 3 has more operands than there are");
    assert_eq!(with(152, 3), "cell 3 has the operand 3, which is no later cell");
    assert_eq!(with(156, 9), "cell 4 has the operand 9, which is no later cell");
    // The list of cell 4 made empty: operand 1 is in no list, and cell 5 is then right to start at 1.
    let shorter = damage::with_number(&p1, 100, 4, 0);
    assert_eq!(equations(&damage::with_number(&shorter, 108, 4, 1)).unwrap_err(), "1 operand in no cell's list");
}

#[test]
fn equation_files_are_those_of_the_rules() {
    let mut counts = [0; 2];
    let mut hold = |bytes: &[u8], rule: &str| {
        let is_one = read_equations(bytes).is_ok();
        assert_eq!(equations(bytes).is_ok(), is_one, "{rule}");
        counts[usize::from(is_one)] += 1;
    };
    for broken in rules::broken_files() {
        hold(&broken.bytes, &broken.rule);
    }
    for bytes in rules::twice_broken_files() {
        hold(&bytes, "broken twice");
    }
    let mut random = Random::new(1810);
    for _ in 0..1_000 {
        let mut bytes = generate::equations(&mut random).bytes();
        hold(&bytes, "right");
        let at = random.below(bytes.len());
        bytes[at] = random.pick(&[0, 1, 2, 3, 255]);
        hold(&bytes, "damaged");
        bytes.truncate(random.below(bytes.len()));
        hold(&bytes, "cut");
    }
    assert!(counts.iter().all(|&count| count > 1_000), "{counts:?}");
}

/// The equation file of each case that is translated is written out.
#[test]
fn equations_of_cases_are_written_out() {
    let mut random = Random::new(1811);
    for _ in 0..300 {
        let case = generate::case(&mut random);
        if let Ok(file) = library::translate(&case.bytes()) {
            assert_eq!(file, tables::equations(&case).bytes());
            let text = equations(&file).unwrap();
            let lines = text.lines().filter(|line| line.contains(" = ") && line.starts_with("  X")).count();
            let blocks = case.binders().len() + usize::from(!case.root_binds());
            assert_eq!(lines, blocks * case.states);
        }
    }
}
