//! The proved library's calls, with lent memory that is always enough.

use crate::limits;

/// What one run of a route answers.
#[derive(Clone, Debug, Default, PartialEq, Eq)]
pub struct Run {
    /// The refusal number, 0 if none.
    pub refusal: u64,
    pub verdict: bool,
    pub count: u64,
    pub rounds: u64,
    pub records: u64,
    pub distinct: u64,
    /// Of the equation route only.
    pub cents: u64,
    /// A mark for each of the limit's states; empty after a refusal.
    pub marks: Vec<bool>,
    /// Of the equation route only: a value for each cell of the equation file; empty after a refusal.
    pub values: Vec<bool>,
}

/// The five numbers that translate answers. It leaves verdict, count and rounds at 0.
#[repr(C)]
struct TranslateNumbers {
    refusal: u64,
    _verdict: u64,
    _count: u64,
    _rounds: u64,
    length: u64,
}

/// The six numbers that a route answers.
#[repr(C)]
struct RouteNumbers {
    refusal: u64,
    verdict: u64,
    count: u64,
    rounds: u64,
    records: u64,
    distinct: u64,
}

/// The seven numbers that the equation route answers.
#[repr(C)]
struct EquationNumbers {
    route: RouteNumbers,
    cents: u64,
}

extern "C" {
    fn bithrowy_translate(case: *const u8, n: usize, file: *mut u8, m: usize) -> TranslateNumbers;
    fn bithrowy_direct(case: *const u8, n: usize, marks: *mut u64, k: usize, limit: u64) -> RouteNumbers;
    fn bithrowy_equation(
        case: *const u8,
        n: usize,
        file: *mut u8,
        m: usize,
        work: *mut u8,
        k: usize,
        marks: *mut u64,
        j: usize,
        limit: u64,
    ) -> EquationNumbers;
}

/// The direct route.
pub fn direct(case: &[u8], limit: u64) -> Run {
    let mut marks = [0; limits::WORDS];
    // Sound: both slices are live for the whole call, the marks are lent to it alone, and the proved call reads and writes
    // within the lengths that are handed over with them.
    let numbers = unsafe { bithrowy_direct(case.as_ptr(), case.len(), marks.as_mut_ptr(), marks.len(), limit) };
    run(numbers, &marks)
}

/// The equation route.
pub fn equation(case: &[u8], limit: u64) -> Run {
    let mut marks = [0; limits::WORDS];
    let (mut file, mut work) = (vec![0; limits::EQUATION_FILE], vec![0; limits::CELLS]);
    // Sound: all four slices are live for the whole call, the last three are different memory and lent to it alone, and
    // the proved call reads and writes within the lengths that are handed over with them.
    let numbers = unsafe {
        bithrowy_equation(
            case.as_ptr(),
            case.len(),
            file.as_mut_ptr(),
            file.len(),
            work.as_mut_ptr(),
            work.len(),
            marks.as_mut_ptr(),
            marks.len(),
            limit,
        )
    };
    let mut run = Run { cents: numbers.cents, ..run(numbers.route, &marks) };
    if run.refusal == 0 {
        run.values = work.iter().take(cells(&file)).map(|&value| value == 1).collect();
    }
    run
}

/// The equation file of a case, or the refusal number.
pub fn translate(case: &[u8]) -> Result<Vec<u8>, u64> {
    let mut file = vec![0; limits::EQUATION_FILE];
    // Sound: both slices are live for the whole call, the file is lent to it alone, and the proved call reads and writes
    // within the lengths that are handed over with them.
    let numbers = unsafe { bithrowy_translate(case.as_ptr(), case.len(), file.as_mut_ptr(), file.len()) };
    if numbers.refusal != 0 {
        return Err(numbers.refusal);
    }
    file.truncate(usize::try_from(numbers.length).unwrap_or(limits::EQUATION_FILE));
    Ok(file)
}

/// A route's numbers and mark words as an answer.
fn run(numbers: RouteNumbers, words: &[u64; limits::WORDS]) -> Run {
    let RouteNumbers { refusal, verdict, count, rounds, records, distinct } = numbers;
    let marks = if refusal == 0 { marks(words) } else { Vec::new() };
    Run { refusal, verdict: verdict == 1, count, rounds, records, distinct, marks, ..Run::default() }
}

/// A mark for each bit: state s is bit s mod 64 of word s / 64.
fn marks(words: &[u64; limits::WORDS]) -> Vec<bool> {
    words.iter().flat_map(|word| (0..u64::BITS).map(move |bit| word >> bit & 1 == 1)).collect()
}

/// Where the number of cells stands in an equation file's header, behind version, states and blocks.
const CELLS_AT: usize = 12;

/// The number of cells as an equation file's header says it.
fn cells(file: &[u8]) -> usize {
    let number = file.get(CELLS_AT..CELLS_AT + 4).and_then(|bytes| bytes.try_into().ok()).map(u32::from_le_bytes);
    number.and_then(|count| usize::try_from(count).ok()).unwrap_or(0)
}
