//! Cases, their replies, and their binary form.

use crate::admission::{Lent, Report, WORDS};
use crate::interpret::run_full;
use crate::names::MAX_NAMES;
use crate::one_move::{profile, Profile};
use crate::open::run_quiet;
use crate::parse::{check, Reply};
use crate::spelling::{spelling, BUILT_IN};

/// One run: the source, what is passed, the times, and the value list.
#[derive(Clone, Debug)]
pub struct RunCase {
    pub source: Vec<u8>,
    pub words: usize,
    pub names: usize,
    pub shape: Vec<u32>,
    pub grid: Vec<i32>,
    pub scratch: usize,
    pub marks: usize,
    pub start: i64,
    pub steps: i64,
    pub values: Vec<u8>,
}

/// What a run returned: the report, the grid, and the words for scratch and marks.
#[derive(Clone, Debug, PartialEq, Eq)]
pub struct Outcome {
    pub report: Report,
    pub grid: Vec<i32>,
    pub scratch: &'static str,
    pub marks: &'static str,
}

impl RunCase {
    /// A case in which all that is passed has the right length for `shape` and
    /// `grid`, with an empty list.
    pub fn new(source: Vec<u8>, shape: &[u32], grid: Vec<i32>, start: i64, steps: i64) -> RunCase {
        RunCase {
            source,
            words: WORDS,
            names: MAX_NAMES,
            shape: shape.to_vec(),
            scratch: grid.len(),
            marks: cells_of(shape),
            grid,
            start,
            steps,
            values: Vec::new(),
        }
    }

    /// The same case with a list.
    pub fn with_list(self, values: &[u8]) -> RunCase {
        let values = values.to_vec();
        RunCase { values, ..self }
    }

    /// What the case lends beside the memory that a run writes.
    pub fn lent(&self) -> Lent<'_> {
        Lent {
            source: &self.source,
            list: BUILT_IN,
            words: self.words,
            names: self.names,
            shape: &self.shape,
            values: &self.values,
            start: self.start,
            steps: self.steps,
        }
    }
}

/// The number of cells of a shape, held at 65,536 for sizes that are wrong.
pub fn cells_of(shape: &[u32]) -> usize {
    let mut cells: u64 = 1;
    for &size in shape {
        cells = (cells * u64::from(size)).min(65_536);
    }
    cells as usize
}

pub fn scratch_on_entry(length: usize) -> Vec<i32> {
    (0..length).map(|i| ((i * 7 + 3) % 1000) as i32).collect()
}

pub fn marks_on_entry(length: usize) -> Vec<u8> {
    (0..length).map(|i| ((i * 5 + 1) % 256) as u8).collect()
}

/// Whether the run that a number is of began.
pub fn began(number: u32) -> bool {
    number == 0 || (30..=33).contains(&number)
}

/// What became of scratch or marks.
pub fn word<T: PartialEq + Default>(after: &[T], before: &[T], began: bool) -> &'static str {
    let zero = after.iter().all(|entry| *entry == T::default());
    let same = after == before;
    match (zero, same) {
        (true, true) if began => "zero",
        (true, true) => "same",
        (true, false) => "zero",
        (false, true) => "same",
        (false, false) => "other",
    }
}

/// Runs a case, full or quiet.
pub fn run_case(case: &RunCase, quiet: bool) -> Outcome {
    let mut grid = case.grid.clone();
    let scratch_before = scratch_on_entry(case.scratch);
    let marks_before = marks_on_entry(case.marks);
    let mut scratch = scratch_before.clone();
    let mut marks = marks_before.clone();
    let run = if quiet { run_quiet } else { run_full };
    let report = run(&case.lent(), &mut grid, &mut scratch, &mut marks);
    let began = began(report.number);
    Outcome {
        report,
        grid,
        scratch: word(&scratch, &scratch_before, began),
        marks: word(&marks, &marks_before, began),
    }
}

/// The line that `check` writes.
pub fn check_line(reply: Reply) -> String {
    if reply.number == 0 {
        "accepted\n".to_string()
    } else {
        format!("refused {} at {}\n", reply.number, reply.place)
    }
}

/// The line that `profile` writes.
pub fn profile_line(profile: Profile) -> String {
    match profile.rule {
        0 => "in the profile\n".to_string(),
        1 => format!(
            "misses rule 1: refused {} at {}\n",
            profile.number, profile.place
        ),
        rule => format!("misses rule {rule}\n"),
    }
}

/// The reply lines of a run, full and quiet.
pub fn run_lines(case: &RunCase) -> String {
    run_line(&run_case(case, false)) + &run_line(&run_case(case, true))
}

/// The numbers of a report.
pub fn report_text(report: &Report) -> String {
    format!(
        "{} {} {} {} {} {}",
        report.number, report.place, report.line, report.cell, report.steps, report.count
    )
}

/// Numbers, each after a space.
pub fn row_text<T: ToString>(row: &[T]) -> String {
    row.iter()
        .map(|value| format!(" {}", value.to_string()))
        .collect()
}

fn run_line(outcome: &Outcome) -> String {
    let report = report_text(&outcome.report);
    let grid = row_text(&outcome.grid);
    format!("{report} {} {} :{grid}\n", outcome.scratch, outcome.marks)
}

/// The line of a reply: after the number and place of a refusal come the
/// numbers of its spelling.
fn check_reply(source: &[u8]) -> String {
    let reply = check(source).reply;
    let line = check_line(reply);
    if reply.number == 0 {
        return line;
    }
    let [stands, start, length] = spelling(source, reply).numbers();
    format!("{} {stands} {start} {length}\n", line.trim_end())
}

/// The sum of a row of words, each times its number in the row, from 1.
fn sum(words: impl Iterator<Item = u32>) -> u64 {
    words
        .zip(1..)
        .map(|(word, number)| u64::from(word) * number)
        .sum()
}

/// The sums of the word table and of the name list, which are zero of a refused
/// source.
fn sums(source: &[u8]) -> [u64; 2] {
    let Some(program) = check(source).program else {
        return [0, 0];
    };
    let table = sum(program.table.into_iter().flatten());
    let names = program.names.iter();
    let names = sum(names.flat_map(|name| [name.start, name.length, name.kind, name.value as u32]));
    [table, names]
}

/// The answer to a check: the line of the reply, and a line with the sums of
/// what is left in memory, and with the numbers that say whether the source is
/// in the profile of 6/13.
pub fn check_answer(source: &[u8]) -> String {
    let line = check_reply(source);
    let [table, names] = sums(source);
    let Profile {
        rule,
        number,
        place,
    } = profile(source);
    format!("{line}{table} {names} {rule} {number} {place}\n")
}

pub fn put_u32(out: &mut Vec<u8>, value: u32) {
    out.extend_from_slice(&value.to_le_bytes());
}

/// Bytes behind their length.
fn put_bytes(out: &mut Vec<u8>, bytes: &[u8]) {
    put_u32(out, bytes.len() as u32);
    out.extend_from_slice(bytes);
}

/// The number with which the binary form of a check begins.
pub const CHECK: u32 = 3;

/// The binary form of a check.
pub fn put_check(out: &mut Vec<u8>, source: &[u8]) {
    put_u32(out, CHECK);
    put_bytes(out, source);
}

/// The binary form of a source and what is passed beside it, and of the sizes.
pub fn put_read(out: &mut Vec<u8>, source: &[u8], words: usize, names: usize, shape: &[u32]) {
    put_bytes(out, source);
    put_u32(out, words as u32);
    put_u32(out, names as u32);
    put_u32(out, shape.len() as u32);
    for &size in shape {
        put_u32(out, size);
    }
}

/// The binary form of a grid.
pub fn put_grid(out: &mut Vec<u8>, grid: &[i32]) {
    put_u32(out, grid.len() as u32);
    for &value in grid {
        out.extend_from_slice(&value.to_le_bytes());
    }
}

/// The binary form of a run, which begins with 0 (of a writing, with 1; of a
/// run in a manner, with 2; of a check, with 3).
pub fn put_run(out: &mut Vec<u8>, case: &RunCase) {
    put_u32(out, 0);
    put_asked(out, case);
}

/// The binary form of the request of a run.
pub fn put_asked(out: &mut Vec<u8>, case: &RunCase) {
    put_read(out, &case.source, case.words, case.names, &case.shape);
    put_grid(out, &case.grid);
    put_u32(out, case.scratch as u32);
    put_u32(out, case.marks as u32);
    out.extend_from_slice(&case.start.to_le_bytes());
    out.extend_from_slice(&case.steps.to_le_bytes());
    put_bytes(out, &case.values);
}
