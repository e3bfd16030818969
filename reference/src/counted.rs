//! Generated runs that count the zeros of their rows, and questions about
//! counts.

use crate::call_case::{Call, MOST_ENTRIES};
use crate::case::{cells_of, RunCase};
use crate::parse::check;
use crate::pausing::Manner;
use crate::random::Random;
use crate::resumed::{bare, of_run};
use crate::runs::{disturb, entries};
use crate::tree::Program;

/// Rules in which zeros come and go.
const RULES: [&str; 13] = [
    "1 dimensions of 0..1 cell := [-1]",
    "1 dimensions of -2..2 cell := cell + 1 when cell < 2 := -2 otherwise",
    "1 dimensions of 0..2 cell := cell - 1",
    "2 dimensions of 0..1 cell := [0,1]",
    "2 dimensions of 0..1 cell := [-2,1]",
    "2 dimensions of 0..2 cell := [1,0] when [1,0] > 0",
    "2 dimensions of 0..3 cell := 0 when [0,1] = 0 := cell otherwise",
    "2 dimensions of 0..9 cell := cell - 1 when time < 3 := 6 / cell otherwise",
    "2 dimensions of a of 0..9 moved of 0..1 end \
     if cell.moved = 0 then cell.a := [1,0].a cell.moved := 1 end",
    "2 dimensions of a, b of 0..1 const c of 0..1 end cell.a := [0,1].b cell.b := cell.c",
    "2 dimensions of 0..9 n := [0,-1] + [0,1] cell := n when n > cell := 0 otherwise",
    "3 dimensions of 0..1 cell := [0,0,1] & [1,0,0]",
    "3 dimensions of a of 0..1 b of -9..9 end cell.a := cell.b > 0 cell.b := cell.b - 3",
];

/// A run of one of these rules, in which many entries are 0.
fn of_rule(random: &mut Random) -> RunCase {
    let source = random.pick(&RULES).as_bytes().to_vec();
    let program = check(&source).program.expect("a rule");
    let most = [8, 5, 3][program.dimensions - 1];
    let shape: Vec<u32> = (0..program.dimensions)
        .map(|_| 1 + random.below(most) as u32)
        .collect();
    let mut grid = entries(random, &program, cells_of(&shape));
    let part = *random.pick(&[0, 30, 70]);
    for (entry, value) in grid.iter_mut().enumerate() {
        let field = program.fields[entry % program.fields.len()];
        if random.chance(part) {
            *value = 0.clamp(field.low, field.high);
        }
    }
    let steps = if random.chance(10) {
        0
    } else {
        random.between(1, 5)
    };
    RunCase::new(source, &shape, grid, random.between(0, 3), steps)
}

/// What is in a count on entry.
fn any_count(random: &mut Random) -> u32 {
    *random.pick(&[0, 0, 1, 2, 9, 1_048_576, u32::MAX])
}

fn counts(random: &mut Random, length: usize) -> Vec<u32> {
    let length = length.min(MOST_ENTRIES);
    (0..length).map(|_| any_count(random)).collect()
}

/// The field that is chosen; one of `part` cases in 100 has none.
fn field(random: &mut Random, program: Option<&Program>, part: usize) -> u32 {
    let fields = program.map_or(1, |program| program.fields.len());
    if random.chance(part) {
        return *random.pick(&[fields as u32, fields as u32, 8, 256, u32::MAX]);
    }
    random.below(fields) as u32
}

/// The number of counts; in `part` cases of 100 it is not that of the rows.
fn length(random: &mut Random, case: &RunCase, part: usize) -> usize {
    let rows = case.shape.first().map_or(1, |&size| size as usize);
    if random.chance(part) {
        let other = [0, case.marks, case.grid.len(), rows.saturating_sub(1)];
        return *random.pick(&[other, [rows + 1; 4]].concat());
    }
    rows
}

/// A run that counts, in any manner; in few cases one that is passed counts and
/// does not count.
pub fn any(random: &mut Random, small: bool) -> Call {
    let mut case = if random.chance(65) {
        of_rule(random)
    } else {
        bare(random, small)
    };
    let program = check(&case.source).program;
    // Where something else is wrong, the counts often are too.
    let mut part = 5;
    if random.chance(8) && !case.shape.is_empty() {
        disturb(random, &mut case);
        part = 25;
    }
    let field = field(random, program.as_ref(), part);
    let length = length(random, &case, part);
    let mut call = of_run(random, case).counting(field, counts(random, length));
    call.counted = random.chance(92);
    call.manner = *random.pick(&Manner::ALL);
    call
}

/// A question about counts: how many in these rows, and which is the first row
/// with one.
#[derive(Clone, PartialEq, Eq, Debug)]
pub struct Question {
    pub counts: Vec<u32>,
    pub first: u32,
    pub last: u32,
}

/// A question; few have rows, or counts, that are refused.
pub fn question(random: &mut Random) -> Question {
    let length = match random.below(30) {
        0 => 0,
        1 => 4_095 + random.below(4),
        2 => random.below(3_000),
        _ => 1 + random.below(12),
    };
    let zeros = random.below(length + 2);
    let part = *random.pick(&[0, 20, 60, 100]);
    let counts: Vec<u32> = (0..length)
        .map(|row| {
            if row < zeros || random.chance(part) {
                0
            } else {
                any_count(random)
            }
        })
        .collect();
    let row = |random: &mut Random| match random.below(20) {
        0 => length as u32,
        1 => *random.pick(&[u32::MAX, 4_096, length as u32 + 1]),
        2 => length.saturating_sub(1) as u32,
        _ => random.below(length + 1) as u32,
    };
    let (mut first, mut last) = (row(random), row(random));
    if last < first && random.chance(85) {
        (first, last) = (last, first);
    }
    Question {
        counts,
        first,
        last,
    }
}
