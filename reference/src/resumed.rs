//! Generated runs that are resumed, with marks that are right or wrong.

use crate::call_case::{Call, MOST_ENTRIES};
use crate::case::RunCase;
use crate::listed::{give_list, of_rule};
use crate::parse::check;
use crate::pausing::Manner;
use crate::random::Random;
use crate::runs;

/// A mark that means open.
fn open_mark(random: &mut Random) -> u8 {
    *random.pick(&[1, 1, 1, 2, 7, 128, 254, 255])
}

/// Marks that have nothing to do with a run.
pub fn any_marks(random: &mut Random, length: usize) -> Vec<u8> {
    let part = *random.pick(&[0, 0, 10, 30, 60, 100]);
    let mut mark = || {
        if random.chance(part) {
            open_mark(random)
        } else {
            0
        }
    };
    (0..length).map(|_| mark()).collect()
}

/// Other numbers for 1 in some cases, and few marks that are wrong in others.
fn disturb_marks(random: &mut Random, marks: &mut [u8]) {
    if random.chance(40) {
        for mark in marks.iter_mut().filter(|mark| **mark != 0) {
            *mark = open_mark(random);
        }
    }
    if marks.is_empty() || random.chance(40) {
        return;
    }
    for _ in 0..1 + random.below(3) {
        let at = random.below(marks.len());
        marks[at] = if marks[at] == 0 { open_mark(random) } else { 0 };
    }
}

/// Most cells become as the first one, so that few change.
pub fn calm(random: &mut Random, case: &mut RunCase, fields: usize) {
    let Some(first) = case.grid.get(..fields) else {
        return;
    };
    let first = first.to_vec();
    for cell in case.grid.chunks_exact_mut(fields) {
        if random.chance(85) {
            cell.copy_from_slice(&first);
        }
    }
}

/// A run without a list.
pub fn bare(random: &mut Random, small: bool) -> RunCase {
    let mut case = if random.chance(35) {
        of_rule(random)
    } else {
        let small = small || random.chance(60);
        runs::any(random, small, 60)
    };
    if random.chance(35) {
        if let Some(program) = check(&case.source).program {
            calm(random, &mut case, program.fields.len());
        }
    }
    case
}

/// A call that goes on where a pausing run stopped, its marks as they were left
/// or disturbed.
fn behind_pause(random: &mut Random, case: RunCase) -> Call {
    let earlier = Call::pausing(RunCase {
        steps: random.between(0, 3).min(case.steps),
        ..case.clone()
    });
    let left = earlier.made();
    let mut call = earlier.resumed(&left, case.steps - earlier.run.steps, b"");
    disturb_marks(random, &mut call.marks);
    call
}

/// A resumed run; in few cases a pausing one, which reads no marks.
pub fn any(random: &mut Random, small: bool) -> Call {
    let case = bare(random, small);
    let mut call = of_run(random, case);
    if random.chance(10) {
        call.manner = Manner::Pausing;
    }
    call
}

/// A run, resumed, with a list in half of the cases.
pub fn of_run(random: &mut Random, case: RunCase) -> Call {
    let mut call = if (1..100).contains(&case.steps) && random.chance(50) {
        behind_pause(random, case)
    } else {
        let marks = any_marks(random, case.marks.min(MOST_ENTRIES));
        Call::new(case, Manner::Resuming, marks)
    };
    if random.chance(50) {
        give_list(random, &mut call.run, 15);
    }
    call
}
