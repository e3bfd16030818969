//! Runs that are paused and resumed. Here the open cells alone are evaluated,
//! so that the answer is right for any marks that a run begins from: a cell
//! that is not open keeps its fields, and what changed is read from the run's
//! own grids.

use crate::admission::{admit, Lent, Report};
use crate::interpret::{run_full, step_open};
use crate::lists::Waiting;
use crate::open::{mark_changed, open_cells, run_quiet};
use crate::places::{reach, Reach};
use crate::tree::Program;

/// How a run goes.
#[derive(Clone, Copy, PartialEq, Eq, Debug)]
pub enum Manner {
    Full,
    Quiet,
    /// A quiet run that leaves its marks standing.
    Pausing,
    /// One that also begins from the marks that are passed.
    Resuming,
}

impl Manner {
    pub const ALL: [Manner; 4] = [
        Manner::Full,
        Manner::Quiet,
        Manner::Pausing,
        Manner::Resuming,
    ];
}

/// What opens cells in the next step.
struct Pending<'a> {
    program: &'a Program,
    shape: &'a [u32],
    reach: Reach,
    /// The cells that the run begins from, until its first step.
    first: Vec<bool>,
    /// The cells that the last step, or a block since then, changed.
    changed: Vec<bool>,
}

impl Pending<'_> {
    /// The cells that the next step opens.
    fn open(&self) -> Vec<bool> {
        if self.program.uses_time {
            return vec![true; self.first.len()];
        }
        let by_change = open_cells(self.shape, &self.reach, &self.changed);
        let both = self.first.iter().zip(by_change);
        both.map(|(&first, changed)| first || changed).collect()
    }

    /// A block was set, or a step done.
    fn note_change(&mut self, old: &[i32], new: &[i32]) {
        mark_changed(&mut self.changed, self.program.fields.len(), old, new);
    }

    /// Nothing is pending any more: the next step looks at this one alone.
    fn clear(&mut self) {
        self.first.fill(false);
        self.changed.fill(false);
    }
}

fn how_many(open: &[bool]) -> u64 {
    open.iter().filter(|&&is_open| is_open).count() as u64
}

/// A run of the open cells, which leaves its marks standing.
fn run_open(
    lent: &Lent,
    resumed: bool,
    grid: &mut [i32],
    scratch: &mut [i32],
    marks: &mut [u8],
) -> Report {
    let (program, blocks) = match admit(lent, grid, scratch, marks) {
        Ok(admitted) => admitted,
        Err(report) => return report,
    };
    let mut waiting = Waiting::new(blocks);
    let mut pending = Pending {
        program: &program,
        shape: lent.shape,
        reach: reach(&program),
        first: marks.iter().map(|&mark| !resumed || mark != 0).collect(),
        changed: vec![false; marks.len()],
    };
    let mut report = Report::default();
    let last = lent.start + lent.steps;
    for time in lent.start..=last {
        if let Some(block) = waiting.due(time) {
            let before = grid.to_vec();
            block.set(program.fields.len(), grid);
            pending.note_change(&before, grid);
        }
        let open = pending.open();
        if time == last {
            for (mark, is_open) in marks.iter_mut().zip(open) {
                *mark = is_open.into();
            }
            break;
        }
        let is_open = |cell: usize| open[cell];
        match step_open(&program, lent.shape, time as i32, grid, scratch, is_open) {
            Ok(()) => {
                report.count += how_many(&open);
                report.steps += 1;
                pending.clear();
                pending.note_change(grid, scratch);
                grid.copy_from_slice(scratch);
            }
            Err((cell, fault)) => {
                report.number = fault.number();
                report.place = fault.place();
                report.cell = cell as u32;
                report.count += how_many(&open[..=cell]);
                marks.fill(0);
                break;
            }
        }
    }
    scratch.fill(0);
    report
}

/// A run in one of the four manners.
pub fn run(
    lent: &Lent,
    manner: Manner,
    grid: &mut [i32],
    scratch: &mut [i32],
    marks: &mut [u8],
) -> Report {
    match manner {
        Manner::Full => run_full(lent, grid, scratch, marks),
        Manner::Quiet => run_quiet(lent, grid, scratch, marks),
        Manner::Pausing => run_open(lent, false, grid, scratch, marks),
        Manner::Resuming => run_open(lent, true, grid, scratch, marks),
    }
}
