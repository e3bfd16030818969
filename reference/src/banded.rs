//! The full run under a plan: each step is made of the bands' own, each of them
//! from the rows that are held at that time.

use crate::admission::{admit_beside, Beside, Counted, Lent, Report, Under};
use crate::bands::{bands_of, border, row_entries, rows_lent, Band};
use crate::interpret::{step_rows, Fault};
use crate::lists::Waiting;
use crate::rows::row_counts;
use crate::tree::Program;

/// One step under an accepted plan: the next rows of each band go to their part
/// of `next`, so that no band sees them.
fn step_under(
    program: &Program,
    shape: &[u32],
    bands: &[Band],
    time: i32,
    grid: &[i32],
    next: &mut [i32],
    room: &mut [i32],
) -> Result<(), (usize, Fault)> {
    let entries = row_entries(program, shape);
    let border = border(program);
    for &band in bands {
        let rows = rows_lent(border, band, shape[0], entries, grid);
        let held = &mut room[..rows.len()];
        held.copy_from_slice(&rows);
        let from = band.first as usize * entries;
        let own = &mut next[from..(band.last as usize + 1) * entries];
        step_rows(program, shape, time, border.before as usize, held, own)
            .map_err(|(cell, fault)| (from / program.fields.len() + cell, fault))?;
    }
    Ok(())
}

/// What a run is to count: the field, and the counts.
pub type Counts<'a> = Option<(u32, &'a mut [u32])>;

/// The full run under a plan where so many rows are held, which may count. The
/// room has the rows that are held; it ends as scratch does.
#[allow(clippy::too_many_arguments)]
pub fn run_banded(
    lent: &Lent,
    plan: &[u32],
    held: u32,
    counts: Counts,
    grid: &mut [i32],
    scratch: &mut [i32],
    marks: &mut [u8],
    room: &mut [i32],
) -> Report {
    let beside = Beside {
        counted: counts.as_ref().map(|(field, counts)| Counted {
            field: *field,
            counts: counts.len(),
        }),
        under: Some(Under {
            plan,
            held,
            room: room.len(),
        }),
    };
    let (program, blocks) = match admit_beside(lent, grid, scratch, marks, beside) {
        Ok(admitted) => admitted,
        Err(report) => return report,
    };
    let bands = bands_of(plan).expect("an accepted plan");
    let fields = program.fields.len();
    let mut waiting = Waiting::new(blocks);
    let mut report = Report::default();
    let last = lent.start + lent.steps;
    for time in lent.start..=last {
        if let Some(block) = waiting.due(time) {
            block.set(fields, grid);
        }
        if time == last {
            break;
        }
        match step_under(
            &program,
            lent.shape,
            &bands,
            time as i32,
            grid,
            scratch,
            room,
        ) {
            Ok(()) => {
                grid.copy_from_slice(scratch);
                report.count += marks.len() as u64;
                report.steps += 1;
            }
            Err((cell, fault)) => {
                report.number = fault.number();
                report.place = fault.place();
                report.cell = cell as u32;
                report.count += cell as u64 + 1;
                break;
            }
        }
    }
    if let Some((field, counts)) = counts {
        counts.copy_from_slice(&row_counts(lent.shape, fields, field as usize, grid));
    }
    scratch.fill(0);
    marks.fill(0);
    room.fill(0);
    report
}
