//! The quiet run, as the definition of open cells has it: the full definition
//! is run, the grids before and after each step and each block are compared,
//! and the open cells are counted.

use crate::admission::{admit, Lent, Report};
use crate::interpret::step;
use crate::lists::Waiting;
use crate::places::{reach, Reach};

/// For each cell, whether some cell in its reach is marked as changed.
pub fn open_cells(shape: &[u32], reach: &Reach, changed: &[bool]) -> Vec<bool> {
    match reach {
        Reach::List(list) => open_in_list(shape, list, changed),
        Reach::Box(bounds) => open_in_box(shape, bounds, changed),
    }
}

/// The cell at an index vector from a cell, wrapped at the edges.
fn cell_at(shape: &[u32], cell: usize, vector: &[i32]) -> usize {
    let (mut rest, mut stride, mut at) = (cell, 1, 0);
    for (&size, &offset) in shape.iter().zip(vector).rev() {
        let own = (rest % size as usize) as i64;
        rest /= size as usize;
        at += (own + i64::from(offset)).rem_euclid(i64::from(size)) as usize * stride;
        stride *= size as usize;
    }
    at
}

/// By the listed index vectors.
fn open_in_list(shape: &[u32], list: &[Vec<i32>], changed: &[bool]) -> Vec<bool> {
    (0..changed.len())
        .map(|cell| {
            list.iter()
                .any(|vector| changed[cell_at(shape, cell, vector)])
        })
        .collect()
}

/// By a box: it is enough to go through the dimensions one after the other.
fn open_in_box(shape: &[u32], bounds: &[(i32, i32)], changed: &[bool]) -> Vec<bool> {
    let mut marked = changed.to_vec();
    let mut stride = marked.len();
    for (dimension, &size) in shape.iter().enumerate() {
        let size = size as usize;
        stride /= size;
        let (low, high) = bounds[dimension];
        let width = (i64::from(high) - i64::from(low) + 1).min(size as i64) as usize;
        let first = i64::from(low).rem_euclid(size as i64) as usize;
        let before = marked.clone();
        for (cell, mark) in marked.iter_mut().enumerate() {
            let own = cell / stride % size;
            let line = cell - own * stride;
            *mark = (0..width).any(|offset| before[line + (own + first + offset) % size * stride]);
        }
    }
    marked
}

/// Whether a step left all cells that are not open as they were, which
/// follows from the definition.
fn closed_cells_keep(open: &[bool], fields: usize, old: &[i32], new: &[i32]) -> bool {
    let cells = old.chunks(fields).zip(new.chunks(fields));
    open.iter()
        .zip(cells)
        .all(|(&is_open, (old, new))| is_open || old == new)
}

/// Marks the cells that differ in two grids.
pub fn mark_changed(changed: &mut [bool], fields: usize, old: &[i32], new: &[i32]) {
    let cells = old.chunks(fields).zip(new.chunks(fields));
    for (mark, (old, new)) in changed.iter_mut().zip(cells) {
        *mark |= old != new;
    }
}

/// The quiet run. In its first step all cells are open.
pub fn run_quiet(lent: &Lent, grid: &mut [i32], scratch: &mut [i32], marks: &mut [u8]) -> Report {
    let (program, blocks) = match admit(lent, grid, scratch, marks) {
        Ok(admitted) => admitted,
        Err(report) => return report,
    };
    let reach = reach(&program);
    let fields = program.fields.len();
    let mut waiting = Waiting::new(blocks);
    // The cells that the last step, or a block since then, changed.
    let mut changed = vec![true; marks.len()];
    let mut report = Report::default();
    let last = lent.start + lent.steps;
    for time in lent.start..=last {
        if let Some(block) = waiting.due(time) {
            let before = grid.to_vec();
            block.set(fields, grid);
            mark_changed(&mut changed, fields, &before, grid);
        }
        if time == last {
            break;
        }
        let open = if time == lent.start || program.uses_time {
            vec![true; marks.len()]
        } else {
            open_cells(lent.shape, &reach, &changed)
        };
        match step(&program, lent.shape, time as i32, grid, scratch) {
            Ok(()) => {
                report.count += open.iter().filter(|&&is_open| is_open).count() as u64;
                report.steps += 1;
                debug_assert!(closed_cells_keep(&open, fields, grid, scratch));
                changed.fill(false);
                mark_changed(&mut changed, fields, grid, scratch);
                grid.copy_from_slice(scratch);
            }
            Err((cell, fault)) => {
                report.number = fault.number();
                report.place = fault.place();
                report.cell = cell as u32;
                debug_assert!(open[cell], "the lowest faulting cell is open");
                let up_to = &open[..=cell];
                report.count += up_to.iter().filter(|&&is_open| is_open).count() as u64;
                break;
            }
        }
    }
    scratch.fill(0);
    marks.fill(0);
    report
}
