//! Bands of rows: the border rows, the check of a plan, the planner, and one
//! band's call.
//!
//! A row is a row of the first dimension. A plan is passed as numbers, two for
//! each band: its first and its last row.

use crate::admission::{admit_entries, admit_indices, admit_sizes, admit_times};
use crate::admission::{program_of, Read, Refusal, Report};
use crate::interpret::step_rows;
use crate::places::{reach, Reach};
use crate::tree::Program;

/// How many border rows a band has before it and after it: how far the lowest
/// index of the reach lies below 0 in the first dimension, and the highest
/// above.
#[derive(Clone, Copy, PartialEq, Eq, Debug)]
pub struct Border {
    pub before: u64,
    pub behind: u64,
}

impl Border {
    /// The rows of a band with its border rows. Where there are more than the
    /// grid has, some repeat; they count all the same.
    pub fn rows_with(&self, band: Band) -> u64 {
        self.before + band.rows().count() as u64 + self.behind
    }

    /// Whether a band can be held: it has a row, and its rows with borders are
    /// at most so many.
    pub fn holds(&self, band: Band, held: u32) -> bool {
        !band.rows().is_empty() && self.rows_with(band) <= u64::from(held)
    }
}

/// The border rows of a program.
pub fn border(program: &Program) -> Border {
    let (low, high) = match reach(program) {
        Reach::Box(bounds) => bounds[0],
        Reach::List(list) => list.iter().fold((0, 0), |(low, high), vector| {
            (low.min(vector[0]), high.max(vector[0]))
        }),
    };
    Border {
        before: u64::from(low.unsigned_abs()),
        behind: u64::from(high.unsigned_abs()),
    }
}

/// A band, from its first row to its last, both included.
#[derive(Clone, Copy, PartialEq, Eq, Debug)]
pub struct Band {
    pub first: u32,
    pub last: u32,
}

impl Band {
    pub fn new(first: u32, last: u32) -> Band {
        Band { first, last }
    }

    /// Its rows; none if it is reversed.
    pub fn rows(self) -> std::ops::RangeInclusive<u32> {
        self.first..=self.last
    }
}

/// The bands of a plan; none if there is a number too many.
pub fn bands_of(plan: &[u32]) -> Option<Vec<Band>> {
    let pairs = plan.chunks_exact(2);
    if !pairs.remainder().is_empty() {
        return None;
    }
    Some(pairs.map(|pair| Band::new(pair[0], pair[1])).collect())
}

/// A plan as it is passed.
pub fn numbers_of(bands: &[Band]) -> Vec<u32> {
    let pairs = bands.iter().map(|band| [band.first, band.last]);
    pairs.flatten().collect()
}

/// Whether a plan for so many rows is accepted: no band is empty, one after
/// the other they have the rows from 0 to the last, each once and in order, and
/// each can be held with its border rows.
pub fn accepted(rows: u32, border: Border, held: u32, plan: &[u32]) -> bool {
    let Some(bands) = bands_of(plan) else {
        return false;
    };
    let each = bands.iter().all(|&band| border.holds(band, held));
    each && bands.iter().flat_map(|band| band.rows()).eq(0..rows)
}

/// The accepted plan whose bands, in turn, are as long as can be, if there is
/// one. From any row on a plan can go on if one row can be held.
pub fn longest(rows: u32, border: Border, held: u32) -> Option<Vec<Band>> {
    let mut bands = Vec::new();
    let mut first = 0;
    while first < rows {
        let ends = first..rows;
        let held = ends.take_while(|&last| border.holds(Band::new(first, last), held));
        let last = held.last()?;
        bands.push(Band::new(first, last));
        first = last + 1;
    }
    Some(bands)
}

/// What is passed to these calls: the source, the sizes, and how many rows can be
/// held.
#[derive(Clone, Copy)]
pub struct Held<'a> {
    pub read: Read<'a>,
    pub shape: &'a [u32],
    pub held: u32,
}

/// The border rows, as a call returns them. How many rows can be held plays no part.
pub fn border_rows(lent: &Held) -> Result<Border, Refusal> {
    let program = program_of(&lent.read)?;
    admit_sizes(&program, lent.shape)?;
    admit_indices(&program, lent.shape)?;
    Ok(border(&program))
}

/// The number and place of a plan check: 0 if the plan is accepted.
pub fn check_plan(lent: &Held, plan: &[u32]) -> Result<(), Refusal> {
    let program = program_of(&lent.read)?;
    admit_sizes(&program, lent.shape)?;
    admit_indices(&program, lent.shape)?;
    if !accepted(lent.shape[0], border(&program), lent.held, plan) {
        return refused(60);
    }
    Ok(())
}

fn refused<T>(number: u32) -> Result<T, Refusal> {
    Err(Refusal { number, place: 0 })
}

/// The planner. The number of bands, whose numbers are at the front of the
/// room; the rest stays, and all of it where it is refused.
pub fn plan_bands(lent: &Held, room: &mut [u32]) -> Result<u32, Refusal> {
    let program = program_of(&lent.read)?;
    admit_sizes(&program, lent.shape)?;
    let rows = lent.shape[0];
    if room.len() != 2 * rows as usize {
        return refused(21);
    }
    admit_indices(&program, lent.shape)?;
    let Some(bands) = longest(rows, border(&program), lent.held) else {
        return refused(59);
    };
    let plan = numbers_of(&bands);
    room[..plan.len()].copy_from_slice(&plan);
    Ok(bands.len() as u32)
}

/// The entries of a row.
pub fn row_entries(program: &Program, shape: &[u32]) -> usize {
    let cells: usize = shape[1..].iter().map(|&size| size as usize).product();
    cells * program.fields.len()
}

/// The old rows of a band with its border rows, from a grid whose rows have so
/// many entries. Border rows wrap and may repeat.
pub fn rows_lent(border: Border, band: Band, rows: u32, entries: usize, grid: &[i32]) -> Vec<i32> {
    let first = i64::from(band.first) - border.before as i64;
    let last = i64::from(band.last) + border.behind as i64;
    let row = |number: i64| {
        let at = number.rem_euclid(i64::from(rows)) as usize * entries;
        &grid[at..at + entries]
    };
    (first..=last).flat_map(row).copied().collect()
}

/// The program of one band's call that is admitted.
fn admit_band(
    lent: &Held,
    band: Band,
    rows: &[i32],
    time: i64,
    room: &[i32],
) -> Result<Program, Refusal> {
    let program = program_of(&lent.read)?;
    admit_sizes(&program, lent.shape)?;
    let border = border(&program);
    if band.last >= lent.shape[0] || !border.holds(band, lent.held) {
        return refused(60);
    }
    let row = row_entries(&program, lent.shape) as u64;
    let wanted = [
        border.rows_with(band) * row,
        band.rows().count() as u64 * row,
    ];
    if [rows.len() as u64, room.len() as u64] != wanted {
        return refused(21);
    }
    admit_times(time, 1)?;
    admit_indices(&program, lent.shape)?;
    admit_entries(&program, rows)?;
    Ok(program)
}

/// One band's call: the report of a run of one step, as far as the band goes.
/// The room holds the next rows of the band, zeros at a fault, and what it held
/// where the call is refused.
pub fn step_band(lent: &Held, band: Band, rows: &[i32], time: i64, room: &mut [i32]) -> Report {
    let program = match admit_band(lent, band, rows, time, room) {
        Ok(program) => program,
        Err(refusal) => return refusal.into(),
    };
    let fields = program.fields.len();
    let first = band.first as usize * row_entries(&program, lent.shape) / fields;
    let before = border(&program).before as usize;
    match step_rows(&program, lent.shape, time as i32, before, rows, room) {
        Ok(()) => Report {
            steps: 1,
            count: (room.len() / fields) as u64,
            ..Report::default()
        },
        Err((cell, fault)) => {
            room.fill(0);
            Report {
                number: fault.number(),
                place: fault.place(),
                cell: (first + cell) as u32,
                count: cell as u64 + 1,
                ..Report::default()
            }
        }
    }
}
