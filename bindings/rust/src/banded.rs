//! Full runs under a plan of bands of rows.

use crate::bands::{entries_of, Band, Held};
use crate::calls::{cells_of, Lent, BUILT_IN};
use crate::counting::{rows_of, Counts};
use crate::foreign;
use crate::replies::{run_answer, Outcome};
use crate::rooms::Rooms;

/// A full run under a plan, which can have a value list and can keep row
/// counts. [`Held::run_banded`] makes one without either.
///
/// Each step is made of the steps of the plan's bands, each of them from its old
/// rows with borders alone, which are copied into a room of as many rows as can be
/// held. Outcome, grid, scratch, marks and row counts are those of the
/// [`Run`](crate::Run) in [`Mode::Full`](crate::Mode::Full) with the same list,
/// whatever the plan.
///
/// A plan that is not accepted is refused last of all, after the list:
/// [`Objection::BadPlan`](crate::Objection::BadPlan), 60, also where there are 0
/// steps.
///
/// ```
/// use cellang::{BandedRun, Counts, Held, Rooms, Stop};
///
/// let mut rooms = Rooms::new();
/// let held = Held::new(b"1 dimensions of 0..9 cell := [-1]", &[5], 3);
/// let plan = held.plan(&mut rooms).expect("a border row and two others");
///
/// // Two steps, at the times 5 and 6; a cell is set before the second.
/// let run = BandedRun::new(held, 5, 2).with_list(b"6\n[1] = 0\n");
/// let mut grid = [5, 6, 7, 8, 9];
/// let mut zeros = Counts::of_field(0);
/// run.on_counting(&plan, &mut grid, &mut zeros, &mut rooms)?;
/// assert_eq!((grid, zeros.rows()), ([8, 9, 0, 6, 7], &[0, 0, 1, 0, 0][..]));
/// # Ok::<(), Stop>(())
/// ```
#[derive(Clone, Copy, Debug)]
pub struct BandedRun<'a, 'l> {
    held: Held<'a, 'l>,
    start: i64,
    steps: i64,
    values: &'l [u8],
}

/// The memory that a run under a plan is passed beside its grid. What the room and
/// the counts hold on entry does not matter.
#[derive(Debug)]
pub struct BandedLent<'a> {
    /// What every run is passed.
    pub lent: Lent<'a>,
    /// The plan, two entries a band: its first and its last row.
    pub plan: &'a [u32],
    /// For the old rows of a band: exactly as many rows as can be held, each with
    /// the fields of all its cells.
    pub room: &'a mut [i32],
    /// If row counts are kept, the number of the field whose zeros are counted, and
    /// one entry a row of the first dimension.
    pub counts: Option<(u32, &'a mut [u32])>,
}

impl<'a, 'l> BandedRun<'a, 'l> {
    /// A run without a value list: `steps` steps, the first at time `start`.
    pub fn new(held: Held<'a, 'l>, start: i64, steps: i64) -> BandedRun<'a, 'l> {
        BandedRun {
            held,
            start,
            steps,
            values: b"",
        }
    }

    /// The same run with a value list.
    pub fn with_list(self, values: &'l [u8]) -> BandedRun<'a, 'l> {
        BandedRun { values, ..self }
    }

    /// Makes the run on a grid, with scratch, marks and a room that are allocated.
    pub fn on(&self, plan: &[Band], grid: &mut [i32], rooms: &mut Rooms) -> Outcome<'a> {
        self.allocated(plan, grid, None, rooms)
    }

    /// Makes the run on a grid as [`on`](BandedRun::on) does, and fills the counts
    /// with those of the grid that it leaves. It is refused too if there is no such
    /// field: [`Objection::BadCounts`](crate::Objection::BadCounts), 61, which is
    /// tried before the list. If the run doesn't begin, the counts are as they were.
    pub fn on_counting(
        &self,
        plan: &[Band],
        grid: &mut [i32],
        counts: &mut Counts,
        rooms: &mut Rooms,
    ) -> Outcome<'a> {
        counts.fill(self.held.shape, |field, counts| {
            self.allocated(plan, grid, Some((field, counts)), rooms)
        })
    }

    /// Makes the run on a grid, in the caller's buffers. After a run that began,
    /// even with 0 steps, scratch, marks and the room are zero; else they are as they
    /// were. A room of another length is refused with scratch and marks, 21.
    pub fn on_in(&self, grid: &mut [i32], lent: BandedLent<'_>) -> Outcome<'a> {
        self.lent(BUILT_IN, grid, lent)
    }

    /// Makes the run with scratch, marks and a room that are allocated.
    ///
    /// A band has at most three times as many rows with borders as the grid has rows,
    /// since an index that is larger than its dimension is refused. So the room needs
    /// no more rows, however many can be held.
    fn allocated(
        &self,
        plan: &[Band],
        grid: &mut [i32],
        counts: Option<(u32, &mut [u32])>,
        rooms: &mut Rooms,
    ) -> Outcome<'a> {
        let rows = rows_of(self.held.shape);
        let held = self.held.rows.min(3 * rows as u32);
        let row = grid.len() / rows.max(1);
        let lent = Lent {
            words: &mut rooms.words,
            names: &mut rooms.names,
            scratch: &mut vec![0; grid.len()],
            marks: &mut vec![0; cells_of(self.held.shape)],
        };
        let lent = BandedLent {
            lent,
            plan: &entries_of(plan),
            room: &mut vec![0; held as usize * row],
            counts,
        };
        let held = Held {
            rows: held,
            ..self.held
        };
        BandedRun { held, ..*self }.on_in(grid, lent)
    }

    /// Makes the run where a built-in list is passed beside the source.
    fn lent(&self, list: &'a [u8], grid: &mut [i32], lent: BandedLent<'_>) -> Outcome<'a> {
        let BandedLent {
            lent,
            plan,
            room,
            counts,
        } = lent;
        let counted = u32::from(counts.is_some());
        let (field, counts) = counts.unwrap_or_default();
        let mut report = [0; foreign::REPORT];
        // SAFETY: each pointer and length is those of a slice, and the slices
        // that are written overlap nothing.
        unsafe {
            foreign::cellang_run_banded(
                self.held.source.as_ptr(),
                self.held.source.len(),
                list.as_ptr(),
                list.len(),
                lent.words.as_mut_ptr(),
                lent.words.len(),
                lent.names.as_mut_ptr(),
                lent.names.len(),
                self.held.shape.as_ptr(),
                self.held.shape.len(),
                grid.as_mut_ptr(),
                grid.len(),
                lent.scratch.as_mut_ptr(),
                lent.scratch.len(),
                lent.marks.as_mut_ptr(),
                lent.marks.len(),
                self.values.as_ptr(),
                self.values.len(),
                self.start,
                self.steps,
                counts.as_mut_ptr(),
                counts.len(),
                counted,
                field,
                self.held.rows,
                plan.as_ptr(),
                plan.len(),
                room.as_mut_ptr(),
                room.len(),
                report.as_mut_ptr(),
                report.len(),
            );
        }
        run_answer(self.held.source, list, report)
    }
}

#[cfg(test)]
mod tests {
    use super::*;
    use crate::replies::{Place, Reason, Refusal, Stop};
    use crate::rooms::{NAME_WORDS, WORDS};

    const BEFORE: u32 = 0x5A5A_5A5A;

    #[test]
    fn another_list_is_refused_and_touches_nothing() {
        let held = Held::new(b"1 dimensions of 0..1 cell := 1", &[1], 1);
        for list in [&b""[..], b"cell time", b"Cell time random"] {
            let (mut words, mut names) = ([BEFORE; WORDS], [BEFORE; NAME_WORDS]);
            let (mut grid, mut scratch, mut marks) = ([0], [7], [7]);
            let (mut room, mut counts) = ([7], [7]);
            let lent = Lent {
                words: &mut words,
                names: &mut names,
                scratch: &mut scratch,
                marks: &mut marks,
            };
            let lent = BandedLent {
                lent,
                plan: &[0, 0],
                room: &mut room,
                counts: Some((0, &mut counts)),
            };
            let outcome = BandedRun::new(held, 0, 1).lent(list, &mut grid, lent);
            let refusal = Refusal {
                reason: Reason::RoomLength,
                place: Place(0),
                spelling: b"",
            };
            assert_eq!(outcome, Err(Stop::Refused(refusal)));
            assert!(words.iter().chain(&names).all(|&word| word == BEFORE));
            assert_eq!((grid, scratch, marks), ([0], [7], [7]));
            assert_eq!((room, counts), ([7], [7]));
        }
    }
}
