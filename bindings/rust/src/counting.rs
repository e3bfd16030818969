//! Runs that keep row counts, and questions about these.

use crate::calls::{cells_of, Lent, Mode, Run, BUILT_IN};
use crate::foreign::{self, CountingRunCall};
use crate::replies::{run_answer, Outcome, Stop};
use crate::rooms::Rooms;
use std::error::Error;
use std::fmt;

/// The greatest number of cells along a dimension.
const MOST_SIZE: u32 = 4_096;

/// The row counts of a grid: for each row of the first dimension, how many
/// cells have 0 in one field. Where there is one dimension, each cell is a row.
///
/// [`Run::on_counting`] and [`Paused::resume_counting`] fill them. After a run
/// that began, they are those of the grid that it left, also at a fault; a
/// refusal leaves them as they were. Answers from them equal those from the
/// whole grid, as long as nothing else writes to the grid.
///
/// ```
/// use cellang::{Counts, Mode, Rooms, Run, Stop};
///
/// // A pixel is moved once, along its row.
/// let source = b"2 dimensions of grey of 0..255 moved of 0..1 end
///     if cell.moved = 0 then
///         if [0,1].grey > 99 then cell.grey := [0,1].grey cell.moved := 1 end
///     end";
/// let mut grid = [
///     7, 0, 8, 0, // row 0: two pixels, grey and moved
///     7, 0, 150, 0,
///     9, 1, 9, 1,
/// ];
/// let mut rooms = Rooms::new();
/// let mut unmoved = Counts::of_field(1);
/// Run::new(source, &[3, 2], 0, 1, Mode::Quiet).on_counting(&mut grid, &mut unmoved, &mut rooms)?;
/// assert_eq!(unmoved.rows(), [2, 1, 0]);
/// assert_eq!(unmoved.zeros_in_rows(1, 2), Ok(1));
/// assert_eq!(unmoved.first_zero_row(), Ok(Some(0)));
/// # Ok::<(), Stop>(())
/// ```
///
/// [`Paused::resume_counting`]: crate::Paused::resume_counting
#[derive(Clone, PartialEq, Eq, Hash, Debug)]
pub struct Counts {
    field: u32,
    rows: Vec<u32>,
}

impl Counts {
    /// Counts of the zeros of a field, which is named by its number from 0, as
    /// in [`Names`](crate::Names). There is no row until a run fills them.
    pub fn of_field(field: u32) -> Counts {
        let rows = Vec::new();
        Counts { field, rows }
    }

    /// The number of the field.
    pub fn field(&self) -> u32 {
        self.field
    }

    /// The counts, one a row.
    pub fn rows(&self) -> &[u32] {
        &self.rows
    }

    /// How many zeros there are in the rows `first` to `last`, both included,
    /// as [`zeros_in_rows`] answers it.
    pub fn zeros_in_rows(&self, first: u32, last: u32) -> Result<u64, NotCounted> {
        zeros_in_rows(&self.rows, first, last)
    }

    /// The first row that has a zero, as [`first_zero_row`] answers it.
    pub fn first_zero_row(&self) -> Result<Option<u32>, NotCounted> {
        first_zero_row(&self.rows)
    }

    /// Makes a run on a grid of this shape with one count a row, and keeps these
    /// if it began.
    pub(crate) fn fill<'a>(
        &mut self,
        shape: &[u32],
        run: impl FnOnce(u32, &mut [u32]) -> Outcome<'a>,
    ) -> Outcome<'a> {
        let mut rows = vec![0; rows_of(shape)];
        let outcome = run(self.field, &mut rows);
        if matches!(outcome, Ok(_) | Err(Stop::Faulted(_))) {
            self.rows = rows;
        }
        outcome
    }
}

/// The number of rows of a shape; 0 where there are too many, which is refused
/// before what has entries a row is looked at.
pub(crate) fn rows_of(shape: &[u32]) -> usize {
    let rows = shape.first().filter(|&&rows| rows <= MOST_SIZE);
    rows.map_or(0, |&rows| rows as usize)
}

/// The memory that a run with row counts is passed beside its grid. What the
/// counts hold on entry does not matter.
#[derive(Debug)]
pub struct CountingLent<'a> {
    /// What every run is passed.
    pub lent: Lent<'a>,
    /// The number of the field whose zeros are counted.
    pub field: u32,
    /// One entry a row of the first dimension.
    pub counts: &'a mut [u32],
}

impl<'a> Run<'a, '_> {
    /// Makes the run on a grid as [`on`](Run::on) does, and fills the counts
    /// with those of the grid that it leaves. It is refused too if there is no
    /// such field: [`Objection::BadCounts`](crate::Objection::BadCounts), 61. If
    /// the run doesn't begin, the counts are as they were.
    ///
    /// ```
    /// use cellang::{Counts, Mode, Objection, Rooms, Run, Stop};
    ///
    /// let source = b"1 dimensions of 0..1 cell := [-1]";
    /// let mut rooms = Rooms::new();
    /// let mut grid = [1, 0, 0, 0, 0];
    /// let mut counts = Counts::of_field(0);
    /// let run = Run::new(source, &[5], 0, 2, Mode::Quiet);
    /// run.on_counting(&mut grid, &mut counts, &mut rooms)?;
    /// assert_eq!((grid, counts.rows()), ([0, 0, 1, 0, 0], &[1, 1, 0, 1, 1][..]));
    ///
    /// let stop = run.on_counting(&mut grid, &mut Counts::of_field(1), &mut rooms).unwrap_err();
    /// assert_eq!(stop, Stop::NotAdmitted(Objection::BadCounts));
    /// # Ok::<(), Stop>(())
    /// ```
    pub fn on_counting(
        &self,
        grid: &mut [i32],
        counts: &mut Counts,
        rooms: &mut Rooms,
    ) -> Outcome<'a> {
        counts.fill(self.shape, |field, counts| {
            let lent = Lent {
                words: &mut rooms.words,
                names: &mut rooms.names,
                scratch: &mut vec![0; grid.len()],
                marks: &mut vec![0; cells_of(self.shape)],
            };
            let lent = CountingLent {
                lent,
                field,
                counts,
            };
            self.on_counting_in(grid, lent)
        })
    }

    /// Makes the run on a grid as [`on_in`](Run::on_in) does, in memory of the
    /// caller's, and fills the counts with those of the grid that it leaves. It
    /// is refused too if there is no such field or the counts are not one a row:
    /// [`Objection::BadCounts`](crate::Objection::BadCounts), 61, which is tried
    /// after 24 and before the list. If the run doesn't begin, the counts are as
    /// they were.
    pub fn on_counting_in(&self, grid: &mut [i32], lent: CountingLent<'_>) -> Outcome<'a> {
        let call: CountingRunCall = match self.mode {
            Mode::Full => foreign::cellang_run_full_counts,
            Mode::Quiet => foreign::cellang_run_quiet_counts,
        };
        self.counting_by(call, BUILT_IN, grid, lent)
    }

    /// Makes the run by a function that keeps row counts, whatever the mode.
    pub(crate) fn counting_by(
        &self,
        call: CountingRunCall,
        list: &'a [u8],
        grid: &mut [i32],
        lent: CountingLent<'_>,
    ) -> Outcome<'a> {
        let CountingLent {
            lent,
            field,
            counts,
        } = lent;
        let values = self.values.unwrap_or_default();
        let mut report = [0; foreign::REPORT];
        // SAFETY: each pointer and length is those of a slice, and the slices
        // that are written overlap nothing.
        unsafe {
            call(
                self.source.as_ptr(),
                self.source.len(),
                list.as_ptr(),
                list.len(),
                lent.words.as_mut_ptr(),
                lent.words.len(),
                lent.names.as_mut_ptr(),
                lent.names.len(),
                self.shape.as_ptr(),
                self.shape.len(),
                grid.as_mut_ptr(),
                grid.len(),
                lent.scratch.as_mut_ptr(),
                lent.scratch.len(),
                lent.marks.as_mut_ptr(),
                lent.marks.len(),
                values.as_ptr(),
                values.len(),
                self.start,
                self.steps,
                counts.as_mut_ptr(),
                counts.len(),
                field,
                report.as_mut_ptr(),
                report.len(),
            );
        }
        run_answer(self.source, list, report)
    }
}

/// Runs a source as [`run_pausing_in`](crate::run_pausing_in) does, with row
/// counts, which are filled and refused as by [`Run::on_counting_in`].
pub fn run_pausing_counting_in<'a>(
    source: &'a [u8],
    shape: &[u32],
    grid: &mut [i32],
    lent: CountingLent<'_>,
    start: i64,
    steps: i64,
    values: &[u8],
) -> Outcome<'a> {
    let run = Run::new(source, shape, start, steps, Mode::Quiet).with_list(values);
    run.counting_by(foreign::cellang_run_pausing_counts, BUILT_IN, grid, lent)
}

/// Runs a source as [`run_resuming_in`](crate::run_resuming_in) does, with row
/// counts, which are filled and refused as by [`Run::on_counting_in`]: what an
/// earlier run left in them does not matter.
pub fn run_resuming_counting_in<'a>(
    source: &'a [u8],
    shape: &[u32],
    grid: &mut [i32],
    lent: CountingLent<'_>,
    start: i64,
    steps: i64,
    values: &[u8],
) -> Outcome<'a> {
    let run = Run::new(source, shape, start, steps, Mode::Quiet).with_list(values);
    run.counting_by(foreign::cellang_run_resuming_counts, BUILT_IN, grid, lent)
}

/// A question about row counts is refused, reply 61: the rows are reversed or
/// outside the counts, or the counts are not one a row of any grid, since there
/// are none or more than 4,096.
#[derive(Clone, Copy, PartialEq, Eq, Hash, Debug)]
pub struct NotCounted;

impl NotCounted {
    /// The number of the reply.
    pub fn number(&self) -> u32 {
        61
    }
}

impl fmt::Display for NotCounted {
    fn fmt(&self, f: &mut fmt::Formatter<'_>) -> fmt::Result {
        write!(
            f,
            "not counted {}: rows reversed or outside, or counts not one a row",
            self.number()
        )
    }
}

impl Error for NotCounted {}

/// How many zeros there are in the rows `first` to `last`, both included, by
/// row counts alone.
///
/// ```
/// use cellang::{zeros_in_rows, NotCounted};
///
/// let counts = [2, 0, 1, 1, 0];
/// assert_eq!(zeros_in_rows(&counts, 1, 3), Ok(2));
/// assert_eq!(zeros_in_rows(&counts, 3, 1), Err(NotCounted));
/// assert_eq!(zeros_in_rows(&counts, 0, 5), Err(NotCounted));
/// ```
pub fn zeros_in_rows(counts: &[u32], first: u32, last: u32) -> Result<u64, NotCounted> {
    let mut reply = [0; foreign::ROWS];
    // SAFETY: each pointer and length is those of a slice, and the reply
    // overlaps nothing.
    unsafe {
        foreign::cellang_zeros_in_rows(
            counts.as_ptr(),
            counts.len(),
            first,
            last,
            reply.as_mut_ptr(),
            reply.len(),
        );
    }
    match reply {
        [0, total] => Ok(total),
        [61, _] => Err(NotCounted),
        [number, _] => unreachable!("reply {number} to how many there are"),
    }
}

/// The first row that has a zero, by row counts alone; none, which is reply 62,
/// if there is no such row.
///
/// ```
/// use cellang::{first_zero_row, NotCounted};
///
/// assert_eq!(first_zero_row(&[0, 0, 1, 1, 0]), Ok(Some(2)));
/// assert_eq!(first_zero_row(&[0, 0]), Ok(None));
/// assert_eq!(first_zero_row(&[]), Err(NotCounted));
/// ```
pub fn first_zero_row(counts: &[u32]) -> Result<Option<u32>, NotCounted> {
    let mut reply = [0; foreign::ROWS];
    // SAFETY: each pointer and length is those of a slice, and the reply
    // overlaps nothing.
    unsafe {
        foreign::cellang_first_zero_row(
            counts.as_ptr(),
            counts.len(),
            reply.as_mut_ptr(),
            reply.len(),
        );
    }
    match reply {
        // A row is below 4,096.
        [0, row] => Ok(Some(row as u32)),
        [61, _] => Err(NotCounted),
        [62, _] => Ok(None),
        [number, _] => unreachable!("reply {number} to which row is the first"),
    }
}
