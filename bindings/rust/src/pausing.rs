//! Quiet runs in slices: pausing and resuming.

use crate::calls::{cells_of, Lent, Mode, Run, BUILT_IN};
use crate::counting::{run_resuming_counting_in, CountingLent, Counts};
use crate::foreign::{self, ListRunCall};
use crate::replies::{Fault, Line, ListReason, ListRefusal, Outcome, Stop};
use crate::rooms::Rooms;
use std::error::Error;
use std::fmt;

/// The greatest sum of start and steps.
const GREATEST_TIME: i64 = 2_147_483_647;

/// The list begins with a time that a list before it had.
const TIME_REPEATED: Stop<'static> = Stop::ListRefused(ListRefusal {
    reason: ListReason::TimeNotRising,
    line: Line(1),
});

/// Runs a source in [`Mode::Quiet`] with a value list, where one of 0 bytes is
/// as none, in the caller's buffers, and leaves the marks standing. All else is
/// as [`Run::on_in`] returns and leaves it.
///
/// After success a mark is 1 for a cell that would be open in one more step,
/// else 0, also after 0 steps. After a fault the marks are zero, and if the run
/// doesn't begin they are as they were. [`run_resuming_in`] goes on from them.
/// [`Paused`] keeps them together with the grid that they belong to.
pub fn run_pausing_in<'a>(
    source: &'a [u8],
    shape: &[u32],
    grid: &mut [i32],
    lent: Lent<'_>,
    start: i64,
    steps: i64,
    values: &[u8],
) -> Outcome<'a> {
    let run = Run::new(source, shape, start, steps, Mode::Quiet).with_list(values);
    run.by(foreign::cellang_run_pausing, BUILT_IN, grid, lent)
}

/// Runs a source as [`run_pausing_in`] does, from the marks that are passed. In
/// the first step those cells are open whose mark is not 0, those within whose
/// reach the block of the start time changed a cell, and where `time` occurs in
/// the source all.
///
/// It is joined to an earlier call of these two functions that succeeded if
/// source and shape are the same, grid and marks are as that call left them,
/// `start` has moved on by its steps, and the times of its list and then of
/// this one rise strictly. Joined calls return what one call of all their steps
/// returns, begun as the first of them, with their lists one after the other;
/// steps and count are the sums. [`Paused`] joins its calls so.
///
/// The marks may be any. If they don't come from joined calls that begin with
/// [`run_pausing_in`], the run need not agree with the full one: a cell that is
/// not open keeps its fields.
///
/// ```
/// use cellang::{run_resuming_in, Lent, Stop, NAME_WORDS, WORDS};
///
/// // Every cell takes the value of its left neighbour, but one alone is open.
/// let source = b"1 dimensions of 0..1 cell := [-1]";
/// let mut grid = [1, 0, 0, 0, 0];
/// let mut marks = [0, 7, 0, 0, 0];
/// let lent = Lent {
///     words: &mut vec![0; WORDS],
///     names: &mut vec![0; NAME_WORDS],
///     scratch: &mut [0; 5],
///     marks: &mut marks,
/// };
/// let done = run_resuming_in(source, &[5], &mut grid, lent, 0, 1, b"")?;
/// assert_eq!((done.steps, done.count), (1, 1));
/// assert_eq!(grid, [1, 1, 0, 0, 0]);
/// // It changed, and is in the reach of itself and of its right neighbour.
/// assert_eq!(marks, [0, 1, 1, 0, 0]);
/// # Ok::<(), Stop>(())
/// ```
pub fn run_resuming_in<'a>(
    source: &'a [u8],
    shape: &[u32],
    grid: &mut [i32],
    lent: Lent<'_>,
    start: i64,
    steps: i64,
    values: &[u8],
) -> Outcome<'a> {
    let run = Run::new(source, shape, start, steps, Mode::Quiet).with_list(values);
    run.by(foreign::cellang_run_resuming, BUILT_IN, grid, lent)
}

/// A quiet run that is paused between two steps, or before its first one, and
/// can be resumed. It owns the grid and the marks, and knows its source, its shape
/// and its time, so that they always belong together.
///
/// However a run is sliced, it has the grid, steps and count of one quiet run
/// of all the steps, with the lists of the slices one after the other, and the
/// grid is that of the full run.
///
/// ```
/// use cellang::{Paused, Rooms, Stop};
///
/// // Every cell takes the value of its left neighbour.
/// let source = b"1 dimensions of 0..1 cell := [-1]";
/// let mut rooms = Rooms::new();
/// let paused = Paused::begin(source, &[5], vec![1, 0, 0, 0, 0], 0, &mut rooms)?;
///
/// // One step now, and one later, before which a cell is set.
/// let paused = paused.resume(1, b"", &mut rooms)?;
/// assert_eq!(paused.grid(), [0, 1, 0, 0, 0]);
/// assert_eq!(paused.marks(), [1, 1, 1, 0, 0]);
/// let paused = paused.resume(1, b"1\n[3] = 1\n", &mut rooms)?;
/// assert_eq!((paused.time(), paused.steps(), paused.count()), (2, 2, 10));
/// assert_eq!(paused.into_grid(), [0, 0, 1, 0, 1]);
/// # Ok::<(), Stop>(())
/// ```
#[derive(Clone, PartialEq, Eq, Hash, Debug)]
pub struct Paused<'a> {
    source: &'a [u8],
    shape: Box<[u32]>,
    grid: Vec<i32>,
    marks: Vec<u8>,
    start: i64,
    steps: u32,
    count: u64,
    /// Whether a list had the current time of the run.
    listed: bool,
}

impl<'a> Paused<'a> {
    /// A run of a source on a grid, paused before its first step, at time
    /// `start`. `shape` and the grid are as for [`run`](crate::run), and the
    /// same is refused as of a run of 0 steps.
    pub fn begin(
        source: &'a [u8],
        shape: &[u32],
        grid: Vec<i32>,
        start: i64,
        rooms: &mut Rooms,
    ) -> Result<Paused<'a>, NotBegun<'a>> {
        let mut paused = Paused {
            source,
            shape: shape.into(),
            grid,
            marks: vec![0; cells_of(shape)],
            start,
            steps: 0,
            count: 0,
            listed: false,
        };
        match paused.slice(foreign::cellang_run_pausing, 0, b"", rooms) {
            Ok(_) => Ok(paused),
            Err(stop) => Err(NotBegun {
                stop,
                grid: paused.grid,
            }),
        }
    }

    /// Goes on for `steps` steps from the current time, with a value list
    /// for them, where one of 0 bytes is as none. Its times lie from
    /// [`time`](Paused::time) to that plus the steps. The block of the time at
    /// which a slice ends may be in its list or in the list of the next one. If
    /// it is in both, the next list is refused: its first time does not rise,
    /// 54.
    ///
    /// A refusal returns the run as it was, and it can be resumed. A fault
    /// ends it.
    ///
    /// ```
    /// use cellang::{NotResumed, Paused, Rooms, Stop};
    ///
    /// let source = b"1 dimensions of 0..9 cell := cell + 1";
    /// let mut rooms = Rooms::new();
    /// let paused = Paused::begin(source, &[2], vec![0, 7], 5, &mut rooms)?;
    /// let paused = paused.resume(1, b"", &mut rooms)?;
    ///
    /// // Time 5 is gone by.
    /// let refused = paused.resume(1, b"5\n[1] = 0\n", &mut rooms).unwrap_err();
    /// let NotResumed::Refused { stop, paused } = refused else { unreachable!() };
    /// assert_eq!(stop.to_string(), "list refused 55 at line 1: time before the start");
    /// assert_eq!((paused.time(), paused.grid()), (6, &[1, 8][..]));
    ///
    /// let faulted = paused.resume(4, b"", &mut rooms).unwrap_err();
    /// let NotResumed::Faulted { fault, grid } = faulted else { unreachable!() };
    /// assert_eq!((fault.number(), fault.cell.index(), fault.steps), (33, 1, 2));
    /// assert_eq!(grid, [2, 9]);
    /// # Ok::<(), Stop>(())
    /// ```
    pub fn resume(
        mut self,
        steps: i64,
        list: &[u8],
        rooms: &mut Rooms,
    ) -> Result<Paused<'a>, NotResumed<'a>> {
        let call = foreign::cellang_run_resuming;
        let outcome = if self.fits(steps) && self.repeats_time(list, rooms) {
            Err(TIME_REPEATED)
        } else {
            self.slice(call, steps, list, rooms)
        };
        self.resumed(steps, list, outcome)
    }

    /// Goes on as [`resume`](Paused::resume) does, and fills row counts with
    /// those of the grid that is left, also at a fault. It is refused too,
    /// before the list, if there is no such field: 61. A refusal leaves the
    /// counts as they were.
    ///
    /// ```
    /// use cellang::{Counts, Paused, Rooms, Stop};
    ///
    /// let source = b"1 dimensions of 0..1 cell := [-1]";
    /// let mut rooms = Rooms::new();
    /// let mut counts = Counts::of_field(0);
    /// let paused = Paused::begin(source, &[5], vec![1, 0, 0, 0, 0], 0, &mut rooms)?;
    /// let paused = paused.resume_counting(0, b"", &mut counts, &mut rooms)?;
    /// assert_eq!(counts.rows(), [0, 1, 1, 1, 1]);
    /// let paused = paused.resume_counting(2, b"", &mut counts, &mut rooms)?;
    /// assert_eq!(paused.grid(), [0, 0, 1, 0, 0]);
    /// assert_eq!(counts.rows(), [1, 1, 0, 1, 1]);
    /// # Ok::<(), Stop>(())
    /// ```
    pub fn resume_counting(
        mut self,
        steps: i64,
        list: &[u8],
        counts: &mut Counts,
        rooms: &mut Rooms,
    ) -> Result<Paused<'a>, NotResumed<'a>> {
        let field = counts.field();
        let repeated = self.fits(steps) && self.repeats_time(list, rooms);
        let outcome = if repeated && self.has_field(field, rooms) {
            Err(TIME_REPEATED)
        } else {
            self.slice_counting(steps, list, counts, rooms)
        };
        self.resumed(steps, list, outcome)
    }

    /// Whether the run can go on for so many steps.
    fn fits(&self, steps: i64) -> bool {
        (0..=GREATEST_TIME - self.time()).contains(&steps)
    }

    /// The run after a slice that returned this outcome.
    fn resumed(
        mut self,
        steps: i64,
        list: &[u8],
        outcome: Outcome<'a>,
    ) -> Result<Paused<'a>, NotResumed<'a>> {
        match outcome {
            Ok(done) => {
                self.steps += done.steps;
                self.count += done.count;
                let repeated = steps == 0 && self.listed;
                self.listed = repeated || last_time(list) == Some(self.time());
                Ok(self)
            }
            Err(Stop::Faulted(fault)) => Err(NotResumed::Faulted {
                fault: Fault {
                    steps: self.steps + fault.steps,
                    count: self.count + fault.count,
                    ..fault
                },
                grid: self.grid,
            }),
            Err(stop) => Err(NotResumed::Refused {
                stop,
                paused: Box::new(self),
            }),
        }
    }

    /// Makes a call on the grid and the marks, from the time on.
    fn slice(
        &mut self,
        call: ListRunCall,
        steps: i64,
        list: &[u8],
        rooms: &mut Rooms,
    ) -> Outcome<'a> {
        let time = self.time();
        let lent = Lent {
            words: &mut rooms.words,
            names: &mut rooms.names,
            scratch: &mut vec![0; self.grid.len()],
            marks: &mut self.marks,
        };
        let run = Run::new(self.source, &self.shape, time, steps, Mode::Quiet).with_list(list);
        run.by(call, BUILT_IN, &mut self.grid, lent)
    }

    /// Resumes on the grid and the marks, from the time on, with row counts.
    fn slice_counting(
        &mut self,
        steps: i64,
        list: &[u8],
        counts: &mut Counts,
        rooms: &mut Rooms,
    ) -> Outcome<'a> {
        let time = self.time();
        let Paused {
            source,
            shape,
            grid,
            marks,
            ..
        } = self;
        counts.fill(shape, |field, counts| {
            let lent = Lent {
                words: &mut rooms.words,
                names: &mut rooms.names,
                scratch: &mut vec![0; grid.len()],
                marks,
            };
            let lent = CountingLent {
                lent,
                field,
                counts,
            };
            run_resuming_counting_in(source, shape, grid, lent, time, steps, list)
        })
    }

    /// Whether there is a field with this number. A run of 0 steps without a list
    /// changes nothing, and is refused for its field alone.
    fn has_field(&mut self, field: u32, rooms: &mut Rooms) -> bool {
        let mut counts = Counts::of_field(field);
        self.slice_counting(0, b"", &mut counts, rooms).is_ok()
    }

    /// Whether a list begins with a time that a list before it had: the time at
    /// which the run is paused. For 0 steps no other line is a list that passes,
    /// and this one changes nothing.
    fn repeats_time(&mut self, list: &[u8], rooms: &mut Rooms) -> bool {
        let Some(end) = list.iter().position(ends_line) else {
            return false;
        };
        let first = &list[..=end];
        let call = foreign::cellang_run_resuming;
        self.listed && self.slice(call, 0, first, rooms).is_ok()
    }

    /// The source.
    pub fn source(&self) -> &'a [u8] {
        self.source
    }

    /// The size of each dimension.
    pub fn shape(&self) -> &[u32] {
        &self.shape
    }

    /// The current grid.
    pub fn grid(&self) -> &[i32] {
        &self.grid
    }

    /// The marks, one a cell: 1 if it would be open in one more step, else 0.
    pub fn marks(&self) -> &[u8] {
        &self.marks
    }

    /// The time at which the run began.
    pub fn start(&self) -> i64 {
        self.start
    }

    /// The current time, at which its next step would be.
    pub fn time(&self) -> i64 {
        self.start + i64::from(self.steps)
    }

    /// The steps done, of all slices.
    pub fn steps(&self) -> u32 {
        self.steps
    }

    /// How many times a cell was evaluated, in all slices.
    pub fn count(&self) -> u64 {
        self.count
    }

    /// Ends the run, and returns the grid.
    pub fn into_grid(self) -> Vec<i32> {
        self.grid
    }
}

fn ends_line(byte: &u8) -> bool {
    matches!(byte, b'\n' | b'\r')
}

/// The last time of a list that passes.
fn last_time(list: &[u8]) -> Option<i64> {
    // Nothing follows the end of the last line.
    let mut lines = list.rsplit(ends_line).skip(1);
    let line = lines.find(|line| !line.contains(&b'['))?;
    let digits = line.iter().filter(|byte| byte.is_ascii_digit());
    Some(digits.fold(0, |time, digit| 10 * time + i64::from(digit - b'0')))
}

/// A run that could be paused does not begin.
#[derive(Clone, PartialEq, Eq, Hash, Debug)]
pub struct NotBegun<'a> {
    /// Why: the source is refused, or the run is not admitted.
    pub stop: Stop<'a>,
    /// The grid as it was passed.
    pub grid: Vec<i32>,
}

impl fmt::Display for NotBegun<'_> {
    fn fmt(&self, f: &mut fmt::Formatter<'_>) -> fmt::Result {
        self.stop.fmt(f)
    }
}

impl Error for NotBegun<'_> {}

impl<'a> From<NotBegun<'a>> for Stop<'a> {
    fn from(not_begun: NotBegun<'a>) -> Stop<'a> {
        not_begun.stop
    }
}

/// A paused run did not do the steps that it was resumed for.
#[derive(Clone, PartialEq, Eq, Hash, Debug)]
pub enum NotResumed<'a> {
    /// The steps or the list are refused, and the run is as it was.
    Refused {
        /// Why: the run is not admitted, since steps is negative or leads past
        /// time 2147483647, or there is no field to be counted; or the list is
        /// refused.
        stop: Stop<'a>,
        /// The run, which can be resumed.
        paused: Box<Paused<'a>>,
    },
    /// A cell faulted, and the run is at its end.
    Faulted {
        /// The fault, as the run at once returns it: with the steps done and the
        /// cells evaluated in all slices.
        fault: Fault,
        /// The grid after the steps done, with the block of the faulting step's
        /// time set.
        grid: Vec<i32>,
    },
}

impl NotResumed<'_> {
    /// The number of the reply.
    pub fn number(&self) -> u32 {
        match self {
            NotResumed::Refused { stop, .. } => stop.number(),
            NotResumed::Faulted { fault, .. } => fault.number(),
        }
    }

    /// The current grid.
    pub fn grid(&self) -> &[i32] {
        match self {
            NotResumed::Refused { paused, .. } => paused.grid(),
            NotResumed::Faulted { grid, .. } => grid,
        }
    }
}

impl fmt::Display for NotResumed<'_> {
    fn fmt(&self, f: &mut fmt::Formatter<'_>) -> fmt::Result {
        match self {
            NotResumed::Refused { stop, .. } => stop.fmt(f),
            NotResumed::Faulted { fault, .. } => fault.fmt(f),
        }
    }
}

impl Error for NotResumed<'_> {}

impl<'a> From<NotResumed<'a>> for Stop<'a> {
    fn from(not_resumed: NotResumed<'a>) -> Stop<'a> {
        match not_resumed {
            NotResumed::Refused { stop, .. } => stop,
            NotResumed::Faulted { fault, .. } => Stop::Faulted(fault),
        }
    }
}
