//! Checks sources written in Cellang, a small language for cellular automata,
//! runs them on grids, also with timed value lists, in slices, with row counts and
//! band by band, writes such lists, steps grids of which a few rows are held at a
//! time, recognizes rules that move a pixel once, and compares grids, by a library that
//! is proved to do what the rules say.
//!
//! ```
//! use cellang::{check, run, Cell, Fault, FaultKind, Mode, Place, Rooms, Stop};
//!
//! let mut rooms = Rooms::new();
//!
//! // A check says what is wrong, where, and at which token.
//! let refusal = check(b"1 dimensions of 0..1 x := y", &mut rooms).unwrap_err();
//! assert_eq!(refusal.number(), 8);
//! assert_eq!(refusal.place, Place(26));
//! assert_eq!(refusal.spelling, b"y");
//! assert_eq!(
//!     refusal.to_string(),
//!     "refused 8 at 26: name unknown, or of the wrong sort for a constant or index: `y`",
//! );
//!
//! // Every cell takes the value of its left neighbour, twice.
//! let source = b"1 dimensions of 0..1 cell := [-1]";
//! let mut grid = [1, 0, 0, 0, 0];
//! let done = run(source, &[5], &mut grid, &mut rooms, 0, 2, Mode::Quiet)?;
//! assert_eq!(grid, [0, 0, 1, 0, 0]);
//! assert_eq!((done.steps, done.count), (2, 8));
//!
//! // A fault names the cell; the grid is as the steps before it left it.
//! let source = b"1 dimensions of 0..3 cell := cell + 1";
//! let mut grid = [0, 2, 1];
//! let stop = run(source, &[3], &mut grid, &mut rooms, 0, 5, Mode::Full).unwrap_err();
//! assert_eq!(
//!     stop,
//!     Stop::Faulted(Fault {
//!         kind: FaultKind::ValueOutsideField,
//!         place: Place(26),
//!         cell: Cell(1),
//!         steps: 1,
//!         count: 5,
//!     }),
//! );
//! assert_eq!(grid, [1, 3, 2]);
//! # Ok::<(), Stop>(())
//! ```

#![forbid(unsafe_op_in_unsafe_fn)]
#![warn(missing_docs)]

mod banded;
mod bands;
mod calls;
mod comparing;
mod counting;
mod foreign;
mod names;
mod one_move;
mod pausing;
mod replies;
mod rooms;
mod writing;

pub use banded::{BandedLent, BandedRun};
pub use bands::{Band, Border, Held};
pub use calls::{check, check_in, run, run_in, Lent, Mode, Run, BUILT_IN};
pub use comparing::{compare, compare_flat, Difference, NotCompared};
pub use counting::{
    first_zero_row, run_pausing_counting_in, run_resuming_counting_in, zeros_in_rows, CountingLent,
    Counts, NotCounted,
};
pub use names::{Kind, Name, Names};
pub use one_move::{check_one_move, check_one_move_in, Missed};
pub use pausing::{run_pausing_in, run_resuming_in, NotBegun, NotResumed, Paused};
pub use replies::{
    Cell, Done, Entry, Fault, FaultKind, Line, ListReason, ListRefusal, NotPlanned, NotWritten,
    Objection, Outcome, Place, Reason, Refusal, Stop,
};
pub use rooms::{Rooms, NAME_WORDS, WORDS};
pub use writing::{write_list, write_list_in, WriterLent};
