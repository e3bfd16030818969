//! Checking and running.

use crate::foreign::{self, ListRunCall, RunCall};
use crate::replies::{check_answer, run_answer, Outcome, Refusal};
use crate::rooms::Rooms;

/// The predefined names, as the crate lends them beside every source.
pub const BUILT_IN: &[u8] = b"cell time random";

/// The greatest number of cells of a grid.
const MOST_CELLS: usize = 1_048_576;

/// How a run goes. The outcome and the grid are the same but for the count.
#[derive(Clone, Copy, PartialEq, Eq, Hash, Debug)]
pub enum Mode {
    /// Every step evaluates every cell.
    Full,
    /// Every step evaluates the open cells alone: in the first step all, later
    /// those within whose reach a cell changed in the step before or by a block
    /// since, and where `time` occurs in the source always all. The count is at
    /// most the full one. [`Paused`](crate::Paused) makes such a run in slices.
    Quiet,
}

/// The memory that a run is passed beside its grid. What it holds on entry does
/// not matter, but for the marks of [`run_resuming_in`](crate::run_resuming_in).
#[derive(Debug)]
pub struct Lent<'a> {
    /// The word table, [`WORDS`](crate::WORDS) long.
    pub words: &'a mut [u32],
    /// The name list, [`NAME_WORDS`](crate::NAME_WORDS) long.
    pub names: &'a mut [u32],
    /// As long as the grid.
    pub scratch: &'a mut [i32],
    /// One byte a cell.
    pub marks: &'a mut [u8],
}

/// Checks a source. The rooms hold its program and names afterwards; zeros if
/// it is refused, but what they held before if it is too long.
pub fn check<'a>(source: &'a [u8], rooms: &mut Rooms) -> Result<(), Refusal<'a>> {
    check_in(source, &mut rooms.words, &mut rooms.names)
}

/// Checks a source as [`check`] does, in the caller's buffers.
pub fn check_in<'a>(
    source: &'a [u8],
    words: &mut [u32],
    names: &mut [u32],
) -> Result<(), Refusal<'a>> {
    check_lent(source, BUILT_IN, words, names)
}

/// Checks a source beside which a list is passed.
fn check_lent<'a>(
    source: &'a [u8],
    list: &'a [u8],
    words: &mut [u32],
    names: &mut [u32],
) -> Result<(), Refusal<'a>> {
    let mut reply = [0; foreign::REPLY];
    // SAFETY: each pointer and length is those of a slice, and the slices
    // that are written overlap nothing.
    unsafe {
        foreign::cellang_check(
            source.as_ptr(),
            source.len(),
            list.as_ptr(),
            list.len(),
            words.as_mut_ptr(),
            words.len(),
            names.as_mut_ptr(),
            names.len(),
            reply.as_mut_ptr(),
            reply.len(),
        );
    }
    check_answer(source, list, reply)
}

/// Runs a source on a grid: `steps` steps, the first at time `start`.
///
/// `shape` has the size of each dimension. Cell `[i,j,k]` of sizes p, q, r has
/// number (i*q+j)*r+k, and likewise for fewer dimensions; its fields lie
/// together in declared order.
///
/// The grid holds the state after the steps done; it is as it was if the run
/// doesn't begin. This function allocates scratch and marks; see [`run_in`].
/// [`Run`] makes a run with a value list.
pub fn run<'a>(
    source: &'a [u8],
    shape: &[u32],
    grid: &mut [i32],
    rooms: &mut Rooms,
    start: i64,
    steps: i64,
    mode: Mode,
) -> Outcome<'a> {
    Run::new(source, shape, start, steps, mode).on(grid, rooms)
}

/// Runs a source as [`run`] does, in the caller's buffers. After a run that
/// began, even with 0 steps, scratch and marks are zero; else they are as they
/// were.
pub fn run_in<'a>(
    source: &'a [u8],
    shape: &[u32],
    grid: &mut [i32],
    lent: Lent<'_>,
    start: i64,
    steps: i64,
    mode: Mode,
) -> Outcome<'a> {
    Run::new(source, shape, start, steps, mode).on_in(grid, lent)
}

/// A run of a source that can have a value list, and can keep row counts:
/// [`on_counting`](Run::on_counting).
///
/// A value list sets cells at chosen times. Each line is a time, which begins a
/// block, or a cell with the values of its first fields; `[0, 3] = 5, , 1`
/// leaves the second field as it is. A block is set before the step at its
/// time, or after the last step where its time is start plus steps. The list is
/// checked before the run begins.
///
/// ```
/// use cellang::{Line, ListReason, ListRefusal, Mode, Rooms, Run, Stop};
///
/// let source = b"1 dimensions of 0..9 cell := cell + 1";
/// let mut rooms = Rooms::new();
/// let mut grid = [0, 0, 0];
///
/// // Two steps, at the times 5 and 6.
/// let run = Run::new(source, &[3], 5, 2, Mode::Quiet);
/// run.with_list(b"6\n[1] = 4\n7\n[2] = 9\n").on(&mut grid, &mut rooms)?;
/// assert_eq!(grid, [2, 5, 9]);
///
/// // A list that is refused leaves the grid as it was.
/// let stop = run.with_list(b"6\n[3] = 4\n").on(&mut grid, &mut rooms).unwrap_err();
/// let refusal = ListRefusal { reason: ListReason::OutsideGrid, line: Line(2) };
/// assert_eq!(stop, Stop::ListRefused(refusal));
/// assert_eq!(stop.to_string(), "list refused 51 at line 2: cell outside the grid");
/// assert_eq!(grid, [2, 5, 9]);
/// # Ok::<(), Stop>(())
/// ```
#[derive(Clone, Copy, Debug)]
pub struct Run<'a, 'l> {
    pub(crate) source: &'a [u8],
    pub(crate) shape: &'l [u32],
    pub(crate) start: i64,
    pub(crate) steps: i64,
    pub(crate) mode: Mode,
    pub(crate) values: Option<&'l [u8]>,
}

impl<'a, 'l> Run<'a, 'l> {
    /// A run without a value list, as [`run`] makes it.
    pub fn new(
        source: &'a [u8],
        shape: &'l [u32],
        start: i64,
        steps: i64,
        mode: Mode,
    ) -> Run<'a, 'l> {
        Run {
            source,
            shape,
            start,
            steps,
            mode,
            values: None,
        }
    }

    /// The same run with a value list. One without a line, of 0 bytes, is as
    /// none.
    pub fn with_list(self, values: &'l [u8]) -> Run<'a, 'l> {
        Run {
            values: Some(values),
            ..self
        }
    }

    /// Makes the run on a grid, with scratch and marks that are allocated.
    pub fn on(&self, grid: &mut [i32], rooms: &mut Rooms) -> Outcome<'a> {
        let lent = Lent {
            words: &mut rooms.words,
            names: &mut rooms.names,
            scratch: &mut vec![0; grid.len()],
            marks: &mut vec![0; cells_of(self.shape)],
        };
        self.on_in(grid, lent)
    }

    /// Makes the run on a grid, in the caller's buffers, as [`run_in`] does.
    pub fn on_in(&self, grid: &mut [i32], lent: Lent<'_>) -> Outcome<'a> {
        self.lent(BUILT_IN, grid, lent)
    }

    /// Makes the run where a built-in list is passed beside the source.
    fn lent(&self, list: &'a [u8], grid: &mut [i32], lent: Lent<'_>) -> Outcome<'a> {
        if self.values.is_none() {
            return self.without_list(list, grid, lent);
        }
        let call: ListRunCall = match self.mode {
            Mode::Full => foreign::cellang_run_full_list,
            Mode::Quiet => foreign::cellang_run_quiet_list,
        };
        self.by(call, list, grid, lent)
    }

    fn without_list(&self, list: &'a [u8], grid: &mut [i32], lent: Lent<'_>) -> Outcome<'a> {
        let call: RunCall = match self.mode {
            Mode::Full => foreign::cellang_run_full,
            Mode::Quiet => foreign::cellang_run_quiet,
        };
        let mut report = [0; foreign::REPORT];
        // SAFETY: each pointer and length is those of a slice, and the slices
        // that are written overlap nothing.
        unsafe {
            call(
                self.source.as_ptr(),
                self.source.len(),
                list.as_ptr(),
                list.len(),
                lent.words.as_mut_ptr(),
                lent.words.len(),
                lent.names.as_mut_ptr(),
                lent.names.len(),
                self.shape.as_ptr(),
                self.shape.len(),
                grid.as_mut_ptr(),
                grid.len(),
                lent.scratch.as_mut_ptr(),
                lent.scratch.len(),
                lent.marks.as_mut_ptr(),
                lent.marks.len(),
                self.start,
                self.steps,
                report.as_mut_ptr(),
                report.len(),
            );
        }
        run_answer(self.source, list, report)
    }

    /// Makes the run by a function that takes a value list, whatever the mode.
    pub(crate) fn by(
        &self,
        call: ListRunCall,
        list: &'a [u8],
        grid: &mut [i32],
        lent: Lent<'_>,
    ) -> Outcome<'a> {
        let values = self.values.unwrap_or_default();
        let mut report = [0; foreign::REPORT];
        // SAFETY: each pointer and length is those of a slice, and the slices
        // that are written overlap nothing.
        unsafe {
            call(
                self.source.as_ptr(),
                self.source.len(),
                list.as_ptr(),
                list.len(),
                lent.words.as_mut_ptr(),
                lent.words.len(),
                lent.names.as_mut_ptr(),
                lent.names.len(),
                self.shape.as_ptr(),
                self.shape.len(),
                grid.as_mut_ptr(),
                grid.len(),
                lent.scratch.as_mut_ptr(),
                lent.scratch.len(),
                lent.marks.as_mut_ptr(),
                lent.marks.len(),
                values.as_ptr(),
                values.len(),
                self.start,
                self.steps,
                report.as_mut_ptr(),
                report.len(),
            );
        }
        run_answer(self.source, list, report)
    }
}

/// The number of cells of a shape; 0 where there are too many, which is
/// refused before the marks are looked at.
pub(crate) fn cells_of(shape: &[u32]) -> usize {
    shape
        .iter()
        .try_fold(1usize, |cells, &size| cells.checked_mul(size as usize))
        .filter(|&cells| cells <= MOST_CELLS)
        .unwrap_or(0)
}

#[cfg(test)]
mod tests {
    use super::*;
    use crate::counting::CountingLent;
    use crate::foreign::CountingRunCall;
    use crate::replies::Stop;
    use crate::rooms::{NAME_WORDS, WORDS};

    const BEFORE: u32 = 0x5A5A_5A5A;

    /// The built-in list, and others that are near it.
    fn lists() -> Vec<Vec<u8>> {
        let mut lists = vec![BUILT_IN.to_vec(), Vec::new(), b"time cell random".to_vec()];
        for end in 0..BUILT_IN.len() {
            lists.push(BUILT_IN[..end].to_vec());
            let mut changed = BUILT_IN.to_vec();
            changed[end] ^= 32;
            lists.push(changed);
        }
        for more in [b' ', b'\n', 0] {
            lists.push([BUILT_IN, &[more]].concat());
            lists.push([&[more], BUILT_IN].concat());
        }
        lists
    }

    fn sources() -> Vec<Vec<u8>> {
        let mut sources = vec![vec![b' '; 65_536], b"1 dimensions of 0..1".to_vec()];
        sources.extend(reference::vectors::checks(20_003, 60, true));
        sources
    }

    /// Number and place of a refusal, and its spelling.
    fn told<'a>(refusal: &Refusal<'a>) -> (u32, u32, &'a [u8]) {
        (refusal.number(), refusal.place.0, refusal.spelling)
    }

    #[test]
    fn another_list_is_refused_and_touches_nothing() {
        for source in sources() {
            for list in lists() {
                let expected = reference::check_lent(&source, &list);
                let spelling = reference::spelling(&source, expected).bytes(&source, &list);
                let expected = (expected.number, expected.place, spelling);
                let (mut words, mut names) = ([BEFORE; WORDS], [BEFORE; NAME_WORDS]);
                let given = check_lent(&source, &list, &mut words, &mut names);
                let given = given.as_ref().map_or_else(told, |()| (0, 0, b""));
                assert_eq!(given, expected);
                let untouched = words.iter().chain(&names).all(|&word| word == BEFORE);
                assert_eq!(untouched, matches!(expected.0, 1 | 2));
            }
        }
    }

    /// Makes a run in memory filled with a known value, and compares it with
    /// what the list demands.
    fn run_beside(
        list: &[u8],
        run: impl for<'a> Fn(&'a [u8], &mut [i32], Lent<'_>) -> Outcome<'a>,
    ) {
        let (mut words, mut names) = ([BEFORE; WORDS], [BEFORE; NAME_WORDS]);
        let (mut grid, mut scratch, mut marks) = ([0], [7], [7]);
        let lent = Lent {
            words: &mut words,
            names: &mut names,
            scratch: &mut scratch,
            marks: &mut marks,
        };
        let outcome = run(list, &mut grid, lent);
        if list == BUILT_IN {
            assert_eq!(outcome.map(|done| done.steps), Ok(1));
            return;
        }
        let Err(Stop::Refused(refusal)) = outcome else {
            panic!("{outcome:?}");
        };
        assert_eq!(told(&refusal), (1, 0, &[][..]));
        assert!(words.iter().chain(&names).all(|&word| word == BEFORE));
        assert_eq!((grid, scratch, marks), ([0], [7], [7]));
    }

    #[test]
    fn another_list_is_refused_by_runs() {
        let source = b"1 dimensions of 0..1 cell := 1";
        let runs = [Mode::Full, Mode::Quiet].map(|mode| Run::new(source, &[1], 0, 1, mode));
        let listed = runs.map(|run| run.with_list(b"0\n"));
        for list in lists() {
            for run in runs.iter().chain(&listed) {
                run_beside(&list, |list, grid, lent| run.lent(list, grid, lent));
            }
            for call in [
                foreign::cellang_run_pausing as ListRunCall,
                foreign::cellang_run_resuming,
            ] {
                run_beside(&list, |list, grid, lent| {
                    listed[1].by(call, list, grid, lent)
                });
            }
            for call in [
                foreign::cellang_run_full_counts as CountingRunCall,
                foreign::cellang_run_quiet_counts,
                foreign::cellang_run_pausing_counts,
                foreign::cellang_run_resuming_counts,
            ] {
                run_beside(&list, |list, grid, lent| {
                    let mut counts = [7];
                    let lent = CountingLent {
                        lent,
                        field: 0,
                        counts: &mut counts,
                    };
                    let outcome = listed[1].counting_by(call, list, grid, lent);
                    assert_eq!(counts, [if outcome.is_ok() { 0 } else { 7 }]);
                    outcome
                });
            }
        }
    }
}
