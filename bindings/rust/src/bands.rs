//! Bands of rows: border rows, plans, and the step of one band.

use crate::banded::BandedRun;
use crate::calls::BUILT_IN;
use crate::counting::rows_of;
use crate::foreign;
use crate::replies::{plan_answer, run_answer, NotPlanned, Outcome};
use crate::rooms::Rooms;
use std::ops::RangeInclusive;

/// A band of rows of the first dimension, numbered from 0. Where there is one
/// dimension, each cell is a row.
#[derive(Clone, Copy, PartialEq, Eq, Hash, Debug)]
pub struct Band {
    /// Its first row.
    pub first: u32,
    /// Its last row, which it includes.
    pub last: u32,
}

impl Band {
    /// Its own rows; none if it is reversed.
    pub fn rows(self) -> RangeInclusive<u32> {
        self.first..=self.last
    }
}

/// How many border rows the cells of a band read beside its own: as many as the
/// lowest and the highest index of the rule in the first dimension say.
#[derive(Clone, Copy, PartialEq, Eq, Hash, Debug, Default)]
pub struct Border {
    /// How many there are before the band.
    pub before: u32,
    /// How many there are after it.
    pub behind: u32,
}

impl Border {
    /// How many rows a band has with borders: what it is passed. None if it has no
    /// row of its own.
    pub fn rows_with(self, band: Band) -> usize {
        match band.rows().count() {
            0 => 0,
            own => self.before as usize + own + self.behind as usize,
        }
    }

    /// The numbers of the rows that a band of a grid of so many rows is passed, in
    /// order: the border rows before it, its own, and the border rows after it.
    /// The rows before row 0 are the last ones, and those after the last row the
    /// first ones, so that a row may be there more than once.
    ///
    /// ```
    /// use cellang::{Band, Border};
    ///
    /// let border = Border { before: 2, behind: 1 };
    /// let rows = border.rows_lent(Band { first: 0, last: 1 }, 5);
    /// assert!(rows.eq([3, 4, 0, 1, 2]));
    /// let rows = border.rows_lent(Band { first: 1, last: 1 }, 2);
    /// assert!(rows.eq([1, 0, 1, 0]));
    /// ```
    pub fn rows_lent(self, band: Band, rows: u32) -> impl ExactSizeIterator<Item = u32> {
        let count = if rows == 0 { 0 } else { self.rows_with(band) };
        let rows = u64::from(rows.max(1));
        let start = u64::from(band.first) + rows - u64::from(self.before) % rows;
        (0..count).map(move |row| ((start + row as u64) % rows) as u32)
    }
}

/// A rule on a grid of which at most so many rows are held at a time, for callers
/// who never have the grid as a whole.
///
/// A step of the grid is made of the steps of bands, by a plan: bands that run
/// from row 0 to the last without gap or overlap, and have with their border rows
/// at most as many rows as are held. [`plan`](Held::plan) returns one.
/// [`step`](Held::step) is passed the old rows of a band, with borders, and writes
/// its next rows.
///
/// Together these are the grid after the step of a run in
/// [`Mode::Full`](crate::Mode::Full), and the counts of the bands add up to the
/// run's. If a band faults, its fault is the run's, where the counts up to it add
/// up to the run's; the old rows are the grid that is left. A next row must not be
/// put in the place of an old one as long as a later band reads that.
///
/// [`run_banded`](Held::run_banded) makes a run of such steps on a grid that the
/// caller has, and [`BandedRun`] one with a value list or row counts.
///
/// ```
/// use cellang::{Band, Border, Held, Rooms, Stop};
///
/// // Every cell takes the value of the one before it.
/// let source = b"1 dimensions of 0..9 cell := [-1]";
/// let mut rooms = Rooms::new();
/// let held = Held::new(source, &[5], 4);
/// let border = held.border(&mut rooms).expect("a rule for five cells");
/// assert_eq!(border, Border { before: 1, behind: 0 });
/// let plan = held.plan(&mut rooms).expect("a border row and three others");
/// assert_eq!(plan, [Band { first: 0, last: 2 }, Band { first: 3, last: 4 }]);
///
/// let old = [5, 6, 7, 8, 9];
/// let mut new = Vec::new();
/// for band in plan {
///     let rows: Vec<i32> = border.rows_lent(band, 5).map(|row| old[row as usize]).collect();
///     let mut next = vec![0; band.rows().count()];
///     held.step(band, &rows, &mut next, 0, &mut rooms)?;
///     new.extend(next);
/// }
/// assert_eq!(new, [9, 5, 6, 7, 8]);
/// # Ok::<(), Stop>(())
/// ```
#[derive(Clone, Copy, Debug)]
pub struct Held<'a, 'l> {
    pub(crate) source: &'a [u8],
    pub(crate) shape: &'l [u32],
    pub(crate) rows: u32,
}

impl<'a, 'l> Held<'a, 'l> {
    /// A source on a grid of this shape, which is that of the whole grid, of
    /// which so many rows can be held.
    pub fn new(source: &'a [u8], shape: &'l [u32], rows: u32) -> Held<'a, 'l> {
        Held {
            source,
            shape,
            rows,
        }
    }

    /// How many border rows there are. It does not depend on how many rows can be
    /// held. Either number is at most that of the grid's rows.
    pub fn border(&self, rooms: &mut Rooms) -> Result<Border, NotPlanned<'a>> {
        self.border_in(&mut rooms.words, &mut rooms.names)
    }

    /// How many border rows there are, in the caller's buffers.
    pub fn border_in(
        &self,
        words: &mut [u32],
        names: &mut [u32],
    ) -> Result<Border, NotPlanned<'a>> {
        self.border_lent(BUILT_IN, words, names)
    }

    /// Checks a plan: [`Objection::BadPlan`](crate::Objection::BadPlan), 60, if it
    /// is not accepted. It is accepted if no band is empty, the bands run from row
    /// 0 to the last in order without gap or overlap, and each has with borders at
    /// most as many rows as can be held.
    ///
    /// ```
    /// use cellang::{Band, Held, NotPlanned, Objection, Rooms};
    ///
    /// let mut rooms = Rooms::new();
    /// let held = Held::new(b"1 dimensions of 0..9 cell := [-1]", &[5], 4);
    /// let band = |first, last| Band { first, last };
    /// assert_eq!(held.check_plan(&[band(0, 1), band(2, 4)], &mut rooms), Ok(()));
    ///
    /// // With the border row the first band has five rows.
    /// let long = held.check_plan(&[band(0, 3), band(4, 4)], &mut rooms);
    /// assert_eq!(long, Err(NotPlanned::NotAdmitted(Objection::BadPlan)));
    /// ```
    pub fn check_plan(&self, plan: &[Band], rooms: &mut Rooms) -> Result<(), NotPlanned<'a>> {
        self.check_plan_in(&entries_of(plan), &mut rooms.words, &mut rooms.names)
    }

    /// Checks a plan as [`check_plan`](Held::check_plan) does, in memory of the
    /// caller's. The plan has two entries a band, its first and its last row; of an
    /// odd number it is not accepted.
    pub fn check_plan_in(
        &self,
        plan: &[u32],
        words: &mut [u32],
        names: &mut [u32],
    ) -> Result<(), NotPlanned<'a>> {
        self.check_plan_lent(BUILT_IN, plan, words, names)
    }

    /// The accepted plan whose bands, in turn, are as long as can be;
    /// [`NotPlanned::NoPlan`], 59, exactly if no plan is accepted.
    ///
    /// ```
    /// use cellang::{Held, NotPlanned, Rooms};
    ///
    /// // With three border rows on either side seven rows must be held.
    /// let source = b"1 dimensions of 0..9 cell := [-3] + [3]";
    /// let mut rooms = Rooms::new();
    /// assert_eq!(Held::new(source, &[3], 6).plan(&mut rooms), Err(NotPlanned::NoPlan));
    /// let plan = Held::new(source, &[3], 7).plan(&mut rooms)?;
    /// assert!(plan.iter().map(|band| (band.first, band.last)).eq([(0, 0), (1, 1), (2, 2)]));
    /// # Ok::<(), NotPlanned>(())
    /// ```
    pub fn plan(&self, rooms: &mut Rooms) -> Result<Vec<Band>, NotPlanned<'a>> {
        let mut bands = vec![0; 2 * rows_of(self.shape)];
        let count = self.plan_in(&mut bands, &mut rooms.words, &mut rooms.names)?;
        let pairs = bands.chunks_exact(2).take(count as usize);
        let plan = pairs.map(|pair| Band {
            first: pair[0],
            last: pair[1],
        });
        Ok(plan.collect())
    }

    /// Plans as [`plan`](Held::plan) does, in the caller's buffers. Returns how
    /// many bands there are. They are at the front of `bands`, which has to have
    /// two entries a row of the grid; the rest stays, and all of it if there is a
    /// refusal.
    pub fn plan_in(
        &self,
        bands: &mut [u32],
        words: &mut [u32],
        names: &mut [u32],
    ) -> Result<u32, NotPlanned<'a>> {
        self.plan_lent(BUILT_IN, bands, words, names)
    }

    /// Steps one band, at `time`. `rows` has its old rows with borders, those of
    /// [`Border::rows_lent`] in this order, each with the fields of all its cells;
    /// `next` is as long as its own rows. Nothing else of the grid plays a part.
    ///
    /// On success `next` holds the next rows of the band; [`Done`](crate::Done) has
    /// one step and the number of its cells. At a fault `next` is zero; the
    /// [`Fault`](crate::Fault) has 0 steps, and the cell's number in the whole grid.
    /// A refusal leaves `next` as it was. It is, in this order: that of the source;
    /// 20; 60 if the band is reversed, ends past the last row, or has with borders
    /// more rows than can be held; 21 for `rows` or `next`; 22 as for a run of one
    /// step; 23; or 24 for the lowest entry of `rows` that is out of range.
    ///
    /// ```
    /// use cellang::{Band, Cell, Held, Objection, Rooms, Stop};
    ///
    /// let source = b"1 dimensions of 0..3 cell := cell + 1";
    /// let mut rooms = Rooms::new();
    /// let held = Held::new(source, &[5], 2);
    /// let band = Band { first: 3, last: 4 };
    /// let mut next = [0; 2];
    /// let done = held.step(band, &[2, 1], &mut next, 0, &mut rooms)?;
    /// assert_eq!((done.count, next), (2, [3, 2]));
    ///
    /// let stop = held.step(band, &[2, 3], &mut next, 0, &mut rooms).unwrap_err();
    /// let Stop::Faulted(fault) = stop else { unreachable!() };
    /// assert_eq!((fault.cell, fault.count, next), (Cell(4), 2, [0, 0]));
    ///
    /// let stop = held.step(band, &[2, 3, 1], &mut next, 0, &mut rooms).unwrap_err();
    /// assert_eq!(stop, Stop::NotAdmitted(Objection::LentLength));
    /// # Ok::<(), Stop>(())
    /// ```
    pub fn step(
        &self,
        band: Band,
        rows: &[i32],
        next: &mut [i32],
        time: i64,
        rooms: &mut Rooms,
    ) -> Outcome<'a> {
        self.step_in(band, rows, next, time, &mut rooms.words, &mut rooms.names)
    }

    /// Steps one band as [`step`](Held::step) does, in the caller's buffers.
    pub fn step_in(
        &self,
        band: Band,
        rows: &[i32],
        next: &mut [i32],
        time: i64,
        words: &mut [u32],
        names: &mut [u32],
    ) -> Outcome<'a> {
        let lent = BandLent { rows, next, time };
        self.step_lent(BUILT_IN, band, lent, words, names)
    }

    /// Makes a full run on a grid, whose steps are made of those of a plan's bands:
    /// `steps` steps, the first at time `start`. Outcome and grid are those of
    /// [`run`](crate::run) in [`Mode::Full`](crate::Mode::Full), but that a plan
    /// that is not accepted is refused last of all:
    /// [`Objection::BadPlan`](crate::Objection::BadPlan), 60.
    ///
    /// It allocates scratch, marks, and a room for the rows that are held.
    /// [`BandedRun`] makes such a run with a value list, with row counts, or in
    /// memory of the caller's.
    ///
    /// ```
    /// use cellang::{Band, Held, Objection, Rooms, Stop};
    ///
    /// let mut rooms = Rooms::new();
    /// let held = Held::new(b"1 dimensions of 0..9 cell := [-1]", &[5], 4);
    /// let plan = [Band { first: 0, last: 1 }, Band { first: 2, last: 4 }];
    /// let mut grid = [5, 6, 7, 8, 9];
    /// let done = held.run_banded(&plan, &mut grid, 0, 2, &mut rooms)?;
    /// assert_eq!((done.steps, done.count, grid), (2, 10, [8, 9, 5, 6, 7]));
    ///
    /// let stop = held.run_banded(&plan[..1], &mut grid, 0, 2, &mut rooms).unwrap_err();
    /// assert_eq!(stop, Stop::NotAdmitted(Objection::BadPlan));
    /// # Ok::<(), Stop>(())
    /// ```
    pub fn run_banded(
        &self,
        plan: &[Band],
        grid: &mut [i32],
        start: i64,
        steps: i64,
        rooms: &mut Rooms,
    ) -> Outcome<'a> {
        BandedRun::new(*self, start, steps).on(plan, grid, rooms)
    }

    /// Returns the border rows where a built-in list is passed beside the source.
    fn border_lent(
        &self,
        list: &'a [u8],
        words: &mut [u32],
        names: &mut [u32],
    ) -> Result<Border, NotPlanned<'a>> {
        let mut reply = [0; foreign::BORDER];
        // SAFETY: each pointer and length is those of a slice, and the slices
        // that are written overlap nothing.
        unsafe {
            foreign::cellang_border_rows(
                self.source.as_ptr(),
                self.source.len(),
                list.as_ptr(),
                list.len(),
                words.as_mut_ptr(),
                words.len(),
                names.as_mut_ptr(),
                names.len(),
                self.shape.as_ptr(),
                self.shape.len(),
                reply.as_mut_ptr(),
                reply.len(),
            );
        }
        let [number, place, before, behind, spelling @ ..] = reply;
        plan_answer(self.source, list, [number, place], spelling)?;
        Ok(Border { before, behind })
    }

    /// Checks a plan where a built-in list is passed beside the source.
    fn check_plan_lent(
        &self,
        list: &'a [u8],
        plan: &[u32],
        words: &mut [u32],
        names: &mut [u32],
    ) -> Result<(), NotPlanned<'a>> {
        let mut reply = [0; foreign::REPLY];
        // SAFETY: each pointer and length is those of a slice, and the slices
        // that are written overlap nothing.
        unsafe {
            foreign::cellang_check_plan(
                self.source.as_ptr(),
                self.source.len(),
                list.as_ptr(),
                list.len(),
                words.as_mut_ptr(),
                words.len(),
                names.as_mut_ptr(),
                names.len(),
                self.shape.as_ptr(),
                self.shape.len(),
                self.rows,
                plan.as_ptr(),
                plan.len(),
                reply.as_mut_ptr(),
                reply.len(),
            );
        }
        let [number, place, spelling @ ..] = reply;
        plan_answer(self.source, list, [number, place], spelling)
    }

    /// Plans where a built-in list is passed beside the source.
    fn plan_lent(
        &self,
        list: &'a [u8],
        bands: &mut [u32],
        words: &mut [u32],
        names: &mut [u32],
    ) -> Result<u32, NotPlanned<'a>> {
        let mut reply = [0; foreign::PLANNED];
        // SAFETY: each pointer and length is those of a slice, and the slices
        // that are written overlap nothing.
        unsafe {
            foreign::cellang_plan_bands(
                self.source.as_ptr(),
                self.source.len(),
                list.as_ptr(),
                list.len(),
                words.as_mut_ptr(),
                words.len(),
                names.as_mut_ptr(),
                names.len(),
                self.shape.as_ptr(),
                self.shape.len(),
                self.rows,
                bands.as_mut_ptr(),
                bands.len(),
                reply.as_mut_ptr(),
                reply.len(),
            );
        }
        let [number, place, count, spelling @ ..] = reply;
        plan_answer(self.source, list, [number, place], spelling)?;
        Ok(count)
    }

    /// Steps a band where a built-in list is passed beside the source.
    fn step_lent(
        &self,
        list: &'a [u8],
        band: Band,
        lent: BandLent<'_>,
        words: &mut [u32],
        names: &mut [u32],
    ) -> Outcome<'a> {
        let mut report = [0; foreign::REPORT];
        // SAFETY: each pointer and length is those of a slice, and the slices
        // that are written overlap nothing.
        unsafe {
            foreign::cellang_step_band(
                self.source.as_ptr(),
                self.source.len(),
                list.as_ptr(),
                list.len(),
                words.as_mut_ptr(),
                words.len(),
                names.as_mut_ptr(),
                names.len(),
                self.shape.as_ptr(),
                self.shape.len(),
                band.first,
                band.last,
                self.rows,
                lent.rows.as_ptr(),
                lent.rows.len(),
                lent.next.as_mut_ptr(),
                lent.next.len(),
                lent.time,
                report.as_mut_ptr(),
                report.len(),
            );
        }
        run_answer(self.source, list, report)
    }
}

/// A plan as it is passed: two entries a band.
pub(crate) fn entries_of(plan: &[Band]) -> Vec<u32> {
    let entries = plan.iter().flat_map(|band| [band.first, band.last]);
    entries.collect()
}

/// What the step of a band is passed beside the source, the word table and the name
/// list.
struct BandLent<'a> {
    rows: &'a [i32],
    next: &'a mut [i32],
    time: i64,
}

#[cfg(test)]
mod tests {
    use super::*;
    use crate::replies::{Place, Reason, Refusal, Stop};
    use crate::rooms::{NAME_WORDS, WORDS};

    const BEFORE: u32 = 0x5A5A_5A5A;

    #[test]
    fn another_list_is_refused_and_touches_nothing() {
        let held = Held::new(b"1 dimensions of 0..1 cell := 1", &[1], 1);
        for list in [
            &b""[..],
            b"cell time",
            b"Cell time random",
            b"cell time random ",
        ] {
            let refusal = Refusal {
                reason: Reason::RoomLength,
                place: Place(0),
                spelling: b"",
            };
            let not_planned = NotPlanned::Refused(refusal);
            let (mut words, mut names) = ([BEFORE; WORDS], [BEFORE; NAME_WORDS]);
            let (words, names) = (&mut words[..], &mut names[..]);
            let (mut bands, mut next) = ([7, 7], [7]);
            let border = held.border_lent(list, words, names);
            assert_eq!(border, Err(not_planned.clone()));
            let checked = held.check_plan_lent(list, &[0, 0], words, names);
            assert_eq!(checked, Err(not_planned.clone()));
            let planned = held.plan_lent(list, &mut bands, words, names);
            assert_eq!(planned, Err(not_planned));
            let lent = BandLent {
                rows: &[0],
                next: &mut next,
                time: 0,
            };
            let band = Band { first: 0, last: 0 };
            let stepped = held.step_lent(list, band, lent, words, names);
            assert_eq!(stepped, Err(Stop::Refused(refusal)));
            assert!(words.iter().chain(&*names).all(|&word| word == BEFORE));
            assert_eq!((bands, next), ([7, 7], [7]));
        }
    }
}
