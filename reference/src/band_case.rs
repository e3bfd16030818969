//! Plan checks, planner calls, band calls, runs under a plan, and border rows:
//! the cases, their answers, and their binary form.
//!
//! The binary form. Every number has its lowest byte first, four bytes where
//! nothing else is said. All but a run begin so:
//!
//! - 0 for a plan check, 1 for a planner call, 2 for a band call, 4 for border
//!   rows;
//! - the length of the source, and the source;
//! - the length of the word table, in words, and of the name list, in records;
//! - the number of sizes, and the sizes;
//! - the number of rows that can be held.
//!
//! Then follows
//!
//! - of a plan check: the number of the plan's numbers, and these;
//! - of a planner call: the length of the room;
//! - of a band call: the first row, the last row, the length of the room; the
//!   time, eight bytes; the length of the rows passed, and their entries;
//! - of border rows: nothing. The number of rows that can be held plays no part.
//!
//! A run under a plan is written as a run in a manner (`call_case`), with 3 in
//! place of the 2 that it begins with, and another tail:
//!
//! - whether rows are counted, 0 or 1; the field's number; the number of counts;
//! - the number of rows that are held; the number of the plan's numbers; the
//!   length of the room;
//! - the marks, one byte each, as many as their length says;
//! - the counts, and the plan, as many as their numbers say.
//!
//! On entry a room holds what scratch does in a run's case. Plans and a
//! planner's room have at most 8,200 numbers, the room of a run 16,400, and all
//! other rooms and grids 4,100.
//!
//! A case is answered by one line: a plan check, and border rows, by
//!
//! ```text
//! number place
//! number place before behind
//! ```
//!
//! a planner call and a band call by what was returned, and the room as it is
//! left,
//!
//! ```text
//! number place bands : p0 p1 ..
//! number place line cell steps count : r0 r1 ..
//! ```
//!
//! and a run as a run in a manner, with a word for the room after that for
//! scratch:
//!
//! ```text
//! number place line cell steps count SCRATCH ROOM : g0 g1 .. : m0m1.. : c0 c1 ..
//! ```

use crate::admission::{Read, Refusal, Report, WORDS};
use crate::banded::run_banded;
use crate::bands::{border_rows, check_plan, plan_bands, step_band, Band, Held};
use crate::call_case::{Call, Left};
use crate::case::{began, put_asked, put_grid, put_read, put_u32};
use crate::case::{report_text, row_text, scratch_on_entry, word};
use crate::names::MAX_NAMES;
use crate::spelling::BUILT_IN;

/// No plan, and no room of a planner, is longer.
pub const MOST_NUMBERS: usize = 8_200;

/// No room of a run under a plan is longer.
pub const MOST_HELD: usize = 16_400;

/// What the calls without a grid are passed alike.
#[derive(Clone, Debug)]
pub struct Asked {
    pub source: Vec<u8>,
    pub words: usize,
    pub names: usize,
    pub shape: Vec<u32>,
    pub held: u32,
}

impl Asked {
    /// With tables of the right lengths.
    pub fn new(source: Vec<u8>, shape: &[u32], held: u32) -> Asked {
        Asked {
            source,
            words: WORDS,
            names: MAX_NAMES,
            shape: shape.to_vec(),
            held,
        }
    }

    pub fn lent(&self) -> Held<'_> {
        Held {
            read: Read {
                source: &self.source,
                list: BUILT_IN,
                words: self.words,
                names: self.names,
            },
            shape: &self.shape,
            held: self.held,
        }
    }

    fn put(&self, kind: u32, out: &mut Vec<u8>) {
        put_u32(out, kind);
        put_read(out, &self.source, self.words, self.names, &self.shape);
        put_u32(out, self.held);
    }
}

fn put_numbers(out: &mut Vec<u8>, row: &[u32]) {
    for &number in row {
        put_u32(out, number);
    }
}

/// A plan check.
#[derive(Clone, Debug)]
pub struct PlanCase {
    pub asked: Asked,
    pub plan: Vec<u32>,
}

impl PlanCase {
    /// Number and place; 0 and 0 if the plan is accepted.
    pub fn made(&self) -> (u32, u32) {
        match check_plan(&self.asked.lent(), &self.plan) {
            Ok(()) => (0, 0),
            Err(Refusal { number, place }) => (number, place),
        }
    }

    pub fn line(&self) -> String {
        plan_line(self.made())
    }

    pub fn put(&self, out: &mut Vec<u8>) {
        self.asked.put(0, out);
        put_u32(out, self.plan.len() as u32);
        put_numbers(out, &self.plan);
    }
}

/// The line that answers a plan check.
pub fn plan_line((number, place): (u32, u32)) -> String {
    format!("{number} {place}\n")
}

/// A planner call.
#[derive(Clone, Debug)]
pub struct PlannerCase {
    pub asked: Asked,
    pub room: usize,
}

/// What the planner returned, and its room.
#[derive(Clone, Debug, PartialEq, Eq)]
pub struct Planned {
    pub number: u32,
    pub place: u32,
    pub bands: u32,
    pub room: Vec<u32>,
}

impl Planned {
    /// The line that answers the call.
    pub fn line(&self) -> String {
        let room = row_text(&self.room);
        format!("{} {} {} :{room}\n", self.number, self.place, self.bands)
    }
}

/// What is in a planner's room on entry.
pub fn numbers_on_entry(length: usize) -> Vec<u32> {
    let row = scratch_on_entry(length).into_iter();
    row.map(|entry| entry as u32).collect()
}

impl PlannerCase {
    pub fn made(&self) -> Planned {
        let mut room = numbers_on_entry(self.room);
        let (number, place, bands) = match plan_bands(&self.asked.lent(), &mut room) {
            Ok(bands) => (0, 0, bands),
            Err(Refusal { number, place }) => (number, place, 0),
        };
        Planned {
            number,
            place,
            bands,
            room,
        }
    }

    pub fn line(&self) -> String {
        self.made().line()
    }

    pub fn put(&self, out: &mut Vec<u8>) {
        self.asked.put(1, out);
        put_u32(out, self.room as u32);
    }
}

/// One band's call.
#[derive(Clone, Debug)]
pub struct BandCase {
    pub asked: Asked,
    pub band: Band,
    pub room: usize,
    pub time: i64,
    pub rows: Vec<i32>,
}

impl BandCase {
    /// What was returned, and the room.
    pub fn made(&self) -> (Report, Vec<i32>) {
        let mut room = scratch_on_entry(self.room);
        let lent = self.asked.lent();
        let report = step_band(&lent, self.band, &self.rows, self.time, &mut room);
        (report, room)
    }

    pub fn line(&self) -> String {
        let (report, room) = self.made();
        band_line(&report, &room)
    }

    pub fn put(&self, out: &mut Vec<u8>) {
        self.asked.put(2, out);
        put_numbers(out, &[self.band.first, self.band.last, self.room as u32]);
        out.extend_from_slice(&self.time.to_le_bytes());
        put_grid(out, &self.rows);
    }
}

/// The line that answers a band call.
pub fn band_line(report: &Report, room: &[i32]) -> String {
    format!("{} :{}\n", report_text(report), row_text(room))
}

/// A run under a plan: what is passed to the full run, and what is passed beside it.
#[derive(Clone, Debug)]
pub struct BandedCase {
    pub call: Call,
    pub held: u32,
    pub plan: Vec<u32>,
    pub room: usize,
}

impl BandedCase {
    /// What the run left, and what became of its room.
    pub fn made(&self) -> (Left, &'static str) {
        let call = &self.call;
        let before = scratch_on_entry(call.run.scratch);
        let room_before = scratch_on_entry(self.room);
        let (mut grid, mut scratch) = (call.run.grid.clone(), before.clone());
        let (mut marks, mut counts) = (call.marks.clone(), call.counts.clone());
        let mut room = room_before.clone();
        let report = run_banded(
            &call.run.lent(),
            &self.plan,
            self.held,
            call.counted.then_some((call.field, &mut counts[..])),
            &mut grid,
            &mut scratch,
            &mut marks,
            &mut room,
        );
        let began = began(report.number);
        let left = Left {
            report,
            grid,
            scratch: word(&scratch, &before, began),
            marks,
            counts,
        };
        (left, word(&room, &room_before, began))
    }

    pub fn line(&self) -> String {
        let (left, room) = self.made();
        banded_line(&left, room)
    }

    pub fn put(&self, out: &mut Vec<u8>) {
        let call = &self.call;
        put_u32(out, 3);
        put_asked(out, &call.run);
        put_numbers(out, &[call.counted.into(), call.field]);
        put_u32(out, call.counts.len() as u32);
        put_u32(out, self.held);
        put_u32(out, self.plan.len() as u32);
        put_u32(out, self.room as u32);
        out.extend_from_slice(&call.marks);
        put_numbers(out, &call.counts);
        put_numbers(out, &self.plan);
    }
}

/// The line that answers a run under a plan, with the word for its room.
pub fn banded_line(left: &Left, room: &str) -> String {
    left.line(&format!("{} {room}", left.scratch))
}

/// A question for the border rows.
#[derive(Clone, Debug)]
pub struct BorderCase {
    pub asked: Asked,
}

/// What is returned of border rows.
#[derive(Clone, Copy, Debug, PartialEq, Eq)]
pub struct Bordered {
    pub number: u32,
    pub place: u32,
    pub before: u32,
    pub behind: u32,
}

impl Bordered {
    /// The line that answers the question.
    pub fn line(&self) -> String {
        let told = [self.number, self.place, self.before, self.behind];
        format!("{}\n", row_text(&told).trim_start())
    }
}

impl BorderCase {
    pub fn made(&self) -> Bordered {
        let (number, place, before, behind) = match border_rows(&self.asked.lent()) {
            // No more than the grid has rows.
            Ok(border) => (0, 0, border.before as u32, border.behind as u32),
            Err(Refusal { number, place }) => (number, place, 0, 0),
        };
        Bordered {
            number,
            place,
            before,
            behind,
        }
    }

    pub fn line(&self) -> String {
        self.made().line()
    }

    pub fn put(&self, out: &mut Vec<u8>) {
        self.asked.put(4, out);
    }
}
