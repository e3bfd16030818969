//! Runs in a manner: the cases, their answers, and their binary form.
//!
//! The binary form. Every number has its lowest byte first, four bytes where
//! nothing else is said. A case is a run's, with 2 in place of the 0 that it
//! begins with, and a tail after it:
//!
//! - 2;
//! - the length of the source, and the source;
//! - the length of the word table, in words, and of the name list, in records;
//! - the number of sizes, and the sizes;
//! - the length of the grid, and its entries;
//! - the length of scratch, and of the marks;
//! - the start time and the number of steps, eight bytes each;
//! - the length of the value list, and the list;
//! - the manner: 0 full, 1 quiet, 2 pausing, 3 resuming;
//! - whether rows are counted, 0 or 1; the field's number; the number of counts;
//! - the marks, one byte each, as many as their length says;
//! - the counts, as many as their number says.
//!
//! Marks and counts are passed in every manner, also where nothing is counted, and
//! are what is there on entry. On entry scratch holds what it does in a
//! run's case. Grid, scratch, marks and counts have at most 4,100 entries each,
//! the list at most 4,096 bytes.
//!
//! A case is answered by one line:
//!
//! ```text
//! number place line cell steps count SCRATCH : g0 g1 .. : m0m1.. : c0 c1 ..
//! ```
//!
//! SCRATCH is `zero`, `same` or `other`, as in a run's line. Then follow the
//! grid, the marks, and the counts as they are left: of the grid and of the
//! counts each number after a space, of the marks two hexadecimal digits each,
//! the first after a space. So a line without counts ends with a colon.

use crate::admission::Report;
use crate::case::{began, put_asked, put_u32, report_text, row_text, scratch_on_entry, word};
use crate::case::{marks_on_entry, RunCase};
use crate::pausing::{run, Manner};
use crate::rows::run_counted;

/// No rooms of a case are longer.
pub const MOST_ENTRIES: usize = 4_100;

/// A run, its manner, the marks that are passed, and what it is to count.
#[derive(Clone, Debug)]
pub struct Call {
    pub run: RunCase,
    pub manner: Manner,
    pub marks: Vec<u8>,
    pub counted: bool,
    pub field: u32,
    pub counts: Vec<u32>,
}

/// What a call left.
#[derive(Clone, Debug, PartialEq, Eq)]
pub struct Left {
    pub report: Report,
    pub grid: Vec<i32>,
    pub scratch: &'static str,
    pub marks: Vec<u8>,
    pub counts: Vec<u32>,
}

impl Left {
    /// Whether the run began.
    pub fn began(&self) -> bool {
        began(self.report.number)
    }

    pub fn faulted(&self) -> bool {
        self.began() && self.report.number != 0
    }

    /// The line of what is left, with the words for its rooms.
    pub fn line(&self, rooms: &str) -> String {
        let report = report_text(&self.report);
        let grid = row_text(&self.grid);
        let digits = self.marks.iter().map(|mark| format!("{mark:02x}"));
        let marks: String = digits.collect();
        let counts = row_text(&self.counts);
        format!("{report} {rooms} :{grid} : {marks} :{counts}\n")
    }
}

impl Call {
    pub fn new(run: RunCase, manner: Manner, marks: Vec<u8>) -> Call {
        let run = RunCase {
            marks: marks.len(),
            ..run
        };
        Call {
            run,
            manner,
            marks,
            counted: false,
            field: 0,
            counts: Vec::new(),
        }
    }

    /// The same call, asked to count the zeros of a field.
    pub fn counting(self, field: u32, counts: Vec<u32>) -> Call {
        Call {
            counted: true,
            field,
            counts,
            ..self
        }
    }

    /// A call that begins afresh; what is in its marks is not read.
    pub fn pausing(run: RunCase) -> Call {
        let marks = marks_on_entry(run.marks.min(MOST_ENTRIES));
        Call::new(run, Manner::Pausing, marks)
    }

    /// The call that resumes this one: source and shape are the same, grid,
    /// marks and counts as they are left, and the time has moved on by the steps.
    pub fn resumed(&self, left: &Left, steps: i64, list: &[u8]) -> Call {
        let run = RunCase {
            grid: left.grid.clone(),
            start: self.run.start + i64::from(left.report.steps),
            steps,
            ..self.run.clone()
        };
        Call {
            counted: self.counted,
            field: self.field,
            counts: left.counts.clone(),
            ..Call::new(run.with_list(list), Manner::Resuming, left.marks.clone())
        }
    }

    /// The same run in another manner.
    pub fn in_manner(&self, manner: Manner) -> Call {
        Call {
            manner,
            ..self.clone()
        }
    }

    /// Makes the call.
    pub fn made(&self) -> Left {
        let mut grid = self.run.grid.clone();
        let before = scratch_on_entry(self.run.scratch);
        let mut scratch = before.clone();
        let mut marks = self.marks.clone();
        let mut counts = self.counts.clone();
        let lent = self.run.lent();
        let rooms = (&mut grid[..], &mut scratch[..], &mut marks[..]);
        let report = if self.counted {
            let (field, counts) = (self.field, &mut counts[..]);
            run_counted(&lent, self.manner, field, counts, rooms.0, rooms.1, rooms.2)
        } else {
            run(&lent, self.manner, rooms.0, rooms.1, rooms.2)
        };
        Left {
            report,
            grid,
            scratch: word(&scratch, &before, began(report.number)),
            marks,
            counts,
        }
    }
}

/// The line that answers a call.
pub fn call_line(left: &Left) -> String {
    left.line(left.scratch)
}

/// The binary form of a call.
pub fn put_call(out: &mut Vec<u8>, call: &Call) {
    put_u32(out, 2);
    put_asked(out, &call.run);
    put_u32(out, call.manner as u32);
    put_u32(out, call.counted.into());
    put_u32(out, call.field);
    put_u32(out, call.counts.len() as u32);
    out.extend_from_slice(&call.marks);
    for &count in &call.counts {
        put_u32(out, count);
    }
}
