//! What is tried before a run or a writing: the lengths of the tables, the
//! source, 20 to 24, a run's counts, its list, and its plan.

use crate::bands::{accepted, border};
use crate::lists::{read_list, Block, Limits};
use crate::names::MAX_NAMES;
use crate::one_move::flag;
use crate::parse::check;
use crate::spelling::BUILT_IN;
use crate::tree::Program;

pub const WORDS: usize = 16_384;
pub const MAX_SIZE: u32 = 4_096;
pub const MAX_CELLS: u64 = 1_048_576;
pub const GREATEST: i64 = 2_147_483_647;

#[derive(Clone, Copy, PartialEq, Eq, Debug, Default)]
pub struct Report {
    pub number: u32,
    pub place: u32,
    pub line: u64,
    pub cell: u32,
    pub steps: u32,
    pub count: u64,
}

/// A refusal that has a number and a place.
#[derive(Clone, Copy, PartialEq, Eq, Debug)]
pub struct Refusal {
    pub number: u32,
    pub place: u32,
}

impl From<Refusal> for Report {
    fn from(refusal: Refusal) -> Report {
        Report {
            number: refusal.number,
            place: refusal.place,
            ..Report::default()
        }
    }
}

/// A source with what is passed beside it in every call that reads one: the
/// built-in list, and the lengths of the word table and the name list.
#[derive(Clone, Copy)]
pub struct Read<'a> {
    pub source: &'a [u8],
    pub list: &'a [u8],
    pub words: usize,
    pub names: usize,
}

impl Read<'_> {
    /// A source, with all that is passed beside it as it has to be.
    pub fn of(source: &[u8]) -> Read<'_> {
        Read {
            source,
            list: BUILT_IN,
            words: WORDS,
            names: MAX_NAMES,
        }
    }
}

/// The program of a source that is accepted.
pub fn program_of(read: &Read) -> Result<Program, Refusal> {
    if read.list != BUILT_IN || read.words != WORDS || read.names != MAX_NAMES {
        return refused(1, 0);
    }
    let checked = check(read.source);
    checked.program.ok_or(Refusal {
        number: checked.reply.number,
        place: checked.reply.place,
    })
}

fn refused<T>(number: u32, place: u32) -> Result<T, Refusal> {
    Err(Refusal { number, place })
}

/// 20: the sizes are wrong. Else the number of cells.
pub fn admit_sizes(program: &Program, shape: &[u32]) -> Result<usize, Refusal> {
    cells_of(program, shape).map_or(refused(20, 0), Ok)
}

/// 22: a time is negative, or the last over the greatest value.
pub fn admit_times(start: i64, steps: i64) -> Result<(), Refusal> {
    let last = i128::from(start) + i128::from(steps);
    if start < 0 || steps < 0 || last > i128::from(GREATEST) {
        return refused(22, 0);
    }
    Ok(())
}

/// 23: an index is larger in size than its dimension.
pub fn admit_indices(program: &Program, shape: &[u32]) -> Result<(), Refusal> {
    for written in &program.written {
        let size = i64::from(shape[written.dimension]);
        if i64::from(written.low).abs() > size || i64::from(written.high).abs() > size {
            return refused(23, written.place);
        }
    }
    Ok(())
}

/// 24: an entry is outside its field's range.
pub fn admit_entries(program: &Program, entries: &[i32]) -> Result<(), Refusal> {
    for (entry, value) in entries.iter().enumerate() {
        let field = program.fields[entry % program.fields.len()];
        if *value < field.low || *value > field.high {
            return refused(24, entry as u32);
        }
    }
    Ok(())
}

/// The number of cells, or none if the sizes are wrong.
fn cells_of(program: &Program, shape: &[u32]) -> Option<usize> {
    let holds = shape.iter().all(|size| (1..=MAX_SIZE).contains(size));
    if shape.len() != program.dimensions || !holds {
        return None;
    }
    let cells: u64 = shape.iter().map(|&size| u64::from(size)).product();
    (cells <= MAX_CELLS).then_some(cells as usize)
}

/// What 20 to 24 are tried on, beside the program. Without rooms, those of
/// the right lengths are supposed.
pub struct Asked<'a> {
    pub shape: &'a [u32],
    pub grid: &'a [i32],
    /// The lengths of scratch and marks.
    pub rooms: Option<(usize, usize)>,
    /// The rows that a run under a plan holds, and the length of its room.
    pub held: Option<(u32, usize)>,
    pub start: i64,
    pub steps: i64,
}

/// 20 to 24, in this order.
pub fn admit_grid(program: &Program, asked: &Asked) -> Result<(), Refusal> {
    let cells = admit_sizes(program, asked.shape)?;
    let entries = cells * program.fields.len();
    let rooms = asked.rooms.unwrap_or((entries, cells));
    if asked.grid.len() != entries || rooms != (entries, cells) {
        return refused(21, 0);
    }
    if let Some((held, room)) = asked.held {
        let row = (entries / asked.shape[0] as usize) as u128;
        if room as u128 != u128::from(held) * row {
            return refused(21, 0);
        }
    }
    admit_times(asked.start, asked.steps)?;
    admit_indices(program, asked.shape)?;
    admit_entries(program, asked.grid)
}

/// What is passed to a run beside the memory it writes.
#[derive(Clone, Copy)]
pub struct Lent<'a> {
    pub source: &'a [u8],
    /// The built-in list.
    pub list: &'a [u8],
    pub words: usize,
    pub names: usize,
    pub shape: &'a [u32],
    /// The timed value list; an empty one is none.
    pub values: &'a [u8],
    pub start: i64,
    pub steps: i64,
}

/// What a run is to count: the zeros of a field, into so many counts.
#[derive(Clone, Copy, PartialEq, Eq, Debug)]
pub struct Counted {
    pub field: u32,
    pub counts: usize,
}

/// The plan that a run is under: so many rows are held, in a room of so many
/// entries.
#[derive(Clone, Copy, PartialEq, Eq, Debug)]
pub struct Under<'a> {
    pub plan: &'a [u32],
    pub held: u32,
    pub room: usize,
}

/// The request of a run beside its steps.
#[derive(Clone, Copy, PartialEq, Eq, Debug, Default)]
pub struct Beside<'a> {
    pub counted: Option<Counted>,
    pub under: Option<Under<'a>>,
}

/// 61: no such field, or counts that are not one a row.
fn admit_counts(program: &Program, shape: &[u32], counted: Counted) -> Result<(), Refusal> {
    let rows = shape[0] as usize;
    if counted.field as usize >= program.fields.len() || counted.counts != rows {
        return refused(61, 0);
    }
    Ok(())
}

/// 60: the plan is not accepted.
fn admit_plan(program: &Program, shape: &[u32], under: Under) -> Result<(), Refusal> {
    if !accepted(shape[0], border(program), under.held, under.plan) {
        return refused(60, 0);
    }
    Ok(())
}

/// The program and the blocks of a run that is admitted, or its refusal.
pub fn admit(
    lent: &Lent,
    grid: &[i32],
    scratch: &[i32],
    marks: &[u8],
) -> Result<(Program, Vec<Block>), Report> {
    admit_beside(lent, grid, scratch, marks, Beside::default())
}

/// The same of a run with a longer request: 61 is tried after 24 and before
/// the list, 60 last.
pub fn admit_beside(
    lent: &Lent,
    grid: &[i32],
    scratch: &[i32],
    marks: &[u8],
    beside: Beside,
) -> Result<(Program, Vec<Block>), Report> {
    let program = program_of(&Read {
        source: lent.source,
        list: lent.list,
        words: lent.words,
        names: lent.names,
    })?;
    let asked = Asked {
        shape: lent.shape,
        grid,
        rooms: Some((scratch.len(), marks.len())),
        held: beside.under.map(|under| (under.held, under.room)),
        start: lent.start,
        steps: lent.steps,
    };
    admit_grid(&program, &asked)?;
    if let Some(counted) = beside.counted {
        admit_counts(&program, lent.shape, counted)?;
    }
    let limits = Limits {
        sizes: lent.shape,
        fields: &program.fields,
        flag: flag(lent.source, &program),
        start: lent.start,
        steps: lent.steps,
    };
    let blocks = read_list(lent.values, &limits).map_err(|bad| Report {
        number: bad.number,
        line: bad.line,
        ..Report::default()
    })?;
    if let Some(under) = beside.under {
        admit_plan(&program, lent.shape, under)?;
    }
    Ok((program, blocks))
}
