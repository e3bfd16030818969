//! The writer: the cells that differ in two grids as a block of a list.

use crate::admission::{admit_grid, program_of, Asked, Read, Refusal};
use crate::one_move::flag;
use crate::tree::Program;

/// What the writer is passed beside its room.
#[derive(Clone, Copy)]
pub struct Wanted<'a> {
    pub read: Read<'a>,
    pub shape: &'a [u32],
    /// The grids at the last block and now.
    pub earlier: &'a [i32],
    pub later: &'a [i32],
    pub time: i64,
}

/// The reply, and the text's length where it was written.
#[derive(Clone, Copy, PartialEq, Eq, Debug, Default)]
pub struct Written {
    pub number: u32,
    pub place: u32,
    pub length: u64,
}

/// A grid is checked as for a run of 0 steps from the time on.
fn admit_one(program: &Program, wanted: &Wanted, grid: &[i32]) -> Result<(), Refusal> {
    let asked = Asked {
        shape: wanted.shape,
        grid,
        rooms: None,
        held: None,
        start: wanted.time,
        steps: 0,
    };
    admit_grid(program, &asked)
}

/// Both grids: the reply is the lowest number, and of equal ones the earlier grid's.
fn admit_both(program: &Program, wanted: &Wanted) -> Result<(), Refusal> {
    let earlier = admit_one(program, wanted, wanted.earlier).err();
    let later = admit_one(program, wanted, wanted.later).err();
    let refusals = earlier.into_iter().chain(later);
    match refusals.min_by_key(|refusal| refusal.number) {
        Some(refusal) => Err(refusal),
        None => Ok(()),
    }
}

fn joined<T: ToString>(row: impl Iterator<Item = T>) -> String {
    let parts: Vec<String> = row.map(|part| part.to_string()).collect();
    parts.join(", ")
}

/// The index of a cell.
fn index_of(shape: &[u32], cell: usize) -> Vec<usize> {
    let mut rest = cell;
    let mut index: Vec<usize> = Vec::new();
    for &size in shape.iter().rev() {
        index.insert(0, rest % size as usize);
        rest /= size as usize;
    }
    index
}

/// The time's line, then a line for each cell that differs, with all fields. The
/// flag of a rule that moves a pixel once is left missing where it is 0.
pub fn text_of(program: &Program, wanted: &Wanted) -> String {
    let fields = program.fields.len();
    let flag = flag(wanted.read.source, program);
    let shown = |(field, value): (usize, &i32)| match value {
        0 if flag == Some(field) => String::new(),
        _ => value.to_string(),
    };
    let mut text = format!("{}\n", wanted.time);
    let earlier = wanted.earlier.chunks(fields);
    for (cell, (old, new)) in earlier.zip(wanted.later.chunks(fields)).enumerate() {
        if old != new {
            let index = joined(index_of(wanted.shape, cell).into_iter());
            text += &format!(
                "[{index}] = {}\n",
                joined(new.iter().enumerate().map(shown))
            );
        }
    }
    text
}

/// Writes the text into the front of a room; a refusal leaves it as it was.
pub fn write_list(wanted: &Wanted, room: &mut [u8]) -> Written {
    let admitted = program_of(&wanted.read).and_then(|program| {
        admit_both(&program, wanted)?;
        Ok(program)
    });
    let program = match admitted {
        Ok(program) => program,
        Err(refusal) => {
            return Written {
                number: refusal.number,
                place: refusal.place,
                length: 0,
            }
        }
    };
    let text = text_of(&program, wanted);
    let Some(front) = room.get_mut(..text.len()) else {
        return Written {
            number: 57,
            ..Written::default()
        };
    };
    front.copy_from_slice(text.as_bytes());
    Written {
        length: text.len() as u64,
        ..Written::default()
    }
}
