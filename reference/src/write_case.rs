//! Writings: the cases, their answers, and their binary form.

use crate::admission::{Read, WORDS};
use crate::case::{put_grid, put_read, put_u32};
use crate::names::MAX_NAMES;
use crate::one_move::flag;
use crate::parse::check;
use crate::spelling::BUILT_IN;
use crate::writing::{write_list, Wanted, Written};

/// One writing: the source, what is passed, the two grids, the time, and the
/// length of the room.
#[derive(Clone, Debug)]
pub struct WriteCase {
    pub source: Vec<u8>,
    pub words: usize,
    pub names: usize,
    pub shape: Vec<u32>,
    pub earlier: Vec<i32>,
    pub later: Vec<i32>,
    pub time: i64,
    pub room: usize,
}

impl WriteCase {
    /// A case in which the tables have the right lengths.
    pub fn new(
        source: Vec<u8>,
        shape: &[u32],
        earlier: Vec<i32>,
        later: Vec<i32>,
        time: i64,
        room: usize,
    ) -> WriteCase {
        WriteCase {
            source,
            words: WORDS,
            names: MAX_NAMES,
            shape: shape.to_vec(),
            earlier,
            later,
            time,
            room,
        }
    }

    pub fn wanted(&self) -> Wanted<'_> {
        Wanted {
            read: Read {
                source: &self.source,
                list: BUILT_IN,
                words: self.words,
                names: self.names,
            },
            shape: &self.shape,
            earlier: &self.earlier,
            later: &self.later,
            time: self.time,
        }
    }

    /// Whether the flag of some cell, in a rule that moves a pixel once, falls
    /// from 1 to 0: then reading back is not claimed.
    pub fn flag_falls(&self) -> bool {
        let Some(program) = check(&self.source).program else {
            return false;
        };
        let fields = program.fields.len();
        let mut cells = self.earlier.chunks(fields).zip(self.later.chunks(fields));
        flag(&self.source, &program)
            .is_some_and(|flag| cells.any(|(old, new)| old[flag] > new[flag]))
    }
}

/// What is in the room on entry.
pub fn room_on_entry(length: usize) -> Vec<u8> {
    (0..length).map(|i| ((i * 3 + 5) % 256) as u8).collect()
}

/// What a writing returned, and the room it left.
pub fn write_case(case: &WriteCase) -> (Written, Vec<u8>) {
    let mut room = room_on_entry(case.room);
    let written = write_list(&case.wanted(), &mut room);
    (written, room)
}

/// The line that answers a writing: the numbers, and the room's bytes, each in
/// two hexadecimal digits.
pub fn writing_line(case: &WriteCase) -> String {
    let (written, room) = write_case(case);
    let (number, place, length) = (written.number, written.place, written.length);
    let mut line = format!("{number} {place} {length} : ");
    for byte in room {
        line += &format!("{byte:02x}");
    }
    line + "\n"
}

/// The binary form of a writing, which begins with 1 (of a run, with 0).
pub fn put_writing(out: &mut Vec<u8>, case: &WriteCase) {
    put_u32(out, 1);
    put_read(out, &case.source, case.words, case.names, &case.shape);
    put_grid(out, &case.earlier);
    put_grid(out, &case.later);
    out.extend_from_slice(&case.time.to_le_bytes());
    put_u32(out, case.room as u32);
}
