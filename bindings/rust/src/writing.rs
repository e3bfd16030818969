//! Writing value lists.

use crate::calls::{cells_of, BUILT_IN};
use crate::foreign;
use crate::replies::{written_answer, NotWritten};
use crate::rooms::Rooms;

/// The memory that the writer is passed beside the grids.
#[derive(Debug)]
pub struct WriterLent<'a> {
    /// The word table, [`WORDS`](crate::WORDS) long.
    pub words: &'a mut [u32],
    /// The name list, [`NAME_WORDS`](crate::NAME_WORDS) long.
    pub names: &'a mut [u32],
    /// The room for the text.
    pub room: &'a mut [u8],
}

/// Writes the value list that leads from one grid to another: a line with the
/// time, and then, in rising order, a line with all fields for each cell whose
/// fields differ.
///
/// Both grids are checked as for a run of 0 steps that starts at the time.
/// Such a run on the earlier grid, with the text as its list, leaves the later
/// one. In a rule that moves a pixel once (see
/// [`check_one_move`](crate::check_one_move)) a `moved` that is 0 in the later
/// grid is left missing; there this holds if no cell has 1 for `moved` in the
/// earlier grid and 0 in the later. The room for the text is allocated, as long as the text can be; see
/// [`write_list_in`].
///
/// ```
/// use cellang::{write_list, Mode, Rooms, Run};
///
/// let source = b"2 dimensions of a of 0..9 b of -99..99 end";
/// let earlier = [1, 2, 3, 4, 5, 6, 7, 8];
/// let later = [1, 2, 0, 4, 5, 6, 7, -12];
/// let mut rooms = Rooms::new();
/// let text = write_list(source, &[2, 2], &earlier, &later, 40, &mut rooms)?;
/// assert_eq!(text, b"40\n[0, 1] = 0, 4\n[1, 1] = 7, -12\n");
///
/// let mut grid = earlier;
/// let run = Run::new(source, &[2, 2], 40, 0, Mode::Full).with_list(&text);
/// run.on(&mut grid, &mut rooms).expect("the list passes");
/// assert_eq!(grid, later);
/// # Ok::<(), cellang::NotWritten>(())
/// ```
pub fn write_list<'a>(
    source: &'a [u8],
    shape: &[u32],
    earlier: &[i32],
    later: &[i32],
    time: i64,
    rooms: &mut Rooms,
) -> Result<Vec<u8>, NotWritten<'a>> {
    let mut text = vec![0; most_bytes(shape, earlier, later)];
    let lent = WriterLent {
        words: &mut rooms.words,
        names: &mut rooms.names,
        room: &mut text,
    };
    let length = write_list_in(source, shape, earlier, later, time, lent)?;
    text.truncate(length);
    text.shrink_to_fit();
    Ok(text)
}

/// Writes a value list as [`write_list`] does, in the caller's buffers.
/// Returns the length of the text, which is at the front of the room. The
/// remaining room stays, and all of it where nothing is written.
pub fn write_list_in<'a>(
    source: &'a [u8],
    shape: &[u32],
    earlier: &[i32],
    later: &[i32],
    time: i64,
    lent: WriterLent<'_>,
) -> Result<usize, NotWritten<'a>> {
    let mut reply = [0; foreign::WRITTEN];
    // SAFETY: each pointer and length is those of a slice, and the slices
    // that are written overlap nothing.
    unsafe {
        foreign::cellang_write_list(
            source.as_ptr(),
            source.len(),
            BUILT_IN.as_ptr(),
            BUILT_IN.len(),
            lent.words.as_mut_ptr(),
            lent.words.len(),
            lent.names.as_mut_ptr(),
            lent.names.len(),
            shape.as_ptr(),
            shape.len(),
            earlier.as_ptr(),
            earlier.len(),
            later.as_ptr(),
            later.len(),
            time,
            lent.room.as_mut_ptr(),
            lent.room.len(),
            reply.as_mut_ptr(),
            reply.len(),
        );
    }
    written_answer(source, BUILT_IN, reply)
}

/// The most bytes that a time's line has: ten digits and the line's end.
const MOST_TIME_LINE: usize = 11;

/// The most bytes that a cell's line has: four digits an index, a sign and ten
/// digits a value, and what is between and around them.
fn most_cell_line(dimensions: usize, fields: usize) -> usize {
    6 * dimensions + 13 * fields + 2
}

/// The most bytes that a text can have. Of grids that are not admitted it means
/// nothing: they are refused before the room is looked at.
fn most_bytes(shape: &[u32], earlier: &[i32], later: &[i32]) -> usize {
    let fields = earlier.len().checked_div(cells_of(shape)).unwrap_or(0);
    if fields == 0 || shape.len() > 3 {
        return 0;
    }
    let both = earlier.chunks(fields).zip(later.chunks(fields));
    let differing = both.filter(|(old, new)| old != new).count();
    MOST_TIME_LINE + differing * most_cell_line(shape.len(), fields)
}

#[cfg(test)]
mod tests {
    use super::*;

    #[test]
    fn the_longest_lines() {
        let least = -2_147_483_647;
        let names = ["a", "b", "c", "d", "e", "f", "g", "h"];
        for (shape, long) in [
            (&[4_096][..], "[4095]"),
            (&[1, 4_096], "[0, 4095]"),
            (&[1, 1, 4_096], "[0, 0, 4095]"),
        ] {
            for fields in [1, 2, 8] {
                let list = names[..fields].join(", ");
                let range = "-2147483647..2147483647";
                let source = format!("{} dimensions of {list} of {range} end", shape.len());
                let earlier = vec![0; 4_096 * fields];
                let later = vec![least; 4_096 * fields];
                let mut rooms = Rooms::new();
                let time = 2_147_483_647;
                let written =
                    write_list(source.as_bytes(), shape, &earlier, &later, time, &mut rooms);
                let text = String::from_utf8(written.expect("written")).expect("text");
                let mut lines = text.lines();
                assert_eq!(lines.next().map(str::len), Some(MOST_TIME_LINE - 1));
                let last = lines.next_back().expect("a cell's line");
                assert_eq!(last.split(" = ").next(), Some(long));
                // The sizes that are 1 have one digit, where four are reckoned.
                let saved = 3 * (shape.len() - 1);
                assert_eq!(last.len() + 1 + saved, most_cell_line(shape.len(), fields));
                assert!(text.len() <= most_bytes(shape, &earlier, &later));
            }
        }
    }

    #[test]
    fn the_header_says_the_same() {
        let header = include_str!("../../../include/cellang.h");
        for text in [
            "#define CELLANG_MOST_TIME_LINE 11\n",
            "#define CELLANG_MOST_CELL_LINE(dimensions, fields) (6 * (dimensions) + 13 * (fields) + 2)\n",
        ] {
            assert!(header.contains(text));
        }
    }
}
