//! Comparing two grids.

use crate::foreign;
use crate::replies::Entry;
use std::error::Error;
use std::fmt;
use std::slice;

/// An entry in which two grids differ. In memory it is three numbers of 32
/// bits, in this order.
#[repr(C)]
#[derive(Clone, Copy, PartialEq, Eq, Hash, Debug, Default)]
pub struct Difference {
    /// The number of the entry.
    pub entry: Entry,
    /// Its value in the left grid.
    pub left: i32,
    /// Its value in the right grid.
    pub right: i32,
}

/// Two grids are not compared, reply 21: they are of unlike length or have
/// over 2147483647 entries, or a flat room is not `3 * k` long.
#[derive(Clone, Copy, PartialEq, Eq, Hash, Debug)]
pub struct NotCompared;

impl NotCompared {
    /// The number of the reply.
    pub fn number(&self) -> u32 {
        21
    }
}

impl fmt::Display for NotCompared {
    fn fmt(&self, f: &mut fmt::Formatter<'_>) -> fmt::Result {
        write!(
            f,
            "not compared {}: grids of unlike length or over 2147483647 entries, or room of wrong length",
            self.number()
        )
    }
}

impl Error for NotCompared {}

/// Lists the entries in which two grids differ, in rising order, at the start
/// of `room`: as many as it has places for. The remaining room stays. Returns
/// how many entries differ in all, also where `room` is empty.
///
/// Swapping the grids swaps the two values of each difference, and nothing
/// else.
///
/// ```
/// use cellang::{compare, Difference};
///
/// let mut room = [Difference::default(); 2];
/// let total = compare(&[1, 2, 3, 4], &[1, 5, 0, 9], &mut room)?;
/// assert_eq!(total, 3);
/// assert_eq!((room[0].entry.index(), room[0].left, room[0].right), (1, 2, 5));
/// assert_eq!((room[1].entry.index(), room[1].left, room[1].right), (2, 3, 0));
/// # Ok::<(), cellang::NotCompared>(())
/// ```
pub fn compare(left: &[i32], right: &[i32], room: &mut [Difference]) -> Result<u32, NotCompared> {
    let k = room.len();
    // SAFETY: a difference has the layout of three `i32`, and every value of
    // these is a difference.
    let flat = unsafe { slice::from_raw_parts_mut(room.as_mut_ptr().cast::<i32>(), 3 * k) };
    compare_flat(left, right, k, flat)
}

/// Lists the entries in which two grids differ as [`compare`] does, in a room
/// of plain numbers, which has to be `3 * k` long: entry number, left value and
/// right value of each difference.
pub fn compare_flat(
    left: &[i32],
    right: &[i32],
    k: usize,
    room: &mut [i32],
) -> Result<u32, NotCompared> {
    let mut reply = [0; foreign::COMPARISON];
    // SAFETY: each pointer and length is those of a slice, and the slices
    // that are written overlap nothing.
    unsafe {
        foreign::cellang_compare(
            left.as_ptr(),
            left.len(),
            right.as_ptr(),
            right.len(),
            k,
            room.as_mut_ptr(),
            room.len(),
            reply.as_mut_ptr(),
            reply.len(),
        );
    }
    match reply {
        [0, total] => Ok(total),
        [21, _] => Err(NotCompared),
        [number, _] => unreachable!("reply {number} to a comparison"),
    }
}
