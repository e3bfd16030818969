//! Two grids compared, without a source.

/// The greatest number of entries of a grid to compare.
pub const MOST_ENTRIES: usize = 2_147_483_647;

/// The reply to a comparison, and how many entries differ.
#[derive(Clone, Copy, PartialEq, Eq, Debug)]
pub struct Comparison {
    pub number: u32,
    pub total: u32,
}

/// Lists the entries in which two grids differ, in rising order, as entry
/// number, left value and right value, in a room that has to be of `3 * k`
/// numbers. The first `k` are written, and the remaining room stays.
pub fn compare(left: &[i32], right: &[i32], k: usize, room: &mut [i32]) -> Comparison {
    let same_length = left.len() == right.len();
    if !same_length || left.len() > MOST_ENTRIES || k.checked_mul(3) != Some(room.len()) {
        return Comparison {
            number: 21,
            total: 0,
        };
    }
    let mut places = room.chunks_exact_mut(3);
    let mut total = 0;
    for entry in 0..left.len() {
        if left[entry] == right[entry] {
            continue;
        }
        total += 1;
        if let Some(place) = places.next() {
            place.copy_from_slice(&[entry as i32, left[entry], right[entry]]);
        }
    }
    Comparison { number: 0, total }
}
