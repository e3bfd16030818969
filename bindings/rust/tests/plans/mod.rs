//! Bands and plans, and what calls on them leave in word table and name list.

use cellang::{check, Band, Rooms};
use reference::random::Random;

/// What word table and name list hold on entry.
pub const BEFORE: u32 = 0x5A5A_5A5A;

pub fn band(first: u32, last: u32) -> Band {
    Band { first, last }
}

/// Holds word table and name list, which held [`BEFORE`], to what a check leaves.
pub fn as_checked(source: &[u8], words: &[u32], names: &[u32]) {
    let mut rooms = Rooms::new();
    if source.len() > 65_535 {
        assert!(words.iter().chain(names).all(|&word| word == BEFORE));
        return;
    }
    let _ = check(source, &mut rooms);
    assert!(words == rooms.words() && names == rooms.name_words());
}

/// A plan whose bands have from one row to `most` rows.
pub fn any_plan(random: &mut Random, rows: u32, most: u32) -> Vec<Band> {
    let mut plan = Vec::new();
    let mut first = 0;
    while first < rows {
        let own = 1 + random.below(most as usize) as u32;
        let last = (first + own).min(rows) - 1;
        plan.push(band(first, last));
        first = last + 1;
    }
    plan
}
