//! Generated band calls, and runs under a plan.

use crate::admission::GREATEST;
use crate::band_case::{Asked, BandCase, BandedCase, MOST_HELD};
use crate::bands::{row_entries, rows_lent, Band};
use crate::call_case::{Call, MOST_ENTRIES};
use crate::case::RunCase;
use crate::listed::give_list;
use crate::moving;
use crate::parse::check;
use crate::pausing::Manner;
use crate::plans::{ground, held, plan_and_held, Rows};
use crate::random::Random;
use crate::resumed::any_marks;
use crate::runs::disturb;

/// The entries of a row, where the sizes are right.
fn entries_of(case: &RunCase) -> Option<usize> {
    let program = check(&case.source).program?;
    let right = case.shape.len() == program.dimensions;
    let cells: u64 = case.shape.iter().map(|&size| u64::from(size)).product();
    let entries = cells * program.fields.len() as u64;
    (right && entries == case.grid.len() as u64 && entries > 0)
        .then(|| row_entries(&program, &case.shape))
}

/// Makes one thing about a band call wrong, or puts it at a limit.
fn disturb_band(random: &mut Random, case: &mut BandCase, row: usize) {
    let rows = case.asked.shape.first().map_or(1, |&size| size);
    let Band { first, last } = case.band;
    match random.below(20) {
        0 => case.band = Band::new(last.wrapping_add(1), last),
        1 => case.band = Band::new(last.max(1), first.min(last.max(1) - 1)),
        2 => case.band = Band::new(first, rows),
        3 => case.band.last = *random.pick(&[u32::MAX, 1 << 31, rows, last.wrapping_add(1)]),
        4 => case.band.first = *random.pick(&[u32::MAX, rows, first.wrapping_add(1), 0]),
        5 | 6 => case.asked.held = case.asked.held.saturating_sub(1),
        7 => case.asked.held = *random.pick(&[0, 1, u32::MAX]),
        8 => {
            case.rows.pop();
        }
        9 => case.rows.push(0),
        10 => case.rows.truncate(case.rows.len().saturating_sub(row)),
        11 => case.room = case.room.saturating_sub(*random.pick(&[1, row])),
        12 => case.room += *random.pick(&[1, row]),
        13 => case.time = *random.pick(&[-1, i64::MIN, GREATEST, GREATEST + 1, i64::MAX]),
        14 => case.time = GREATEST - 1,
        15 => case.asked.words = *random.pick(&[0, 16_383, 16_385]),
        16 => case.asked.names = *random.pick(&[0, 255, 257]),
        _ if !case.rows.is_empty() => {
            for _ in 0..1 + random.below(2) {
                let at = random.below(case.rows.len());
                case.rows[at] = *random.pick(&[i32::MIN, i32::MAX, -9, 10, 256]);
            }
        }
        _ => {}
    }
}

/// One band's call. Most have the rows of a grid; few have others, or something
/// wrong.
pub fn any_band(random: &mut Random) -> BandCase {
    let case = ground(random);
    let rows = Rows::of(&case.source, &case.shape);
    let mut asked = Asked::new(case.source.clone(), &case.shape, held(random, &rows, 3));
    (asked.words, asked.names) = (case.words, case.names);
    let most = rows.most(asked.held).clamp(1, rows.rows.into()) as usize;
    let own = 1 + random.below(most);
    let own = *random.pick(&[1, most, own]) as u32;
    let first = random.below((rows.rows - own) as usize + 1) as u32;
    let first = *random.pick(&[first, first, 0, rows.rows - own]);
    let band = Band::new(first, first + own - 1);
    let row = entries_of(&case);
    let lent = row.filter(|&row| {
        let with = rows.border.rows_with(band);
        with.saturating_mul(row as u64) <= MOST_ENTRIES as u64
    });
    let mut case = BandCase {
        asked,
        band,
        room: (own as usize * row.unwrap_or(1)).min(MOST_ENTRIES),
        time: if random.chance(80) {
            random.between(0, 9)
        } else {
            random.between(0, GREATEST - 1)
        },
        rows: match lent {
            Some(row) => rows_lent(rows.border, band, rows.rows, row, &case.grid),
            None => vec![0; random.below(9)],
        },
    };
    if random.chance(20) {
        disturb_band(random, &mut case, row.unwrap_or(1));
        while random.chance(25) {
            disturb_band(random, &mut case, row.unwrap_or(1));
        }
    }
    case
}

/// A full run, which may have a list and may count.
fn full(random: &mut Random, small: bool) -> Call {
    if random.chance(10) {
        return moving::any(random, small).in_manner(Manner::Full);
    }
    let mut case = ground(random);
    if random.chance(4) && !case.shape.is_empty() {
        disturb(random, &mut case);
    }
    if random.chance(45) {
        give_list(random, &mut case, 20);
    }
    let fields = check(&case.source)
        .program
        .map_or(1, |program| program.fields.len());
    let rows = case.shape.first().map_or(1, |&size| size as usize);
    let marks = any_marks(random, case.marks.min(MOST_ENTRIES));
    let call = Call::new(case, Manner::Full, marks);
    if random.chance(70) {
        return call;
    }
    let past = usize::from(random.chance(5));
    let rows = (rows + usize::from(random.chance(3))).min(MOST_ENTRIES);
    call.counting(random.below(fields + past) as u32, vec![7; rows])
}

/// A run under a plan, accepted in most cases.
pub fn any_banded(random: &mut Random, small: bool) -> BandedCase {
    let call = full(random, small);
    let rows = Rows::of(&call.run.source, &call.run.shape);
    let (plan, mut held) = plan_and_held(random, &rows, 12);
    let row = entries_of(&call.run).unwrap_or(1);
    // No room is longer than needed for a run that begins, but for few.
    let whole = rows.border.rows_with(Band::new(0, rows.rows - 1));
    let most = (MOST_HELD / row) as u64;
    if u64::from(held) > most && random.chance(95) {
        held = (whole + random.below(3) as u64).min(most) as u32;
    }
    let right = (held as usize).saturating_mul(row).min(MOST_HELD);
    let room = match random.below(40) {
        0 => *random.pick(&[right.saturating_sub(1), right + 1, 0, right + row]),
        _ => right,
    };
    BandedCase {
        call,
        held,
        plan,
        room: room.min(MOST_HELD),
    }
}
