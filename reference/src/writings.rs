//! Generated writings: two grids of few cells, of which few, all or none
//! differ.

use crate::admission::GREATEST;
use crate::case::cells_of;
use crate::damage::damage_bytes;
use crate::one_move::flag;
use crate::parse::check;
use crate::random::Random;
use crate::runs;
use crate::tree::Program;
use crate::write_case::WriteCase;
use crate::writing::text_of;

/// No room is longer.
pub const MOST_ROOM: usize = 4_096;

const NAMES: [&str; 8] = ["a", "b", "c", "d", "e", "f", "g", "h"];

fn range(random: &mut Random) -> (i64, i64) {
    match random.below(7) {
        0 => (0, 1),
        1 => (-9, 9),
        2 => (-GREATEST, GREATEST),
        3 => (0, GREATEST),
        4 => (-GREATEST, 0),
        5 => (-100, -9),
        _ => {
            let low = random.between(-1_000_000, 1_000_000);
            (low, low + random.between(0, 100_000))
        }
    }
}

/// A source that declares 1 to 8 fields, and has a rule in some cases.
fn declaration(random: &mut Random) -> String {
    let dimensions = 1 + random.below(3);
    let fields = if random.chance(60) {
        1 + random.below(3)
    } else {
        1 + random.below(8)
    };
    let mut text = format!("{dimensions} dimensions of ");
    if fields == 1 && random.chance(50) {
        let (low, high) = range(random);
        return text + &format!("{low}..{high}");
    }
    for name in &NAMES[..fields] {
        let (low, high) = range(random);
        let fixed = if random.chance(20) { "const " } else { "" };
        text += &format!("{fixed}{name} of {low}..{high} ");
    }
    text += "end";
    if random.chance(20) {
        let index = ["[2]", "[-2,0]", "[0,1,3]"][dimensions - 1];
        text += &format!(" x := {index}.{}", NAMES[random.below(fields)]);
    }
    text
}

fn shape(random: &mut Random, dimensions: usize) -> Vec<u32> {
    let most = [12, 5, 3][dimensions - 1];
    let mut shape: Vec<u32> = (0..dimensions)
        .map(|_| 1 + random.below(most) as u32)
        .collect();
    if random.chance(10) {
        shape[random.below(dimensions)] = 10 + random.below(3) as u32;
    }
    shape
}

/// A grid that differs from another in few cells, in all or in none.
fn changed(random: &mut Random, program: &Program, grid: &[i32]) -> Vec<i32> {
    let fields = program.fields.len();
    let part = *random.pick(&[0, 10, 30, 100]);
    let other = runs::entries(random, program, grid.len() / fields);
    let mut later = grid.to_vec();
    for (own, new) in later.chunks_mut(fields).zip(other.chunks(fields)) {
        if random.chance(part) {
            if random.chance(50) {
                own.copy_from_slice(new);
            } else {
                let field = random.below(fields);
                own[field] = new[field];
            }
        }
    }
    later
}

fn damage_grid(random: &mut Random, grid: &mut Vec<i32>) {
    match random.below(6) {
        0 => grid.push(0),
        1 => {
            grid.pop();
        }
        _ if grid.is_empty() => {}
        _ => {
            let at = random.below(grid.len());
            grid[at] = *random.pick(&[i32::MIN, i32::MAX, -i32::MAX, -1, 2, 10]);
        }
    }
}

/// Makes one thing about a writing wrong, or puts it at a limit.
fn disturb(random: &mut Random, case: &mut WriteCase) {
    match random.below(16) {
        0 => case.shape.push(1),
        1 => {
            case.shape.pop();
        }
        2 if !case.shape.is_empty() => {
            let at = random.below(case.shape.len());
            case.shape[at] = *random.pick(&[0, 4_097, 4_294_967_295, 4_096, 1]);
        }
        3 | 4 => damage_grid(random, &mut case.earlier),
        5 | 6 => damage_grid(random, &mut case.later),
        7..=9 => {
            damage_grid(random, &mut case.earlier);
            damage_grid(random, &mut case.later);
        }
        10 => case.time = *random.pick(&[-1, i64::MIN, -GREATEST, -2]),
        11 => case.time = *random.pick(&[GREATEST + 1, i64::MAX, 1 << 32, GREATEST]),
        12 => case.words = *random.pick(&[0, 16_383, 16_385, 4_096]),
        13 => case.names = *random.pick(&[0, 255, 257, 1_024]),
        _ => damage_bytes(random, &mut case.source),
    }
}

/// A writing.
pub fn any(random: &mut Random) -> WriteCase {
    let time = match random.below(6) {
        0 => 0,
        1 => GREATEST,
        2 => random.between(0, GREATEST),
        _ => random.between(0, 120),
    };
    let mut source = declaration(random).into_bytes();
    if random.chance(10) {
        source = runs::any(random, true, 24).source;
    }
    of_source(random, source, time)
}

/// In half of the cases no flag falls from 1 to 0.
fn keep_flags(random: &mut Random, fields: usize, flag: usize, earlier: &[i32], later: &mut [i32]) {
    if random.chance(50) {
        let cells = earlier.chunks(fields).zip(later.chunks_mut(fields));
        for (old, new) in cells {
            new[flag] = new[flag].max(old[flag]);
        }
    }
}

/// A writing of a source at a time.
pub fn of_source(random: &mut Random, source: Vec<u8>, time: i64) -> WriteCase {
    let Some(program) = check(&source).program else {
        return WriteCase::new(source, &[2], vec![0, 1], vec![0, 1], time, 9);
    };
    let shape = shape(random, program.dimensions);
    let earlier = runs::entries(random, &program, cells_of(&shape));
    let mut later = changed(random, &program, &earlier);
    if let Some(flag) = flag(&source, &program) {
        keep_flags(random, program.fields.len(), flag, &earlier, &mut later);
    }
    let mut case = WriteCase::new(source, &shape, earlier, later, time, 0);
    let length = text_of(&program, &case.wanted()).len();
    case.room = match random.below(8) {
        0..=2 => length,
        3 | 4 => length - 1,
        5 => length + 1 + random.below(9),
        6 => 0,
        _ => random.below(2 * length),
    }
    .min(MOST_ROOM);
    if random.chance(30) {
        disturb(random, &mut case);
        while random.chance(15) {
            disturb(random, &mut case);
        }
    }
    case
}
