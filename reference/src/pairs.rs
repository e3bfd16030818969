//! Pairs of grids to compare.

use crate::random::Random;

/// Two grids, and the room for their differences.
#[derive(Clone, PartialEq, Eq, Debug)]
pub struct Pair {
    pub left: Vec<i32>,
    pub right: Vec<i32>,
    pub k: usize,
    pub room: Vec<i32>,
}

/// 3 times this is 1, in 64 bits that wrap.
const THIRD: u64 = 0xAAAA_AAAA_AAAA_AAAB;

fn any_value(random: &mut Random) -> i32 {
    let edges = [i32::MIN, i32::MIN + 1, -1, 0, 1, i32::MAX - 1, i32::MAX];
    match random.below(4) {
        0 => *random.pick(&edges),
        1 => random.word() as i32,
        _ => random.between(-3, 9) as i32,
    }
}

fn row(random: &mut Random, length: usize) -> Vec<i32> {
    (0..length).map(|_| any_value(random)).collect()
}

/// A grid that differs from another in few entries, in many or in none.
fn changed(random: &mut Random, grid: &[i32]) -> Vec<i32> {
    let part = *random.pick(&[0, 3, 30, 70, 100]);
    let mut other = grid.to_vec();
    for value in &mut other {
        if random.chance(part) {
            *value = match random.below(4) {
                0 => value.wrapping_neg(),
                1 => *value ^ 1 << random.below(32),
                _ => any_value(random),
            };
        }
    }
    other
}

/// Makes one length wrong.
fn disturb(random: &mut Random, pair: &mut Pair) {
    match random.below(6) {
        0 => pair.left.push(0),
        1 => {
            pair.right.pop();
        }
        2 => pair.room.push(7),
        3 => {
            pair.room.pop();
        }
        4 => pair.k = (pair.k + random.below(3)).wrapping_sub(1),
        // A room of 3k numbers only if 3k is taken in 64 bits.
        _ => {
            pair.room.push(7);
            pair.k = (pair.room.len() as u64).wrapping_mul(THIRD) as usize;
        }
    }
}

pub fn any(random: &mut Random) -> Pair {
    let length = match random.below(20) {
        0 => 0,
        1 => 1,
        2 => random.below(3_000),
        _ => random.below(40),
    };
    let left = row(random, length);
    let right = changed(random, &left);
    let total = (0..length).filter(|&i| left[i] != right[i]).count();
    let k = match random.below(5) {
        0 => 0,
        1 => total,
        2 => total.saturating_sub(1),
        3 => total + 1 + random.below(3),
        _ => random.below(length + 2),
    };
    let room = row(random, 3 * k);
    let mut pair = Pair {
        left,
        right,
        k,
        room,
    };
    if random.chance(15) {
        disturb(random, &mut pair);
    }
    pair
}

/// Generated pairs, in order.
pub fn pairs(seed: u64, count: usize) -> impl Iterator<Item = Pair> {
    let mut random = Random::new(seed.wrapping_add(1 << 41));
    (0..count).map(move |_| any(&mut random))
}
