//! Generated plans: plan checks and planner calls, and what band calls and runs
//! under a plan share with them.

use crate::band_case::{Asked, PlanCase, PlannerCase, MOST_NUMBERS};
use crate::bands::{border, longest, numbers_of, Band, Border};
use crate::case::{cells_of, RunCase};
use crate::damage::damage_bytes;
use crate::parse::check;
use crate::random::Random;
use crate::runs::{self, entries};
use crate::tree::Program;

/// What a cell does. L reads a row before its own, U a row after, and N the row
/// at `i`; C is the cell; `#` and `$` are how far L and U lie.
const BODIES: [&str; 23] = [
    "C := L",
    "C := U",
    "C := L when U > C",
    "C := (L + U) % 10",
    "C := (L + U + C) % 10",
    "C := U - L when C > 2",
    "x := 6 / (L + U) C := x % 10",
    "x := 7 % (C - L) C := 9 - C",
    "C := C + 1",
    "C := C + 1 when L > U",
    "x := 2147483639 + L C := U",
    "x := 6 / (9 - C) C := L",
    "x := 6 % (9 - U) C := L",
    "C := U + 1 when L < 9",
    "const t[] for 8 := 3, 1, 4, 1, 5, 9, 2, 6 C := t[L] C := t[U] when C > 4",
    "if 0 then C := L end C := U when C < 5",
    "if C > 4 then C := L elsif U then C := U end",
    "s := 0 forall i : -#..$ s := s + N end C := s % 10",
    "forall i : -#..$ if N > C then C := N exit end end",
    "m := C forall i : -#..$ if N > m then m := N end end C := m",
    "C := time % 10 when L = U",
    "C := 9 when time > 3 & L > 0 := U otherwise",
    "",
];

/// Rules with more than 256 places, so that the box holds.
const WIDE: [&str; 3] = [
    "1 dimensions of 0..9 s := 0 forall i : -128..128 s := s + [i] end cell := s % 10",
    "2 dimensions of 0..3 s := 0 forall i : -9..7 forall j : -8..8 s := s + [i,j] end end cell := s % 4",
    "3 dimensions of 0..1 s := 0 forall i : -2..4 forall j : -3..3 forall k : -3..3 \
     s := s + [i,j,k] end end end cell := s > 9",
];

/// A rule that reads rows before its own and after.
fn rule(random: &mut Random) -> Vec<u8> {
    if random.chance(4) {
        return random.pick(&WIDE).as_bytes().to_vec();
    }
    let dimensions = 1 + random.below(3);
    let most = [7, 4, 3][dimensions - 1];
    let far = |random: &mut Random| match random.below(40) {
        0 => 2_147_483_647,
        1 => random.between(8, 30),
        2..=12 => 0,
        13..=22 => 1,
        _ => random.between(1, most),
    };
    let (before, behind) = (far(random), far(random));
    let others = |random: &mut Random| -> String {
        let mut text = String::new();
        for _ in 1..dimensions {
            text += &format!(",{}", random.between(-1, 1));
        }
        text
    };
    let (declared, field) = *random.pick(&[
        ("0..9", ""),
        ("0..9", ""),
        ("a of 0..9 const b of -3..3 end", ".a"),
        ("w of 0..1 a of 0..9 end", ".a"),
    ]);
    let body = random.pick(&BODIES);
    let mut text = format!("{dimensions} dimensions of {declared} ");
    for letter in body.chars() {
        text += &match letter {
            'L' => format!("[-{before}{}]{field}", others(random)),
            'U' => format!("[{behind}{}]{field}", others(random)),
            'C' => format!("cell{field}"),
            '#' => before.min(9).to_string(),
            '$' => behind.min(9).to_string(),
            'N' => format!("[i{}]{field}", others(random)),
            other => other.to_string(),
        };
    }
    text.into_bytes()
}

/// Sizes that a rule needs, in most cases; often as few rows as can be, so
/// that the border rows are more than the grid has.
fn sizes(random: &mut Random, program: &Program) -> Vec<u32> {
    let bounds = program.bounds().into_iter();
    let mut shape: Vec<u32> = bounds
        .map(|(low, high)| low.unsigned_abs().max(high.unsigned_abs()).clamp(1, 130))
        .collect();
    let wide = cells_of(&shape) > 40;
    for (dimension, size) in shape.iter_mut().enumerate() {
        *size += match random.below(10) {
            0..=2 => 0,
            3..=5 => random.below(3) as u32,
            _ if wide || dimension > 0 => random.below(3) as u32,
            _ => random.below(14) as u32,
        };
    }
    if random.chance(3) {
        shape[0] = (shape[0] - 1).max(1);
    }
    shape
}

/// A grid whose cells are all the same but for one or two, which are at the ends
/// of their ranges: a fault can stand in any row.
fn lonely(random: &mut Random, program: &Program, cells: usize) -> Vec<i32> {
    let fields = program.fields.iter();
    let own: Vec<i32> = fields
        .map(|field| (random.below(4) as i32).clamp(field.low, field.high))
        .collect();
    let mut grid = own.repeat(cells);
    for _ in 0..1 + random.below(2) {
        let at = random.below(cells) * own.len();
        for (entry, field) in grid[at..].iter_mut().zip(&program.fields) {
            *entry = *random.pick(&[field.low, field.high]);
        }
    }
    grid
}

/// A run of a rule that reads rows before its own and after, or of any other.
pub fn ground(random: &mut Random) -> RunCase {
    if random.chance(30) {
        return runs::any(random, true, 24);
    }
    let mut source = rule(random);
    if random.chance(3) {
        damage_bytes(random, &mut source);
    }
    let steps = random.between(0, 5);
    let start = random.between(0, 4);
    let Some(program) = check(&source).program else {
        return RunCase::new(source, &[3], vec![0; 3], start, steps);
    };
    let shape = sizes(random, &program);
    let cells = cells_of(&shape);
    let grid = if random.chance(45) {
        lonely(random, &program, cells)
    } else {
        entries(random, &program, cells)
    };
    RunCase::new(source, &shape, grid, start, steps)
}

/// The rows and the border rows of a case, where it has such.
pub struct Rows {
    pub rows: u32,
    pub border: Border,
}

impl Rows {
    pub fn of(source: &[u8], shape: &[u32]) -> Rows {
        let none = Border {
            before: 0,
            behind: 0,
        };
        let rows = shape.first().map_or(1, |&size| size.clamp(1, 4_096));
        let border = check(source)
            .program
            .map_or(none, |program| border(&program));
        Rows { rows, border }
    }

    fn borders(&self) -> u64 {
        self.border.before + self.border.behind
    }

    /// How many rows of its own a band can have.
    pub fn most(&self, held: u32) -> u64 {
        u64::from(held).saturating_sub(self.borders())
    }
}

/// How many rows can be held: at an edge in most cases. In `part` cases of 100
/// there is no accepted plan.
pub fn held(random: &mut Random, rows: &Rows, part: usize) -> u32 {
    let least = rows.borders() + 1;
    let whole = rows.borders() + u64::from(rows.rows);
    if random.chance(part) {
        let few = random.below(least.min(9) as usize) as u64;
        return *random.pick(&[least - 1, few, 0]) as u32;
    }
    let held = match random.below(20) {
        0..=4 => least,
        5..=7 => least + 1,
        8 => whole - 1,
        9..=10 => whole,
        11 => whole + random.below(3) as u64,
        12 => u64::from(u32::MAX),
        _ => least + random.below(rows.rows as usize) as u64,
    };
    held.clamp(least, u64::from(u32::MAX)) as u32
}

/// An accepted plan whose bands have at most so many rows, and at least one.
pub fn plan(random: &mut Random, rows: u32, most: u64) -> Vec<u32> {
    let most = most.clamp(1, u64::from(rows)) as u32;
    let style = random.below(5);
    let mut bands = Vec::new();
    let mut first = 0;
    while first < rows {
        let own = match style {
            0 => most,
            1 => 1,
            2 if random.chance(60) => most,
            _ => 1 + random.below(most as usize) as u32,
        };
        let last = (first + own).min(rows) - 1;
        bands.push(Band::new(first, last));
        first = last + 1;
    }
    numbers_of(&bands)
}

/// Makes one thing about a plan wrong.
pub fn damage(random: &mut Random, plan: &mut Vec<u32>, rows: u32) {
    let bands = plan.len() / 2;
    if bands == 0 {
        plan.push(random.below(2) as u32);
        return;
    }
    let band = 2 * random.below(bands);
    let far = [u32::MAX, u32::MAX - 1, 1 << 31, rows, rows + 1, 0];
    match random.below(16) {
        // A gap.
        0 => plan[band] = plan[band].wrapping_add(1),
        1 => plan[band + 1] = plan[band + 1].wrapping_sub(1),
        // An overlap.
        2 => plan[band] = plan[band].wrapping_sub(1),
        3 => plan[band + 1] = plan[band + 1].wrapping_add(1),
        // Too short: the last band, or the first, is missing.
        4 => plan.truncate(2 * bands - 2),
        5 => {
            plan.drain(..2);
        }
        6 => {
            plan.drain(band..band + 2);
        }
        // Reversed, and empty bands.
        7 => plan.swap(band, band + 1),
        8 => {
            let first = plan[band];
            plan.splice(band..band, [first, first.wrapping_sub(1)]);
        }
        // A number too many or too few.
        9 => {
            plan.pop();
        }
        10 => plan.push(*random.pick(&[rows, 0, rows - 1])),
        // A band after the last, or one twice.
        11 => plan.extend([rows, rows + random.below(2) as u32]),
        12 => {
            let twice = [plan[band], plan[band + 1]];
            plan.splice(band..band, twice);
        }
        // In another order.
        13 => {
            let other = 2 * random.below(bands);
            plan.swap(band, other);
            plan.swap(band + 1, other + 1);
        }
        // Numbers far away, also such that wrap.
        14 => {
            let at = random.below(plan.len());
            plan[at] = *random.pick(&far);
        }
        _ => {
            let wrapped = *random.pick(&[[0, u32::MAX], [rows, u32::MAX]]);
            let at = *random.pick(&[0, 2 * bands]);
            plan.splice(at..at, wrapped);
        }
    }
}

/// A plan for these rows; damaged, or with one row more than can be held, in
/// `part` cases of 100. The second result is how many rows can be held.
pub fn plan_and_held(random: &mut Random, rows: &Rows, part: usize) -> (Vec<u32>, u32) {
    let mut held = held(random, rows, part / 6);
    let most = rows.most(held);
    let mut plan = if most == 0 && random.chance(50) {
        let own = 1 + random.below(rows.rows as usize) as u64;
        plan(random, rows.rows, own)
    } else {
        plan(random, rows.rows, most)
    };
    if random.chance(part) {
        match random.below(8) {
            0 => {
                let own = plan.chunks(2).map(|band| band[1] - band[0] + 1).max();
                let with = rows.borders() + u64::from(own.unwrap_or(1));
                held = (with - 1).min(u64::from(u32::MAX)) as u32;
            }
            1 => plan.clear(),
            _ => {
                damage(random, &mut plan, rows.rows);
                while random.chance(20) {
                    damage(random, &mut plan, rows.rows);
                }
            }
        }
    }
    plan.truncate(MOST_NUMBERS);
    (plan, held)
}

/// Sizes of many rows, up to the greatest.
fn many_rows(random: &mut Random, shape: &mut [u32]) {
    if let Some(rows) = shape.first_mut() {
        *rows = match random.below(6) {
            0 => 4_096,
            1 => 4_095,
            2 => 4_097,
            _ => 20 + random.below(400) as u32,
        };
    }
}

fn asked(random: &mut Random) -> Asked {
    let case = ground(random);
    let mut asked = Asked {
        words: case.words,
        names: case.names,
        ..Asked::new(case.source, &case.shape, 0)
    };
    match random.below(100) {
        0 => asked.words = *random.pick(&[0, 16_383, 16_385]),
        1 => asked.names = *random.pick(&[0, 255, 257]),
        2 => asked.shape.push(1),
        3 => {
            asked.shape.pop();
        }
        4..=9 => many_rows(random, &mut asked.shape),
        _ => {}
    }
    asked
}

/// A plan check. Half of the plans are accepted.
pub fn any_plan(random: &mut Random) -> PlanCase {
    let mut asked = asked(random);
    let rows = Rows::of(&asked.source, &asked.shape);
    let (plan, held) = plan_and_held(random, &rows, 50);
    asked.held = held;
    PlanCase { asked, plan }
}

/// A planner call. In few cases the room is not of one band a row.
pub fn any_planner(random: &mut Random) -> PlannerCase {
    let mut asked = asked(random);
    let rows = Rows::of(&asked.source, &asked.shape);
    asked.held = match random.below(10) {
        0 => random.below(2 * rows.rows as usize + 1) as u32,
        _ => held(random, &rows, 20),
    };
    let right = 2 * rows.rows as usize;
    let room = match random.below(30) {
        0 => *random.pick(&[0, 1, right - 1, right - 2, right + 1, right + 2, right / 2]),
        1 => longest(rows.rows, rows.border, asked.held).map_or(right, |bands| 2 * bands.len()),
        _ => right,
    };
    PlannerCase {
        room: room.min(MOST_NUMBERS),
        asked,
    }
}
