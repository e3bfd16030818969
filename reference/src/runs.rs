//! Runs: programs that do something, on grids of few cells.

use crate::admission::GREATEST;
use crate::case::{cells_of, RunCase};
use crate::damage::damage_tokens;
use crate::generate::{program, Wish};
use crate::parse::check;
use crate::random::Random;
use crate::text::{any_style, write};
use crate::tree::Program;

/// Programs written by hand; `@` stands for a small number.
const WRITTEN: [&str; 40] = [
    "1 dimensions of 0..1 cell := [-1]",
    "1 dimensions of 0..9 cell := [@]",
    "1 dimensions of 0..1 cell := [-1] & [1]",
    "1 dimensions of 0..1 cell := [-1] | cell",
    "1 dimensions of 0..1 s := [-1] + cell + [1] cell := s >= 2",
    "1 dimensions of 0..1 s := [-1] * 4 + cell * 2 + [1] cell := s = 1 | s = 2 | s = 3 | s = 4",
    "const rule[] for 8 := 0,1,1,1,0,1,1,0 1 dimensions of 0..1 cell := rule[[-1]*4+cell*2+[1]]",
    "const rule[] for 7 := 0,1,1,1,0,1,1 1 dimensions of 0..1 cell := rule[[-1]*4+cell*2+[1]]",
    "2 dimensions of 0..1 n := 0 forall i : -1..1 forall j : -1..1 n := n + [i,j] end end \
     n := n - cell cell := 1 when n = 3 := cell when n = 2 := 0 otherwise",
    "2 dimensions of 0..1 cell := [0,1] | [1,0] | [0,-1] | [-1,0] | cell",
    "3 dimensions of 0..1 s := 0 forall i : -1..1 s := s + [i,0,0] + [0,i,0] + [0,0,i] end \
     cell := s > @",
    "1 dimensions of 0..9 cell := time",
    "1 dimensions of 0..20 cell := time when cell = 0",
    "1 dimensions of 0..3 if 0 then cell := time end cell := [1]",
    "1 dimensions of 0..3 cell := cell + 1",
    "1 dimensions of 0..99 cell := cell + 1 when [1] > 0",
    "1 dimensions of 0..99 cell := cell + [1] - [-1] when cell > 0",
    "1 dimensions of -9..9 cell := 6 / cell when cell != 5",
    "1 dimensions of -9..9 cell := 7 % cell",
    "1 dimensions of 0..9 x := 100000 cell := (cell * x * x) / x",
    "1 dimensions of 0..9 x := 2147483647 x := x + cell cell := 9",
    "1 dimensions of 0..9 x := -2147483647 - cell x := -x cell := 1 when cell = 0",
    "1 dimensions of 0..9 x := -2147483647 x := x - 1 y := x / (0 - cell) cell := 5 when y = 0",
    "1 dimensions of 0..9 x := -2147483647 x := x - 1 y := x % (1 - cell) cell := 5 when y = 0",
    "1 dimensions of 0..9 const a[] for 3 := 4,5,6 cell := a[cell]",
    "1 dimensions of 0..9 const a[] for 3 := 0,1,2 cell := a[cell - 1] when cell > 0",
    "1 dimensions of a of 0..1 const b of 0..1 end cell.a := [1].a when cell.b",
    "1 dimensions of a, b of 0..9 end cell.a := cell.b cell.b := cell.a",
    "2 dimensions of wall of 0..1 w of 0..9 end cell.w := 9 when cell.wall := [0,1].w otherwise",
    "1 dimensions of 0..9 m := cell forall i : -@..@ if [i] > m then m := [i] end end cell := m",
    "1 dimensions of 0..9 forall i : 1..4 if [i] = 0 then exit end cell := i end",
    "1 dimensions of 0..9 cell := cell + 1 when cell < 3 := 9 when cell = 3 := cell otherwise",
    "1 dimensions of 0..9 x := x + 1 cell := x",
    "1 dimensions of 0..9 cell := 1 & (1 / cell)",
    "1 dimensions of 0..9 cell := 1 | 1 / cell",
    "2 dimensions of 0..5 cell := ([0,1] + [1,0]) % 6",
    "2 dimensions of 0..9 cell := [2,-1] when [2,-1] > cell",
    "3 dimensions of 0..2 cell := [0,0,1] when [0,-1,0] = [1,0,0]",
    "1 dimensions of 0..9 cell := [-2] when [-2] > cell := [3] when [3] < cell",
    "2 dimensions of a of 0..3 b of -3..3 c of 0..1 end cell.a := [1,1].a cell.b := -cell.b \
     cell.c := [0,1].c = [0,-1].c",
];

fn sizes(random: &mut Random, program: &Program, most: usize) -> Vec<u32> {
    let mut reach = vec![0i64; program.dimensions];
    for written in &program.written {
        let size = i64::from(written.low)
            .abs()
            .max(i64::from(written.high).abs());
        reach[written.dimension] = reach[written.dimension].max(size);
    }
    let most = (most / program.fields.len()).max(1);
    let each = match program.dimensions {
        1 => most,
        2 => (most as f64).sqrt() as usize,
        _ => (most as f64).cbrt() as usize,
    }
    .max(1);
    let mut shape = Vec::new();
    for size in reach {
        let least = if size <= 60 && random.chance(96) {
            (size as usize).max(1)
        } else {
            1
        };
        let upper = each.max(least);
        let size = if random.chance(12) {
            least
        } else {
            least + random.below(upper - least + 1)
        };
        shape.push(size as u32);
    }
    while cells_of(&shape) * program.fields.len() > most * program.fields.len() * 8 {
        let longest = (0..shape.len()).max_by_key(|&i| shape[i]).unwrap_or(0);
        shape[longest] = (shape[longest] / 2).max(1);
    }
    shape
}

pub fn entries(random: &mut Random, program: &Program, cells: usize) -> Vec<i32> {
    let style = random.below(4);
    let mut base = Vec::new();
    for field in &program.fields {
        base.push(random.between(field.low.into(), field.high.into()) as i32);
    }
    let mut grid = Vec::new();
    for _ in 0..cells {
        for (number, field) in program.fields.iter().enumerate() {
            let (low, high) = (i64::from(field.low), i64::from(field.high));
            let value = match style {
                0 => random.between(low, high),
                1 if random.chance(85) => base[number].into(),
                1 => random.between(low, high),
                2 => 0i64.clamp(low, high) + i64::from(random.chance(10) && high > 0),
                _ => random.between(low.max(-3).min(high), high.min(3).max(low)),
            };
            grid.push(value.clamp(low, high) as i32);
        }
    }
    grid
}

/// Makes one thing about a run wrong, or puts it at a limit.
pub fn disturb(random: &mut Random, case: &mut RunCase) {
    match random.below(16) {
        0 => {
            case.shape.push(1 + random.below(2) as u32);
            while case.shape.len() < 5 && random.chance(30) {
                case.shape.push(1);
            }
        }
        1 => {
            case.shape.pop();
        }
        2 => {
            let wrong = [0, 4_097, 4_294_967_295, 4_096, 65_536];
            let at = random.below(case.shape.len());
            case.shape[at] = *random.pick(&wrong);
        }
        3 => case.shape = vec![[4_096, 1_024, 2][random.below(3)]; case.shape.len()],
        4 => {
            if random.chance(50) {
                case.grid.push(0);
            } else {
                case.grid.pop();
            }
        }
        5 => case.scratch = (case.scratch + random.below(3)).saturating_sub(1),
        6 => case.marks = (case.marks + random.below(3)).saturating_sub(1),
        7 => case.start = *random.pick(&[-1, i64::MIN, GREATEST + 1, i64::MAX, -2_147_483_648]),
        8 => case.steps = *random.pick(&[-1, i64::MIN, GREATEST + 1, i64::MAX, -7]),
        9 => {
            case.start = GREATEST - case.steps.clamp(0, 10) + random.between(-1, 1);
        }
        10..=13 if !case.grid.is_empty() => {
            let at = random.below(case.grid.len());
            let wrong = [i32::MIN, i32::MAX, -i32::MAX, -1, 10, 256];
            case.grid[at] = *random.pick(&wrong);
            if random.chance(30) {
                let at = random.below(case.grid.len());
                case.grid[at] = *random.pick(&wrong);
            }
        }
        14 => case.words = *random.pick(&[0, 16_383, 16_385, 4_096]),
        15 => case.names = *random.pick(&[0, 255, 257, 1_024]),
        _ => {}
    }
}

/// An element of a relative index: a number, or the variable of an open loop.
fn offset(random: &mut Random, open: usize, far: i64) -> String {
    if open > 0 && random.chance(60) {
        return "ijk"[random.below(open)..][..1].to_string();
    }
    if random.chance(40) {
        return "0".to_string();
    }
    random.between(-far, far).to_string()
}

/// One relative index read, somewhere.
fn reading(random: &mut Random, dimensions: usize, open: usize, far: i64) -> String {
    let index: Vec<String> = (0..dimensions).map(|_| offset(random, open, far)).collect();
    let index = format!("[{}]", index.join(","));
    match random.below(12) {
        0 => format!("if 0 then s := s + {index} end "),
        1 => format!("s := s when {index} > 9 "),
        2 => format!("s := s + none[{index} - {index}] "),
        3 => format!("if {index} = 7 then s := 0 end "),
        4 => format!("if s > 99 then elsif {index} then s := s + 1 else s := s + {index} end "),
        _ => format!("s := s + {index} "),
    }
}

/// A rule that reads some places, with the sizes that it needs. About one
/// in eight has close to 256 places, or more.
fn reader(random: &mut Random) -> (String, Vec<u32>) {
    let dimensions = 1 + random.below(3);
    let many = random.chance(12);
    let (far, wide) = match (many, dimensions) {
        (true, 1) => (128, 128),
        (true, 2) => (9, 8),
        (true, _) => (4, 3),
        (false, 1) => (6, 4),
        (false, _) => (3, 2),
    };
    let loops = if many { dimensions } else { random.below(4) };
    let mut text = format!("{dimensions} dimensions of 0..3 const none[] for 1 := 0 s := 0 ");
    let mut open = 0;
    for name in ["i", "j", "k"].iter().take(loops) {
        let low = if many {
            -wide
        } else {
            -random.between(0, wide)
        };
        let high = if many {
            wide - random.between(0, 2).min(wide)
        } else {
            random.between(0, wide)
        };
        let (low, high) = if random.chance(10) {
            (1, wide)
        } else {
            (low, high.max(low))
        };
        text += &format!("forall {name} : {low}..{high} ");
        open += 1;
        if random.chance(50) {
            text += &reading(random, dimensions, open, far);
        }
        if random.chance(5) {
            text += "exit ";
        }
    }
    if many {
        let all = &["i", "j", "k"][..dimensions];
        text += &format!("s := s + [{}] ", all.join(","));
    }
    while open > 0 {
        text += &reading(random, dimensions, open, far);
        text += "end ";
        open -= 1;
    }
    while random.chance(60) {
        text += &reading(random, dimensions, 0, far);
    }
    text += match random.below(3) {
        0 => "cell := s % 4",
        1 => "cell := 1 when s = 1 := 0 otherwise",
        _ => "cell := cell when s > 2 := s otherwise",
    };
    let shape = (0..dimensions)
        .map(|_| far as u32 + random.below(if many { 2 } else { 4 }) as u32)
        .collect();
    (text, shape)
}

/// A grid in which few cells are not 0.
fn quiet_grid(random: &mut Random, cells: usize) -> Vec<i32> {
    let share = [3, 10, 50][random.below(3)];
    (0..cells)
        .map(|_| {
            if random.chance(share) {
                random.between(1, 3) as i32
            } else {
                0
            }
        })
        .collect()
}

/// A run. In `small` ones the grids have at most 24 entries, and there are at
/// most 6 steps.
pub fn any(random: &mut Random, small: bool, most: usize) -> RunCase {
    let most = if small { 24 } else { most };
    if !small && random.chance(25) {
        let (text, shape) = reader(random);
        let grid = quiet_grid(random, cells_of(&shape));
        let (start, steps) = (random.between(0, 9), random.between(1, 5));
        return RunCase::new(text.into_bytes(), &shape, grid, start, steps);
    }
    loop {
        let source = if random.chance(30) {
            let number = random.between(1, 3).to_string();
            random.pick(&WRITTEN).replace('@', &number).into_bytes()
        } else {
            let wish = Wish {
                tokens: if small { 100 } else { 30 + random.below(170) },
                reach: if random.chance(80) { 2 } else { 5 },
                turns: if random.chance(95) { 4 } else { 40 },
                safe: [99, 97, 90, 70][random.below(4)],
                time: random.chance(25),
            };
            let mut tokens = program(random, wish);
            if random.chance(4) {
                damage_tokens(random, &mut tokens);
            }
            let style = any_style(random);
            write(random, &tokens, style)
        };
        if small && (source.len() > 600 || crate::lex::lex(&source).len() > 121) {
            continue;
        }
        if let Some(case) = of_source(random, source, small, most) {
            return case;
        }
    }
}

/// A run of a source, unless it needs more cells than a small one has.
pub fn of_source(
    random: &mut Random,
    source: Vec<u8>,
    small: bool,
    most: usize,
) -> Option<RunCase> {
    let limit = if small { 6 } else { 12 };
    let steps = if random.chance(6) {
        0
    } else {
        random.between(1, limit)
    };
    let start = match random.below(20) {
        0 => GREATEST - steps,
        1 => random.between(0, GREATEST - steps),
        2..=7 => random.between(1, 9),
        _ => 0,
    };
    let Some(program) = check(&source).program else {
        return Some(RunCase::new(source, &[3], vec![0; 3], start, steps));
    };
    let shape = sizes(random, &program, most);
    let cells = cells_of(&shape);
    if small && cells > 24 {
        return None;
    }
    let grid = entries(random, &program, cells);
    let mut case = RunCase::new(source, &shape, grid, start, steps);
    if random.chance(9) {
        disturb(random, &mut case);
        if random.chance(25) && !case.shape.is_empty() {
            disturb(random, &mut case);
        }
    }
    Some(case)
}
