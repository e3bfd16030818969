//! Runs with lists.

use crate::admission::{admit_grid, Asked};
use crate::blocks::{blind_lines, lines, Line};
use crate::case::{cells_of, RunCase};
use crate::list_limits::{put_at_limit, Around};
use crate::list_text::{write, Damage};
use crate::one_move::flag;
use crate::parse::check;
use crate::random::Random;
use crate::runs;
use crate::tree::{Field, Program};

/// No list is longer.
pub const MOST_BYTES: usize = 4_000;

/// Rules in which it shows what a block changes.
const RULES: [&str; 20] = [
    "1 dimensions of 0..9 ",
    "1 dimensions of -9..9 cell := cell",
    "1 dimensions of 0..9 cell := 0",
    "1 dimensions of 0..9 cell := 0 when cell > 5",
    "1 dimensions of 0..9 cell := [-1]",
    "1 dimensions of 0..9 cell := [1] when [1] > cell",
    "1 dimensions of 0..9 cell := 9 - cell",
    "1 dimensions of 0..9 cell := cell + 1",
    "1 dimensions of 0..9 cell := cell - 1 when cell > 3",
    "1 dimensions of 0..9 x := 6 / cell",
    "1 dimensions of 0..9 x := 6 % (cell - 4)",
    "1 dimensions of 0..9 cell := 1 when time = 2",
    "1 dimensions of 0..9 cell := 9 % (1 + [1]) when [2] = 0",
    "1 dimensions of a of 0..9 const b of -3..3 end cell.a := cell.b when cell.b >= 0",
    "1 dimensions of a, b, c of 0..3 end cell.a := cell.c cell.c := [1].b",
    "2 dimensions of 0..3 cell := [0,1]",
    "2 dimensions of 0..3 cell := cell when [1,0] = [0,-1] := 3 otherwise",
    "2 dimensions of a of 0..9 const wall of 0..1 end cell.a := [1,1].a when cell.wall",
    "3 dimensions of -1..1 cell := [0,0,1] * [1,0,0]",
    "3 dimensions of a,b,c,d of -1..1 e,f,g,h of 0..99999 end cell.a := -cell.b",
];

/// A run of one of these rules on few cells.
pub fn of_rule(random: &mut Random) -> RunCase {
    let source = random.pick(&RULES).as_bytes().to_vec();
    let program = check(&source).program.expect("a rule");
    let most = [7, 3, 2][program.dimensions - 1];
    let shape: Vec<u32> = (0..program.dimensions)
        .map(|_| 2 + random.below(most) as u32)
        .collect();
    let grid = runs::entries(random, &program, cells_of(&shape));
    let steps = random.between(0, 5);
    RunCase::new(source, &shape, grid, random.between(0, 3), steps)
}

/// Whether a run is admitted, its list aside.
pub fn admitted(case: &RunCase, program: &Program) -> bool {
    let asked = Asked {
        shape: &case.shape,
        grid: &case.grid,
        rooms: Some((case.scratch, case.marks)),
        held: None,
        start: case.start,
        steps: case.steps,
    };
    admit_grid(program, &asked).is_ok()
}

/// Gives a run a list, which is put at a limit or damaged in `part` of 100
/// cases.
pub fn give_list(random: &mut Random, case: &mut RunCase, part: usize) {
    let program = check(&case.source).program;
    let mut row: Vec<Line> = match &program {
        Some(program) if admitted(case, program) => lines(random, case, program),
        _ => blind_lines(random, case),
    };
    let plain = [Field { low: 0, high: 1 }];
    let fields = program
        .as_ref()
        .map_or(&plain[..], |program| &program.fields);
    let mut damage = Damage::None;
    if random.chance(part) {
        match random.below(10) {
            0 => damage = Damage::Tokens,
            1 => damage = Damage::Lines,
            2 => damage = Damage::Bytes,
            _ => {
                let flag = program
                    .as_ref()
                    .and_then(|program| flag(&case.source, program));
                let around = Around { case, fields, flag };
                put_at_limit(random, &mut row, &around);
                while random.chance(15) {
                    put_at_limit(random, &mut row, &around);
                }
                if random.chance(8) {
                    damage = Damage::Lines;
                }
            }
        }
    }
    loop {
        let text = write(random, &row, damage);
        if text.len() <= MOST_BYTES {
            case.values = text;
            return;
        }
        row.truncate(row.len() / 2);
    }
}

/// A run whose list is at a limit or damaged in most cases.
pub fn any(random: &mut Random, small: bool) -> RunCase {
    let mut case = if random.chance(40) {
        of_rule(random)
    } else {
        let small = small || random.chance(70);
        runs::any(random, small, 60)
    };
    if case.start == 0 && random.chance(50) {
        case.start = random.between(1, 4);
    }
    give_list(random, &mut case, 75);
    case
}
