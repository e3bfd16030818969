//! Generated runs and writings of rules that move a pixel once.

use crate::call_case::{Call, MOST_ENTRIES};
use crate::case::RunCase;
use crate::listed::give_list;
use crate::near;
use crate::one_move::flag;
use crate::parse::check;
use crate::pausing::Manner;
use crate::random::Random;
use crate::resumed::any_marks;
use crate::runs::of_source;
use crate::text::{any_style, write};
use crate::write_case::WriteCase;
use crate::writings;

/// Rules of the profile in which something moves.
const RULES: [&str; 12] = [
    "1 dimensions of moved of 0..1 end if cell.moved = 0 then cell.moved := 1 end",
    "1 dimensions of a of 0..9 moved of 0..1 end if cell.moved = 0 then cell.a := [1].a cell.moved := 1 end",
    "1 dimensions of moved of 0..1 a of 0..9 end if cell.moved = 0 then cell.a := cell.a + 1 cell.moved := 1 end",
    "1 dimensions of a of 0..9 moved of 0..1 end if cell.moved = 0 then cell.a := 6 / cell.a cell.moved := 1 end",
    "1 dimensions of a of 0..9 moved of 0..1 end if cell.moved = 0 then cell.a := time cell.moved := 1 end",
    "1 dimensions of moved of 0..1 const s of -1..1 a of 0..9 end if cell.moved = 0 then forall k : -1..1 \
     if k = cell.s then cell.a := [k].a exit end end cell.moved := 1 end",
    "2 dimensions of a, b of 0..9 moved of 0..1 end if cell.moved = 0 then cell.a := [0,1].b cell.b := [1,0].a cell.moved := 1 end",
    "2 dimensions of a of 0..9 moved of 0..1 end if cell.moved = 0 then cell.moved := 0 cell.a := 9 when [0,1].moved \
     cell.moved := 1 end",
    "2 dimensions of const w of 0..1 moved of 0..1 a of -3..3 end if cell.moved = 0 then if cell.w then cell.a := -cell.a \
     else cell.a := [-1,0].a end cell.moved := 1 end",
    "3 dimensions of a of 0..3 moved of 0..1 end const t[] for 4 := 3, 1, 2, 0 if cell.moved = 0 then \
     cell.a := t[[0,0,1].a] cell.moved := 1 const u := 1 end",
    "1 dimensions of moved of 0..1 a of 0..9 end if cell.moved = 0 then cell.moved := 1 + [1].moved cell.moved := 1 end",
    "1 dimensions of a of -9..9 moved of 0..1 end if cell.moved = 0 then cell.a := [1].a - [-1].a cell.moved := 1 end",
];

/// The source of a rule in the profile; one in twelve is near it.
fn source(random: &mut Random) -> Vec<u8> {
    if random.chance(8) {
        return near::any(random);
    }
    if random.chance(45) {
        return random.pick(&RULES).as_bytes().to_vec();
    }
    let size = 30 + random.below(90);
    let tokens = near::rule(random, size);
    let style = any_style(random);
    write(random, &tokens, style)
}

/// Flags of a grid: few, some or all are 1.
fn put_flags(random: &mut Random, fields: usize, flag: usize, grid: &mut [i32]) {
    let part = *random.pick(&[0, 0, 20, 50, 90, 100]);
    for cell in grid.chunks_exact_mut(fields) {
        cell[flag] = random.chance(part).into();
    }
}

/// A run of such a source.
fn run(random: &mut Random, small: bool) -> RunCase {
    loop {
        let source = source(random);
        let most = if small { 24 } else { 60 };
        let Some(mut case) = of_source(random, source, small, most) else {
            continue;
        };
        let program = check(&case.source).program;
        let flag = program
            .as_ref()
            .and_then(|program| flag(&case.source, program));
        if let (Some(program), Some(flag)) = (program, flag) {
            if random.chance(80) {
                put_flags(random, program.fields.len(), flag, &mut case.grid);
            }
        }
        return case;
    }
}

/// Such a run in any manner, in most cases with a list; one in five counts.
pub fn any(random: &mut Random, small: bool) -> Call {
    let mut case = run(random, small);
    if random.chance(75) {
        give_list(random, &mut case, 55);
    }
    let marks = any_marks(random, case.marks.min(MOST_ENTRIES));
    let manner = *random.pick(&Manner::ALL);
    let fields = check(&case.source)
        .program
        .map_or(1, |program| program.fields.len());
    let rows = case.shape.first().map_or(1, |&size| size as usize);
    let call = Call::new(case, manner, marks);
    if random.chance(80) {
        return call;
    }
    let past = usize::from(random.chance(10));
    let field = random.below(fields + past) as u32;
    call.counting(field, vec![7; rows.min(MOST_ENTRIES)])
}

/// A writing of such a source.
pub fn writing(random: &mut Random) -> WriteCase {
    let time = random.between(0, 120);
    let source = source(random);
    writings::of_source(random, source, time)
}
