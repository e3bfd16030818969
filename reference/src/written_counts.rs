//! Runs that count, written by hand.

use crate::call_case::Call;
use crate::case::{marks_on_entry, RunCase};
use crate::pausing::Manner;

/// A run on one row of cells, that counts into so many counts.
fn on_row(source: &str, grid: &[i32], steps: i64, list: &str, field: u32, counts: usize) -> Call {
    let shape = [grid.len() as u32];
    let run = RunCase::new(source.into(), &shape, grid.to_vec(), 0, steps);
    let marks = marks_on_entry(run.marks);
    let counts = (0..counts as u32).map(|row| 9 - row).collect();
    Call::new(run.with_list(list.as_bytes()), Manner::Quiet, marks).counting(field, counts)
}

/// The cases worked out in the papers.
pub fn worked() -> Vec<Call> {
    let shift = "1 dimensions of 0..1 cell := [-1]";
    let rising = "1 dimensions of 0..3 cell := cell + 1";
    let one = [1, 0, 0, 0, 0];
    vec![
        on_row(shift, &one, 0, "", 0, 5),
        on_row(shift, &one, 2, "", 0, 5),
        on_row(shift, &one, 2, "", 1, 5),
        on_row(shift, &one, 2, "\n", 0, 4),
        on_row(shift, &[1, 0, 2, 0, 0], 2, "", 0, 4),
        on_row(shift, &one, 2, "9\n", 0, 5),
        on_row(rising, &[0, 2, 1], 5, "", 0, 3),
        on_row(rising, &[0, 2, 1], 5, "1\n[0] = 0\n", 0, 3),
    ]
}

/// Each of them in the other manners, and lent counts that it is not asked for.
fn in_manners() -> Vec<Call> {
    let mut row = Vec::new();
    for call in worked() {
        for manner in [Manner::Full, Manner::Pausing, Manner::Resuming] {
            row.push(call.in_manner(manner));
        }
    }
    for mut call in worked().into_iter().take(4) {
        call.counted = false;
        row.push(call);
    }
    row
}

/// Rows of more than one cell, more fields than one, and marks that are wrong.
fn shaped() -> Vec<Call> {
    let mut row = Vec::new();
    let mut add = |source: &str, shape: &[u32], fields: i32, ask: (u32, usize), list: &str| {
        let cells = shape.iter().product::<u32>() as usize;
        let entries = cells as i32 * fields;
        let grid: Vec<i32> = (0..entries).map(|entry| entry * 5 % 7 % 2).collect();
        let run = RunCase::new(source.into(), shape, grid, 0, 2).with_list(list.as_bytes());
        let marks = (0..cells).map(|cell| 3 * u8::from(cell % 4 == 1)).collect();
        let counts = vec![u32::MAX; ask.1];
        row.push(Call::new(run, Manner::Resuming, marks).counting(ask.0, counts));
    };
    let plane = "2 dimensions of 0..1 cell := 1 - cell";
    let moving = "2 dimensions of a of 0..9 moved of 0..1 end \
                  if cell.moved = 0 then cell.a := [1,0].a cell.moved := 1 end";
    let fixed = "2 dimensions of const a of 0..1 b of 0..1 end cell.b := cell.a";
    let cube = "3 dimensions of 0..1 cell := [0,0,1]";
    let by = "2 dimensions of 0..9 x := 6 / cell cell := 0 when [0,1] = 0";
    for list in ["", "0\n[1, 1] = 0\n", "2\n[0, 0] = 0\n[4, 1] = 1\n", "x\n"] {
        add(plane, &[5, 2], 1, (0, 5), list);
        add(plane, &[5, 2], 1, (0, 10), list);
        add(plane, &[5, 2], 1, (1, 5), list);
        add(moving, &[5, 2], 2, (1, 5), list);
        add(moving, &[5, 2], 2, (0, 5), list);
        add(fixed, &[5, 2], 2, (0, 5), list);
        add(by, &[5, 2], 1, (0, 5), list);
    }
    add(cube, &[2, 3, 2], 1, (0, 2), "");
    add(cube, &[2, 3, 2], 1, (0, 3), "");
    add(
        cube,
        &[3, 1, 2],
        1,
        (0, 3),
        "1\n[2, 0, 1] = 0\n[0, 0, 0] = 1\n",
    );
    add(plane, &[1, 9], 1, (0, 1), "");
    add(plane, &[9, 1], 1, (u32::MAX, 9), "");
    add(plane, &[9, 1], 1, (0, 0), "");
    add(plane, &[0, 1], 1, (9, 9), "x");
    add(
        "2 dimensions of 0..1 cell := [0,2]",
        &[3, 1],
        1,
        (9, 9),
        "x",
    );
    add("2 dimensions of 0..1 cell := y", &[3, 1], 1, (9, 9), "x");
    row
}

/// Runs that count.
pub fn calls() -> Vec<Call> {
    [worked(), in_manners(), shaped()].concat()
}
