//! Runs in a manner, written by hand.

use crate::call_case::Call;
use crate::case::RunCase;
use crate::pausing::Manner;

/// A call on one row of cells; without marks it is a pausing one.
fn on_row(
    source: &str,
    grid: &[i32],
    marks: Option<&[u8]>,
    start: i64,
    steps: i64,
    list: &str,
) -> Call {
    let shape = [grid.len() as u32];
    let run = RunCase::new(source.into(), &shape, grid.to_vec(), start, steps);
    let run = run.with_list(list.as_bytes());
    match marks {
        Some(marks) => Call::new(run, Manner::Resuming, marks.to_vec()),
        None => Call::pausing(run),
    }
}

/// The shift of document 01's M5: the reach is one cell back.
const SHIFT: &str = "1 dimensions of 0..1 cell := [-1]";

/// The cases worked out in the papers.
pub fn worked() -> Vec<Call> {
    let shift = |grid: [i32; 5], marks: Option<[u8; 5]>, start: i64, steps: i64, list: &str| {
        on_row(
            SHIFT,
            &grid,
            marks.as_ref().map(|row| &row[..]),
            start,
            steps,
            list,
        )
    };
    let one = [1, 0, 0, 0, 0];
    vec![
        shift(one, None, 0, 0, ""),
        shift(one, None, 0, 1, ""),
        shift([0, 1, 0, 0, 0], Some([1, 1, 1, 0, 0]), 1, 1, ""),
        shift(one, Some([0, 7, 0, 0, 0]), 0, 1, ""),
        shift(one, Some([0, 0, 0, 0, 0]), 0, 2, ""),
        shift(one, None, 0, 1, "1\n[3] = 1\n"),
        shift([0, 1, 0, 1, 0], Some([1, 1, 1, 1, 1]), 1, 1, ""),
        shift([0, 1, 0, 0, 0], Some([1, 1, 1, 0, 0]), 1, 1, "1\n[3] = 1\n"),
        shift([0, 0, 1, 0, 0], Some([0, 0, 3, 0, 0]), 4, 0, "4\n[0] = 1\n"),
        shift(one, None, 0, 1, "1\n[0] = 1\n[1] = 0\n"),
        on_row(
            "1 dimensions of 0..3 cell := cell + 1",
            &[0, 2, 1],
            None,
            0,
            5,
            "",
        ),
        on_row(
            "1 dimensions of 0..9 cell := time",
            &[0, 0],
            Some(&[0, 0]),
            1,
            2,
            "",
        ),
    ]
}

/// Calls in which something is decided by the marks, by a block or by a fault.
fn decided() -> Vec<Call> {
    let mut row = Vec::new();
    let mut add = |rest: &str, grid: &[i32], marks: &[u8], start: i64, steps: i64, list: &str| {
        let source = format!("1 dimensions of 0..9 {rest}");
        row.push(on_row(&source, grid, Some(marks), start, steps, list));
    };
    let still = [0, 1, 2, 3, 4];
    let none = [0; 5];
    // Blocks, before the first step and after the last, alone and with marks.
    for list in [
        "",
        "2\n[1] = 7\n",
        "2\n[1] = 1\n",
        "2\n[1] =\n",
        "2\n[1] = 7\n[1] = 1\n",
        "3\n[4] = 9\n",
        "4\n[4] = 9\n",
        "2\n[1] = 7\n3\n[1] = 1\n4\n[1] = 7\n",
    ] {
        add("cell := cell", &still, &none, 2, 2, list);
        add("cell := [-1]", &still, &[0, 0, 2, 0, 0], 2, 2, list);
        add("cell := 9 - cell when [1] > 3", &still, &none, 2, 0, list);
    }
    // What the step changes, the block of the end changes back.
    add(
        "cell := 9 - cell",
        &still,
        &[0, 1, 0, 0, 0],
        0,
        1,
        "1\n[1] = 1\n",
    );
    add(
        "cell := 9 - cell",
        &still,
        &[0, 1, 0, 0, 0],
        0,
        2,
        "1\n[1] = 1\n",
    );
    // `time` opens all cells, wherever it stands but in a comment.
    add(
        "if 0 then x := TIME end cell := [1]",
        &still,
        &none,
        0,
        2,
        "",
    );
    add("cell := [1] # time", &still, &none, 0, 2, "");
    add("cell := time", &still, &none, 8, 3, "");
    add("cell := time", &still, &none, 5, 0, "");
    // Faults of cells that are open, and of cells that are not.
    let by = "x := 6 / cell";
    add(by, &[0, 1, 0, 0], &[0, 1, 0, 1], 0, 3, "");
    add(by, &[0, 1, 0, 0], &[0, 1, 0, 0], 0, 3, "");
    add(
        by,
        &[0, 1, 1, 0],
        &[0, 0, 0, 0],
        0,
        3,
        "1\n[1] = 0\n2\n[2] = 0\n",
    );
    add(by, &[0, 1, 1, 0], &[0, 0, 0, 0], 0, 3, "3\n[1] = 0\n");
    add(by, &[1, 1, 1, 0], &[255, 0, 0, 0], 0, 3, "0\n[0] = 0\n");
    add("cell := cell + [1]", &[1, 9, 1, 1], &[0, 0, 1, 0], 0, 9, "");
    // The end of all times.
    let last = 2_147_483_647;
    add(
        "cell := [1]",
        &still,
        &[0, 3, 0, 0, 0],
        last,
        0,
        "2147483647\n[0] = 9\n",
    );
    add(
        "cell := [1]",
        &still,
        &[0, 3, 0, 0, 0],
        last - 1,
        1,
        "2147483647\n[0] = 9\n",
    );
    // Refusals leave the marks.
    let odd = [7, 0, 255, 1, 2];
    for list in [
        "x",
        "0\n[5] = 1\n",
        "0\n[0] = 1, 1\n",
        "0\n[0] = 10\n",
        "1\n1\n",
        "9\n",
    ] {
        add("cell := [1]", &still, &odd, 0, 2, list);
    }
    add("cell := [1]", &still, &odd, 1, 2, "0\n");
    add("cell := y", &still, &odd, 0, 2, "");
    add("cell := [1]", &still, &odd[1..], 0, 2, "");
    add("cell := [1]", &still, &[odd, odd].concat(), 0, 2, "");
    add("cell := [1]", &still, &[], 0, 2, "");
    add("cell := [1]", &still, &odd, 0, -1, "");
    add("cell := [6]", &still, &odd, 0, 2, "");
    add("cell := [1]", &[0, 10, 0, 0, 0], &odd, 0, 2, "");
    row
}

/// Calls on other shapes, with more fields, with a box as reach, and of the
/// manners that leave no marks.
fn shaped() -> Vec<Call> {
    let mut row = Vec::new();
    let mut add = |source: &str, shape: &[u32], fields: usize, marks: &[usize], list: &str| {
        let cells = shape.iter().product::<u32>() as usize;
        let grid: Vec<i32> = (0..cells * fields).map(|entry| entry as i32 % 3).collect();
        let run = RunCase::new(source.into(), shape, grid, 0, 2).with_list(list.as_bytes());
        let mut lent = vec![0; cells];
        for &cell in marks {
            lent[cell] = 1 + cell as u8;
        }
        for manner in [Manner::Resuming, Manner::Pausing] {
            row.push(Call::new(run.clone(), manner, lent.clone()));
        }
        if list.is_empty() {
            row.push(Call::new(run.clone(), Manner::Full, lent.clone()));
            row.push(Call::new(run, Manner::Quiet, lent));
        }
    };
    let plane = "2 dimensions of a of 0..9 const b of 0..2 end cell.a := [0,1].a when [1,0].b = 1";
    add(plane, &[3, 4], 2, &[0, 5, 11], "");
    add(plane, &[3, 4], 2, &[5], "0\n[2, 3] = , 1\n2\n[0, 0] = 9\n");
    let cube = "3 dimensions of 0..9 cell := [1,0,0] when [0,1,0] > [0,0,-1]";
    add(cube, &[2, 3, 2], 1, &[1, 2, 7], "");
    add(cube, &[2, 3, 2], 1, &[], "1\n[1, 2, 1] = 9\n");
    let wide = "1 dimensions of 0..2 s := 0 forall i : -128..128 s := s + [i] end cell := s % 3";
    add(wide, &[130], 1, &[3, 70], "");
    let corners = "2 dimensions of 0..2 cell := [0,3] when [3,0] = 1";
    add(corners, &[4, 4], 1, &[0, 6], "1\n[3, 3] = 0\n");
    row
}

/// Runs in a manner.
pub fn calls() -> Vec<Call> {
    [worked(), decided(), shaped()].concat()
}
