//! Runs with lists, and writings, written by hand.

use crate::case::RunCase;
use crate::write_case::WriteCase;

/// Three fields on a grid of 2 by 4, from time 3 on, 5 steps.
fn plane(list: &str) -> RunCase {
    let source = "2 dimensions of a of -9..9 b of 0..1 c of 0..100 end cell.c := [0,1].c";
    let grid: Vec<i32> = (0..24)
        .map(|entry| [0, 1, entry][entry as usize % 3])
        .collect();
    RunCase::new(source.into(), &[2, 4], grid, 3, 5).with_list(list.as_bytes())
}

/// Lists on this grid, each of which has something to decide.
const LISTS: [&str; 92] = [
    "",
    "3\n8\n",
    "3\n[0, 3] = 5, , 1\n",
    "3\n\n",
    "3\r\n",
    "3\n[0, 3] = 5",
    "[0, 3] = 5\n3\n",
    "3\n[9] = 5\n",
    "3\n[0, 3] = 2147483648\n",
    "3\n[0, 3] = --1\n",
    "3\n[2, 3] = 5\n",
    "3\n[0, 3] = , , ,\n",
    "3\n[1, 3] = 5, 2\n",
    "3\n[0, 4] = 10, 2, , 1\n",
    "5\n5\n",
    "0_2\n",
    "3\n4\n9\n",
    "3\n[0, 3] = 1_\n",
    // Line ends and blank lines.
    "\n",
    "\r",
    " ",
    " \n",
    "3",
    "3 ",
    "3\n ",
    "3\n \n",
    "3\n\t\x0b\x0c\n",
    "3\r4\r[0,0]=1\r",
    "3\n4\r[0,0]=1\n5\r",
    "3\n\r4\n",
    "\n3\n",
    "3\n[9, 9] = 5",
    "3\n[0, 0] = 1\n9",
    // Separators, comments and other bytes.
    "\t3\x0b \n\x0c[\t0 ,3 ]=  - 5 ,\x0b,+ 1 \n",
    "3 # note\n",
    "# note\n3\n",
    "3\n[0, 0] = 1 # note\n",
    "3\n[0, 0] = a\n",
    "3\n[0, 0] = cell\n",
    "3a\n",
    "3\n[0, 0] = 1x\n",
    "3\n[0x, 0] = 1\n",
    "time 3\n",
    "3\n[0, 0] := 1\n",
    "3\n(0, 0) = 1\n",
    "3\n[0, 0] = 1 +% 1\n",
    "3\n[0, 0] = \"1\"\n",
    "3\0\n",
    "3\n[0, 0] = 1\u{e9}\n",
    // Numbers and signs.
    "0_0_3\n[00, 0_1] = -0, +0_1, 0000000000000000000100\n",
    "3\n[0, 0] = 1__0\n",
    "3\n[0, 0] = _1\n",
    "_3\n",
    "3_\n",
    "+3\n",
    "-0\n",
    "3\n[+0, 0] = 1\n",
    "3\n[-0, 0] = 1\n",
    "3\n[-1, 0] = 1\n",
    "3\n[0, 0] = +-1\n",
    "3\n[0, 0] = -\n",
    "3\n[0, 0] = 1 -\n",
    "3\n[0, 0] = 1 2\n",
    "2147483648\n",
    "99999999999999999999999999\n",
    "2147483647\n",
    "3\n[2147483647, 0] = 1\n",
    "3\n[2147483648, 0] = 1\n",
    "3\n[0, 0] = -2147483648\n",
    "3\n[0, 0] = -2147483647\n",
    // The forms of a line.
    "3 4\n",
    "3,\n",
    "3\n[0, 0]\n",
    "3\n[0, 0] =\n",
    "3\n[0, 0] = ,\n",
    "3\n[0, 0] = , , \n",
    "3\n[] = 1\n",
    "3\n[0,] = 1\n",
    "3\n[0 0] = 1\n",
    "3\n[0, 0, 0] = 1\n",
    "3\n[0, 0 = 1\n",
    "3\n0, 0] = 1\n",
    "3\n[0, 0] = = 1\n",
    "3\n[0, 0] [1, 1] = 1\n",
    // Which number, and which line.
    "3\n[9, 9] = 1 x\n",
    "3\n[0, 4] = 10\n[0, 0] = 1, 1, 1, 1\n",
    "3\n[0, 3] = 10, , , 1\n",
    "4\n3\n2\n",
    "4\n2\n",
    "2\n9\n",
    "3\n[1, 3] = -9, 1, 100\n[0, 0] = 9, 0, 0\n8\n[1, 0] = , , 7\n",
    "3\n[1, 3] = -10\n",
];

/// Runs in which blocks change cells, with the steps of a rule between them.
fn changing() -> Vec<RunCase> {
    let mut row = Vec::new();
    let mut add = |rest: &str, grid: &[i32], start: i64, steps: i64, list: &str| {
        let source = format!("1 dimensions of 0..9 {rest}").into_bytes();
        let shape = [grid.len() as u32];
        let case = RunCase::new(source, &shape, grid.to_vec(), start, steps);
        row.push(case.with_list(list.as_bytes()));
    };
    let still = [0, 1, 2, 3, 4];
    for list in [
        "0\n[1] = 7\n",
        "1\n[1] = 7\n",
        "4\n[1] = 7\n",
        "1\n[1] = 1\n",
        "1\n[1] = 7\n[1] = 1\n",
        "1\n[1] = 7\n2\n[1] = 1\n",
        "1\n[1] = 7\n[1] = 6\n",
        "1\n[1] =\n",
        "1\n2\n3\n4\n",
        "0\n[0] = 9\n1\n[1] = 9\n2\n[2] = 9\n3\n[3] = 9\n4\n[4] = 9\n",
        "5\n",
    ] {
        // Cells that keep their values, and a rule that reads a neighbour.
        add("", &still, 0, 4, list);
        add("cell := cell", &still, 0, 4, list);
        add("cell := [-1]", &[0, 1, 0, 0, 0], 0, 4, list);
        add("cell := 0 when cell > 5", &still, 0, 4, list);
        add("cell := 9 - cell", &still, 0, 4, list);
        add("cell := cell when time < 9", &still, 0, 4, list);
        add("cell := [1] when [1] > cell", &[0; 5], 0, 4, list);
        // No step, so that the block of time 0 comes after the last.
        add("cell := [-1]", &still, 0, 0, list);
    }
    // The step changes a cell and the block changes it back, and the reverse.
    add(
        "cell := 9 when cell = 3",
        &[0, 3, 0, 0],
        0,
        4,
        "1\n[1] = 3\n",
    );
    add(
        "cell := 9 when cell = 3",
        &[0, 3, 0, 0],
        0,
        4,
        "1\n[1] = 3\n2\n[1] = 3\n3\n[1] = 3\n",
    );
    add(
        "cell := 9 when cell = 3",
        &[0, 3, 0, 0],
        0,
        4,
        "0\n[1] = 0\n2\n[1] = 3\n",
    );
    // Faults: the block of the faulting step stays, later ones are not set.
    for list in [
        "2\n[2] = 0\n",
        "2\n[2] = 0\n[0] = 7\n3\n[1] = 8\n",
        "0\n[0] = 0\n",
        "4\n[2] = 0\n",
    ] {
        add("x := 6 / cell", &[1, 1, 1], 0, 4, list);
        add("cell := cell + 6 / cell - 6", &[1, 1, 1], 0, 4, list);
    }
    add(
        "cell := cell + 1",
        &[0, 7, 1],
        0,
        5,
        "1\n[1] = 3\n3\n[2] = 9\n",
    );
    // The end of all times.
    let last = 2_147_483_647;
    add("cell := [1]", &still, last, 0, "2147483647\n[0] = 9\n");
    add("cell := [1]", &still, last - 1, 1, "2147483647\n[0] = 9\n");
    add(
        "cell := [1]",
        &still,
        last - 1,
        1,
        "2147483646\n[0] = 9\n2147483647\n[1] = 9\n",
    );
    add("cell := [1]", &still, last - 1, 1, "2147483645\n");
    add("cell := [1]", &still, 0, last, "2147483647\n[0] = x\n");
    // The list is tried last.
    add("cell := y", &still, 0, 1, "x");
    add("cell := [6]", &still, 0, 1, "x");
    add("cell := [1]", &[0, 10], 0, 1, "x");
    add("cell := [1]", &still, -1, 1, "x");
    add("cell := 1 / 0", &still, 0, 1, "0\n[0] = 5\n2\n");
    row
}

/// Two fields, one of them const, and cells in three dimensions.
fn shaped() -> Vec<RunCase> {
    let mut row = Vec::new();
    let fields = "1 dimensions of const b of -3..3 a of 0..9 end cell.a := cell.a + cell.b";
    for list in [
        "1\n[1] = 1\n",
        "1\n[1] = , 5\n2\n[1] = -1,\n",
        "0\n[0] = 3, 9\n",
        "1\n[1] = 4\n",
        "1\n[1] = 0, 0, \n",
    ] {
        let case = RunCase::new(fields.into(), &[2], vec![0, 1, 0, 2], 0, 3);
        row.push(case.with_list(list.as_bytes()));
    }
    let cube = "3 dimensions of 0..9 cell := [0,0,1] when [1,0,0] = [0,1,0]";
    for list in [
        "0\n[1, 2, 3] = 9\n",
        "1\n[1, 2, 3] = 9\n[0, 0, 0] = 1\n2\n[1, 0, 2] = 4\n",
        "1\n[2, 0, 0] = 9\n",
        "1\n[0, 3, 0] = 9\n",
        "1\n[0, 0, 4] = 9\n",
        "1\n[0, 0] = 9\n",
    ] {
        let grid: Vec<i32> = (0..24).map(|entry| entry % 10).collect();
        row.push(RunCase::new(cube.into(), &[2, 3, 4], grid, 0, 3).with_list(list.as_bytes()));
    }
    row
}

/// Runs with lists.
pub fn runs() -> Vec<RunCase> {
    let mut row: Vec<RunCase> = LISTS.iter().map(|list| plane(list)).collect();
    row.extend(changing());
    row.extend(shaped());
    row
}

/// Writings.
pub fn writings() -> Vec<WriteCase> {
    let mut row = Vec::new();
    let two = "2 dimensions of a of -20..20 b of -99..99 end";
    let earlier = vec![1, 2, 3, 4, 5, 6, 7, 8];
    let later = vec![1, 2, 0, 4, 5, 6, 7, -12];
    let mut add = |source: &str, shape: &[u32], grids: [&[i32]; 2], time: i64, room: usize| {
        let [earlier, later] = grids.map(<[i32]>::to_vec);
        row.push(WriteCase::new(
            source.into(),
            shape,
            earlier,
            later,
            time,
            room,
        ));
    };
    for room in [0, 2, 32, 33, 34, 35, 60] {
        add(two, &[2, 2], [&earlier, &later], 40, room);
        add(two, &[2, 2], [&later, &earlier], 40, room);
        add(two, &[2, 2], [&earlier, &earlier], 40, room);
    }
    for time in [
        0,
        9,
        10,
        2_147_483_647,
        2_147_483_648,
        -1,
        i64::MAX,
        i64::MIN,
    ] {
        add("1 dimensions of 0..1", &[1], [&[0], &[1]], time, 20);
    }
    add("1 dimensions of 0..1", &[1], [&[0], &[1]], 7, 2);
    let wide = "1 dimensions of -2147483647..2147483647";
    let ends = [
        2_147_483_647,
        -2_147_483_647,
        0,
        -1,
        1_000_000_000,
        -999_999_999,
    ];
    add(wide, &[6], [&[5; 6], &ends], 1, 120);
    add(wide, &[6], [&ends, &[0; 6]], 1, 120);
    add(wide, &[2], [&[0, 0], &[0, i32::MIN]], 1, 120);
    add("1 dimensions of 0..1", &[12], [&[0; 12], &[1; 12]], 99, 92);
    // Which grid is named, and by which number.
    let bits = "1 dimensions of 0..1 cell := [3]";
    for (earlier, later) in [
        (&[0, 0, 2][..], &[0, 2, 0][..]),
        (&[0, 0, 0], &[0, 2, 0]),
        (&[0, 0, 2], &[0, 0, 0]),
        (&[0, 2], &[0, 0, 2]),
        (&[0, 0, 2], &[0, 0]),
        (&[0, 0], &[0, 0]),
        (&[0, 0, 0, 0], &[0, 0]),
    ] {
        add(bits, &[3], [earlier, later], 5, 30);
        add(bits, &[3], [earlier, later], -5, 30);
        add(bits, &[2], [earlier, later], 5, 30);
        add(bits, &[0], [earlier, later], 5, 30);
        add("1 dimensions of 0..1 x := y", &[3], [earlier, later], 5, 30);
    }
    row
}
