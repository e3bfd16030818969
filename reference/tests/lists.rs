//! Timed value lists: the cases worked out in the papers, and properties over
//! generated runs.

use reference::admission::{admit_grid, Asked};
use reference::case::{run_case, Outcome, RunCase};
use reference::lists::{read_list, Limits};
use reference::one_move::flag;
use reference::open::open_cells;
use reference::places::reach;
use reference::tree::Field;
use reference::{check, vectors};

/// The number and line of a list on a grid of 2 by 4 with three fields, from
/// time 3 on, 5 steps.
fn reply(list: &str) -> (u32, u64) {
    let fields = [(-9, 9), (0, 1), (0, 100)].map(|(low, high)| Field { low, high });
    let limits = Limits {
        sizes: &[2, 4],
        fields: &fields,
        flag: None,
        start: 3,
        steps: 5,
    };
    match read_list(list.as_bytes(), &limits) {
        Ok(_) => (0, 0),
        Err(bad) => (bad.number, bad.line),
    }
}

#[test]
fn worked() {
    for list in ["", "3\n8\n", "3\n[0, 3] = 5, , 1\n"] {
        assert_eq!(reply(list), (0, 0), "{list:?}");
    }
    for list in [
        "3\n\n",
        "3\r\n",
        "3\n[0, 3] = 5",
        "3\n[9] = 5\n",
        "3\n[0, 3] = 2147483648\n",
        "3\n[0, 3] = --1\n",
        "3\n[0, 3] = 1_\n",
    ] {
        assert_eq!(reply(list), (50, 2), "{list:?}");
    }
    assert_eq!(reply("[0, 3] = 5\n3\n"), (50, 1));
    assert_eq!(reply("3\n[2, 3] = 5\n"), (51, 2));
    assert_eq!(reply("3\n[0, 3] = , , ,\n"), (52, 2));
    assert_eq!(reply("3\n[1, 3] = 5, 2\n"), (53, 2));
    assert_eq!(reply("3\n[0, 4] = 10, 2, , 1\n"), (51, 2));
    assert_eq!(reply("5\n5\n"), (54, 2));
    assert_eq!(reply("0_2\n"), (55, 1));
    assert_eq!(reply("3\n4\n9\n"), (56, 3));
}

#[test]
fn lines() {
    // Lines that are taken.
    for list in [
        "\t3\x0b \n\x0c[\t0 ,3 ]=  - 5 ,\x0b,+ 1 \n",
        "003\r[0,0]=\r",
        "3\n[0, 0] = , , \n",
        "3\n[0_0, 0_3] = -0, +0_1, 0000000000000000000100\n",
        "3\n[1, 3] = -9, 1, 100\n[0, 0] = 9, 0, 0\n",
        "3\n4\n5\n6\n7\n8\n",
    ] {
        assert_eq!(reply(list), (0, 0), "{list:?}");
    }
    // Bad lines, each the second one.
    for line in [
        "",
        " ",
        "#",
        "3,",
        "3 4",
        "+4",
        "-0",
        "-4",
        "4a",
        "4_",
        "_4",
        "4__0",
        "2147483648",
        "[] = 1",
        "[0] = 1",
        "[0,] = 1",
        "[,0] = 1",
        "[0 0] = 1",
        "[0,0,0] = 1",
        "[+0,0] = 1",
        "[-0,0] = 1",
        "[0,0]",
        "[0,0 = 1",
        "0,0] = 1",
        "[0,0] 1",
        "[0,0] = = 1",
        "[0,0] := 1",
        "[0,0] = 1 2",
        "[0,0] = -",
        "[0,0] = +-1",
        "[0,0] = - -1",
        "[0,0] = 1-",
        "[0,0] = x",
        "[0,0] = 1x",
        "[0,0] = 1 # note",
        "[0,0] = -2147483648",
        "[2147483648,0] = 1",
        "[0,0] = 1 x",
        "[9,9] = 1,1,1,1 x",
        "[0,0] = 1\0",
        "[0,0] = 1\u{80}",
        "(0,0) = 1",
        "[0,0] = [0,0]",
        "=",
        "[",
        "]",
        "[0,0]] = 1",
        "[[0,0] = 1",
    ] {
        assert_eq!(reply(&format!("3\n{line}\n4\n")), (50, 2), "{line:?}");
        assert_eq!(reply(&format!("3\r{line}\r")), (50, 2), "{line:?}");
    }
    // The lowest line, then the lowest number.
    assert_eq!(reply("3\n[0, 0] = 10\nx\n"), (53, 2));
    assert_eq!(reply("3\nx\n[0, 0] = 10\n"), (50, 2));
    assert_eq!(reply("3\n[0, 0] = 10, , , \n"), (52, 2));
    assert_eq!(reply("3\n[0, 0] = 9, , , 999\n"), (52, 2));
    assert_eq!(reply("3\n[2147483647, 0] = 1\n"), (51, 2));
    assert_eq!(reply("3\n[0, 0] = -10\n"), (53, 2));
    assert_eq!(reply("4\n2\n"), (54, 2));
    assert_eq!(reply("2\n1\n"), (55, 1));
    assert_eq!(reply("2147483647\n"), (56, 1));
    assert_eq!(reply("9\n[0, 0] = x\n"), (56, 1));
    assert_eq!(reply("3\n[9, 9] = 5"), (50, 2));
    assert_eq!(reply("3\n4"), (50, 2));
    assert_eq!(reply("3\n "), (50, 2));
    assert_eq!(reply("\n3\n"), (50, 1));
}

/// A run with a list, full and quiet, which agree but for their counts.
fn run(
    source: &str,
    grid: &[i32],
    start: i64,
    steps: i64,
    list: &str,
    cells: u32,
) -> (Outcome, Outcome) {
    let case = RunCase::new(source.into(), &[cells], grid.to_vec(), start, steps);
    let case = case.with_list(list.as_bytes());
    let (full, quiet) = (run_case(&case, false), run_case(&case, true));
    let mut same = quiet.clone();
    same.report.count = full.report.count;
    assert_eq!(full, same, "{list:?}");
    (full, quiet)
}

#[test]
fn blocks() {
    // Setting a block, in a run of 0 steps.
    let list = "3\n[1] = 5\n[1]=-6\r [ 2 ] =\n";
    let line = "1 dimensions of -9..9";
    assert_eq!(
        run(line, &[0, 1, 2, 3], 3, 0, list, 4).0.grid,
        [0, -6, 2, 3]
    );
    let three = "1 dimensions of a, b, c of 0..9 end";
    let grid = [1, 2, 3, 4, 5, 6];
    let set = run(three, &grid, 3, 0, "3\n[1] = 5, , 1\n", 2).0.grid;
    assert_eq!(set, [1, 2, 3, 5, 5, 1]);
    // One among others, in a run: the times before and behind it too.
    let list = "1\n[0] = 7\n3\n[1] = 5\n[1]=-6\r [ 2 ] =\n4\n[3] = 8\n";
    assert_eq!(run(line, &[0, 1, 2, 3], 1, 2, list, 4).0.report.number, 56);
    assert_eq!(
        run(line, &[0, 1, 2, 3], 1, 3, list, 4).0.grid,
        [7, -6, 2, 8]
    );
    // Const fields may be set.
    let fixed = "1 dimensions of const a of 0..9 end";
    assert_eq!(run(fixed, &[4, 4], 0, 1, "1\n[1] = 9\n", 2).0.grid, [4, 9]);
}

#[test]
fn refused_lists_leave_everything() {
    let source = "1 dimensions of 0..9 cell := 1";
    for (list, number, line) in [
        ("0\n[0] = 5\n[5] = 1\n", 51, 3),
        ("0\n[0] = 5\n2\n[0] = 5\n4\n", 56, 5),
        ("0\n[0] = 5", 50, 2),
    ] {
        let (full, quiet) = run(source, &[4, 4], 0, 3, list, 2);
        for outcome in [full, quiet] {
            let report = outcome.report;
            assert_eq!((report.number, report.line), (number, line));
            let others = (report.place, report.cell, report.steps, report.count);
            assert_eq!(others, (0, 0, 0, 0));
            assert_eq!(outcome.grid, [4, 4]);
            assert_eq!((outcome.scratch, outcome.marks), ("same", "same"));
        }
    }
    // The list is tried after everything else.
    let number = |source: &str, grid: &[i32], start: i64| {
        run(source, grid, start, 1, "x", 2).0.report.number
    };
    assert_eq!(number("1 dimensions of 0..9 x := y", &[0, 0], 0), 8);
    assert_eq!(number(source, &[0, 0, 0], 0), 21);
    assert_eq!(number(source, &[0, 0], -1), 22);
    assert_eq!(number("1 dimensions of 0..9 cell := [3]", &[0, 0], 0), 23);
    assert_eq!(number(source, &[0, 10], 0), 24);
    assert_eq!(number(source, &[0, 9], 0), 50);
}

#[test]
fn when_a_block_is_set() {
    let time = "1 dimensions of 0..9 cell := cell + 1";
    let grid = |list: &str, steps: i64| run(time, &[0, 0], 5, steps, list, 2).0.grid;
    // Before its time's step, or after the last.
    assert_eq!(grid("5\n[1] = 4\n", 2), [2, 6]);
    assert_eq!(grid("6\n[1] = 4\n", 2), [2, 5]);
    assert_eq!(grid("7\n[1] = 4\n", 2), [2, 4]);
    assert_eq!(grid("5\n[1] = 4\n", 0), [0, 4]);
    assert_eq!(grid("5\n[0] = 1\n6\n[0] = 1\n7\n[0] = 1\n", 2), [1, 2]);
    // A fault leaves the grid with that step's block set, and no later one.
    let (full, _) = run(time, &[0, 0], 5, 4, "6\n[0] = 2\n[1] = 9\n7\n[0] = 7\n", 2);
    assert_eq!((full.report.number, full.report.cell), (33, 1));
    assert_eq!((full.report.steps, full.report.count), (1, 4));
    assert_eq!(full.grid, [2, 9]);
    assert_eq!((full.scratch, full.marks), ("zero", "zero"));
    // The end of all times.
    let last = 2_147_483_647;
    let list = "2147483646\n[0] = 3\n2147483647\n[1] = 8\n";
    assert_eq!(run(time, &[0, 0], last - 1, 1, list, 2).0.grid, [4, 8]);
}

#[test]
fn what_a_block_opens() {
    // Five cells that keep their values: after the first step none is open.
    let count = |rest: &str, list: &str| {
        let source = format!("1 dimensions of 0..9 {rest}");
        run(&source, &[0, 1, 2, 3, 4], 0, 4, list, 5).1.report.count
    };
    let own = |list: &str| count("cell := cell", list);
    assert_eq!(own(""), 5);
    // A change opens the cells that have it in their reach.
    assert_eq!(own("1\n[1] = 7\n"), 6);
    assert_eq!(own("1\n[1] = 7\n2\n[1] = 6\n3\n[2] = 9\n"), 8);
    assert_eq!(own("1\n[1] = 7\n[3] = 7\n"), 7);
    // All cells are open in the first step; after the last none is.
    assert_eq!(own("0\n[1] = 7\n"), 5);
    assert_eq!(own("4\n[1] = 7\n"), 5);
    // No change: the value that stands there, none, twice and back.
    assert_eq!(own("1\n[1] = 1\n"), 5);
    assert_eq!(own("1\n[1] =\n"), 5);
    assert_eq!(own("1\n[1] = 7\n[1] = 1\n"), 5);
    assert_eq!(own("1\n[1] = 7\n[1] = 6\n"), 6);
    let both = "x := [-1] + [1]";
    assert_eq!(count(both, ""), 5);
    assert_eq!(count(both, "2\n[0] = 7\n"), 8);
    assert_eq!(count("x := time", "2\n[0] = 7\n"), 20);
    // The step changes a cell and the block changes it back: it changed.
    let there = "1 dimensions of 0..9 cell := 9 when cell = 3";
    let quiet = |list: &str| run(there, &[0, 3, 0], 0, 3, list, 3).1;
    assert_eq!(quiet("").report.count, 4);
    let back = quiet("1\n[1] = 3\n");
    assert_eq!((back.report.count, back.grid), (5, vec![0, 9, 0]));
    let again = quiet("1\n[1] = 3\n2\n[1] = 3\n3\n[1] = 3\n");
    assert_eq!((again.report.count, again.grid), (5, vec![0, 3, 0]));
    // A fault that a block brings, in a cell that it opens.
    let by = "1 dimensions of 0..9 x := 6 / cell";
    let (full, quiet) = run(by, &[1, 1, 1], 0, 4, "2\n[2] = 0\n[0] = 7\n", 3);
    assert_eq!((full.report.number, full.report.cell), (31, 2));
    assert_eq!((full.report.count, quiet.report.count), (9, 5));
    assert_eq!(full.grid, [7, 1, 0]);
}

/// The grid that is left where the list is cut by hand: a run up to each
/// block, its values stored, and a run on from there.
fn in_parts(case: &RunCase) -> Option<Vec<i32>> {
    let program = check(&case.source).program?;
    let limits = Limits {
        sizes: &case.shape,
        fields: &program.fields,
        flag: flag(&case.source, &program),
        start: case.start,
        steps: case.steps,
    };
    let asked = Asked {
        shape: &case.shape,
        grid: &case.grid,
        rooms: Some((case.scratch, case.marks)),
        held: None,
        start: case.start,
        steps: case.steps,
    };
    admit_grid(&program, &asked).ok()?;
    let blocks = read_list(&case.values, &limits).ok()?;
    let mut grid = case.grid.clone();
    let mut now = case.start;
    let last = (case.start + case.steps, Vec::new());
    let parts = blocks.into_iter().map(|block| (block.time, block.lines));
    for (time, lines) in parts.chain([last]) {
        let part = RunCase::new(case.source.clone(), &case.shape, grid, now, time - now);
        let outcome = run_case(&part, false);
        grid = outcome.grid;
        if outcome.report.number != 0 {
            break;
        }
        for line in lines {
            for (field, value) in line.values.iter().enumerate() {
                let entry = &mut grid[line.cell * program.fields.len() + field];
                *entry = value.unwrap_or(*entry);
            }
        }
        now = time;
    }
    Some(grid)
}

#[test]
fn generated() {
    let (mut began, mut faulted) = (0, 0);
    let cases = vectors::runs(13, 3_000, false).chain(vectors::lists(14, 6_000, false));
    for case in cases {
        let full = run_case(&case, false);
        let mut quiet = run_case(&case, true);
        let text = String::from_utf8_lossy(&case.values);
        assert!(quiet.report.count <= full.report.count, "{text}");
        quiet.report.count = full.report.count;
        assert_eq!(full, quiet, "{text}");
        let number = full.report.number;
        assert_eq!((50..=56).contains(&number), full.report.line > 0);
        if number == 0 || (30..=33).contains(&number) {
            assert_eq!(in_parts(&case).as_ref(), Some(&full.grid), "{text}");
            began += 1;
            faulted += usize::from(number != 0);
        } else {
            assert_eq!(full.grid, case.grid);
        }
        assert!(case.values.len() <= reference::listed::MOST_BYTES);
    }
    assert!(began > 3_000 && faulted > 300, "{began} {faulted}");
}

/// The list without the blocks after a time.
fn up_to(list: &[u8], time: i64) -> Vec<u8> {
    let mut left = Vec::new();
    for line in list.split_inclusive(|byte| matches!(byte, b'\n' | b'\r')) {
        let digits: String = line
            .iter()
            .filter(|byte| byte.is_ascii_digit())
            .map(|&byte| byte as char)
            .collect();
        let is_time = !line.contains(&b'[');
        if is_time && digits.parse::<i64>().is_ok_and(|found| found > time) {
            break;
        }
        left.extend_from_slice(line);
    }
    left
}

/// The cells that the quiet run opens, from the grids that full runs of fewer
/// steps leave, with the block of their last time and without it.
#[test]
fn quiet_counts_by_full_runs() {
    let mut opened = 0;
    let cases = vectors::lists(15, 4_000, true).chain(vectors::runs(17, 2_000, true));
    for case in cases {
        let (full, quiet) = (run_case(&case, false), run_case(&case, true));
        if full.report.number != 0 || case.values.is_empty() {
            continue;
        }
        let program = check(&case.source).program.expect("a run that began");
        let fields = program.fields.len();
        let after = |steps: i64, last: i64| {
            let part = RunCase {
                steps,
                ..case.clone()
            };
            let list = up_to(&case.values, last);
            run_case(&part.with_list(&list), false).grid
        };
        let mut count = if case.steps > 0 { case.marks } else { 0 };
        for steps in 1..case.steps {
            let time = case.start + steps;
            let before = after(steps - 1, time - 1);
            let stepped = after(steps, time - 1);
            let set = after(steps, time);
            let own = |grid: &[i32], cell: usize| grid[cell * fields..][..fields].to_vec();
            let changed: Vec<bool> = (0..case.marks)
                .map(|cell| {
                    let now = own(&stepped, cell);
                    own(&before, cell) != now || now != own(&set, cell)
                })
                .collect();
            let open = open_cells(&case.shape, &reach(&program), &changed);
            let all = program.uses_time;
            count += open.iter().filter(|&&is_open| is_open || all).count();
            opened += usize::from(stepped != set);
        }
        assert_eq!(quiet.report.count, count as u64);
    }
    assert!(opened > 500, "{opened}");
}
