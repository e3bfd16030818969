//! The marked examples M1 to M13.

use reference::case::{run_case, Outcome, RunCase};
use reference::check;

const S: &str = "1 dimensions of 0..1 ";

fn reply(source: &str) -> (u32, u32) {
    let reply = check(source.as_bytes()).reply;
    (reply.number, reply.place)
}

fn run(source: &str, grid: &[i32], start: i64, steps: i64) -> (Outcome, Outcome) {
    let shape = [grid.len() as u32];
    let case = RunCase::new(source.into(), &shape, grid.to_vec(), start, steps);
    (run_case(&case, false), run_case(&case, true))
}

/// The value of an expression, through a variable.
fn value(expression: &str) -> i32 {
    let source = format!("1 dimensions of -99..99 cell := {expression}");
    let (full, quiet) = run(&source, &[0], 0, 1);
    assert_eq!(full.report.number, 0);
    assert_eq!(full.grid, quiet.grid);
    full.grid[0]
}

#[test]
fn m1_to_m4_and_m13() {
    assert_eq!(reply(""), (7, 0));
    assert_eq!(reply(S), (0, 0));
    assert_eq!(reply(&format!("{S}x := y")), (8, 26));
    assert_eq!(reply(&format!("{S}cell := 1 < 2 < 3")), (13, 35));
    assert_eq!(reply("4 dimensions of 0..1"), (40, 0));
}

#[test]
fn m5() {
    let (full, quiet) = run(&format!("{S}cell := [-1]"), &[1, 0, 0, 0, 0], 0, 2);
    assert_eq!(full.grid, [0, 0, 1, 0, 0]);
    assert_eq!(quiet.grid, [0, 0, 1, 0, 0]);
    assert_eq!((full.report.number, quiet.report.number), (0, 0));
    assert_eq!((full.report.steps, quiet.report.steps), (2, 2));
    assert_eq!((full.report.count, quiet.report.count), (10, 8));
    assert_eq!((full.scratch, full.marks), ("zero", "zero"));
    assert_eq!((quiet.scratch, quiet.marks), ("zero", "zero"));
}

#[test]
fn m6() {
    let (full, quiet) = run("1 dimensions of 0..9 cell := time", &[0, 0], 0, 3);
    assert_eq!(full.grid, [2, 2]);
    assert_eq!(quiet.grid, [2, 2]);
    assert_eq!((full.report.count, quiet.report.count), (6, 6));
}

#[test]
fn m7() {
    let (full, quiet) = run("1 dimensions of 0..3 cell := cell + 1", &[0, 2, 1], 0, 5);
    for outcome in [&full, &quiet] {
        let report = outcome.report;
        assert_eq!((report.number, report.place), (33, 26));
        assert_eq!((report.cell, report.steps, report.count), (1, 1, 5));
        assert_eq!(outcome.grid, [1, 3, 2]);
    }
}

#[test]
fn m8_to_m11() {
    assert_eq!(value("1 | 0 & 0"), 0);
    assert_eq!(value("7 / -2"), -3);
    assert_eq!(value("-7 % 2"), -1);
    assert_eq!(value("7 % -2"), 1);
}

#[test]
fn m12() {
    let grid = [1, 2, 3, 4, 5];
    let (full, quiet) = run("1 dimensions of 0..9 cell := [5]", &grid, 0, 1);
    assert_eq!((full.report.number, quiet.report.number), (0, 0));
    assert_eq!(full.grid, grid);
    assert_eq!(quiet.grid, grid);
    let (full, quiet) = run("1 dimensions of 0..9 cell := [6]", &grid, 0, 1);
    for outcome in [full, quiet] {
        assert_eq!((outcome.report.number, outcome.report.place), (23, 30));
        assert_eq!((outcome.report.steps, outcome.report.count), (0, 0));
        assert_eq!(outcome.grid, grid);
        assert_eq!((outcome.scratch, outcome.marks), ("same", "same"));
    }
}
