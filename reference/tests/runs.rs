//! Runs worked out by hand, and properties over generated cases.

use reference::case::{put_run, run_case, RunCase};
use reference::generate::{program, Wish};
use reference::open::open_cells;
use reference::places::{places, Reach};
use reference::random::Random;
use reference::text::{any_style, write};
use reference::{check, json, vectors};

fn run(source: &str, shape: &[u32], grid: &[i32], start: i64, steps: i64) -> [u64; 6] {
    let case = RunCase::new(source.into(), shape, grid.to_vec(), start, steps);
    let full = run_case(&case, false).report;
    let quiet = run_case(&case, true).report;
    assert_eq!((full.number, full.place), (quiet.number, quiet.place));
    [
        full.number.into(),
        full.place.into(),
        full.cell.into(),
        full.steps.into(),
        full.count,
        quiet.count,
    ]
}

#[test]
fn faults() {
    let wide = "1 dimensions of -9..9 ";
    let at = |rest: &str| run(&format!("{wide}{rest}"), &[2], &[0, 1], 0, 1);
    assert_eq!(at("cell := 1 / cell"), [31, 32, 0, 0, 1, 1]);
    assert_eq!(at("cell := 1 % (1 - cell)"), [31, 32, 1, 0, 2, 2]);
    assert_eq!(at("x := 2147483647 + cell"), [30, 38, 1, 0, 2, 2]);
    assert_eq!(at("x := -2147483647 - 1 x := -x"), [30, 48, 0, 0, 1, 1]);
    assert_eq!(
        at("const a[] for 1 := 2 cell := a[cell]"),
        [32, 52, 1, 0, 2, 2]
    );
    assert_eq!(
        at("const a[] for 1 := 2 cell := a[-1]"),
        [32, 52, 0, 0, 1, 1]
    );
    assert_eq!(at("cell := 0 & 1 / 0"), [31, 36, 0, 0, 1, 1]);
    assert_eq!(at("cell := 1 when 0 := 10 when 1"), [33, 39, 0, 0, 1, 1]);
    assert_eq!(at("cell := 1 / 0 when 0"), [0, 0, 0, 1, 2, 2]);
    assert_eq!(at("x := (1 / 0) + (1 % 0)"), [31, 30, 0, 0, 1, 1]);
    assert_eq!(at("x := 2147483647 % -2147483647"), [0, 0, 0, 1, 2, 2]);
    assert_eq!(at("x := 1073741823 % -2147483647"), [0, 0, 0, 1, 2, 2]);
    assert_eq!(at("x := (0-2147483647-1) % -1"), [0, 0, 0, 1, 2, 2]);
    assert_eq!(at("x := (0-2147483647-1) / -1"), [30, 44, 0, 0, 1, 1]);
}

#[test]
fn remainders() {
    let least = "(0-2147483647-1)";
    for (a, b, wanted) in [
        ("7", "2", 1),
        ("7", "-2", 1),
        ("-7", "2", -1),
        ("-7", "-2", -1),
        ("5", "-3", 2),
        ("-5", "-3", -2),
        ("6", "-3", 0),
        (least, "-1", 0),
        (least, "1", 0),
        (least, least, 0),
        (least, "-2147483647", -1),
        ("2147483647", "-2147483647", 0),
        ("2147483647", least, 2_147_483_647),
    ] {
        let wide = "1 dimensions of -2147483647..2147483647 ";
        let source = format!("{wide}cell := {a} % {b}");
        let case = RunCase::new(source.into(), &[1], vec![9], 0, 1);
        for quiet in [false, true] {
            let outcome = run_case(&case, quiet);
            assert_eq!(outcome.report.number, 0, "{a} % {b}");
            assert_eq!(outcome.grid, [wanted], "{a} % {b}");
        }
    }
}

#[test]
fn variables_behind_ended_loops() {
    let value = |rest: &str| {
        let source = format!("1 dimensions of -99..99 {rest}");
        let case = RunCase::new(source.into_bytes(), &[1], vec![0], 0, 1);
        run_case(&case, false).grid[0]
    };
    let text = "forall i : 0..3 a := a + i end b := a forall j : 0..1 c := c + b end cell := c + a";
    assert_eq!(value(text), 18);
    let text =
        "i := 3 forall j : 0..1 i := i + 1 end forall k : 0..1 j := 9 end cell := i * 10 + j";
    assert_eq!(value(text), 59);
}

#[test]
fn refusals() {
    let s = "1 dimensions of 0..1 cell := [2]";
    assert_eq!(run(s, &[2, 1], &[0, 0], 0, 1)[0], 20);
    assert_eq!(run(s, &[0], &[], 0, 1)[0], 20);
    assert_eq!(run(s, &[4097], &[0; 4097], 0, 1)[0], 20);
    assert_eq!(run(s, &[4096], &[0; 4096], 0, 1)[0], 0);
    assert_eq!(run(s, &[3], &[0, 0], 0, 1)[0], 21);
    assert_eq!(run(s, &[2], &[0, 0], -1, 1)[0], 22);
    assert_eq!(run(s, &[2], &[0, 0], 2147483647, 0)[0], 0);
    assert_eq!(run(s, &[2], &[0, 0], 2147483647, 1)[0], 22);
    assert_eq!(run(s, &[2], &[0, 0], i64::MAX, i64::MAX)[0], 22);
    assert_eq!(run(s, &[1], &[0], 0, 1), [23, 30, 0, 0, 0, 0]);
    let signed = "1 dimensions of 0..1 if 0 then cell := [- 2] end";
    assert_eq!(run(signed, &[1], &[0], 0, 1), [23, 40, 0, 0, 0, 0]);
    let looped = "1 dimensions of 0..1 forall i : -3..1 cell := [i] end";
    assert_eq!(run(looped, &[2], &[0, 0], 0, 1), [23, 47, 0, 0, 0, 0]);
    assert_eq!(run(s, &[3], &[0, 2, 2], 0, 0), [24, 1, 0, 0, 0, 0]);
}

#[test]
fn time_keeps_all_cells_open() {
    let shape = [3];
    let grid = [1, 0, 1];
    let comment = "1 dimensions of 0..1 # time\n cell := cell";
    assert_eq!(run(comment, &shape, &grid, 0, 4)[4..], [12, 3]);
    let unused = "1 dimensions of 0..1 if 0 then x := TIME end cell := cell";
    assert_eq!(run(unused, &shape, &grid, 0, 4)[4..], [12, 12]);
}

/// The reach read cell by cell.
fn open_by_definition(shape: &[u32], reach: &[(i32, i32)], changed: &[bool]) -> Vec<bool> {
    let cells = changed.len();
    let index = |cell: usize| {
        let mut rest = cell;
        let mut index = vec![0i64; shape.len()];
        for dimension in (0..shape.len()).rev() {
            index[dimension] = (rest % shape[dimension] as usize) as i64;
            rest /= shape[dimension] as usize;
        }
        index
    };
    (0..cells)
        .map(|cell| {
            (0..cells).any(|other| {
                changed[other]
                    && (0..shape.len()).all(|d| {
                        let apart = index(other)[d] - index(cell)[d];
                        (reach[d].0..=reach[d].1)
                            .any(|o| (i64::from(o) - apart).rem_euclid(shape[d].into()) == 0)
                    })
            })
        })
        .collect()
}

#[test]
fn open_cells_by_definition() {
    let mut random = Random::new(9);
    for _ in 0..300 {
        let dimensions = 1 + random.below(3);
        let shape: Vec<u32> = (0..dimensions)
            .map(|_| 1 + random.below(5) as u32)
            .collect();
        let reach: Vec<(i32, i32)> = shape
            .iter()
            .map(|&size| {
                let size = i64::from(size);
                (
                    -random.between(0, size) as i32,
                    random.between(0, size) as i32,
                )
            })
            .collect();
        let cells: u32 = shape.iter().product();
        let changed: Vec<bool> = (0..cells).map(|_| random.chance(15)).collect();
        assert_eq!(
            open_cells(&shape, &Reach::Box(reach.clone()), &changed),
            open_by_definition(&shape, &reach, &changed)
        );
    }
}

/// How many places a source has, and how many index vectors its box; none: more than 256.
fn counts(rest: &str) -> (Option<usize>, i64) {
    let program = check(rest.as_bytes()).program.expect(rest);
    let bounds = program.bounds();
    let vectors = bounds
        .iter()
        .map(|bound| i64::from(bound.1 - bound.0 + 1))
        .product();
    (places(&program).map(|list| list.len()), vectors)
}

#[test]
fn places_are_counted() {
    let plane = |rest: &str| counts(&format!("2 dimensions of 0..9 {rest}"));
    assert_eq!(plane("cell := 0"), (Some(1), 1));
    assert_eq!(plane("cell := [0,9] + [9,0]"), (Some(3), 100));
    assert_eq!(plane("cell := 0 * [0,1] * [0,1]"), (Some(2), 2));
    assert_eq!(
        plane("forall i : -1..1 cell := 0 * [i,i] end"),
        (Some(3), 9)
    );
    let both = "forall i : -1..1 forall j : -1..1 cell := 0 * [i,j] end end";
    assert_eq!(plane(both), (Some(9), 9));
    let apart = "forall i : -1..1 cell := 0 * [i,0] * [0,i] end";
    assert_eq!(plane(apart), (Some(5), 9));
    let unused = "forall i : -1..1 forall j : 0..1 cell := 0 * [0,j] end end";
    assert_eq!(plane(unused), (Some(2), 2));
    let again = "forall i : 1..2 cell := [i,0] end forall i : 3..3 cell := [0,i] end";
    assert_eq!(plane(again), (Some(4), 12));
    // The own cell is counted: 256 are listed, 257 are not.
    assert_eq!(plane("forall i : -127..128 cell := [i,i] end").0, Some(256));
    assert_eq!(plane("forall i : -128..128 cell := [i,i] end").0, None);
    assert_eq!(plane("forall i : 1..255 cell := [i,i] end").0, Some(256));
    assert_eq!(plane("forall i : 1..256 cell := [i,i] end").0, None);
}

#[test]
fn generated_programs_are_accepted() {
    let mut random = Random::new(10);
    for round in 0..3_000 {
        let wish = Wish {
            tokens: 20 + random.below(300),
            reach: 1 + round % 9,
            turns: 50,
            safe: 50,
            time: true,
        };
        let tokens = program(&mut random, wish);
        let style = any_style(&mut random);
        let source = write(&mut random, &tokens, style);
        let reply = check(&source).reply;
        assert_eq!(reply.number, 0, "{}", String::from_utf8_lossy(&source));
    }
}

#[test]
fn full_and_quiet_agree() {
    for case in vectors::runs(11, 2_000, false) {
        let full = run_case(&case, false);
        let mut quiet = run_case(&case, true);
        assert!(quiet.report.count <= full.report.count);
        quiet.report.count = full.report.count;
        assert_eq!(full, quiet);
    }
}

#[test]
fn json_is_read_back() {
    for case in vectors::runs(12, 300, true) {
        let line = json::run_line(&case);
        let value = json::read(line.as_bytes()).unwrap();
        let again = json::run_case_of(&value).unwrap();
        let (mut first, mut second) = (Vec::new(), Vec::new());
        put_run(&mut first, &case);
        put_run(&mut second, &again);
        assert_eq!(first, second);
    }
}
