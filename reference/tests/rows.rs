//! Row counts: the cases worked out in the papers, and properties over
//! generated runs.

use reference::call_case::{call_line, Call};
use reference::interpret::step;
use reference::lists::{read_list, Limits};
use reference::one_move::flag;
use reference::pausing::Manner;
use reference::rows::{first_zero_row, row_counts, zeros_in_rows, Rows};
use reference::written_counts::worked;
use reference::{check, vectors};

/// The answers to the worked cases.
const ANSWERS: [&str; 8] = [
    "0 0 0 0 0 0 zero : 1 0 0 0 0 : 0000000000 : 0 1 1 1 1\n",
    "0 0 0 0 2 8 zero : 0 0 1 0 0 : 0000000000 : 1 1 0 1 1\n",
    "61 0 0 0 0 0 same : 1 0 0 0 0 : 01060b1015 : 9 8 7 6 5\n",
    "61 0 0 0 0 0 same : 1 0 0 0 0 : 01060b1015 : 9 8 7 6\n",
    "24 2 0 0 0 0 same : 1 0 2 0 0 : 01060b1015 : 9 8 7 6\n",
    "56 0 1 0 0 0 same : 1 0 0 0 0 : 01060b1015 : 9 8 7 6 5\n",
    "33 26 0 1 1 5 zero : 1 3 2 : 000000 : 0 0 0\n",
    "33 26 0 1 1 5 zero : 0 3 2 : 000000 : 1 0 0\n",
];

#[test]
fn worked_cases() {
    let calls = worked();
    assert_eq!(calls.len(), ANSWERS.len());
    for (call, answer) in calls.iter().zip(ANSWERS) {
        assert_eq!(call_line(&call.made()), answer);
        // The same number, grid and counts in every manner.
        let quiet = call.made();
        for manner in Manner::ALL {
            let left = call.in_manner(manner).made();
            assert_eq!(left.report.number, quiet.report.number, "{manner:?}");
            assert_eq!(left.grid, quiet.grid, "{manner:?}");
            assert_eq!(left.counts, quiet.counts, "{manner:?}");
        }
        // Where nothing is to be counted, the counts are not looked at.
        let mut other = call.clone();
        other.counted = false;
        let left = other.made();
        assert_eq!(left.counts, call.counts);
        assert_ne!(left.report.number, 61);
    }
}

#[test]
fn questions() {
    let answer = |number: u32, value: u64| Rows { number, value };
    let grid = [0, 0, 1, 1, 0, 1, 1, 0, 1, 1];
    let counts = row_counts(&[5, 2], 1, 0, &grid);
    assert_eq!(counts, [2, 0, 1, 1, 0]);
    assert_eq!(zeros_in_rows(&counts, 1, 3), answer(0, 2));
    assert_eq!(zeros_in_rows(&counts, 0, 4), answer(0, 4));
    assert_eq!(zeros_in_rows(&counts, 3, 1), answer(61, 0));
    assert_eq!(zeros_in_rows(&counts, 4, 3), answer(61, 0));
    assert_eq!(zeros_in_rows(&counts, 0, 5), answer(61, 0));
    assert_eq!(zeros_in_rows(&counts, 5, 5), answer(61, 0));
    assert_eq!(zeros_in_rows(&counts, 0, u32::MAX), answer(61, 0));
    assert_eq!(zeros_in_rows(&counts, 4, 4), answer(0, 0));
    assert_eq!(first_zero_row(&counts), answer(0, 0));
    assert_eq!(first_zero_row(&[0, 0, 1, 1, 0]), answer(0, 2));
    assert_eq!(first_zero_row(&[0, 0]), answer(62, 0));
    assert_eq!(first_zero_row(&[]), answer(61, 0));
    assert_eq!(zeros_in_rows(&[], 0, 0), answer(61, 0));
    // Whatever stands there.
    let most = [u32::MAX; 4_096];
    assert_eq!(
        zeros_in_rows(&most, 0, 4_095),
        answer(0, 4_096 * 4_294_967_295)
    );
    assert_eq!(zeros_in_rows(&[1; 4_097], 0, 0), answer(61, 0));
    assert_eq!(first_zero_row(&[0; 4_097]), answer(61, 0));
    assert_eq!(first_zero_row(&[0; 4_096]), answer(62, 0));
}

/// The zeros of a field in each row, cell by cell.
fn by_cells(call: &Call, grid: &[i32]) -> Vec<u32> {
    let fields = check(&call.run.source).program.unwrap().fields.len();
    let mut counts = vec![0; call.run.shape[0] as usize];
    let cells = grid.len() / fields;
    for cell in 0..cells {
        let row = cell * counts.len() / cells;
        counts[row] += u32::from(grid[cell * fields + call.field as usize] == 0);
    }
    counts
}

/// The counts as a full run keeps them: filled from the grid, and after each
/// block and each completed step changed in the rows of the cells that differ.
fn kept_beside(call: &Call) -> Vec<u32> {
    let program = check(&call.run.source).program.unwrap();
    let (run, fields) = (&call.run, program.fields.len());
    let limits = Limits {
        sizes: &run.shape,
        fields: &program.fields,
        flag: flag(&run.source, &program),
        start: run.start,
        steps: run.steps,
    };
    let blocks = read_list(&run.values, &limits).unwrap();
    let mut grid = run.grid.clone();
    let mut counts = by_cells(call, &grid);
    let across: u32 = run.shape[1..].iter().product();
    let follow = |old: &[i32], new: &[i32], counts: &mut [u32]| {
        let zero = |grid: &[i32], cell: usize| grid[cell * fields + call.field as usize] == 0;
        for cell in 0..old.len() / fields {
            let count = &mut counts[cell / across as usize];
            *count = *count + u32::from(zero(new, cell)) - u32::from(zero(old, cell));
        }
    };
    for time in run.start..=run.start + run.steps {
        let before = grid.clone();
        if let Some(block) = blocks.iter().find(|block| block.time == time) {
            block.set(fields, &mut grid);
            follow(&before, &grid, &mut counts);
        }
        if time == run.start + run.steps {
            break;
        }
        let before = grid.clone();
        if step(&program, &run.shape, time as i32, &before, &mut grid).is_err() {
            break;
        }
        follow(&before, &grid, &mut counts);
    }
    counts
}

#[test]
fn generated_runs() {
    let (mut moved, mut refused) = (0, 0);
    for call in vectors::counted(41, 6_000, false) {
        let left = call.made();
        let mut bare = call.clone();
        bare.counted = false;
        let without = bare.made();
        assert_eq!(without.counts, call.counts);
        if !call.counted {
            continue;
        }
        if left.report.number == 61 {
            // Everything before the counts passed; the list may pass or not.
            let listed = matches!(without.report.number, 50..=56 | 58);
            assert!(without.began() || listed);
            assert_eq!((left.report.place, left.report.count), (0, 0));
            refused += 1;
        } else {
            // Counting changes nothing else.
            assert_eq!((&left.report, &left.grid), (&without.report, &without.grid));
            assert_eq!(
                (&left.marks, left.scratch),
                (&without.marks, without.scratch)
            );
        }
        if !left.began() {
            assert_eq!((&left.counts, &left.marks), (&call.counts, &call.marks));
            assert_eq!((&left.grid, left.scratch), (&call.run.grid, "same"));
            continue;
        }
        assert_eq!(left.counts, by_cells(&call, &left.grid));
        moved += usize::from(left.counts != by_cells(&call, &call.run.grid));
        let full = call.in_manner(Manner::Full).made();
        assert_eq!(full.counts, kept_beside(&call));
    }
    assert!(moved > 1_000 && refused > 200, "{moved} {refused}");
}

/// The questions, answered from the whole grid.
#[test]
fn questions_of_the_grid() {
    let mut none = 0;
    for call in vectors::counted(42, 3_000, true) {
        let left = call.made();
        if !call.counted || !left.began() {
            continue;
        }
        let fields = check(&call.run.source).program.unwrap().fields.len();
        let rows = call.run.shape[0];
        let across = left.grid.len() / fields / rows as usize;
        let zero = |cell: usize| left.grid[cell * fields + call.field as usize] == 0;
        for first in 0..rows {
            for last in first..rows {
                let cells = first as usize * across..(last as usize + 1) * across;
                let value = cells.filter(|&cell| zero(cell)).count() as u64;
                let number = 0;
                let asked = zeros_in_rows(&left.counts, first, last);
                assert_eq!(asked, Rows { number, value });
            }
        }
        let found = (0..rows as usize * across).find(|&cell| zero(cell));
        let expected = match found {
            Some(cell) => (0, (cell / across) as u64),
            None => (62, 0),
        };
        let asked = first_zero_row(&left.counts);
        assert_eq!((asked.number, asked.value), expected);
        none += usize::from(asked.number == 62);
    }
    assert!(none > 30, "{none}");
}

#[test]
fn generated_questions() {
    let mut seen = [0; 4];
    for question in vectors::questions(43, 20_000) {
        let rows = zeros_in_rows(&question.counts, question.first, question.last);
        let row = first_zero_row(&question.counts);
        seen[0] += usize::from(rows.number == 0 && rows.value > 0);
        seen[1] += usize::from(rows.number == 61);
        seen[2] += usize::from(row.number == 0 && row.value > 0);
        seen[3] += usize::from(row.number == 62);
    }
    assert!(seen.iter().all(|&count| count > 1_000), "{seen:?}");
}

/// Each call of a chain fills the counts anew, and the last leaves those of the
/// run at once.
#[test]
fn chains_that_count() {
    let mut claimed = 0;
    for chain in vectors::chains(44, 1_000, true).filter(|chain| chain.claimed()) {
        let rows = vec![77; chain.whole.run.shape[0] as usize];
        let whole = chain.whole.clone().counting(0, rows.clone()).made();
        let mut left = chain.calls[0].clone().counting(0, rows).made();
        for pair in chain.calls.windows(2) {
            let earlier = pair[0].clone().counting(0, left.counts.clone());
            let later = earlier.resumed(&left, pair[1].run.steps, &pair[1].run.values);
            assert_eq!(later.marks, pair[1].marks);
            left = later.made();
        }
        assert_eq!(left.counts, whole.counts);
        claimed += 1;
    }
    assert!(claimed > 800, "{claimed}");
}
