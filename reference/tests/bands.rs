//! Bands of rows: the cases worked out in the papers, the planner beside all
//! plans there are, and properties over generated cases.

use reference::band_case::{Asked, BandCase, BandedCase, MOST_HELD, MOST_NUMBERS};
use reference::band_file::{self, AnyCase};
use reference::bands::{accepted, border, longest, numbers_of, row_entries, rows_lent};
use reference::bands::{Band, Border};
use reference::call_case::MOST_ENTRIES;
use reference::case::began;
use reference::interpret::step;
use reference::pausing::Manner;
use reference::tree::Program;
use reference::{check, vectors, written_bands, written_edges, written_orders};
use std::collections::BTreeSet;

fn program(source: &str) -> Program {
    check(source.as_bytes()).program.expect(source)
}

#[test]
fn worked_plans() {
    let cases = written_bands::worked_plans();
    let numbers: Vec<(u32, u32)> = cases.iter().map(|case| case.made()).collect();
    assert_eq!(numbers[0], (0, 0));
    assert!(numbers[1..].iter().all(|&reply| reply == (60, 0)));
    assert_eq!(cases[1].line(), "60 0\n");
}

/// What the planner leaves in the worked cases. On entry its room begins with
/// 3 10 17 24 31 38 45 52 59 66.
const PLANNED: [&str; 12] = [
    "0 0 3 : 0 1 2 3 4 4 45 52 59 66",
    "0 0 5 : 0 0 1 1 2 2 3 3 4 4",
    "59 0 0 : 3 10 17 24 31 38 45 52 59 66",
    "59 0 0 : 3 10 17 24 31 38 45 52 59 66",
    "0 0 1 : 0 4 17 24 31 38 45 52 59 66",
    "0 0 1 : 0 4 17 24 31 38 45 52 59 66",
    "0 0 1 : 0 4 17 24 31 38 45 52 59 66",
    "21 0 0 : 3 10 17 24 31 38 45 52",
    "0 0 4 : 0 2 3 5 6 8 9 9 59 66 73 80 87 94 101 108 115 122 129 136",
    "0 0 3 : 0 0 1 1 2 2",
    "59 0 0 : 3 10 17 24 31 38",
    "0 0 1 : 0 2 17 24 31 38",
];

#[test]
fn worked_planners() {
    let cases = written_bands::worked_planners();
    assert_eq!(cases.len(), PLANNED.len());
    for (case, answer) in cases.iter().zip(PLANNED) {
        assert_eq!(case.line().trim_end(), answer);
    }
}

#[test]
fn worked_bands() {
    let lines = [
        "0 0 0 0 1 2 : 9 5",
        "0 0 0 0 1 3 : 6 7 8",
        "0 0 0 0 1 1 : 5",
        "0 0 0 0 1 1 : 1",
        "33 26 0 1 0 1 : 0 0",
        "33 26 0 3 0 1 : 0 0",
    ];
    let cases = written_bands::worked_bands();
    assert_eq!(cases.len(), lines.len());
    for (case, line) in cases.iter().zip(lines) {
        assert_eq!(case.line().trim_end(), line);
    }
    // The rows that are passed are those of the grid.
    let lent = |source: &str, band: [u32; 2], grid: &[i32]| {
        let border = border(&program(source));
        let band = Band::new(band[0], band[1]);
        rows_lent(border, band, grid.len() as u32, 1, grid)
    };
    let shift = "1 dimensions of 0..9 cell := [-1]";
    assert_eq!(lent(shift, [0, 1], &[5, 6, 7, 8, 9]), cases[0].rows);
    assert_eq!(lent(shift, [2, 4], &[5, 6, 7, 8, 9]), cases[1].rows);
    let twice = "1 dimensions of 0..9 cell := [-2]";
    assert_eq!(lent(twice, [0, 0], &[5, 6]), cases[2].rows);
}

#[test]
fn worked_runs() {
    let lines = [
        "0 0 0 0 1 5 zero zero : 9 5 6 7 8 : 0000000000 :\n",
        "33 26 0 1 0 2 zero zero : 0 3 1 3 2 : 0000000000 :\n",
    ];
    let cases = written_bands::worked_runs();
    assert_eq!(cases.len(), lines.len());
    for (case, line) in cases.iter().zip(lines) {
        assert_eq!(case.line(), line);
    }
}

#[test]
fn border_rows() {
    let of = |source: &str| {
        let Border { before, behind } = border(&program(source));
        (before, behind)
    };
    assert_eq!(of("1 dimensions of 0..1"), (0, 0));
    assert_eq!(of("1 dimensions of 0..1 cell := [-3]"), (3, 0));
    assert_eq!(of("1 dimensions of 0..1 cell := [2]"), (0, 2));
    // The own row is among them, wherever the others lie.
    let above = "1 dimensions of 0..1 cell := [2] | [5]";
    assert_eq!(of(above), (0, 5));
    // The first dimension alone.
    let plane = "2 dimensions of 0..1 cell := [0,9] | [-1,-9] | [2,0]";
    assert_eq!(of(plane), (1, 2));
    let cube = "3 dimensions of 0..1 cell := [0,-4,7] | [1,0,0]";
    assert_eq!(of(cube), (0, 1));
    // Run or not, and in an index or a condition.
    let idle = "1 dimensions of 0..1 if 0 then x := [-4] end x := 1 when [3]";
    assert_eq!(of(idle), (4, 3));
    // Index variables; the loops' own ranges do not count.
    let loops = "2 dimensions of 0..1 forall i : -2..1 forall j : -9..9 x := [i,j] end end";
    assert_eq!(of(loops), (2, 1));
    let other = "2 dimensions of 0..1 forall i : -2..1 x := [0,i] x := i end";
    assert_eq!(of(other), (0, 0));
    // The box.
    let wide = "1 dimensions of 0..1 forall i : -200..130 x := [i] end";
    assert_eq!(of(wide), (200, 130));
    let far = "1 dimensions of 0..1 x := [-2147483647] x := [2147483647]";
    assert_eq!(of(far), (2_147_483_647, 2_147_483_647));
}

/// All plans of non-empty bands that run from row 0 to the last.
fn all_plans(rows: u32) -> Vec<Vec<Band>> {
    let mut plans = Vec::new();
    for cuts in 0..1u32 << (rows - 1) {
        let mut bands = Vec::new();
        let mut first = 0;
        for row in 0..rows {
            if row == rows - 1 || cuts >> row & 1 == 1 {
                bands.push(Band::new(first, row));
                first = row + 1;
            }
        }
        plans.push(bands);
    }
    plans
}

#[test]
fn planner_beside_all_plans() {
    let (mut none, mut planned) = (0, 0);
    for rows in 1..=8 {
        let plans = all_plans(rows);
        for (before, behind) in [(0, 0), (1, 0), (0, 1), (1, 1), (2, 3), (8, 8)] {
            let border = Border { before, behind };
            for held in 0..=(before + behind) as u32 + rows + 2 {
                let fits = |band: &Band| {
                    let own = u64::from(band.last - band.first) + 1;
                    before + own + behind <= u64::from(held)
                };
                let good = |plan: &&Vec<Band>| plan.iter().all(fits);
                for plan in &plans {
                    let numbers = numbers_of(plan);
                    assert_eq!(accepted(rows, border, held, &numbers), good(&plan));
                }
                // Of two plans that run over the same rows the one whose first
                // band that differs is longer has the greater numbers.
                let lengths = |plan: &&Vec<Band>| -> Vec<u32> {
                    plan.iter().map(|band| band.last - band.first).collect()
                };
                let best = plans.iter().filter(good).max_by_key(lengths);
                assert_eq!(longest(rows, border, held).as_ref(), best);
                match best {
                    Some(_) => planned += 1,
                    None => none += 1,
                }
            }
        }
    }
    assert!(planned > 200 && none > 100, "{planned} {none}");
}

/// Of all rows of up to six small numbers those are accepted that are plans.
#[test]
fn check_beside_all_rows_of_numbers() {
    let (rows, held) = (3, 9);
    let border = Border {
        before: 1,
        behind: 0,
    };
    let plans: BTreeSet<Vec<u32>> = all_plans(rows)
        .iter()
        .map(|plan| numbers_of(plan))
        .collect();
    let mut found = BTreeSet::new();
    for length in 0..=6u32 {
        for code in 0..5usize.pow(length) {
            let plan: Vec<u32> = (0..length)
                .map(|at| (code / 5usize.pow(at) % 5) as u32)
                .collect();
            if accepted(rows, border, held, &plan) {
                found.insert(plan);
            }
        }
    }
    assert_eq!(found, plans);
}

/// Generated plans: the check says what its wording says, row by row.
#[test]
fn generated_plans() {
    let mut seen = [0; 64];
    for case in vectors::plans(61, 20_000) {
        let (number, place) = case.made();
        seen[number as usize] += 1;
        assert!(case.plan.len() <= MOST_NUMBERS);
        if number != 0 && number != 60 {
            continue;
        }
        let (rows, held) = (case.asked.shape[0], u64::from(case.asked.held));
        let border = border(&check(&case.asked.source).program.unwrap());
        let mut next = 0u64;
        let mut good = case.plan.len() % 2 == 0;
        for band in case.plan.chunks_exact(2) {
            let (first, last) = (u64::from(band[0]), u64::from(band[1]));
            good &= first <= last && first == next;
            good &= border.before + border.behind + last < held + first;
            next = last + 1;
        }
        good &= next == u64::from(rows);
        assert_eq!((number, place), (if good { 0 } else { 60 }, 0));
    }
    for number in [0, 1, 20, 23, 60] {
        assert!(seen[number] > 50, "{number}: {}", seen[number]);
    }
    assert!(seen[0] > 4_000 && seen[60] > 4_000);
}

/// Generated planner calls: the plan passes the check, no row can be moved into
/// an earlier band, and 59 is given exactly if no plan of one row a band passes.
#[test]
fn generated_planners() {
    let mut seen = [0; 64];
    for case in vectors::planners(62, 10_000) {
        let planned = case.made();
        seen[planned.number as usize] += 1;
        let before = reference::band_case::numbers_on_entry(case.room);
        let used = 2 * planned.bands as usize;
        assert_eq!(planned.room[used..], before[used..]);
        let Some(program) = check(&case.asked.source).program else {
            continue;
        };
        let (shape, held) = (&case.asked.shape, case.asked.held);
        let accepts = |plan: &[u32]| accepted(shape[0], border(&program), held, plan);
        if planned.number == 0 {
            let plan = &planned.room[..used];
            assert!(accepts(plan));
            for at in (2..plan.len()).step_by(2) {
                let mut longer = plan.to_vec();
                longer[at - 1] += 1;
                longer[at] += 1;
                if longer[at] > longer[at + 1] {
                    longer.drain(at..at + 2);
                }
                assert!(!accepts(&longer));
            }
        }
        if planned.number == 59 {
            let each: Vec<u32> = (0..2 * shape[0]).map(|at| at / 2).collect();
            assert!(!accepts(&each));
        }
    }
    for number in [0, 1, 20, 21, 23, 59] {
        assert!(seen[number] > 50, "{number}: {}", seen[number]);
    }
}

/// The part of a band in the step of the whole grid, or its first fault.
fn part_of_whole(case: &BandCase, grid: &[i32]) -> (u32, u32, u32, Vec<i32>) {
    let program = check(&case.asked.source).program.unwrap();
    let shape = &case.asked.shape;
    let (row, fields) = (row_entries(&program, shape), program.fields.len());
    let own = case.band.first as usize * row..(case.band.last as usize + 1) * row;
    // A cell at a time, so that faults of other cells do not matter.
    let mut next = Vec::new();
    for cell in own.start / fields..own.end / fields {
        let mut new = vec![0; grid.len()];
        let is_open = |other: usize| other == cell;
        let time = case.time as i32;
        let stepped =
            reference::interpret::step_open(&program, shape, time, grid, &mut new, is_open);
        if let Err((_, fault)) = stepped {
            let zeros = vec![0; own.len()];
            return (fault.number(), fault.place(), cell as u32, zeros);
        }
        next.extend_from_slice(&new[cell * fields..(cell + 1) * fields]);
    }
    (0, 0, 0, next)
}

/// Every band of every generated run's grid gives what its cells give in the
/// whole grid, from the rows passed alone.
#[test]
fn bands_of_whole_grids() {
    let (mut faults, mut repeated, mut wrapped) = (0, 0, 0);
    let mut dimensions = [0; 3];
    for run in vectors::banded(63, 4_000, true) {
        let run = run.call.run;
        let Some(program) = check(&run.source).program else {
            continue;
        };
        let mut asked = Asked::new(run.source, &run.shape, u32::MAX);
        let border = border(&program);
        if run.shape.len() != program.dimensions || run.shape[0] > 12 || border.before > 99 {
            continue;
        }
        let (row, rows) = (row_entries(&program, &run.shape), run.shape[0]);
        if run.grid.len() != rows as usize * row || row == 0 || run.grid.len() > 60 {
            continue;
        }
        for first in 0..rows {
            for last in first..rows {
                let band = Band::new(first, last);
                let lent = rows_lent(border, band, rows, row, &run.grid);
                asked.held = border.rows_with(band) as u32;
                let case = BandCase {
                    asked: asked.clone(),
                    band,
                    room: (last - first + 1) as usize * row,
                    time: 7,
                    rows: lent,
                };
                let (report, room) = case.made();
                if !began(report.number) {
                    assert!([23, 24].contains(&report.number));
                    continue;
                }
                let (number, place, cell, next) = part_of_whole(&case, &run.grid);
                assert_eq!((report.number, report.place), (number, place));
                assert_eq!((report.cell, &room), (cell, &next));
                let cells = (row / program.fields.len()) as u64;
                let own = u64::from(last - first + 1) * cells;
                let count = if number == 0 {
                    own
                } else {
                    u64::from(cell) + 1 - u64::from(first) * cells
                };
                assert_eq!((report.count, report.steps), (count, (number == 0).into()));
                faults += usize::from(number != 0);
                let with = border.rows_with(band);
                repeated += usize::from(with > u64::from(rows));
                let outside = u64::from(first) < border.before
                    || u64::from(last) + border.behind >= u64::from(rows);
                wrapped += usize::from(outside);
                dimensions[program.dimensions - 1] += 1;
            }
        }
    }
    assert!(faults > 3_000 && repeated > 3_000, "{faults} {repeated}");
    assert!(wrapped > 3_000, "{wrapped}");
    assert!(
        dimensions.iter().all(|&count| count > 1_000),
        "{dimensions:?}"
    );
}

#[test]
fn generated_band_calls() {
    let mut seen = [0; 64];
    for case in vectors::bands(64, 20_000) {
        assert!(case.rows.len() <= MOST_ENTRIES && case.room <= MOST_ENTRIES);
        let (report, room) = case.made();
        seen[report.number as usize] += 1;
        let before = reference::case::scratch_on_entry(case.room);
        match report.number {
            0 => assert_eq!((report.steps, report.place, report.cell), (1, 0, 0)),
            30..=33 => assert!(room.iter().all(|&entry| entry == 0)),
            _ => {
                assert_eq!(room, before);
                assert_eq!((report.cell, report.steps, report.count), (0, 0, 0));
            }
        }
        assert_eq!(report.line, 0);
    }
    for number in [0, 1, 20, 21, 22, 23, 24, 30, 31, 32, 33, 60] {
        assert!(seen[number] > 30, "{number}: {}", seen[number]);
    }
    assert!(seen[0] > 8_000, "{}", seen[0]);
}

/// What a run under a plan is to leave: what the full run does, and 60 where it
/// would begin and the plan is not accepted.
fn assert_as_full(case: &BandedCase, seen: &mut [usize; 64]) -> bool {
    let (left, room) = case.made();
    let full = case.call.in_manner(Manner::Full).made();
    let number = left.report.number;
    seen[number as usize] += 1;
    if number != full.report.number {
        // 21 for the room, or 60: nothing else can differ.
        assert!([21, 60].contains(&number), "{number}");
        assert!(number == 60 || full.report.number == 1 || full.report.number > 21 || full.began());
        assert_eq!(
            (left.report.place, left.report.cell, left.report.count),
            (0, 0, 0)
        );
        assert_eq!((left.report.line, left.report.steps), (0, 0));
        assert_eq!(
            (&left.grid, &left.marks),
            (&case.call.run.grid, &case.call.marks)
        );
        assert_eq!((&left.counts, room), (&case.call.counts, "same"));
        if number == 60 {
            assert!(full.began());
        }
        return false;
    }
    assert_eq!(left, full);
    let words = if left.began() { "zero" } else { "same" };
    assert_eq!(room, words);
    left.began()
}

#[test]
fn generated_runs() {
    let mut seen = [0; 64];
    let (mut began, mut bands, mut listed, mut counted, mut repeated) = (0, 0, 0, 0, 0);
    // Faults in the first band, in the last, and in one between.
    let mut faults = [0; 3];
    let mut dimensions = [0; 3];
    for case in vectors::banded(65, 20_000, false) {
        assert!(case.room <= MOST_HELD && case.plan.len() <= MOST_NUMBERS);
        if !assert_as_full(&case, &mut seen) {
            continue;
        }
        began += 1;
        let program = check(&case.call.run.source).program.unwrap();
        let rows = case.call.run.shape[0];
        assert!(accepted(rows, border(&program), case.held, &case.plan));
        let several = case.plan.len() > 2;
        bands += usize::from(several);
        listed += usize::from(!case.call.run.values.is_empty() && several);
        counted += usize::from(case.call.counted && several);
        let with = |band: &[u32]| border(&program).rows_with(Band::new(band[0], band[1]));
        repeated += usize::from(case.plan.chunks(2).any(|band| with(band) > u64::from(rows)));
        dimensions[program.dimensions - 1] += usize::from(several);
        let report = case.made().0.report;
        if report.number != 0 && case.plan.len() > 4 {
            let cells = row_entries(&program, &case.call.run.shape) / program.fields.len();
            let row = report.cell / cells as u32;
            let band = case.plan.chunks(2).position(|band| row <= band[1]).unwrap();
            let last = case.plan.len() / 2 - 1;
            faults[if band == 0 {
                0
            } else if band == last {
                2
            } else {
                1
            }] += 1;
        }
    }
    for number in [
        0, 1, 20, 21, 22, 23, 24, 30, 31, 32, 33, 50, 51, 52, 53, 54, 55, 56, 58, 60, 61,
    ] {
        assert!(seen[number] > 0, "{number}");
    }
    assert!(began > 12_000 && bands > 8_000, "{began} {bands}");
    assert!(listed > 2_000 && counted > 2_000, "{listed} {counted}");
    assert!(repeated > 3_000, "{repeated}");
    assert!(faults.iter().all(|&count| count > 60), "{faults:?}");
    assert!(
        dimensions.iter().all(|&count| count > 1_000),
        "{dimensions:?}"
    );
}

/// The same, of every plan for the grids of few rows.
#[test]
fn runs_under_all_plans() {
    let mut plans = 0;
    for case in vectors::banded(66, 3_000, true) {
        let full = case.call.in_manner(Manner::Full).made();
        let rows = case.call.run.shape.first().map_or(9, |&size| size);
        if !full.began() || rows > 5 {
            continue;
        }
        let program = check(&case.call.run.source).program.unwrap();
        let row = row_entries(&program, &case.call.run.shape);
        for plan in all_plans(rows) {
            let border = border(&program);
            let held = plan.iter().map(|&band| border.rows_with(band)).max();
            let held = held.unwrap() as u32;
            let mut other = BandedCase {
                call: case.call.clone(),
                held,
                plan: numbers_of(&plan),
                room: held as usize * row,
            };
            let (left, room) = other.made();
            assert_eq!((&left, room), (&full, "zero"));
            plans += 1;
            // One row less is not enough.
            other.held -= 1;
            other.room -= row;
            assert_eq!(other.made().0.report.number, 60);
        }
    }
    assert!(plans > 5_000, "{plans}");
}

/// A step made of public calls, each lent its band's rows alone, is the step of
/// the whole grid.
#[test]
fn steps_of_public_calls() {
    let mut steps = 0;
    for case in vectors::banded(67, 4_000, true) {
        let run = &case.call.run;
        let (left, _) = case.made();
        let Some(program) = check(&run.source).program.filter(|_| left.began()) else {
            continue;
        };
        let row = row_entries(&program, &run.shape);
        let mut next = Vec::new();
        let mut whole = vec![0; run.grid.len()];
        let expected = step(&program, &run.shape, 3, &run.grid, &mut whole);
        let mut count = 0;
        let mut fault = None;
        for pair in case.plan.chunks(2) {
            let band = Band::new(pair[0], pair[1]);
            let call = BandCase {
                asked: Asked::new(run.source.clone(), &run.shape, case.held),
                band,
                room: (pair[1] - pair[0] + 1) as usize * row,
                time: 3,
                rows: rows_lent(border(&program), band, run.shape[0], row, &run.grid),
            };
            let (report, room) = call.made();
            count += report.count;
            next.extend(room);
            if report.number != 0 {
                fault = Some((report.cell as usize, report.number, report.place));
                break;
            }
        }
        match expected {
            Ok(()) => {
                assert_eq!((fault, &next), (None, &whole));
                assert_eq!(count as usize, run.marks);
            }
            Err((cell, found)) => {
                assert_eq!(fault, Some((cell, found.number(), found.place())));
                assert_eq!(count as usize, cell + 1);
            }
        }
        steps += 1;
    }
    assert!(steps > 2_000, "{steps}");
}

/// The written cases have the limits of the format, and every reply.
#[test]
fn written_cases() {
    let mut seen = [0; 64];
    for case in written_bands::plans() {
        assert!(case.plan.len() <= MOST_NUMBERS);
        seen[case.made().0 as usize] += 1;
    }
    for case in written_bands::planners() {
        assert!(case.room <= MOST_NUMBERS);
        seen[case.made().number as usize] += 1;
    }
    for case in written_bands::bands() {
        assert!(case.rows.len() <= MOST_ENTRIES && case.room <= MOST_ENTRIES);
        seen[case.made().0.number as usize] += 1;
    }
    for number in [0, 1, 8, 20, 21, 22, 23, 24, 31, 33, 59, 60] {
        assert!(seen[number] > 0, "{number}");
    }
    let mut seen = [0; 64];
    for case in written_bands::runs() {
        assert!(case.room <= MOST_HELD);
        assert_as_full(&case, &mut seen);
    }
    for number in [0, 21, 22, 24, 33, 50, 53, 60, 61] {
        assert!(seen[number] > 0, "{number}");
    }
}

/// Calls that are wrong in several ways are refused with the first number.
#[test]
fn refusals_in_order() {
    for (number, source) in written_orders::refused_sources() {
        let reply = check(&source).reply;
        assert_eq!(reply.number, number, "{}", String::from_utf8_lossy(&source));
    }
    for (number, case) in written_orders::borders() {
        assert_eq!(case.made().number, number, "{case:?}");
    }
    for (number, case) in written_orders::plans() {
        assert_eq!(case.made().0, number, "{case:?}");
    }
    for (number, case) in written_orders::planners() {
        assert_eq!(case.made().number, number, "{case:?}");
    }
    for (number, case) in written_orders::bands() {
        assert_eq!(case.made().0.number, number, "{case:?}");
    }
    let mut seen = [0; 64];
    for (number, case) in written_orders::runs() {
        assert_as_full(&case, &mut seen);
        let given = case.made().0.report.number;
        assert_eq!(given, number, "{case:?}");
    }
    let numbers = (0..=9).chain(12..=15).chain(20..=24).chain(40..=45);
    for number in numbers.chain(50..=56).chain([58, 60, 61]) {
        assert!(seen[number] > 0, "{number}");
    }
}

/// At the edges: a plan for the least number of rows, and none for one row less;
/// a fault in every row of three bands.
#[test]
fn edges() {
    let mut seen = [0; 64];
    for case in written_edges::planners() {
        let borders = border(&check(&case.asked.source).program.unwrap());
        let least = borders.before + borders.behind + 1;
        let number = case.made().number;
        assert_eq!(number == 59, u64::from(case.asked.held) < least, "{case:?}");
        seen[number as usize] += 1;
    }
    for case in written_edges::plans() {
        seen[case.made().0 as usize] += 1;
    }
    for case in written_edges::bands() {
        seen[case.made().0.number as usize] += 1;
    }
    assert!(written_edges::borders()
        .iter()
        .all(|case| case.made().number == 0));
    assert!(seen[0] > 200 && seen[31] > 20, "{seen:?}");
    assert!(seen[59] == 14 && seen[60] > 20, "{seen:?}");
    let mut seen = [0; 64];
    let (mut bands, mut later, mut listed, mut counted) = ([0; 3], 0, 0, 0);
    for case in written_edges::runs() {
        let began = assert_as_full(&case, &mut seen);
        listed += usize::from(began && !case.call.run.values.is_empty());
        counted += usize::from(began && case.call.counted);
        let report = case.made().0.report;
        if report.number == 31 {
            let row = report.cell as usize * case.call.run.shape[0] as usize / case.call.run.marks;
            bands[row.min(2)] += 1;
            later += usize::from(report.steps > 0);
        }
    }
    assert!(seen[0] > 100 && seen[31] > 20 && seen[60] > 20, "{seen:?}");
    assert!(
        bands.iter().all(|&count| count >= 5) && later >= 5,
        "{bands:?} {later}"
    );
    assert!(listed > 30 && counted > 50, "{listed} {counted}");
}

/// The stored cases are read back as they are, and every kind gives every reply
/// that it can give.
#[test]
fn stored_cases() {
    let mut bytes = Vec::new();
    let cases = vectors::stored_bands();
    for case in &cases {
        case.put(&mut bytes);
    }
    let read = band_file::read(&bytes).expect("cases");
    assert_eq!(read.len(), cases.len());
    let mut seen = [[0; 64]; 5];
    for (case, read) in cases.iter().zip(&read) {
        assert_eq!(format!("{read:?}"), format!("{case:?}"));
        let line = read.line();
        let number: usize = line.split(' ').next().unwrap().parse().unwrap();
        let kind = match read {
            AnyCase::Border(_) => 0,
            AnyCase::Plan(_) => 1,
            AnyCase::Planner(_) => 2,
            AnyCase::Band(_) => 3,
            AnyCase::Run(_) => 4,
        };
        seen[kind][number] += 1;
    }
    let source = || (3..=9).chain(12..=15).chain(40..=45).chain([0, 1, 20, 23]);
    let others: [&[usize]; 5] = [
        &[],
        &[60],
        &[21, 59],
        &[21, 22, 24, 30, 31, 32, 33, 60],
        &[
            2, 21, 22, 24, 30, 31, 32, 33, 50, 51, 52, 53, 54, 55, 56, 58, 60, 61,
        ],
    ];
    for (kind, others) in others.into_iter().enumerate() {
        for number in source().chain(others.iter().copied()) {
            assert!(seen[kind][number] > 0, "{kind}: {number}");
        }
    }
    // Neither a part of the file nor another one is read.
    assert!(band_file::read(&bytes[..bytes.len() - 1]).is_none());
    assert!(band_file::read(&[9, 0, 0, 0]).is_none());
}
