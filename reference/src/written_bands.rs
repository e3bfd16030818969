//! Plans, planner calls, band calls and runs under a plan, written by hand.

use crate::band_case::{Asked, BandCase, BandedCase, PlanCase, PlannerCase};
use crate::bands::Band;
use crate::call_case::Call;
use crate::case::{marks_on_entry, RunCase};
use crate::pausing::Manner;

/// One border row before.
const BEFORE: &str = "1 dimensions of 0..9 cell := [-1]";

/// One before and one after.
const BOTH: &str = "1 dimensions of 0..9 cell := [-1] when [1] > 4";

/// Three before and three after.
const THREE: &str = "1 dimensions of 0..9 cell := [-3] when [3] > 4";

fn asked(source: &str, shape: &[u32], held: u32) -> Asked {
    Asked::new(source.into(), shape, held)
}

fn check_of(source: &str, rows: u32, held: u32, plan: &[u32]) -> PlanCase {
    PlanCase {
        asked: asked(source, &[rows], held),
        plan: plan.to_vec(),
    }
}

/// The plans worked out in the papers: five rows, one border row before, three
/// rows are held. The first is accepted.
pub fn worked_plans() -> Vec<PlanCase> {
    let plans: [&[u32]; 8] = [
        &[0, 0, 1, 2, 3, 4],
        &[0, 0, 2, 3, 4, 4],
        &[0, 1, 1, 2, 3, 4],
        &[0, 1, 2, 3],
        &[0, 2, 3, 4],
        &[0, 1, 3, 2, 4, 4],
        &[0, 1, 2, 3, 4],
        &[],
    ];
    plans.map(|plan| check_of(BEFORE, 5, 3, plan)).to_vec()
}

/// The planner calls worked out in the papers.
pub fn worked_planners() -> Vec<PlannerCase> {
    let call = |source: &str, rows: u32, held: u32, room: usize| PlannerCase {
        asked: asked(source, &[rows], held),
        room,
    };
    vec![
        call(BEFORE, 5, 3, 10),
        call(BEFORE, 5, 2, 10),
        call(BEFORE, 5, 1, 10),
        call(BEFORE, 5, 0, 10),
        call(BEFORE, 5, 6, 10),
        call(BEFORE, 5, 7, 10),
        call(BEFORE, 5, u32::MAX, 10),
        call(BEFORE, 5, 3, 8),
        call(BOTH, 10, 5, 20),
        call(THREE, 3, 7, 6),
        call(THREE, 3, 6, 6),
        call(THREE, 3, 9, 6),
    ]
}

fn band_of(source: &str, rows: u32, held: u32, band: [u32; 2], lent: &[i32]) -> BandCase {
    let band = Band::new(band[0], band[1]);
    BandCase {
        asked: asked(source, &[rows], held),
        band,
        room: band.rows().count(),
        time: 0,
        rows: lent.to_vec(),
    }
}

/// The band calls worked out in the papers.
pub fn worked_bands() -> Vec<BandCase> {
    let twice = "1 dimensions of 0..9 cell := [-2]";
    let rising = "1 dimensions of 0..3 cell := cell + 1";
    vec![
        band_of(BEFORE, 5, 4, [0, 1], &[9, 5, 6]),
        band_of(BEFORE, 5, 4, [2, 4], &[6, 7, 8, 9]),
        band_of(twice, 2, 3, [0, 0], &[5, 6, 5]),
        band_of(rising, 5, 2, [0, 0], &[0]),
        band_of(rising, 5, 2, [1, 2], &[3, 1]),
        band_of(rising, 5, 2, [3, 4], &[3, 2]),
    ]
}

fn run_of(source: &str, grid: &[i32], steps: i64, plan: &[u32], held: u32) -> BandedCase {
    let shape = [grid.len() as u32];
    let run = RunCase::new(source.into(), &shape, grid.to_vec(), 0, steps);
    let marks = marks_on_entry(grid.len());
    BandedCase {
        call: Call::new(run, Manner::Full, marks),
        held,
        plan: plan.to_vec(),
        room: held as usize,
    }
}

/// The runs under a plan worked out in the papers.
pub fn worked_runs() -> Vec<BandedCase> {
    let rising = "1 dimensions of 0..3 cell := cell + 1";
    vec![
        run_of(BEFORE, &[5, 6, 7, 8, 9], 1, &[0, 1, 2, 4], 4),
        run_of(rising, &[0, 3, 1, 3, 2], 1, &[0, 0, 1, 2, 3, 4], 2),
    ]
}

/// Plans near an accepted one, and near the greatest numbers.
pub fn plans() -> Vec<PlanCase> {
    let mut row = worked_plans();
    let own = "1 dimensions of 0..9 cell := 9 - cell";
    let most = u32::MAX;
    for held in [0, 1, 2, 3, 4, 5, 6, 7, most - 1, most] {
        row.push(check_of(BEFORE, 5, held, &[0, 4]));
        row.push(check_of(BEFORE, 5, held, &[0, 0, 1, 1, 2, 2, 3, 3, 4, 4]));
        row.push(check_of(BOTH, 5, held, &[0, 2, 3, 4]));
        row.push(check_of(THREE, 3, held, &[0, 0, 1, 1, 2, 2]));
        row.push(check_of(THREE, 3, held, &[0, 2]));
        row.push(check_of(own, 1, held, &[0, 0]));
    }
    // Sums that would wrap.
    for plan in [
        [0, most, 0, 4],
        [0, most - 1, most, 4],
        [0, 4, 5, most],
        [0, 4, 0, most],
        [most, 4, 0, 4],
        [5, most, 0, 4],
    ] {
        for held in [3, most] {
            row.push(check_of(own, 5, held, &plan));
        }
    }
    for plan in [[0, most], [1, 0], [most, most], [0, 5], [1, 4], [4, 0]] {
        row.push(check_of(own, 5, most, &plan));
    }
    let far = "1 dimensions of 0..9 cell := [-2147483647] when [2147483647]";
    row.push(check_of(far, 5, most, &[0, 4]));
    // The source, 20 and 23 come before the plan.
    row.push(check_of("1 dimensions of 0..9 cell := y", 5, 3, &[1]));
    row.push(check_of("", 0, 0, &[]));
    row.push(check_of(BEFORE, 0, 3, &[]));
    row.push(check_of(BEFORE, 4_097, 3, &[0, 0]));
    row.push(check_of(THREE, 2, 3, &[5]));
    row.push(check_of(THREE, 2, 9, &[0, 1]));
    let mut lent = check_of(BEFORE, 5, 9, &[0, 4]);
    lent.asked.words = 16_383;
    row.push(lent.clone());
    lent.asked = asked(BEFORE, &[5, 1], 9);
    row.push(lent);
    // As many rows as there can be.
    let each: Vec<u32> = (0..8_192).map(|at| at / 2).collect();
    row.push(check_of(BEFORE, 4_096, 2, &each));
    row.push(check_of(BEFORE, 4_096, 2, &each[..8_190]));
    row.push(check_of(BEFORE, 4_096, 4_097, &[0, 4_095]));
    row.push(check_of(BEFORE, 4_096, 4_096, &[0, 4_095]));
    row.push(PlanCase {
        asked: asked(
            "3 dimensions of 0..9 cell := [-2,1,0] + [1,0,1]",
            &[64, 128, 128],
            19,
        ),
        plan: vec![0, 15, 16, 31, 32, 47, 48, 63],
    });
    row
}

/// Planner calls: every number of rows that can be held, up to past the last
/// that matters.
pub fn planners() -> Vec<PlannerCase> {
    let mut row = worked_planners();
    let plane = "2 dimensions of 0..9 cell := [-2,1] when [1,-1] > cell";
    for held in 0..14 {
        for (source, shape) in [
            (BEFORE, &[1][..]),
            (BEFORE, &[7]),
            (BOTH, &[7]),
            (THREE, &[4]),
            (plane, &[5, 3]),
        ] {
            row.push(PlannerCase {
                asked: asked(source, shape, held),
                room: 2 * shape[0] as usize,
            });
        }
    }
    for held in [2, 3, 4_096, 4_097, u32::MAX] {
        row.push(PlannerCase {
            asked: asked(BEFORE, &[4_096], held),
            room: 8_192,
        });
    }
    // The refusals, and their order.
    for (source, rows, held, room) in [
        ("1 dimensions of 0..9 cell := y", 5, 3, 9),
        (BEFORE, 0, 3, 9),
        (BEFORE, 4_097, 3, 8_194),
        (THREE, 2, 0, 5),
        (THREE, 2, 0, 4),
        (THREE, 2, 9, 4),
        (BEFORE, 5, 1, 0),
        (BEFORE, 5, 1, 11),
        (BEFORE, 5, 6, 2),
        (
            "1 dimensions of 0..9 cell := [-2147483647]",
            5,
            u32::MAX,
            10,
        ),
    ] {
        row.push(PlannerCase {
            asked: asked(source, &[rows], held),
            room,
        });
    }
    row
}

/// Band calls: refusals and their order, and faults.
pub fn bands() -> Vec<BandCase> {
    let mut row = worked_bands();
    let most = 2_147_483_647;
    let start = || band_of(BEFORE, 5, 4, [2, 4], &[6, 7, 8, 9]);
    let mut add = |change: &dyn Fn(&mut BandCase)| {
        let mut case = start();
        change(&mut case);
        row.push(case);
    };
    add(&|case| case.asked.words = 0);
    add(&|case| case.asked.source = "1 dimensions of 0..9 cell := y".into());
    add(&|case| case.asked.shape = vec![5, 1]);
    for band in [[4, 2], [3, 2], [2, 5], [5, 5], [0, u32::MAX], [u32::MAX, 0]] {
        add(&|case| case.band = Band::new(band[0], band[1]));
        add(&|case| {
            case.band = Band::new(band[0], band[1]);
            case.asked.held = u32::MAX;
        });
    }
    for held in [0, 3, 4, 5, u32::MAX] {
        add(&|case| case.asked.held = held);
        add(&|case| {
            case.asked.held = held;
            case.rows.pop();
        });
    }
    for room in [0, 2, 4] {
        add(&|case| case.room = room);
        add(&|case| {
            case.room = room;
            case.time = -1;
        });
    }
    for time in [-1, most - 1, most, most + 1, i64::MIN, i64::MAX] {
        add(&|case| case.time = time);
        add(&|case| {
            case.time = time;
            case.rows[2] = 10;
        });
    }
    add(&|case| case.rows[0] = 10);
    add(&|case| case.rows[3] = -1);
    add(&|case| case.rows.fill(i32::MIN));
    // 23 after 21 and 22, before 24.
    let far = |rows: &[i32], time: i64| BandCase {
        time,
        ..band_of(THREE, 2, 9, [0, 0], rows)
    };
    row.push(far(&[0; 7], 0));
    row.push(far(&[10; 7], 0));
    row.push(far(&[0; 7], most));
    row.push(far(&[0; 6], 0));
    let farther = "1 dimensions of 0..9 cell := [-2147483647] when [2147483647]";
    row.push(band_of(farther, 2, u32::MAX, [0, 0], &[0]));
    row.push(band_of(farther, 2, u32::MAX - 1, [0, 0], &[0]));
    // `time`, other dimensions, more fields, and a fault in each row.
    let clock = "1 dimensions of 0..9 cell := time % 10 when [1] > 4";
    for time in [0, 7, most - 1] {
        row.push(BandCase {
            time,
            ..band_of(clock, 3, 9, [1, 2], &[5, 4, 6])
        });
    }
    let plane = "2 dimensions of a of 0..9 const b of 0..2 end x := 6 / [-1,1].a cell.a := [1,0].b";
    for fault in 0..4 {
        let mut rows: Vec<i32> = (0..24).map(|entry| 1 + entry % 2).collect();
        rows[6 * fault + 2] = 0;
        row.push(BandCase {
            asked: asked(plane, &[3, 3], 4),
            band: Band::new(1, 2),
            room: 12,
            time: 3,
            rows,
        });
    }
    let cube = "3 dimensions of 0..9 cell := [-1,1,-1] when [0,0,1] > [0,-1,0]";
    row.push(BandCase {
        asked: asked(cube, &[2, 2, 3], 3),
        band: Band::new(0, 1),
        room: 12,
        time: 0,
        rows: (0..18).map(|entry| entry * 7 % 10).collect(),
    });
    row
}

/// Runs under a plan: refusals and their order, lists, counts, and a fault in
/// each band.
pub fn runs() -> Vec<BandedCase> {
    let mut row = worked_runs();
    let start = || run_of(BEFORE, &[5, 6, 7, 8, 9], 2, &[0, 1, 2, 4], 4);
    let mut add = |change: &dyn Fn(&mut BandedCase)| {
        let mut case = start();
        change(&mut case);
        row.push(case);
    };
    add(&|_| ());
    add(&|case| case.call.run.steps = 0);
    add(&|case| case.call.run.values = "0\n[1] = 3\n1\n[0] = 0\n2\n[4] = 1\n".into());
    add(&|case| case.call = case.call.clone().counting(0, vec![9; 5]));
    add(&|case| case.call = case.call.clone().counting(1, vec![9; 5]));
    add(&|case| case.room = 3);
    add(&|case| (case.room, case.held) = (3, 3));
    add(&|case| (case.room, case.held) = (0, 0));
    add(&|case| (case.room, case.held) = (9, 9));
    add(&|case| (case.room, case.held) = (4, u32::MAX));
    add(&|case| case.plan = vec![0, 1, 2, 3]);
    add(&|case| case.plan = vec![0, 1, 2, 4, 0]);
    add(&|case| case.plan = vec![]);
    // 60 is last, whatever the number of steps.
    for steps in [0, 2] {
        add(&|case| (case.plan, case.call.run.steps) = (vec![], steps));
    }
    add(&|case| (case.plan, case.call.run.values) = (vec![], "x\n".into()));
    add(&|case| (case.plan, case.call.run.values) = (vec![], "0\n[0] = 10\n".into()));
    add(&|case| (case.plan, case.call.run.values) = (vec![], "0\n[0] = 1\n".into()));
    add(&|case| (case.plan, case.call.run.grid[4]) = (vec![], 10));
    add(&|case| (case.plan, case.call) = (vec![], case.call.clone().counting(0, vec![9; 4])));
    add(&|case| (case.plan, case.call.run.start) = (vec![], -1));
    add(&|case| (case.room, case.call.run.start) = (5, -1));
    add(&|case| (case.plan, case.call.run.scratch) = (vec![], 4));
    let rising = "1 dimensions of 0..3 cell := cell + 1";
    for fault in 0..5 {
        let mut grid = [0, 1, 0, 1, 0];
        grid[fault] = 2;
        row.push(run_of(rising, &grid, 4, &[0, 0, 1, 2, 3, 4], 2));
    }
    // More border rows than the grid has.
    for plan in [&[0, 0, 1, 1, 2, 2][..], &[0, 1, 2, 2], &[0, 2]] {
        row.push(run_of(THREE, &[1, 5, 9], 3, plan, 9));
    }
    let wide = "1 dimensions of 0..2 s := 0 forall i : -128..128 s := s + [i] end cell := s % 3";
    let grid: Vec<i32> = (0..130).map(|cell| cell * 5 % 7 % 3).collect();
    row.push(run_of(wide, &grid, 2, &[0, 3, 4, 100, 101, 129], 360));
    row
}
