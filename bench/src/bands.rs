//! Life by bands of rows: what a run under a plan takes beside the full run, and what memory one band's step touches.

use crate::proved::{self, Rooms};
use crate::{best_each, random_life, CELLS, LIFE, SIDE, SIZES};
use cellang::{Band, Border, Held, Mode};
use std::fs;
use std::hint::black_box;

/// How many rows are held where nothing else is said.
const ROWS_HELD: u32 = 64;

/// A plan for a square grid, of whose rows so many can be held, and what is needed to go by it.
struct Planned {
    held: Held<'static, 'static>,
    border: Border,
    bands: Vec<Band>,
    /// The plan as it is passed.
    entries: Vec<u32>,
    /// For the rows that are held.
    room: Vec<i32>,
}

impl Planned {
    fn new(rows_held: u32) -> Planned {
        let mut rooms = cellang::Rooms::new();
        let held = Held::new(LIFE.as_bytes(), &SIZES, rows_held);
        let bands = held.plan(&mut rooms).expect("a plan");
        Planned {
            held,
            border: held.border(&mut rooms).expect("a rule"),
            entries: bands
                .iter()
                .flat_map(|band| [band.first, band.last])
                .collect(),
            bands,
            room: vec![0; rows_held as usize * SIDE],
        }
    }

    /// The grid after a run under the plan.
    fn run(&mut self, grid: &[i32], rooms: &mut Rooms, steps: i64) -> Vec<i32> {
        let mut left = grid.to_vec();
        proved::run_banded(
            self.held,
            &self.entries,
            &mut left,
            rooms,
            &mut self.room,
            steps,
        );
        left
    }

    /// The old rows of a band with borders.
    fn rows_lent(&self, band: Band, grid: &[i32]) -> Vec<i32> {
        let rows = self.border.rows_lent(band, SIZES[0]);
        let entries = rows.flat_map(|row| &grid[row as usize * SIDE..][..SIDE]);
        entries.copied().collect()
    }

    /// The grid after so many steps, each made of the bands' calls.
    fn stepped(&self, grid: &[i32], rooms: &mut cellang::Rooms, steps: i64) -> Vec<i32> {
        let mut left = grid.to_vec();
        let mut after = Vec::with_capacity(CELLS);
        for time in 0..steps {
            for &band in &self.bands {
                let rows = self.rows_lent(band, &left);
                let from = after.len();
                after.resize(from + band.rows().count() * SIDE, 0);
                let stepped = self.held.step(band, &rows, &mut after[from..], time, rooms);
                stepped.expect("a step");
            }
            std::mem::swap(&mut left, &mut after);
            after.clear();
        }
        left
    }
}

/// The grid after a full run of Life.
fn whole(grid: &[i32], rooms: &mut Rooms, steps: i64) -> Vec<i32> {
    let mut left = grid.to_vec();
    proved::run(Mode::Full, LIFE, &SIZES, &mut left, rooms, steps);
    left
}

/// The seconds of a full run, of the run under a plan, and of its steps made of the bands' public calls; the three results are compared.
fn seconds(planned: &mut Planned, grid: &[i32], times: usize, steps: i64) -> [f64; 3] {
    let (mut rooms, mut other_rooms) = (Rooms::new(CELLS, 1), Rooms::new(CELLS, 1));
    let mut tables = cellang::Rooms::new();
    let expected = whole(grid, &mut rooms, 3);
    let under = planned.run(grid, &mut rooms, 3);
    assert!(under == expected, "the run under the plan differs");
    let stepped = planned.stepped(grid, &mut tables, 3);
    assert!(stepped == expected, "the steps by bands differ");
    let again = Planned::new(planned.room.len() as u32 / SIZES[1]);
    best_each(
        times,
        [
            &mut || drop(whole(grid, &mut rooms, steps)),
            &mut || drop(planned.run(grid, &mut other_rooms, steps)),
            &mut || drop(again.stepped(grid, &mut tables, steps)),
        ],
    )
}

/// A full run of Life, the same run under a plan, and its steps made of the bands' public calls, which read the source anew for each band.
pub fn bands(times: usize) {
    let steps = 8;
    let grid = random_life();
    println!("Life, full run of {steps} steps, and by bands, milliseconds");
    println!("| rows held | bands | full run | under the plan | ratio | by band calls | ratio |");
    println!("|---|---|---|---|---|---|---|");
    for rows_held in [3, ROWS_HELD, SIZES[0] + 2] {
        let mut planned = Planned::new(rows_held);
        let [full, under, calls] = seconds(&mut planned, &grid, times, steps);
        println!(
            "| {rows_held} | {} | {:.1} | {:.1} | {:.3} | {:.1} | {:.3} |",
            planned.bands.len(),
            full * 1e3,
            under * 1e3,
            under / full,
            calls * 1e3,
            calls / full
        );
    }
}

/// Pages that are touched so that the processor no longer knows others by heart: it marks a page as touched when it looks it up.
const OTHER_PAGES: usize = 16_384;
const PAGE: usize = 4_096;

/// The bytes of all pages that are touched while a work is done, by the marks that the system keeps of them.
fn touched(other: &mut [u8], work: &mut dyn FnMut()) -> Option<u64> {
    fs::write("/proc/self/clear_refs", "1").ok()?;
    for byte in other.iter_mut().step_by(PAGE) {
        *byte = black_box(*byte).wrapping_add(1);
    }
    work();
    let told = fs::read_to_string("/proc/self/smaps_rollup").ok()?;
    let line = told
        .lines()
        .find_map(|line| line.strip_prefix("Referenced:"))?;
    let kilobytes: u64 = line.trim().strip_suffix("kB")?.trim().parse().ok()?;
    Some(kilobytes * 1_024)
}

/// What a work touches beside what measuring touches: of some turns the one in the middle.
fn touched_by(mut work: impl FnMut()) -> Option<u64> {
    let mut other = vec![0; OTHER_PAGES * PAGE];
    let mut middle = |work: &mut dyn FnMut()| {
        let turns = (0..9).map(|_| touched(&mut other, work));
        let mut each: Vec<u64> = turns.collect::<Option<_>>()?;
        each.sort_unstable();
        Some(each[each.len() / 2])
    };
    let measuring = middle(&mut || ())?;
    Some(middle(&mut work)?.saturating_sub(measuring))
}

fn kilobytes(bytes: Option<u64>) -> String {
    bytes.map_or("not told by this system".into(), |bytes| {
        format!("{:.0} KB", bytes as f64 / 1_024.0)
    })
}

/// Word table, name list, leaf table and source.
fn tables() -> u64 {
    64 * 1_024 + 4 * 1_024 + 131_104 + LIFE.len() as u64
}

/// The memory that one band's step touches, beside that of a full run of one step and of the same run under the plan: by what is passed and the table that
/// a call makes, and as measured in pages, which has code and the rest of the stack besides.
pub fn memory() {
    let grid = random_life();
    let mut planned = Planned::new(ROWS_HELD);
    let band = planned.bands[1];
    let rows = planned.rows_lent(band, &grid);
    let mut next = vec![0; band.rows().count() * SIDE];
    let mut tables_lent = cellang::Rooms::new();
    let mut rooms = Rooms::new(CELLS, 1);
    let of_band = 4 * (rows.len() + next.len()) as u64 + tables();
    let of_run = 4 * 2 * CELLS as u64 + CELLS as u64 + tables();
    let of_room = 4 * planned.room.len() as u64;
    let step = touched_by(|| {
        let stepped = planned
            .held
            .step(band, &rows, &mut next, 0, &mut tables_lent);
        stepped.expect("a step");
    });
    let mut left = grid.clone();
    let full = touched_by(|| {
        proved::run(Mode::Full, LIFE, &SIZES, &mut left, &mut rooms, 1);
    });
    let under = touched_by(|| {
        let (plan, room) = (&planned.entries, &mut planned.room);
        proved::run_banded(planned.held, plan, &mut left, &mut rooms, room, 1);
    });
    println!("memory of one step of Life, {SIDE} x {SIDE} cells, {ROWS_HELD} rows held");
    println!("| call | lent, and the leaf table | touched |");
    println!("|---|---|---|");
    for (name, lent, touched) in [
        ("one band's step", of_band, step),
        ("full run", of_run, full),
        ("full run under the plan", of_run + of_room, under),
    ] {
        println!(
            "| {name} | {} | {} |",
            kilobytes(Some(lent)),
            kilobytes(touched)
        );
    }
}
