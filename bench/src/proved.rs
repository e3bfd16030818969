//! Runs of the proved library, in memory that is kept from run to run.

use cellang::{
    run_in, BandedLent, BandedRun, CountingLent, Done, Held, Lent, Mode, Run, NAME_WORDS, WORDS,
};

/// The memory that a run is passed, beside the grid.
pub struct Rooms {
    words: Vec<u32>,
    names: Vec<u32>,
    scratch: Vec<i32>,
    marks: Vec<u8>,
}

impl Rooms {
    pub fn new(cells: usize, fields: usize) -> Rooms {
        Rooms {
            words: vec![0; WORDS],
            names: vec![0; NAME_WORDS],
            scratch: vec![0; cells * fields],
            marks: vec![0; cells],
        }
    }

    fn lent(&mut self) -> Lent<'_> {
        Lent {
            words: &mut self.words,
            names: &mut self.names,
            scratch: &mut self.scratch,
            marks: &mut self.marks,
        }
    }
}

/// A run from time 0 that must do all its steps.
pub fn run(
    mode: Mode,
    source: &str,
    sizes: &[u32],
    grid: &mut [i32],
    rooms: &mut Rooms,
    steps: i64,
) -> Done {
    let outcome = run_in(source.as_bytes(), sizes, grid, rooms.lent(), 0, steps, mode);
    outcome.expect("every step is done")
}

/// A full run of 0 steps at time 0 that sets the block of a value list.
pub fn set(source: &str, sizes: &[u32], grid: &mut [i32], rooms: &mut Rooms, list: &[u8]) {
    let run = Run::new(source.as_bytes(), sizes, 0, 0, Mode::Full).with_list(list);
    run.on_in(grid, rooms.lent()).expect("a list that passes");
}

/// A run of plain cells from time 0 that keeps row counts.
pub fn run_counting(
    mode: Mode,
    source: &str,
    sizes: &[u32],
    grid: &mut [i32],
    rooms: &mut Rooms,
    counts: &mut [u32],
    steps: i64,
) -> Done {
    let lent = CountingLent {
        lent: rooms.lent(),
        field: 0,
        counts,
    };
    let run = Run::new(source.as_bytes(), sizes, 0, steps, mode);
    let outcome = run.on_counting_in(grid, lent);
    outcome.expect("every step is done")
}

/// A run from time 0 under a plan, two entries a band; the room has as many rows as can be held.
pub fn run_banded(
    held: Held,
    plan: &[u32],
    grid: &mut [i32],
    rooms: &mut Rooms,
    room: &mut [i32],
    steps: i64,
) -> Done {
    let lent = BandedLent {
        lent: rooms.lent(),
        plan,
        room,
        counts: None,
    };
    let outcome = BandedRun::new(held, 0, steps).on_in(grid, lent);
    outcome.expect("every step is done")
}
