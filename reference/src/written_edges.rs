//! Calls on bands of rows at the edges of how many rows can be held, and with a
//! fault in every row, written by hand.

use crate::band_case::{Asked, BandCase, BandedCase, BorderCase, PlanCase, PlannerCase};
use crate::bands::{border, longest, numbers_of, row_entries, rows_lent, Band, Border};
use crate::call_case::Call;
use crate::case::{marks_on_entry, RunCase};
use crate::parse::check;
use crate::pausing::Manner;
use crate::tree::Program;

/// Rules with their sizes: from no border row to more border rows than the grid
/// has rows, so that rows are passed more than once; in one to three dimensions.
const RULES: [(&str, &[u32]); 14] = [
    ("1 dimensions of 0..9 cell := (cell + 3) % 10", &[4]),
    ("1 dimensions of 0..9 cell := [-1]", &[1]),
    ("1 dimensions of 0..9 cell := [-1]", &[5]),
    ("1 dimensions of 0..9 cell := [2]", &[5]),
    ("1 dimensions of 0..9 cell := ([-1] + [1]) % 10", &[7]),
    (
        "1 dimensions of 0..9 cell := ([-3] + cell + [3]) % 10",
        &[3],
    ),
    ("1 dimensions of 0..9 cell := ([-4] + time) % 10", &[4]),
    (
        "1 dimensions of a of 0..9 const b of 0..9 end cell.a := ([-2].b + [1].a) % 10",
        &[3],
    ),
    (
        "1 dimensions of 0..9 s := 0 forall i : -2..3 s := s + [i] end cell := s % 10",
        &[4],
    ),
    (
        "2 dimensions of 0..9 cell := ([-2,1] + [1,-1] + cell) % 10",
        &[3, 2],
    ),
    (
        "2 dimensions of 0..9 cell := ([0,2] + [0,-1]) % 10",
        &[4, 2],
    ),
    (
        "2 dimensions of a, b of 0..9 end cell.a := [-1,1].b cell.b := ([2,0].a + 1) % 10",
        &[2, 2],
    ),
    (
        "3 dimensions of 0..9 cell := ([-1,1,0] + [1,0,-1]) % 10",
        &[3, 2, 2],
    ),
    (
        "3 dimensions of 0..9 cell := ([-2,0,1] + [2,-1,0]) % 10",
        &[2, 1, 3],
    ),
];

/// Rules that fault at a cell that holds 0, wherever their border rows lie.
const FAULTING: [(&str, &[u32]); 5] = [
    ("1 dimensions of 0..9 cell := 6 / cell", &[5]),
    (
        "1 dimensions of 0..9 cell := [2] when 6 / cell := [-1] otherwise",
        &[5],
    ),
    ("1 dimensions of 0..9 x := 9 / cell cell := cell - 1", &[5]),
    (
        "2 dimensions of a, b of 0..9 end x := 6 % cell.b cell.a := [-1,1].a",
        &[4, 2],
    ),
    (
        "3 dimensions of 0..9 cell := 9 when 6 / cell + [1,0,1] + [-2,1,0]",
        &[3, 2, 2],
    ),
];

/// A rule on its sizes.
struct Ground {
    source: &'static str,
    shape: &'static [u32],
    program: Program,
}

impl Ground {
    fn new((source, shape): (&'static str, &'static [u32])) -> Ground {
        let program = check(source.as_bytes()).program.expect("a rule");
        Ground {
            source,
            shape,
            program,
        }
    }

    fn rows(&self) -> u32 {
        self.shape[0]
    }

    fn border(&self) -> Border {
        border(&self.program)
    }

    /// How many border rows there are on both sides.
    fn borders(&self) -> u32 {
        (self.border().before + self.border().behind) as u32
    }

    /// The entries of a row.
    fn row(&self) -> usize {
        row_entries(&self.program, self.shape)
    }

    /// A grid of numbers from 0 to 9.
    fn grid(&self) -> Vec<i32> {
        let entries = self.rows() as i32 * self.row() as i32;
        (0..entries).map(|at| (at * 7 + 3) % 10).collect()
    }

    fn asked(&self, held: u32) -> Asked {
        Asked::new(self.source.into(), self.shape, held)
    }

    /// Too few rows by one, as few as can be, one more; one less than all rows with
    /// borders, all of them, and more.
    fn edges(&self) -> Vec<u32> {
        let (least, whole) = (self.borders() + 1, self.borders() + self.rows());
        let mut row = vec![least - 1, least, least + 1, whole - 1, whole, whole + 1];
        row.push(2 * whole + 3);
        row.sort_unstable();
        row.dedup();
        row
    }

    /// The longest bands, one row a band, and all rows in one band; which of them are
    /// accepted is for the check to say.
    fn plans(&self, held: u32) -> Vec<Vec<u32>> {
        let rows = self.rows();
        let each = (0..2 * rows).map(|at| at / 2).collect();
        let mut plans = vec![each, vec![0, rows - 1]];
        if let Some(bands) = longest(rows, self.border(), held) {
            plans.push(numbers_of(&bands));
        }
        plans.sort_unstable();
        plans.dedup();
        plans
    }

    /// A band with its rows, at time 4.
    fn band(&self, held: u32, band: Band, grid: &[i32]) -> BandCase {
        BandCase {
            asked: self.asked(held),
            band,
            room: band.rows().count() * self.row(),
            time: 4,
            rows: rows_lent(self.border(), band, self.rows(), self.row(), grid),
        }
    }

    /// A run from time 2 on.
    fn run(&self, held: u32, plan: &[u32], grid: &[i32], steps: i64) -> BandedCase {
        let run = RunCase::new(self.source.into(), self.shape, grid.to_vec(), 2, steps);
        let marks = marks_on_entry(run.marks);
        BandedCase {
            call: Call::new(run, Manner::Full, marks),
            held,
            plan: plan.to_vec(),
            room: held as usize * self.row(),
        }
    }

    /// A value list that sets the first cell and the last at every time of a run of so
    /// many steps from time 2 on.
    fn list(&self, steps: i64) -> String {
        let place = |at: &dyn Fn(u32) -> u32| {
            let row: Vec<String> = self
                .shape
                .iter()
                .map(|&size| at(size).to_string())
                .collect();
            row.join(", ")
        };
        let (first, last) = (place(&|_| 0), place(&|size| size - 1));
        let block = |time: i64| format!("{time}\n[{first}] = {}\n[{last}] = 0\n", time % 9 + 1);
        (2..=2 + steps).map(block).collect()
    }
}

fn grounds() -> impl Iterator<Item = Ground> {
    RULES.into_iter().map(Ground::new)
}

fn faulting() -> impl Iterator<Item = Ground> {
    FAULTING.into_iter().map(Ground::new)
}

pub fn borders() -> Vec<BorderCase> {
    let all = grounds().chain(faulting());
    let asked = all.map(|ground| ground.asked(ground.rows()));
    asked.map(|asked| BorderCase { asked }).collect()
}

pub fn planners() -> Vec<PlannerCase> {
    let mut row = Vec::new();
    for ground in grounds() {
        for held in ground.edges() {
            row.push(PlannerCase {
                asked: ground.asked(held),
                room: 2 * ground.rows() as usize,
            });
        }
    }
    row
}

pub fn plans() -> Vec<PlanCase> {
    let mut row = Vec::new();
    for ground in grounds() {
        for held in ground.edges() {
            row.extend(ground.plans(held).into_iter().map(|plan| PlanCase {
                asked: ground.asked(held),
                plan,
            }));
        }
    }
    row
}

/// The bands of the longest plans, and of no plan where too few rows can be held;
/// and the bands of a plan with a fault in each row.
pub fn bands() -> Vec<BandCase> {
    let mut row = Vec::new();
    for ground in grounds() {
        for held in ground.edges() {
            let longest = longest(ground.rows(), ground.border(), held);
            let bands = longest.unwrap_or_else(|| vec![Band::new(0, 0)]);
            let grid = ground.grid();
            let bands = bands.into_iter();
            row.extend(bands.map(|band| ground.band(held, band, &grid)));
        }
    }
    for ground in faulting() {
        for (fault, grid) in (0..).zip(faulty_grids(&ground)) {
            let bands = three_bands(ground.rows());
            let held = ground.borders() + ground.rows();
            let own = bands
                .into_iter()
                .filter(|band| band.rows().contains(&fault));
            row.extend(own.map(|band| ground.band(held, band, &grid)));
        }
    }
    row
}

/// Bands of one row, of one, and of the rest.
fn three_bands(rows: u32) -> [Band; 3] {
    [Band::new(0, 0), Band::new(1, 1), Band::new(2, rows - 1)]
}

/// For each row a grid in which its last cell holds 0, and that of the last row too.
fn faulty_grids(ground: &Ground) -> Vec<Vec<i32>> {
    let entries = ground.rows() as usize * ground.row();
    let each = (0..ground.rows() as usize).map(|fault| {
        let mut grid: Vec<i32> = (0..entries as i32).map(|at| at % 4 + 2).collect();
        for row in [fault, ground.rows() as usize - 1] {
            grid[(row + 1) * ground.row() - 1] = 0;
        }
        grid
    });
    each.collect()
}

/// Runs at the edges, and runs with faults.
pub fn runs() -> Vec<BandedCase> {
    let mut row = edge_runs();
    for ground in faulting() {
        row.extend(faulty_runs(&ground));
    }
    row
}

/// Runs of none to three steps under each plan, some with a list and some with
/// counts.
fn edge_runs() -> Vec<BandedCase> {
    let mut row = Vec::new();
    for ground in grounds() {
        let fields = ground.program.fields.len();
        for held in ground.edges() {
            for plan in ground.plans(held) {
                let number = row.len();
                let steps = number as i64 % 4;
                let mut case = ground.run(held, &plan, &ground.grid(), steps);
                if number % 3 == 0 {
                    case.call.run.values = ground.list(steps).into();
                }
                if number % 5 < 2 {
                    let field = number % fields;
                    let counts = vec![9; ground.rows() as usize];
                    case.call = case.call.counting(field as u32, counts);
                }
                row.push(case);
            }
        }
    }
    row
}

/// Runs under a plan of three bands, with a fault in each row in turn, and with one
/// in a later step.
fn faulty_runs(ground: &Ground) -> Vec<BandedCase> {
    let plan = numbers_of(&three_bands(ground.rows()));
    let held = ground.borders() + ground.rows() - 2;
    let field = ground.program.fields.len() - 1;
    let mut row = Vec::new();
    for grid in faulty_grids(ground) {
        let case = ground.run(held, &plan, &grid, 3);
        let counts = vec![9; ground.rows() as usize];
        let call = case.call.clone().counting(field as u32, counts);
        row.push(BandedCase { call, ..case });
    }
    row.push(later_fault(ground, &plan, held));
    row
}

/// No cell faults until a block has set one to 0, before the second step.
fn later_fault(ground: &Ground, plan: &[u32], held: u32) -> BandedCase {
    let entries = ground.rows() as usize * ground.row();
    let mut case = ground.run(held, plan, &vec![3; entries], 4);
    let zeros = vec!["0"; ground.program.fields.len()].join(", ");
    let place = vec!["1"; ground.shape.len()].join(", ");
    case.call.run.values = format!("3\n[{place}] = {zeros}\n").into();
    let counts = vec![9; ground.rows() as usize];
    case.call = case.call.counting(0, counts);
    case
}
