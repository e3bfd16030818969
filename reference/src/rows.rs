//! Row counts: for each row of the first dimension, how many cells have 0 in
//! one chosen field; the run that keeps them, and questions about them.

use crate::admission::{admit_beside, Beside, Counted, Lent, Report, MAX_SIZE};
use crate::pausing::{run, Manner};

/// The row counts of a grid.
pub fn row_counts(shape: &[u32], fields: usize, field: usize, grid: &[i32]) -> Vec<u32> {
    let cells: usize = shape[1..].iter().map(|&size| size as usize).product();
    let zeros = |row: &[i32]| row.chunks(fields).filter(|cell| cell[field] == 0).count();
    let rows = grid.chunks(cells * fields);
    rows.map(|row| zeros(row) as u32).collect()
}

/// A run in a manner that is to count the zeros of a field. It is
/// admitted only if the counts are right too. The counts are filled when it is
/// admitted and follow every block and every completed step; a faulting step
/// leaves them. So they are in the end those of the grid that is left.
pub fn run_counted(
    lent: &Lent,
    manner: Manner,
    field: u32,
    counts: &mut [u32],
    grid: &mut [i32],
    scratch: &mut [i32],
    marks: &mut [u8],
) -> Report {
    let counted = Counted {
        field,
        counts: counts.len(),
    };
    let beside = Beside {
        counted: Some(counted),
        under: None,
    };
    let fields = match admit_beside(lent, grid, scratch, marks, beside) {
        Ok((program, _)) => program.fields.len(),
        Err(report) => return report,
    };
    let report = run(lent, manner, grid, scratch, marks);
    counts.copy_from_slice(&row_counts(lent.shape, fields, field as usize, grid));
    report
}

/// The answer to a question about counts.
#[derive(Clone, Copy, PartialEq, Eq, Debug)]
pub struct Rows {
    pub number: u32,
    pub value: u64,
}

impl Rows {
    fn new(number: u32, value: u64) -> Rows {
        Rows { number, value }
    }
}

/// Whether some grid has so many rows.
fn one_a_row(counts: &[u32]) -> bool {
    (1..=MAX_SIZE as usize).contains(&counts.len())
}

/// How many in the rows `first` to `last`, both included; 61 for rows that are
/// reversed or outside, and for counts that are not one a row of any grid.
pub fn zeros_in_rows(counts: &[u32], first: u32, last: u32) -> Rows {
    let rows = first as usize..=last as usize;
    match counts.get(rows) {
        Some(part) if first <= last && one_a_row(counts) => {
            Rows::new(0, part.iter().map(|&count| u64::from(count)).sum())
        }
        _ => Rows::new(61, 0),
    }
}

/// Which is the first row with one; 62 if there is none.
pub fn first_zero_row(counts: &[u32]) -> Rows {
    if !one_a_row(counts) {
        return Rows::new(61, 0);
    }
    match counts.iter().position(|&count| count != 0) {
        Some(row) => Rows::new(0, row as u64),
        None => Rows::new(62, 0),
    }
}
