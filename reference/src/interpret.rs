//! Running a program on a grid by the full definition: every cell of every
//! step is evaluated.

use crate::admission::{admit, Lent, Report};
use crate::lists::Waiting;
use crate::parse::MAX_FIELDS;
use crate::tree::{Binary, Expression, Offset, Program, Statement, Target, Unary};

/// A fault's number and place, in one word.
#[derive(Clone, Copy, PartialEq, Eq, Debug)]
pub struct Fault(u32);

impl Fault {
    fn new(number: u32, place: u32) -> Fault {
        Fault(place << 8 | number)
    }

    pub fn number(self) -> u32 {
        self.0 & 255
    }

    pub fn place(self) -> u32 {
        self.0 >> 8
    }
}

/// The result if it lies in the range of values, else fault 30.
fn in_range(result: i64, place: u32) -> Result<i32, Fault> {
    i32::try_from(result).map_err(|_| Fault::new(30, place))
}

pub fn apply(operator: Binary, a: i32, b: i32, place: u32) -> Result<i32, Fault> {
    let (wide_a, wide_b) = (i64::from(a), i64::from(b));
    match operator {
        Binary::Times => in_range(wide_a * wide_b, place),
        Binary::Add => in_range(wide_a + wide_b, place),
        Binary::Subtract => in_range(wide_a - wide_b, place),
        Binary::Quotient | Binary::Remainder if b == 0 => Err(Fault::new(31, place)),
        Binary::Quotient => in_range(wide_a / wide_b, place),
        // a - b*(a/b); never out of range.
        Binary::Remainder => in_range(wide_a - wide_b * (wide_a / wide_b), place),
        Binary::Equal => Ok((a == b).into()),
        Binary::NotEqual => Ok((a != b).into()),
        Binary::Less => Ok((a < b).into()),
        Binary::LessEqual => Ok((a <= b).into()),
        Binary::Greater => Ok((a > b).into()),
        Binary::GreaterEqual => Ok((a >= b).into()),
        Binary::And => Ok((a != 0 && b != 0).into()),
        Binary::Or => Ok((a != 0 || b != 0).into()),
    }
}

/// The evaluation of one cell.
struct Cell<'a> {
    program: &'a Program,
    fields: usize,
    sizes: [i32; 3],
    old: &'a [i32],
    time: i32,
    /// The cell's index in each dimension, and its number.
    index: [i32; 3],
    number: usize,
    slots: Vec<i32>,
    next: [i32; MAX_FIELDS],
}

impl Cell<'_> {
    fn near(&self, offsets: &[Offset]) -> usize {
        let mut number = 0;
        for (dimension, offset) in offsets.iter().enumerate() {
            let offset = match *offset {
                Offset::Fixed(value) => value,
                Offset::Slot(slot) => self.slots[slot],
            };
            let size = self.sizes[dimension];
            // No index is larger in size than its dimension.
            let mut place = self.index[dimension] + offset;
            if place < 0 {
                place += size;
            } else if place >= size {
                place -= size;
            }
            number = number * size as usize + place as usize;
        }
        number
    }

    fn value(&self, expression: &Expression) -> Result<i32, Fault> {
        match expression {
            Expression::Number(value) => Ok(*value),
            Expression::Time => Ok(self.time),
            Expression::Slot(slot) => Ok(self.slots[*slot]),
            Expression::Own(field) => Ok(self.old[self.number * self.fields + *field]),
            Expression::Near(offsets, field) => {
                Ok(self.old[self.near(offsets) * self.fields + *field])
            }
            Expression::Element(array, place, inner) => {
                let at = self.value(inner)?;
                let values = &self.program.arrays[*array];
                match usize::try_from(at).ok().and_then(|at| values.get(at)) {
                    Some(value) => Ok(*value),
                    None => Err(Fault::new(32, *place)),
                }
            }
            Expression::Unary(operator, place, inner) => {
                let value = self.value(inner)?;
                match operator {
                    Unary::Plus => Ok(value),
                    Unary::Minus => in_range(-i64::from(value), *place),
                    Unary::Not => Ok((value == 0).into()),
                }
            }
            Expression::Binary(operator, place, sides) => {
                let left = self.value(&sides.0)?;
                let right = self.value(&sides.1)?;
                apply(*operator, left, right, *place)
            }
        }
    }

    /// Runs statements in order; true if an `exit` was met.
    fn run(&mut self, statements: &[Statement]) -> Result<bool, Fault> {
        for statement in statements {
            match statement {
                Statement::Assign(target, choices) => {
                    for choice in choices {
                        if let Some(condition) = &choice.condition {
                            if self.value(condition)? == 0 {
                                continue;
                            }
                        }
                        let value = self.value(&choice.value)?;
                        match *target {
                            Target::Slot(slot) => self.slots[slot] = value,
                            Target::Field(number) => {
                                let field = self.program.fields[number];
                                if value < field.low || value > field.high {
                                    return Err(Fault::new(33, choice.place));
                                }
                                self.next[number] = value;
                            }
                        }
                        break;
                    }
                }
                Statement::If(branches, otherwise) => {
                    let mut chosen = otherwise;
                    for (condition, body) in branches {
                        if self.value(condition)? != 0 {
                            chosen = body;
                            break;
                        }
                    }
                    if self.run(chosen)? {
                        return Ok(true);
                    }
                }
                Statement::Forall(slot, low, high, body) => {
                    for value in *low..=*high {
                        self.slots[*slot] = value;
                        if self.run(body)? {
                            break;
                        }
                    }
                }
                Statement::Exit => return Ok(true),
            }
        }
        Ok(false)
    }
}

impl<'a> Cell<'a> {
    /// The first cell of a grid of these sizes.
    fn first(program: &'a Program, shape: &[u32], time: i32, old: &'a [i32]) -> Cell<'a> {
        let mut sizes = [1; 3];
        for (own, &size) in sizes.iter_mut().zip(shape) {
            *own = size as i32;
        }
        Cell {
            program,
            fields: program.fields.len(),
            sizes,
            old,
            time,
            index: [0; 3],
            number: 0,
            slots: vec![0; program.slots],
            next: [0; MAX_FIELDS],
        }
    }

    /// Goes to the next cell.
    fn advance(&mut self) {
        self.number += 1;
        for dimension in (0..self.program.dimensions).rev() {
            self.index[dimension] += 1;
            if self.index[dimension] < self.sizes[dimension] {
                break;
            }
            self.index[dimension] = 0;
        }
    }

    /// Evaluates this cell and those after it, as many as `new` has room for,
    /// or up to the first fault, whose cell is counted from this one.
    fn evaluate(
        mut self,
        new: &mut [i32],
        is_open: impl Fn(usize) -> bool,
    ) -> Result<(), (usize, Fault)> {
        let (program, fields) = (self.program, self.fields);
        for (count, next) in new.chunks_exact_mut(fields).enumerate() {
            self.slots.fill(0);
            let own = self.number * fields..(self.number + 1) * fields;
            self.next[..fields].copy_from_slice(&self.old[own]);
            if is_open(count) {
                if let Err(fault) = self.run(&program.statements) {
                    return Err((count, fault));
                }
            }
            next.copy_from_slice(&self.next[..fields]);
            self.advance();
        }
        Ok(())
    }
}

/// One step of the definition: from `old` to `new`, or the lowest faulting
/// cell and its first fault.
pub fn step(
    program: &Program,
    shape: &[u32],
    time: i32,
    old: &[i32],
    new: &mut [i32],
) -> Result<(), (usize, Fault)> {
    step_open(program, shape, time, old, new, |_| true)
}

/// One step in which only the open cells are evaluated; every other cell keeps
/// its fields and has no fault.
pub fn step_open(
    program: &Program,
    shape: &[u32],
    time: i32,
    old: &[i32],
    new: &mut [i32],
    is_open: impl Fn(usize) -> bool,
) -> Result<(), (usize, Fault)> {
    Cell::first(program, shape, time, old).evaluate(new, is_open)
}

/// One step of a band: `old` has its rows with the border rows around them, the
/// first own row after `before` others. The next own rows go to `new`. A fault's
/// cell is counted from the band's first.
///
/// In the first dimension no index wraps: a row that is not passed is read nowhere.
pub fn step_rows(
    program: &Program,
    shape: &[u32],
    time: i32,
    before: usize,
    old: &[i32],
    new: &mut [i32],
) -> Result<(), (usize, Fault)> {
    let mut cell = Cell::first(program, shape, time, old);
    // With this size any other row is out of bounds.
    cell.sizes[0] = i32::MAX;
    cell.index[0] = before as i32;
    cell.number = before * shape[1..].iter().product::<u32>() as usize;
    cell.evaluate(new, |_| true)
}

/// The full run. A block is set before its time's step, or after the last.
pub fn run_full(lent: &Lent, grid: &mut [i32], scratch: &mut [i32], marks: &mut [u8]) -> Report {
    let (program, blocks) = match admit(lent, grid, scratch, marks) {
        Ok(admitted) => admitted,
        Err(report) => return report,
    };
    let fields = program.fields.len();
    let mut waiting = Waiting::new(blocks);
    let mut report = Report::default();
    let last = lent.start + lent.steps;
    for time in lent.start..=last {
        if let Some(block) = waiting.due(time) {
            block.set(fields, grid);
        }
        if time == last {
            break;
        }
        match step(&program, lent.shape, time as i32, grid, scratch) {
            Ok(()) => {
                grid.copy_from_slice(scratch);
                report.count += marks.len() as u64;
                report.steps += 1;
            }
            Err((cell, fault)) => {
                report.number = fault.number();
                report.place = fault.place();
                report.cell = cell as u32;
                report.count += cell as u64 + 1;
                break;
            }
        }
    }
    scratch.fill(0);
    marks.fill(0);
    report
}
