//! Lines for the lists of runs. They are made beside the steps of the run, so
//! that a block can set what is there, and what was there before a step.

use crate::case::RunCase;
use crate::interpret::step;
use crate::one_move::flag;
use crate::random::Random;
use crate::tree::Program;

/// A line of a list before it is spelled; its numbers may pass every limit.
#[derive(Clone, PartialEq, Eq, Debug)]
pub enum Line {
    Time(i64),
    Cell(Vec<i64>, Vec<Option<i64>>),
}

struct Maker<'a> {
    random: &'a mut Random,
    program: &'a Program,
    shape: &'a [u32],
    /// The field that no line may set to 0.
    flag: Option<usize>,
    lines: Vec<Line>,
    /// The grid before the last step, and now.
    before: Vec<i32>,
    grid: Vec<i32>,
}

type Values = Vec<Option<i64>>;

impl Maker<'_> {
    fn index(&self, cell: usize) -> Vec<i64> {
        let mut rest = cell;
        let mut index = Vec::new();
        for &size in self.shape.iter().rev() {
            index.insert(0, (rest % size as usize) as i64);
            rest /= size as usize;
        }
        index
    }

    /// Adds a line, and sets it.
    fn put(&mut self, cell: usize, mut values: Values) {
        if let Some(value) = self.flag.and_then(|flag| values.get_mut(flag)) {
            *value = value.filter(|&value| value != 0);
        }
        let fields = self.program.fields.len();
        for (field, value) in values.iter().enumerate() {
            if let Some(value) = value {
                self.grid[cell * fields + field] = *value as i32;
            }
        }
        let index = self.index(cell);
        self.lines.push(Line::Cell(index, values));
    }

    /// New values for all fields, often at an end of their range.
    fn new_values(&mut self) -> Values {
        let mut values = Vec::new();
        for field in &self.program.fields {
            let (low, high) = (i64::from(field.low), i64::from(field.high));
            values.push(Some(match self.random.below(9) {
                0 => low,
                1 => high,
                2 => 0i64.clamp(low, high),
                _ => self.random.between(low, high),
            }));
        }
        values
    }

    fn own(&self, grid: &[i32], cell: usize) -> Values {
        let fields = self.program.fields.len();
        let own = &grid[cell * fields..][..fields];
        own.iter().map(|&value| Some(i64::from(value))).collect()
    }

    /// Some values missing, also at the end.
    fn some_of(&mut self, mut values: Values) -> Values {
        for value in &mut values {
            if self.random.chance(40) {
                *value = None;
            }
        }
        let rest = self.random.below(values.len()) + 1;
        if self.random.chance(40) {
            values.truncate(rest);
        }
        values
    }

    /// A cell, often one that the last step changed.
    fn cell(&mut self) -> usize {
        let fields = self.program.fields.len();
        let cells = self.grid.len() / fields;
        let part = |grid: &[i32], cell: usize| grid[cell * fields..][..fields].to_vec();
        let changed: Vec<usize> = (0..cells)
            .filter(|&cell| part(&self.before, cell) != part(&self.grid, cell))
            .collect();
        if changed.is_empty() || self.random.chance(50) {
            self.random.below(cells)
        } else {
            *self.random.pick(&changed)
        }
    }

    /// Lines for one cell.
    fn cell_lines(&mut self) {
        let cell = self.cell();
        let now = self.own(&self.grid, cell);
        let values = self.new_values();
        match self.random.below(10) {
            // What is there.
            0 => self.put(cell, now),
            // What was there before the step.
            1 | 2 => {
                let old = self.own(&self.before, cell);
                self.put(cell, old);
            }
            // Twice and back.
            3 => {
                self.put(cell, values);
                self.put(cell, now);
            }
            // Twice.
            4 => {
                let first = self.new_values();
                self.put(cell, first);
                self.put(cell, values);
            }
            // Nothing.
            5 => {
                let missing = self.random.below(values.len()) + 1;
                self.put(cell, vec![None; missing]);
            }
            6 | 7 => {
                let some = self.some_of(values);
                self.put(cell, some);
            }
            _ => self.put(cell, values),
        }
    }

    fn block(&mut self, time: i64) {
        self.lines.push(Line::Time(time));
        let cells = match self.random.below(10) {
            0 => 0,
            1..=5 => 1,
            6..=8 => 2 + self.random.below(3),
            _ => 5 + self.random.below(4),
        };
        for _ in 0..cells {
            self.cell_lines();
        }
    }
}

/// Lines of a list that passes, for a run that is admitted without one.
pub fn lines(random: &mut Random, case: &RunCase, program: &Program) -> Vec<Line> {
    let often = *random.pick(&[15, 40, 80, 100]);
    let mut maker = Maker {
        random,
        program,
        shape: &case.shape,
        flag: flag(&case.source, program),
        lines: Vec::new(),
        before: case.grid.clone(),
        grid: case.grid.clone(),
    };
    let mut faulted = false;
    for time in case.start..=case.start + case.steps {
        if maker.random.chance(often) {
            maker.block(time);
        }
        if faulted || time == case.start + case.steps {
            continue;
        }
        maker.before.clone_from(&maker.grid);
        let (old, new) = (&maker.before, &mut maker.grid);
        faulted = step(program, &case.shape, time as i32, old, new).is_err();
        if faulted {
            maker.grid.clone_from(&maker.before);
        }
    }
    maker.lines
}

/// Lines for a run that is refused without its list.
pub fn blind_lines(random: &mut Random, case: &RunCase) -> Vec<Line> {
    let mut lines = Vec::new();
    let mut time = case.start.clamp(0, 1 << 40);
    for _ in 0..random.below(3) {
        lines.push(Line::Time(time));
        time += random.between(1, 3);
        for _ in 0..random.below(3) {
            let index = case.shape.iter().map(|_| random.between(0, 2)).collect();
            let values = (0..1 + random.below(3))
                .map(|_| random.chance(70).then(|| random.between(-1, 2)))
                .collect();
            lines.push(Line::Cell(index, values));
        }
    }
    lines
}
