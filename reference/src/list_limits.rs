//! Lists at their limits and past them: lines that are changed before they
//! are spelled.

use crate::admission::GREATEST;
use crate::blocks::Line;
use crate::case::RunCase;
use crate::random::Random;
use crate::tree::Field;

/// What a list is changed for.
pub struct Around<'a> {
    pub case: &'a RunCase,
    pub fields: &'a [Field],
    /// The flag of a rule that moves a pixel once.
    pub flag: Option<usize>,
}

type Cell<'a> = (&'a mut Vec<i64>, &'a mut Vec<Option<i64>>);

/// A cell's line; one is added, after a time, if there is none.
fn some_cell<'a>(random: &mut Random, lines: &'a mut Vec<Line>, around: &Around) -> Cell<'a> {
    let is_cell = |line: &Line| matches!(line, Line::Cell(..));
    if !lines.iter().any(is_cell) {
        if lines.is_empty() {
            lines.push(Line::Time(around.case.start));
        }
        let index = around.case.shape.iter().map(|_| 0).collect();
        lines.push(Line::Cell(index, vec![None]));
    }
    let places: Vec<usize> = (0..lines.len()).filter(|&at| is_cell(&lines[at])).collect();
    match &mut lines[*random.pick(&places)] {
        Line::Cell(index, values) => (index, values),
        Line::Time(_) => unreachable!("a cell's line"),
    }
}

fn outside(random: &mut Random, cell: &mut Cell, around: &Around) {
    if cell.0.is_empty() {
        return;
    }
    let at = random.below(cell.0.len());
    let size = i64::from(around.case.shape.get(at).copied().unwrap_or(1));
    cell.0[at] = *random.pick(&[size, size, size, size - 1, size + 1, GREATEST]);
}

fn too_many(random: &mut Random, cell: &mut Cell, around: &Around) {
    let wanted = around.fields.len() + usize::from(random.chance(80)) + random.below(2);
    while cell.1.len() < wanted {
        let value = match random.below(4) {
            0 => Some(0),
            1 => Some(random.between(-9, GREATEST)),
            _ => None,
        };
        cell.1.push(value);
    }
}

fn past_range(random: &mut Random, cell: &mut Cell, around: &Around) {
    let at = random.below(around.fields.len());
    while cell.1.len() <= at {
        cell.1.push(None);
    }
    let (low, high) = (
        i64::from(around.fields[at].low),
        i64::from(around.fields[at].high),
    );
    let near = [
        high + 1,
        low - 1,
        high + 1,
        low - 1,
        high,
        low,
        -GREATEST,
        GREATEST,
    ];
    cell.1[at] = Some(*random.pick(&near));
}

/// The flag is 0.
fn not_moved(cell: &mut Cell, flag: usize) {
    while cell.1.len() <= flag {
        cell.1.push(None);
    }
    cell.1[flag] = Some(0);
}

/// A number on both sides of the greatest literal.
fn greatest(random: &mut Random) -> i64 {
    GREATEST + random.between(-1, 2)
}

fn some_time(random: &mut Random, lines: &[Line]) -> Option<(usize, i64)> {
    let times: Vec<(usize, i64)> = lines
        .iter()
        .enumerate()
        .filter_map(|(at, line)| match line {
            Line::Time(time) => Some((at, *time)),
            Line::Cell(..) => None,
        })
        .collect();
    (!times.is_empty()).then(|| *random.pick(&times))
}

/// Times that do not rise, or lie before the start or past the end.
fn times(random: &mut Random, lines: &mut Vec<Line>, around: &Around) {
    let start = around.case.start;
    let last = start.saturating_add(around.case.steps);
    let before = start > 0 && random.chance(30);
    match if before { 2 } else { random.below(8) } {
        0 | 1 => {
            // A time that stands there already, or the one before it.
            let Some((at, time)) = some_time(random, lines) else {
                return lines.push(Line::Time(last));
            };
            let place = random.between(at as i64 + 1, lines.len() as i64) as usize;
            let again = (time - i64::from(random.chance(25))).max(0);
            lines.insert(place, Line::Time(again));
        }
        2 => lines.insert(0, Line::Time(start.saturating_sub(1).max(0))),
        3 => {
            if let Some((at, _)) = some_time(random, lines) {
                lines[at] = Line::Time(random.between(0, start.clamp(0, 99)));
            }
        }
        4 | 5 => lines.push(Line::Time(last.saturating_add(1))),
        6 => lines.push(Line::Time(last)),
        _ => lines.push(Line::Time(greatest(random))),
    }
}

/// Puts some line at a limit or past it.
pub fn put_at_limit(random: &mut Random, lines: &mut Vec<Line>, around: &Around) {
    if let Some(flag) = around.flag.filter(|_| random.chance(45)) {
        not_moved(&mut some_cell(random, lines, around), flag);
        if random.chance(60) {
            return;
        }
    }
    let kind = random.below(18);
    if kind < 7 {
        return times(random, lines, around);
    }
    if kind == 7 && !lines.is_empty() {
        // A cell before any time, if one follows.
        lines.remove(0);
        return;
    }
    let mut cell = some_cell(random, lines, around);
    match kind {
        8 | 9 => outside(random, &mut cell, around),
        10 | 11 => too_many(random, &mut cell, around),
        12 | 13 => past_range(random, &mut cell, around),
        14 => {
            past_range(random, &mut cell, around);
            if random.chance(60) {
                too_many(random, &mut cell, around);
            }
            if random.chance(60) {
                outside(random, &mut cell, around);
            }
        }
        15 => {
            if random.chance(50) || cell.0.is_empty() {
                cell.0.push(0);
            } else {
                cell.0.pop();
            }
        }
        16 => {
            let at = random.below(cell.1.len());
            let sign = *random.pick(&[1, -1]);
            cell.1[at] = Some(sign * greatest(random));
        }
        _ => {
            let number = if random.chance(50) {
                greatest(random)
            } else {
                -1
            };
            if let Some(at) = cell.0.first_mut() {
                *at = number;
            }
        }
    }
}
