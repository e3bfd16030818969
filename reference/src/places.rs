//! The places of a program: the index vectors that its relative indices can
//! take, the own cell's included, each once before wrapping.

use crate::tree::{Expression, Offset, Program, Statement};
use std::collections::BTreeSet;

/// At most so many places are listed.
pub const MOST: usize = 256;

/// The cells that a change can reach: those at the listed index vectors, or
/// the box if there would be too many.
#[derive(Clone, PartialEq, Eq, Debug)]
pub enum Reach {
    List(Vec<Vec<i32>>),
    Box(Vec<(i32, i32)>),
}

/// The loops that are open: the slot of the variable, and its range.
type Loops = Vec<(usize, i32, i32)>;

struct Walk {
    found: BTreeSet<Vec<i32>>,
}

impl Walk {
    fn full(&self) -> bool {
        self.found.len() > MOST
    }

    /// One vector for each choice of values for the variables that stand in
    /// the index; `chosen` has those that are chosen already. The vectors of
    /// one index differ, so that no more than 513 are tried.
    fn index(&mut self, offsets: &[Offset], loops: &Loops, chosen: &mut Vec<(usize, i32)>) {
        if self.full() {
            return;
        }
        let value_of = |slot: usize| {
            chosen
                .iter()
                .find(|known| known.0 == slot)
                .map(|known| known.1)
        };
        let mut vector = Vec::new();
        for offset in offsets {
            match *offset {
                Offset::Fixed(value) => vector.push(value),
                Offset::Slot(slot) => match value_of(slot) {
                    Some(value) => vector.push(value),
                    None => {
                        let range = loops.iter().rev().find(|open| open.0 == slot);
                        let (_, low, high) = *range.expect("an index variable of an open loop");
                        for value in low..=high {
                            chosen.push((slot, value));
                            self.index(offsets, loops, chosen);
                            chosen.pop();
                            if self.full() {
                                return;
                            }
                        }
                        return;
                    }
                },
            }
        }
        self.found.insert(vector);
    }

    fn expression(&mut self, expression: &Expression, loops: &Loops) {
        match expression {
            Expression::Near(offsets, _) => self.index(offsets, loops, &mut Vec::new()),
            Expression::Element(_, _, inner) | Expression::Unary(_, _, inner) => {
                self.expression(inner, loops)
            }
            Expression::Binary(_, _, both) => {
                self.expression(&both.0, loops);
                self.expression(&both.1, loops);
            }
            Expression::Number(_) | Expression::Time | Expression::Slot(_) | Expression::Own(_) => {
            }
        }
    }

    fn statements(&mut self, statements: &[Statement], loops: &mut Loops) {
        for statement in statements {
            match statement {
                Statement::Assign(_, choices) => {
                    for choice in choices {
                        self.expression(&choice.value, loops);
                        if let Some(condition) = &choice.condition {
                            self.expression(condition, loops);
                        }
                    }
                }
                Statement::If(branches, otherwise) => {
                    for (condition, inner) in branches {
                        self.expression(condition, loops);
                        self.statements(inner, loops);
                    }
                    self.statements(otherwise, loops);
                }
                Statement::Forall(slot, low, high, inner) => {
                    loops.push((*slot, *low, *high));
                    self.statements(inner, loops);
                    loops.pop();
                }
                Statement::Exit => {}
            }
        }
    }
}

/// The places, or none if there would be more than 256.
pub fn places(program: &Program) -> Option<Vec<Vec<i32>>> {
    let mut walk = Walk {
        found: BTreeSet::from([vec![0; program.dimensions]]),
    };
    walk.statements(&program.statements, &mut Vec::new());
    if walk.full() {
        return None;
    }
    Some(walk.found.into_iter().collect())
}

/// The reach of a program.
pub fn reach(program: &Program) -> Reach {
    match places(program) {
        Some(list) => Reach::List(list),
        None => Reach::Box(program.bounds()),
    }
}
