//! The tree of an accepted program.

use crate::names::Record;

#[derive(Clone, Copy, PartialEq, Eq, Debug)]
pub enum Unary {
    Plus,
    Minus,
    Not,
}

#[derive(Clone, Copy, PartialEq, Eq, Debug)]
pub enum Binary {
    Times,
    Quotient,
    Remainder,
    Add,
    Subtract,
    Equal,
    NotEqual,
    Less,
    LessEqual,
    Greater,
    GreaterEqual,
    And,
    Or,
}

/// One element of a relative index.
#[derive(Clone, Copy, PartialEq, Eq, Debug)]
pub enum Offset {
    Fixed(i32),
    Slot(usize),
}

#[derive(Clone, Debug)]
pub enum Expression {
    Number(i32),
    Time,
    /// A variable or an index variable.
    Slot(usize),
    /// A field of the own cell.
    Own(usize),
    /// A field of the cell at a relative index.
    Near(Box<[Offset]>, usize),
    /// An array constant's element, and the place of its `[`.
    Element(usize, u32, Box<Expression>),
    Unary(Unary, u32, Box<Expression>),
    Binary(Binary, u32, Box<(Expression, Expression)>),
}

#[derive(Clone, Copy, PartialEq, Eq, Debug)]
pub enum Target {
    Field(usize),
    Slot(usize),
}

/// One `:= value`, with its condition if `when` follows.
#[derive(Clone, Debug)]
pub struct Choice {
    pub place: u32,
    pub value: Expression,
    pub condition: Option<Expression>,
}

#[derive(Clone, Debug)]
pub enum Statement {
    Assign(Target, Vec<Choice>),
    /// The branches with conditions, then the statements after `else`.
    If(Vec<(Expression, Vec<Statement>)>, Vec<Statement>),
    Forall(usize, i32, i32, Vec<Statement>),
    Exit,
}

#[derive(Clone, Copy, PartialEq, Eq, Debug)]
pub struct Field {
    pub low: i32,
    pub high: i32,
}

/// An element of a relative index as written, for the reach and for reply 23.
#[derive(Clone, Copy, PartialEq, Eq, Debug)]
pub struct Written {
    pub place: u32,
    pub dimension: usize,
    pub low: i32,
    pub high: i32,
}

#[derive(Clone, Debug)]
pub struct Program {
    pub dimensions: usize,
    pub fields: Vec<Field>,
    pub arrays: Vec<Vec<i32>>,
    pub slots: usize,
    pub statements: Vec<Statement>,
    pub written: Vec<Written>,
    pub uses_time: bool,
    pub names: Vec<Record>,
    /// The word table, as docs/LAYOUT.md has it: four words a token.
    pub table: Vec<[u32; 4]>,
}

impl Program {
    /// The box: the lowest and highest index written in each dimension, 0 included.
    pub fn bounds(&self) -> Vec<(i32, i32)> {
        let mut bounds = vec![(0, 0); self.dimensions];
        for written in &self.written {
            let bound = &mut bounds[written.dimension];
            bound.0 = bound.0.min(written.low);
            bound.1 = bound.1.max(written.high);
        }
        bounds
    }
}
