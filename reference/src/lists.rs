//! Timed value lists: what the lines of a list say, the check of a whole list,
//! and its blocks.

use crate::lex::GREATEST_LITERAL;
use crate::tree::Field;

/// One cell's line: the cell's number and its values, missing ones too.
#[derive(Clone, PartialEq, Eq, Debug)]
pub struct CellLine {
    pub cell: usize,
    pub values: Vec<Option<i32>>,
}

/// A time and the lines of its cells, in the list's order.
#[derive(Clone, PartialEq, Eq, Debug)]
pub struct Block {
    pub time: i64,
    pub lines: Vec<CellLine>,
}

impl Block {
    /// Sets the block's lines in order; missing values leave their fields.
    pub fn set(&self, fields: usize, grid: &mut [i32]) {
        for line in &self.lines {
            let own = &mut grid[line.cell * fields..][..fields];
            for (entry, value) in own.iter_mut().zip(&line.values) {
                if let Some(value) = value {
                    *entry = *value;
                }
            }
        }
    }
}

/// What a list is held to.
#[derive(Clone, Copy, Debug)]
pub struct Limits<'a> {
    pub sizes: &'a [u32],
    pub fields: &'a [Field],
    /// The field `moved` of a rule that moves a pixel once.
    pub flag: Option<usize>,
    pub start: i64,
    pub steps: i64,
}

/// A refusal 50 to 56 or 58, with its line from 1.
#[derive(Clone, Copy, PartialEq, Eq, Debug)]
pub struct BadLine {
    pub number: u32,
    pub line: u64,
}

#[derive(Clone, Copy, PartialEq, Eq, Debug)]
enum Token {
    Literal(u32),
    Open,
    Close,
    Comma,
    Equals,
    Plus,
    Minus,
}

/// The literal at the front and its length, unless it is too large or stands
/// directly before a letter or a stray underscore.
fn literal(bytes: &[u8]) -> Option<(u32, usize)> {
    let digit = |at: usize| bytes.get(at).is_some_and(u8::is_ascii_digit);
    let (mut value, mut at) = (0, 0);
    while digit(at) {
        value = (10 * value + i64::from(bytes[at] - b'0')).min(GREATEST_LITERAL + 1);
        at += 1;
        if bytes.get(at) == Some(&b'_') && digit(at + 1) {
            at += 1;
        }
    }
    let stray = |byte: &u8| byte.is_ascii_alphabetic() || *byte == b'_';
    if value > GREATEST_LITERAL || bytes.get(at).is_some_and(stray) {
        return None;
    }
    Some((value as u32, at))
}

/// The tokens of a line, unless some byte has no place in one.
fn tokens(line: &[u8]) -> Option<Vec<Token>> {
    let mut row = Vec::new();
    let mut at = 0;
    while at < line.len() {
        let mut length = 1;
        match line[at] {
            b' ' | b'\t' | 11 | 12 => {}
            b'[' => row.push(Token::Open),
            b']' => row.push(Token::Close),
            b',' => row.push(Token::Comma),
            b'=' => row.push(Token::Equals),
            b'+' => row.push(Token::Plus),
            b'-' => row.push(Token::Minus),
            b'0'..=b'9' => {
                let (value, digits) = literal(&line[at..])?;
                row.push(Token::Literal(value));
                length = digits;
            }
            _ => return None,
        }
        at += length;
    }
    Some(row)
}

/// What a line says.
#[derive(Clone, PartialEq, Eq, Debug)]
enum Said {
    Time(i64),
    Cell(Vec<u32>, Vec<Option<i32>>),
}

fn index_of(tokens: &[Token]) -> Option<u32> {
    match tokens {
        [Token::Literal(value)] => Some(*value),
        _ => None,
    }
}

/// A value, which may be missing.
fn value_of(tokens: &[Token]) -> Option<Option<i32>> {
    match tokens {
        [] => Some(None),
        [Token::Literal(value)] | [Token::Plus, Token::Literal(value)] => Some(Some(*value as i32)),
        [Token::Minus, Token::Literal(value)] => Some(Some(-(*value as i32))),
        _ => None,
    }
}

/// What a line without its end says, unless it is bad.
fn said(line: &[u8]) -> Option<Said> {
    let comma = |token: &Token| *token == Token::Comma;
    match tokens(line)?.as_slice() {
        [Token::Literal(time)] => Some(Said::Time(i64::from(*time))),
        [Token::Open, rest @ ..] => {
            let close = rest.iter().position(|token| *token == Token::Close)?;
            let index: Option<Vec<u32>> = rest[..close].split(comma).map(index_of).collect();
            let [Token::Equals, values @ ..] = &rest[close + 1..] else {
                return None;
            };
            let values: Option<Vec<Option<i32>>> = values.split(comma).map(value_of).collect();
            Some(Said::Cell(index?, values?))
        }
        _ => None,
    }
}

/// The number that a time's line is refused with.
fn refuse_time(time: i64, before: Option<&Block>, limits: &Limits) -> Option<u32> {
    if before.is_some_and(|block| time <= block.time) {
        Some(54)
    } else if time < limits.start {
        Some(55)
    } else if time > limits.start + limits.steps {
        Some(56)
    } else {
        None
    }
}

/// The number that a cell's line is refused with, if it follows a time.
fn refuse_cell(index: &[u32], values: &[Option<i32>], limits: &Limits) -> Option<u32> {
    let outside = |(place, field): (&Option<i32>, &Field)| {
        place.is_some_and(|value| value < field.low || value > field.high)
    };
    if index.len() != limits.sizes.len() {
        Some(50)
    } else if index.iter().zip(limits.sizes).any(|(at, size)| at >= size) {
        Some(51)
    } else if values.len() > limits.fields.len() {
        Some(52)
    } else if values.iter().zip(limits.fields).any(outside) {
        Some(53)
    } else if limits.flag.and_then(|flag| *values.get(flag)?) == Some(0) {
        Some(58)
    } else {
        None
    }
}

fn cell_number(sizes: &[u32], index: &[u32]) -> usize {
    let both = sizes.iter().zip(index);
    both.fold(0, |number, (&size, &at)| {
        number * size as usize + at as usize
    })
}

/// The blocks of a list that passes, or the refusal of its lowest refused
/// line. The list is read once, line by line.
pub fn read_list(text: &[u8], limits: &Limits) -> Result<Vec<Block>, BadLine> {
    let mut blocks: Vec<Block> = Vec::new();
    let mut rest = text;
    let mut line = 0;
    while !rest.is_empty() {
        line += 1;
        let refused = |number| BadLine { number, line };
        let end = rest.iter().position(|byte| matches!(byte, b'\n' | b'\r'));
        let end = end.ok_or(refused(50))?;
        let refusal = match said(&rest[..end]).ok_or(refused(50))? {
            Said::Time(time) => {
                let refusal = refuse_time(time, blocks.last(), limits);
                let lines = Vec::new();
                blocks.push(Block { time, lines });
                refusal
            }
            Said::Cell(index, values) => {
                let block = blocks.last_mut().ok_or(refused(50))?;
                let refusal = refuse_cell(&index, &values, limits);
                let cell = cell_number(limits.sizes, &index);
                block.lines.push(CellLine { cell, values });
                refusal
            }
        };
        if let Some(number) = refusal {
            return Err(refused(number));
        }
        rest = &rest[end + 1..];
    }
    Ok(blocks)
}

/// The times of a list that passes, each with the position of its line's first
/// byte.
pub fn times_of(text: &[u8]) -> Vec<(i64, usize)> {
    let mut times = Vec::new();
    let mut at = 0;
    for line in text.split_inclusive(|byte| matches!(byte, b'\n' | b'\r')) {
        if let Some(Said::Time(time)) = said(&line[..line.len() - 1]) {
            times.push((time, at));
        }
        at += line.len();
    }
    times
}

/// The front of a list that passes, up to the block of a time.
pub fn before_time(text: &[u8], time: i64) -> &[u8] {
    let later = times_of(text).into_iter().find(|&(found, _)| found >= time);
    &text[..later.map_or(text.len(), |(_, at)| at)]
}

/// The blocks of a run that are still to be set.
pub struct Waiting {
    blocks: std::iter::Peekable<std::vec::IntoIter<Block>>,
}

impl Waiting {
    pub fn new(blocks: Vec<Block>) -> Waiting {
        let blocks = blocks.into_iter().peekable();
        Waiting { blocks }
    }

    /// The block of a time, if there is one; no time is looked up twice.
    pub fn due(&mut self, time: i64) -> Option<Block> {
        self.blocks.next_if(|block| block.time == time)
    }
}
