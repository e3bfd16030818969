//! Cases as lines of JSON, and reading one back.

use crate::admission::WORDS;
use crate::case::{run_case, RunCase};
use crate::names::MAX_NAMES;
use crate::parse::check;
use std::fmt::Display;

fn row<T: Display>(values: &[T]) -> String {
    let parts: Vec<String> = values.iter().map(|value| value.to_string()).collect();
    format!("[{}]", parts.join(","))
}

/// The product of all sizes, of which there are at most five.
fn all_cells(shape: &[u32]) -> u128 {
    shape.iter().fold(1, |cells: u128, &size| {
        cells.saturating_mul(u128::from(size))
    })
}

/// A check as one line.
pub fn check_line(source: &[u8]) -> String {
    let reply = check(source).reply;
    format!(
        "{{\"source\":{},\"check\":[{},{}]}}\n",
        row(source),
        reply.number,
        reply.place
    )
}

/// A run as one line.
pub fn run_line(case: &RunCase) -> String {
    let full = run_case(case, false);
    let quiet = run_case(case, true);
    let mut line = format!(
        "{{\"source\":{},\"shape\":{},\"grid\":{},\"start\":{},\"steps\":{},",
        row(&case.source),
        row(&case.shape),
        row(&case.grid),
        case.start,
        case.steps
    );
    let lengths = [
        ("words", case.words, WORDS as u128),
        ("names", case.names, MAX_NAMES as u128),
        ("scratch", case.scratch, case.grid.len() as u128),
        ("marks", case.marks, all_cells(&case.shape)),
    ];
    for (key, lent, right) in lengths {
        if lent as u128 != right {
            line.push_str(&format!("\"{key}\":{lent},"));
        }
    }
    if !case.values.is_empty() {
        line.push_str(&format!("\"values\":{},", row(&case.values)));
    }
    let report = full.report;
    line.push_str(&format!(
        "\"full\":{{\"number\":{},\"place\":{},\"line\":{},\"cell\":{},\"steps\":{},\"count\":{},\"grid\":{}}},\"quiet_count\":{}}}\n",
        report.number, report.place, report.line, report.cell, report.steps, report.count,
        row(&full.grid), quiet.report.count
    ));
    line
}

/// What a case file may hold: whole numbers, rows of them, and records.
#[derive(Clone, Debug, PartialEq)]
pub enum Value {
    Number(i128),
    Row(Vec<Value>),
    Record(Vec<(String, Value)>),
}

struct Reader<'a> {
    text: &'a [u8],
    at: usize,
}

impl Reader<'_> {
    fn skip(&mut self) {
        while self.at < self.text.len() && self.text[self.at].is_ascii_whitespace() {
            self.at += 1;
        }
    }

    fn peek(&mut self) -> Option<u8> {
        self.skip();
        self.text.get(self.at).copied()
    }

    fn take(&mut self, byte: u8) -> bool {
        let found = self.peek() == Some(byte);
        if found {
            self.at += 1;
        }
        found
    }

    fn string(&mut self) -> Option<String> {
        if !self.take(b'"') {
            return None;
        }
        let start = self.at;
        while *self.text.get(self.at)? != b'"' {
            self.at += 1;
        }
        let found = String::from_utf8(self.text[start..self.at].to_vec()).ok();
        self.at += 1;
        found
    }

    fn value(&mut self) -> Option<Value> {
        match self.peek()? {
            b'[' => {
                self.at += 1;
                let mut values = Vec::new();
                if self.take(b']') {
                    return Some(Value::Row(values));
                }
                loop {
                    values.push(self.value()?);
                    if self.take(b']') {
                        return Some(Value::Row(values));
                    }
                    if !self.take(b',') {
                        return None;
                    }
                }
            }
            b'{' => {
                self.at += 1;
                let mut entries = Vec::new();
                if self.take(b'}') {
                    return Some(Value::Record(entries));
                }
                loop {
                    self.skip();
                    let key = self.string()?;
                    if !self.take(b':') {
                        return None;
                    }
                    entries.push((key, self.value()?));
                    if self.take(b'}') {
                        return Some(Value::Record(entries));
                    }
                    if !self.take(b',') {
                        return None;
                    }
                }
            }
            _ => {
                let start = self.at;
                if self.text[self.at] == b'-' {
                    self.at += 1;
                }
                while self.at < self.text.len() && self.text[self.at].is_ascii_digit() {
                    self.at += 1;
                }
                let digits = std::str::from_utf8(&self.text[start..self.at]).ok()?;
                digits.parse().ok().map(Value::Number)
            }
        }
    }
}

/// Reads one value; nothing but spaces may follow it.
pub fn read(text: &[u8]) -> Option<Value> {
    let mut reader = Reader { text, at: 0 };
    let value = reader.value()?;
    match reader.peek() {
        None => Some(value),
        Some(_) => None,
    }
}

impl Value {
    pub fn get(&self, key: &str) -> Option<&Value> {
        match self {
            Value::Record(entries) => entries
                .iter()
                .find(|(name, _)| name == key)
                .map(|(_, value)| value),
            _ => None,
        }
    }

    fn number<T: TryFrom<i128>>(&self) -> Option<T> {
        match self {
            Value::Number(value) => T::try_from(*value).ok(),
            _ => None,
        }
    }

    fn numbers<T: TryFrom<i128>>(&self) -> Option<Vec<T>> {
        match self {
            Value::Row(values) => values.iter().map(Value::number).collect(),
            _ => None,
        }
    }
}

/// The run case that a value describes; expected replies in it are ignored.
pub fn run_case_of(value: &Value) -> Option<RunCase> {
    let mut case = RunCase::new(
        value.get("source")?.numbers()?,
        &value.get("shape")?.numbers::<u32>()?,
        value.get("grid")?.numbers()?,
        value.get("start")?.number()?,
        value.get("steps")?.number()?,
    );
    let lengths = [
        ("words", &mut case.words),
        ("names", &mut case.names),
        ("scratch", &mut case.scratch),
        ("marks", &mut case.marks),
    ];
    for (key, length) in lengths {
        if let Some(given) = value.get(key) {
            *length = given.number()?;
        }
    }
    if let Some(given) = value.get("values") {
        case.values = given.numbers()?;
    }
    Some(case)
}
