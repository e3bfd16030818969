//! Programs that are valid by the grammar and the rules for names.

mod moving;

pub use moving::moving;

use crate::random::Random;

/// What kind of program is wanted.
#[derive(Clone, Copy)]
pub struct Wish {
    /// About how many tokens.
    pub tokens: usize,
    /// Largest index in a relative index.
    pub reach: i64,
    /// Largest number of values in a loop.
    pub turns: i64,
    /// In how many of 100 cases something is kept from faulting.
    pub safe: usize,
    /// Whether `time` may stand in it.
    pub time: bool,
}

struct MadeField {
    name: String,
    constant: bool,
    low: i64,
    high: i64,
}

struct Maker<'r> {
    random: &'r mut Random,
    wish: Wish,
    out: Vec<String>,
    dimensions: usize,
    named: bool,
    fields: Vec<MadeField>,
    constants: Vec<(String, i64)>,
    arrays: Vec<(String, i64)>,
    variables: Vec<String>,
    indices: Vec<(String, i64, i64)>,
    depth: usize,
    loops: usize,
    records: usize,
}

const POOL: [&str; 40] = [
    "x",
    "y",
    "z",
    "a",
    "b",
    "c",
    "i",
    "j",
    "k",
    "n",
    "m",
    "sum",
    "old",
    "s_1",
    "a_b",
    "a_b_c",
    "x1",
    "x_1",
    "x2y",
    "q9_9",
    "cells",
    "times",
    "celld",
    "tim",
    "timer",
    "randoms",
    "agents",
    "ends",
    "iff",
    "fo",
    "fora",
    "els",
    "wh",
    "whenn",
    "dim",
    "co_nst",
    "e_nd",
    "o_f",
    "count",
    "neighbours",
];

/// A program as a row of tokens.
pub fn program(random: &mut Random, wish: Wish) -> Vec<String> {
    let mut maker = Maker::new(random, wish);
    maker.all();
    maker.out
}

impl<'r> Maker<'r> {
    fn new(random: &'r mut Random, wish: Wish) -> Maker<'r> {
        Maker {
            random,
            wish,
            out: Vec::new(),
            dimensions: 1,
            named: false,
            fields: Vec::new(),
            constants: Vec::new(),
            arrays: Vec::new(),
            variables: Vec::new(),
            indices: Vec::new(),
            depth: 0,
            loops: 0,
            records: 0,
        }
    }
}

impl Maker<'_> {
    fn put(&mut self, token: &str) {
        self.out.push(token.to_string());
    }

    /// The first token in `part` of 100 cases, else the second.
    fn put_either(&mut self, part: usize, first: &str, second: &str) {
        let chosen = if self.random.chance(part) {
            first
        } else {
            second
        };
        self.put(chosen);
    }

    fn put_all(&mut self, tokens: &str) {
        for token in tokens.split(' ') {
            self.put(token);
        }
    }

    fn left(&self) -> usize {
        self.wish.tokens.saturating_sub(self.out.len())
    }

    fn all(&mut self) {
        let constants = [0, 0, 1, 1, 2, 3][self.random.below(6)];
        for _ in 0..constants {
            self.constant_declaration();
        }
        self.declaration();
        let statements = 1 + self.random.below(6);
        for _ in 0..statements {
            self.statement();
        }
        while self.left() > self.wish.tokens / 2 && self.random.chance(85) {
            self.statement();
        }
    }

    // Names and constants.

    fn is_visible(&self, name: &str) -> bool {
        self.constants.iter().any(|(other, _)| other == name)
            || self.arrays.iter().any(|(other, _)| other == name)
            || self.variables.iter().any(|other| other == name)
            || self.indices.iter().any(|(other, _, _)| other == name)
    }

    fn new_name(&mut self) -> String {
        for _ in 0..20 {
            let name = *self.random.pick(&POOL);
            if !self.is_visible(name) {
                return name.to_string();
            }
        }
        let mut number = self.records;
        loop {
            let name = format!("v{number}");
            if !self.is_visible(&name) {
                return name;
            }
            number += 1;
        }
    }

    fn literal(&mut self, value: i64) {
        let digits = value.to_string();
        let mut text = String::new();
        if self.random.chance(4) {
            text.push_str(["0", "00", "0_0"][self.random.below(3)]);
        }
        for (number, digit) in digits.chars().enumerate() {
            if (number > 0 || !text.is_empty()) && self.random.chance(6) {
                text.push('_');
            }
            text.push(digit);
        }
        self.out.push(text);
    }

    /// A constant without sign of a given value that is not negative.
    fn unsigned(&mut self, value: i64) {
        let named = self.constants.iter().find(|(_, other)| *other == value);
        match named.cloned() {
            Some((name, _)) if self.random.chance(60) => self.out.push(name),
            _ => self.literal(value),
        }
    }

    /// A constant with at most one sign of a given value.
    fn signed(&mut self, value: i64) {
        let found = self
            .constants
            .iter()
            .find(|(_, other)| other.abs() == value.abs());
        if let Some((name, own)) = found.cloned() {
            if self.random.chance(50) {
                if own != value {
                    self.put("-");
                } else if self.random.chance(10) {
                    self.put("+");
                }
                self.out.push(name);
                return;
            }
        }
        if value < 0 {
            self.put("-");
        } else if self.random.chance(6) {
            self.put("+");
        }
        self.literal(value.abs());
    }

    fn any_value(&mut self) -> i64 {
        match self.random.below(20) {
            0 => 2_147_483_647,
            1 => -2_147_483_647,
            2 => self.random.between(-70_000, 70_000),
            3..=6 => self.random.between(-9, -1),
            _ => self.random.between(0, 9),
        }
    }

    fn constant_declaration(&mut self) {
        if self.records >= 240 {
            return;
        }
        let name = self.new_name();
        self.records += 1;
        self.put("const");
        self.out.push(name.clone());
        if self.random.chance(60) || self.depth >= 16 {
            let value = if self.random.chance(60) {
                self.random.between(-2, 3)
            } else {
                self.any_value()
            };
            self.put(":=");
            self.signed(value);
            self.constants.push((name, value));
            return;
        }
        let size = 1 + self.random.below(5) as i64;
        self.put_all("[ ] for");
        self.unsigned(size);
        self.put(":=");
        for number in 0..size {
            if number > 0 {
                self.put(",");
            }
            let value = self.any_value();
            self.signed(value);
        }
        self.arrays.push((name, size));
    }

    // The cell declaration.

    fn range(&mut self) -> (i64, i64) {
        match self.random.below(12) {
            0..=3 => (0, 1),
            4 | 5 => (0, self.random.between(0, 9)),
            6 | 7 => (-self.random.between(0, 4), self.random.between(0, 4)),
            8 => (0, 255),
            9 => (-2_147_483_647, 2_147_483_647),
            10 => {
                let low = self.random.between(-20, 20);
                (low, low + self.random.between(0, 20))
            }
            _ => (0, 9),
        }
    }

    fn declaration(&mut self) {
        self.dimensions = [1, 1, 1, 2, 2, 3][self.random.below(6)];
        self.unsigned(self.dimensions as i64);
        self.put_all("dimensions of");
        if self.random.chance(55) {
            let (low, high) = self.range();
            self.signed(low);
            self.put("..");
            self.signed(high);
            self.fields.push(MadeField {
                name: String::new(),
                constant: false,
                low,
                high,
            });
            return;
        }
        self.named = true;
        let wanted = [1, 1, 2, 2, 2, 3, 3, 4, 6, 8][self.random.below(10)];
        while self.fields.len() < wanted {
            self.field_group(wanted);
        }
        self.put("end");
    }

    /// Some fields with a range in common, up to so many fields in all.
    fn field_group(&mut self, wanted: usize) {
        let constant = self.random.chance(20);
        if constant {
            self.put("const");
        }
        let group = (1 + self.random.below(3)).min(wanted - self.fields.len());
        let (low, high) = self.range();
        for number in 0..group {
            if number > 0 {
                self.put(",");
            }
            let name = self.field_name();
            self.field(name, constant, low, high);
        }
        self.put("of");
        self.signed(low);
        self.put("..");
        self.signed(high);
    }

    fn field_name(&mut self) -> String {
        let mut name = self.random.pick(&POOL).to_string();
        while self.fields.iter().any(|field| field.name == name) {
            name = format!("f{}", self.random.below(99));
        }
        name
    }

    fn field(&mut self, name: String, constant: bool, low: i64, high: i64) {
        self.out.push(name.clone());
        self.records += 1;
        self.fields.push(MadeField {
            name,
            constant,
            low,
            high,
        });
    }

    // Statements.

    fn statement(&mut self) {
        if self.left() < 8 {
            return;
        }
        match self.random.below(20) {
            0 if self.left() > 14 => self.constant_declaration(),
            1..=3 if self.depth < 14 && self.left() > 16 => self.if_statement(),
            4..=6 if self.depth < 14 && self.left() > 16 && self.records < 250 => self.forall(),
            7 if self.loops > 0 => self.put("exit"),
            8..=13 => self.assign_field(),
            _ => self.assign_variable(),
        }
    }

    fn body(&mut self) {
        for _ in 0..self.random.below(4) {
            self.statement();
        }
    }

    fn if_statement(&mut self) {
        self.depth += 1;
        self.put("if");
        self.condition();
        self.put("then");
        self.body();
        for _ in 0..[0, 0, 1, 2][self.random.below(4)] {
            self.put("elsif");
            self.condition();
            self.put("then");
            self.body();
        }
        if self.random.chance(40) {
            self.put("else");
            self.body();
        }
        self.put("end");
        self.depth -= 1;
    }

    fn forall(&mut self) {
        self.depth += 1;
        let name = self.new_name();
        self.records += 1;
        self.put("forall");
        self.out.push(name.clone());
        self.put(":");
        let low = if self.random.chance(85) {
            self.random
                .between(-self.wish.reach.min(2), self.wish.reach.min(2))
        } else {
            self.any_value().clamp(-70_000, 70_000)
        };
        let most = if self.loops > 0 { 3 } else { self.wish.turns };
        let turns = self.random.between(0, most - 1);
        let high = low + turns;
        self.signed(low);
        self.put("..");
        self.signed(high);
        self.indices.push((name, low, high));
        self.loops += 1;
        self.body();
        if self.random.chance(25) && self.depth < 15 && self.left() > 8 {
            self.put("if");
            self.condition();
            self.put_all("then exit end");
        }
        self.put("end");
        self.loops -= 1;
        self.indices.pop();
        self.depth -= 1;
    }

    fn assign_variable(&mut self) {
        let name = if self.variables.is_empty() || (self.random.chance(35) && self.records < 250) {
            let name = self.new_name();
            self.variables.push(name.clone());
            self.records += 1;
            name
        } else {
            self.random.pick(&self.variables).clone()
        };
        self.out.push(name.clone());
        self.put(":=");
        if self.random.chance(25) {
            // A running sum.
            self.out.push(name);
            self.put_either(80, "+", "*");
            self.product(2);
        } else {
            self.expression(3);
        }
        if self.random.chance(25) {
            self.put("when");
            self.condition();
            while self.random.chance(30) {
                self.put(":=");
                self.expression(2);
                self.put("when");
                self.condition();
            }
            if self.random.chance(60) {
                self.put(":=");
                self.expression(2);
                self.put("otherwise");
            }
        }
    }

    fn left_field(&mut self, field: usize) {
        self.put("cell");
        if self.named {
            self.put(".");
            let name = self.fields[field].name.clone();
            self.out.push(name);
        }
    }

    fn assign_field(&mut self) {
        let free: Vec<usize> = (0..self.fields.len())
            .filter(|&field| !self.fields[field].constant)
            .collect();
        if free.is_empty() {
            return self.assign_variable();
        }
        let field = *self.random.pick(&free);
        let (low, high) = (self.fields[field].low, self.fields[field].high);
        if !self.random.chance(self.wish.safe) {
            self.left_field(field);
            self.put(":=");
            self.expression(3);
            if self.random.chance(30) {
                self.put("when");
                self.condition();
            }
            return;
        }
        match self.random.below(6) {
            0 if low <= 0 && high >= 1 => {
                self.left_field(field);
                self.put(":=");
                self.condition();
            }
            1 if self.records < 250 => {
                // Through a variable, held in the range.
                let name = self.new_name();
                self.variables.push(name.clone());
                self.records += 1;
                self.out.push(name.clone());
                self.put(":=");
                self.expression(3);
                self.left_field(field);
                self.put(":=");
                self.out.push(name.clone());
                self.put("when");
                self.out.push(name.clone());
                self.put(">=");
                self.signed_operand(low);
                self.put("&");
                self.out.push(name);
                self.put("<=");
                self.signed_operand(high);
                if self.random.chance(50) {
                    self.put(":=");
                    let value = self.random.between(low, high);
                    self.signed_operand(value);
                    self.put("otherwise");
                }
            }
            2 => {
                self.left_field(field);
                self.put(":=");
                self.near_field(field);
                if self.random.chance(40) {
                    self.put("when");
                    self.condition();
                }
            }
            3 => {
                // Around the range: low + ((e) % n + n) % n.
                let size = high - low + 1;
                if size > 1000 {
                    return self.assign_variable();
                }
                self.left_field(field);
                self.put(":=");
                self.put("(");
                self.depth += 1;
                self.sum(2);
                self.depth -= 1;
                self.put(")");
                self.put("%");
                self.unsigned(size);
                self.put("when");
                self.condition();
                self.put(":=");
                self.near_field(field);
                self.put("otherwise");
            }
            _ => {
                self.left_field(field);
                self.put(":=");
                let value = self.random.between(low, high);
                self.signed_operand(value);
                self.put("when");
                self.condition();
                while self.random.chance(30) {
                    self.put(":=");
                    if self.random.chance(50) {
                        let value = self.random.between(low, high);
                        self.signed_operand(value);
                    } else {
                        self.near_field(field);
                    }
                    self.put("when");
                    self.condition();
                }
                if self.random.chance(50) {
                    self.put(":=");
                    self.near_field(field);
                    self.put("otherwise");
                }
            }
        }
    }

    // Expressions.

    /// A given value as an operand: a literal with at most one sign.
    fn signed_operand(&mut self, value: i64) {
        if value < 0 {
            self.put("-");
        }
        self.unsigned(value.abs());
    }

    fn expression(&mut self, size: usize) {
        if self.random.chance(75) {
            return self.sum(size);
        }
        self.relation(size);
        while self.random.chance(30) {
            self.put_either(50, "&", "|");
            self.relation(size.saturating_sub(1));
        }
    }

    fn condition(&mut self) {
        self.relation(2);
        while self.random.chance(20) {
            self.put_either(50, "&", "|");
            self.relation(1);
        }
    }

    fn relation(&mut self, size: usize) {
        self.sum(size);
        if self.random.chance(80) {
            let operators = ["=", "=", "!=", "<", "<=", ">", ">="];
            let operator = *self.random.pick(&operators);
            self.put(operator);
            self.sum(size.saturating_sub(1));
        }
    }

    fn sum(&mut self, size: usize) {
        self.product(size);
        while size > 0 && self.random.chance(35) && self.left() > 4 {
            self.put_either(65, "+", "-");
            self.product(size - 1);
        }
    }

    fn product(&mut self, size: usize) {
        self.operand(size);
        while size > 0 && self.random.chance(15) && self.left() > 4 {
            if self.random.chance(50) {
                self.put("*");
                self.operand(size - 1);
                continue;
            }
            self.put_either(50, "/", "%");
            if self.random.chance(self.wish.safe) {
                let divisor = self.random.between(1, 5);
                if self.random.chance(30) {
                    self.put("-");
                }
                self.unsigned(divisor);
            } else {
                self.operand(size - 1);
            }
        }
    }

    fn operand(&mut self, size: usize) {
        if self.random.chance(12) {
            let operator = *self.random.pick(&["!", "-", "-", "+"]);
            self.put(operator);
        }
        self.primary(size);
    }

    fn primary(&mut self, size: usize) {
        match self.random.below(20) {
            0..=2 if !self.variables.is_empty() => {
                let name = self.random.pick(&self.variables).clone();
                self.out.push(name);
            }
            3 if !self.constants.is_empty() => {
                let name = self.random.pick(&self.constants).0.clone();
                self.out.push(name);
            }
            4 if !self.indices.is_empty() => {
                let name = self.random.pick(&self.indices).0.clone();
                self.out.push(name);
            }
            5 | 6 if !self.arrays.is_empty() && self.depth < 16 => self.element(size),
            7 if self.wish.time => self.put("time"),
            8 | 9 if size > 0 && self.depth < 15 && self.left() > 6 => {
                self.put("(");
                self.depth += 1;
                self.expression(size - 1);
                self.depth -= 1;
                self.put(")");
            }
            10..=13 if self.depth < 16 => {
                let field = self.random.below(self.fields.len());
                self.relative(field);
            }
            14..=16 => {
                let field = self.random.below(self.fields.len());
                self.left_field(field);
            }
            _ => {
                let value = match self.random.below(40) {
                    0 => 2_147_483_647,
                    1 => self.random.between(0, 2_147_483_647),
                    2 | 3 => self.random.between(0, 300),
                    _ => self.random.between(0, 5),
                };
                self.literal(value);
            }
        }
    }

    fn element(&mut self, size: usize) {
        let (name, length) = self.random.pick(&self.arrays).clone();
        self.out.push(name);
        self.put("[");
        self.depth += 1;
        if self.random.chance(self.wish.safe) {
            let index = self
                .indices
                .iter()
                .find(|(_, low, high)| *low >= 0 && *high < length);
            match index.cloned() {
                Some((index, _, _)) if self.random.chance(60) => self.out.push(index),
                _ => {
                    let at = self.random.between(0, length - 1);
                    self.unsigned(at);
                }
            }
        } else {
            self.expression(size.saturating_sub(1));
        }
        self.depth -= 1;
        self.put("]");
    }

    /// A field of this or a near cell with the same range as `field`.
    fn near_field(&mut self, field: usize) {
        let (low, high) = (self.fields[field].low, self.fields[field].high);
        let alike: Vec<usize> = (0..self.fields.len())
            .filter(|&other| self.fields[other].low == low && self.fields[other].high == high)
            .collect();
        let other = *self.random.pick(&alike);
        if self.random.chance(30) || self.depth >= 16 {
            self.left_field(other);
        } else {
            self.relative(other);
        }
    }

    fn relative(&mut self, field: usize) {
        self.put("[");
        self.depth += 1;
        for dimension in 0..self.dimensions {
            if dimension > 0 {
                self.put(",");
            }
            let reach = self.wish.reach;
            let fitting: Vec<String> = self
                .indices
                .iter()
                .filter(|(_, low, high)| low.abs() <= reach && high.abs() <= reach)
                .map(|(name, _, _)| name.clone())
                .collect();
            if !fitting.is_empty() && self.random.chance(50) {
                let name = self.random.pick(&fitting).clone();
                self.out.push(name);
            } else if self.random.chance(75) {
                let value = self.random.between(-reach.min(1), reach.min(1));
                self.signed(value);
            } else {
                let value = self.random.between(-reach, reach);
                self.signed(value);
            }
        }
        self.depth -= 1;
        self.put("]");
        if self.named {
            self.put(".");
            let name = self.fields[field].name.clone();
            self.out.push(name);
        }
    }
}
