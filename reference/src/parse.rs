//! Reading a source: the reply, and the tree of an accepted program.
//!
//! Where each refusal comes from (document 01, and the open points decided):
//!
//! | No | Sentence | Where below |
//! |----|----------|-------------|
//! | 2  | "source too long", place 65535 | `check` |
//! | 3  | "no token can be read"; "A literal directly followed by a letter or by a stray underscore is refused 3 at the literal; after an identifier, a stray underscore is itself refused 3" | stop, from `lex` |
//! | 4  | "literal over 2147483647" | stop |
//! | 5  | "4,097th token" | stop |
//! | 6  | "`->`, `+%`, `-%`, `"`, `agent` or `random` anywhere" | stop |
//! | 6  | "`[` after a field name being declared" | `field` |
//! | 6  | "`[` after [..] an assignment's left side" | `assignment`, `field_reference` |
//! | 6  | "`[` after [..] a name in an expression that is no array constant", "also after `cell`, `time`, `.name`" | `plain_name_end`, `field_reference` |
//! | 6  | "a comma after an assigned expression" | `assignment` |
//! | 6  | "no `:` after a `forall` name" | `forall` |
//! | 6  | "missing `.name`" is "6 at the token that stands where `.` should" | `field_reference` |
//! | 7  | "token not allowed by the grammar"; "`exit` outside a loop, and `end` before the first field, are 7"; "After a `.`, a token that is no name is 7"; "`[]`, and `]` right after a comma, are 7" | `expect` and the last arms |
//! | 8  | "name unknown", "or of the wrong sort for a constant or index"; "In an expression, a name that is not visible (fields do not count) is 8" | `constant`, `offset`, `primary` |
//! | 9  | "name already used, or not assignable (const fields too)"; "`cell`, `time`, or one that is already visible in its name space: 9" | `declare`, `field`, `assignment`, `field_reference` |
//! | 40 | "dimensions", at the constant | `cell_declaration` |
//! | 41, 42 | "range reversed"; "loop range too long", at "the upper bound's constant" | `range` |
//! | 43 | "too many fields" | `field` |
//! | 44, 45 | "array size"; "value count" at "the extra comma or the token after the last value" | `array_constant` (the second one is noted) |
//! | 12 | "`.` on a plain number" | `plain_name_end`, `no_field_here` |
//! | 12 | "unknown field" | `field_reference` |
//! | 12 | "array constant without `[`" | `primary` (noted) |
//! | 12 | "wrong index count (extra comma, or early `]`)" | `relative_index` |
//! | 13 | "relation on a bare relation", second operator | `relation` |
//! | 14 | "17th nesting", "tried last at its token" | `open` |
//! | 15 | "257th name", tried after 9 and 43 | `declare`, `field`, `assignment` |
//!
//! The two noted complaints let reading go on ("the array name counts as a
//! plain number, the list as complete"). The reply is then the least of the
//! noted complaint and the one met later, by place and then by number.

mod expression;

use crate::lex::{kind_behind, kind_number, lex, Keyword, Kind, Symbol, Token, MAX_SOURCE};
use crate::names::{
    Names, Record, ARRAY, CONSTANT, CONST_FIELD, FIELD, INDEX, MAX_NAMES, VARIABLE,
};
use crate::tree::{Choice, Field, Program, Statement, Target, Written};

/// Greatest number of open `if`, `forall`, `(` and `[` together.
pub const MAX_DEPTH: u32 = 16;
pub const MAX_FIELDS: usize = 8;
pub const MAX_ARRAY: i32 = 1_024;
/// Greatest number of values in a `forall` range.
pub const MAX_LOOP: i64 = 4_096;

#[derive(Clone, Copy, PartialEq, Eq, Debug)]
pub struct Reply {
    pub number: u32,
    pub place: u32,
}

impl Reply {
    /// At one place 40 to 45 stand where 10 did, the lowest first.
    fn rank(self) -> (u32, u32, u32) {
        let class = if self.number >= 40 { 10 } else { self.number };
        (self.place, class, self.number)
    }
}

/// What a check returns: the reply, and the program exactly if it is 0.
pub struct Checked {
    pub reply: Reply,
    pub program: Option<Program>,
}

type Read<T> = Result<T, Reply>;

/// Checks a source.
pub fn check(source: &[u8]) -> Checked {
    let refused = |reply| Checked {
        reply,
        program: None,
    };
    if source.len() > MAX_SOURCE {
        return refused(Reply {
            number: 2,
            place: MAX_SOURCE as u32,
        });
    }
    let tokens = lex(source);
    let mut reader = Reader {
        source,
        table: tokens.iter().map(|&token| scanned(source, token)).collect(),
        tokens,
        at: 0,
        names: Names::default(),
        depth: 0,
        loops: 0,
        noted: None,
        dimensions: 0,
        named: false,
        fields: Vec::new(),
        arrays: Vec::new(),
        slots: 0,
        written: Vec::new(),
    };
    let outcome = reader.program();
    match (outcome, reader.noted) {
        (Ok(statements), None) => {
            let uses_time = (0..reader.tokens.len()).any(|number| reader.is_time(number));
            Checked {
                reply: Reply {
                    number: 0,
                    place: 0,
                },
                program: Some(Program {
                    dimensions: reader.dimensions,
                    fields: reader.fields,
                    arrays: reader.arrays,
                    slots: reader.slots,
                    statements,
                    written: reader.written,
                    uses_time,
                    names: reader.names.records(),
                    table: reader.table,
                }),
            }
        }
        (Ok(_), Some(noted)) => refused(noted),
        (Err(met), None) => refused(met),
        (Err(met), Some(noted)) => {
            if met.rank() < noted.rank() {
                refused(met)
            } else {
                refused(noted)
            }
        }
    }
}

/// A token's words as scanning leaves them.
fn scanned(source: &[u8], token: Token) -> [u32; 4] {
    let value = match token.kind {
        Kind::Stop(_) => return [0; 4],
        Kind::Literal(value) => value as u32,
        _ => 0,
    };
    let start = token.start as usize;
    let spelling = &source[start..start + token.length as usize];
    let span = token.start + 65_536 * token.length;
    [kind_number(token.kind, spelling), span, value, 0]
}

struct Reader<'a> {
    source: &'a [u8],
    tokens: Vec<Token>,
    table: Vec<[u32; 4]>,
    at: usize,
    names: Names,
    depth: u32,
    loops: u32,
    noted: Option<Reply>,
    dimensions: usize,
    named: bool,
    fields: Vec<Field>,
    arrays: Vec<Vec<i32>>,
    slots: usize,
    written: Vec<Written>,
}

impl Reader<'_> {
    fn token(&self) -> Token {
        self.tokens[self.at]
    }

    fn place(&self) -> u32 {
        self.token().start
    }

    fn is_symbol(&self, symbol: Symbol) -> bool {
        self.token().kind == Kind::Symbol(symbol)
    }

    fn is_keyword(&self, keyword: Keyword) -> bool {
        self.token().kind == Kind::Keyword(keyword)
    }

    fn is_name(&self) -> bool {
        self.token().kind == Kind::Name
    }

    fn spelling_of(&self, token: Token) -> Vec<u8> {
        let start = token.start as usize;
        self.source[start..start + token.length as usize].to_ascii_lowercase()
    }

    fn spelling(&self) -> Vec<u8> {
        self.spelling_of(self.token())
    }

    fn is_time(&self, number: usize) -> bool {
        let token = self.tokens[number];
        token.kind == Kind::Name && self.spelling_of(token) == b"time"
    }

    /// A complaint at the token now looked at. At a stop, "the lower of the
    /// rule's number and the stop's is given".
    fn complain<T>(&self, number: u32) -> Read<T> {
        let number = match self.token().kind {
            Kind::Stop(own) => number.min(own),
            _ => number,
        };
        Err(Reply {
            number,
            place: self.place(),
        })
    }

    /// Notes a complaint at the token now looked at; the first one stays.
    fn note(&mut self, number: u32) {
        if self.noted.is_none() {
            self.noted = Some(Reply {
                number,
                place: self.place(),
            });
        }
    }

    /// Goes past the token now looked at, which is never a stop.
    fn advance(&mut self) {
        self.at += 1;
    }

    /// Writes words 2 and 3 of the token at a position.
    fn put(&mut self, position: usize, second: u32, third: u32) {
        self.table[position][2] = second;
        self.table[position][3] = third;
    }

    fn expect(&mut self, symbol: Symbol) -> Read<()> {
        if !self.is_symbol(symbol) {
            return self.complain(7);
        }
        self.advance();
        Ok(())
    }

    fn expect_keyword(&mut self, keyword: Keyword) -> Read<()> {
        if !self.is_keyword(keyword) {
            return self.complain(7);
        }
        self.advance();
        Ok(())
    }

    /// Goes past an opening token.
    fn open(&mut self) -> Read<()> {
        if self.depth == MAX_DEPTH {
            return self.complain(14);
        }
        self.depth += 1;
        self.advance();
        Ok(())
    }

    /// Goes past a closing symbol.
    fn close(&mut self, symbol: Symbol) -> Read<()> {
        self.expect(symbol)?;
        self.depth -= 1;
        Ok(())
    }

    // Declarations.

    fn program(&mut self) -> Read<Vec<Statement>> {
        while self.is_keyword(Keyword::Const) {
            self.constant_declaration()?;
        }
        self.cell_declaration()?;
        let statements = self.statements()?;
        // Only the end of the source itself may stand here.
        if self.token().kind != Kind::Stop(7) {
            return self.complain(7);
        }
        Ok(statements)
    }

    /// Declares the name now looked at in the name space of all but fields,
    /// not yet visible, and goes past it.
    fn declare(&mut self, kind: u32, slot: usize) -> Read<usize> {
        if !self.is_name() {
            return self.complain(7);
        }
        let spelling = self.spelling();
        if spelling == b"cell" || spelling == b"time" || self.names.find(&spelling).is_some() {
            return self.complain(9);
        }
        if self.names.is_full() {
            return self.complain(15);
        }
        let token = self.token();
        let record = Record {
            start: token.start,
            length: token.length,
            kind,
            value: 0,
        };
        self.advance();
        Ok(self.names.add(record, spelling, slot))
    }

    fn constant_declaration(&mut self) -> Read<()> {
        let first = self.at;
        self.advance();
        let number = self.declare(CONSTANT, 0)?;
        if self.is_symbol(Symbol::OpenBracket) {
            self.array_constant(number)?;
        } else {
            self.expect(Symbol::Assign)?;
            let value = self.signed_constant()?;
            let entry = &mut self.names.entries[number];
            entry.record.value = value;
            entry.noted = value as u32;
            entry.visible = true;
        }
        self.put(first, 0, self.at as u32);
        Ok(())
    }

    fn array_constant(&mut self, number: usize) -> Read<()> {
        let name = self.at - 1;
        self.open()?;
        self.close(Symbol::CloseBracket)?;
        self.expect_keyword(Keyword::For)?;
        let place = self.place();
        let size = self.constant()?;
        if !(1..=MAX_ARRAY).contains(&size) {
            return Err(Reply { number: 44, place });
        }
        self.expect(Symbol::Assign)?;
        let first = self.at;
        let mut values = Vec::new();
        loop {
            values.push(self.signed_constant()?);
            if !self.is_symbol(Symbol::Comma) {
                break;
            }
            if values.len() == size as usize {
                return self.complain(45);
            }
            self.advance();
        }
        if values.len() < size as usize {
            self.note(45);
        }
        for (k, &value) in values.iter().enumerate() {
            self.table[first + k][3] = value as u32;
        }
        self.put(name, size as u32, first as u32);
        let slot = self.arrays.len();
        self.arrays.push(values);
        let entry = &mut self.names.entries[number];
        entry.record.kind = ARRAY;
        entry.record.value = size;
        entry.slot = slot;
        entry.noted = name as u32;
        entry.visible = true;
        Ok(())
    }

    /// A constant without sign: a literal or the name of a simple constant.
    fn constant(&mut self) -> Read<i32> {
        let value = match self.token().kind {
            Kind::Literal(value) => value,
            Kind::Name => match self.names.find(&self.spelling()) {
                Some(entry) if entry.record.kind == CONSTANT => entry.record.value,
                _ => return self.complain(8),
            },
            _ => return self.complain(7),
        };
        if self.is_name() {
            self.put(self.at, CONSTANT, value as u32);
        }
        self.advance();
        Ok(value)
    }

    /// Goes past a sign, if one is here, and says whether it was `-`.
    fn sign(&mut self) -> Option<bool> {
        if self.is_symbol(Symbol::Minus) {
            self.advance();
            Some(true)
        } else if self.is_symbol(Symbol::Plus) {
            self.advance();
            Some(false)
        } else {
            None
        }
    }

    /// No constant is the least value, so that the sign is always in order.
    fn signed_constant(&mut self) -> Read<i32> {
        let minus = self.sign() == Some(true);
        let value = self.constant()?;
        Ok(if minus { -value } else { value })
    }

    /// A range of at most `longest` values.
    fn range(&mut self, longest: i64) -> Read<(i32, i32)> {
        let low = self.signed_constant()?;
        self.expect(Symbol::DotDot)?;
        let minus = self.sign() == Some(true);
        let place = self.place();
        let value = self.constant()?;
        let high = if minus { -value } else { value };
        if high < low {
            return Err(Reply { number: 41, place });
        }
        if i64::from(high) - i64::from(low) + 1 > longest {
            return Err(Reply { number: 42, place });
        }
        Ok((low, high))
    }

    fn cell_declaration(&mut self) -> Read<()> {
        let place = self.place();
        let dimensions = self.constant()?;
        if !(1..=3).contains(&dimensions) {
            return Err(Reply { number: 40, place });
        }
        self.dimensions = dimensions as usize;
        self.expect_keyword(Keyword::Dimensions)?;
        let base = self.at;
        self.expect_keyword(Keyword::Of)?;
        // "A name after the declaration's `of` begins a range exactly if `..`
        // follows it", also where `..` is one token too many.
        let begins_range = match self.token().kind {
            Kind::Literal(_) | Kind::Symbol(Symbol::Plus) | Kind::Symbol(Symbol::Minus) => true,
            Kind::Name => {
                kind_behind(self.source, self.token()) == Some(Kind::Symbol(Symbol::DotDot))
            }
            _ => false,
        };
        if begins_range {
            let (low, high) = self.range(i64::MAX)?;
            self.fields.push(Field { low, high });
        } else {
            self.named = true;
            loop {
                self.field_group()?;
                if self.is_keyword(Keyword::End) {
                    self.advance();
                    break;
                }
            }
        }
        for k in 0..self.fields.len() {
            let Field { low, high } = self.fields[k];
            self.put(base + k, low as u32, high as u32);
        }
        Ok(())
    }

    /// `[const] name {, name} of range`.
    fn field_group(&mut self) -> Read<()> {
        let mut kind = FIELD;
        if self.is_keyword(Keyword::Const) {
            kind = CONST_FIELD;
            self.advance();
        }
        let first = self.fields.len();
        loop {
            self.field(kind)?;
            if !self.is_symbol(Symbol::Comma) {
                break;
            }
            self.advance();
        }
        self.expect_keyword(Keyword::Of)?;
        let (low, high) = self.range(i64::MAX)?;
        for field in &mut self.fields[first..] {
            *field = Field { low, high };
        }
        Ok(())
    }

    /// One field name being declared.
    fn field(&mut self, kind: u32) -> Read<()> {
        if !self.is_name() {
            return self.complain(7);
        }
        let spelling = self.spelling();
        if spelling == b"cell" || spelling == b"time" || self.names.find_field(&spelling).is_some()
        {
            return self.complain(9);
        }
        if self.fields.len() == MAX_FIELDS {
            return self.complain(43);
        }
        if self.names.entries.len() == MAX_NAMES {
            return self.complain(15);
        }
        let token = self.token();
        let number = self.fields.len();
        self.fields.push(Field { low: 0, high: 0 });
        let record = Record {
            start: token.start,
            length: token.length,
            kind,
            value: number as i32,
        };
        let entry = self.names.add(record, spelling, number);
        self.names.entries[entry].visible = true;
        self.advance();
        if self.is_symbol(Symbol::OpenBracket) {
            return self.complain(6);
        }
        Ok(())
    }

    // Statements.

    /// Statements up to a token that begins none; the caller judges that one.
    fn statements(&mut self) -> Read<Vec<Statement>> {
        let mut list = Vec::new();
        loop {
            match self.token().kind {
                Kind::Keyword(Keyword::Const) => self.constant_declaration()?,
                Kind::Keyword(Keyword::If) => list.push(self.if_statement()?),
                Kind::Keyword(Keyword::Forall) => list.push(self.forall()?),
                Kind::Keyword(Keyword::Exit) => {
                    if self.loops == 0 {
                        return self.complain(7);
                    }
                    self.put(self.at, 0, self.at as u32 + 1);
                    self.advance();
                    list.push(Statement::Exit);
                }
                Kind::Name => list.push(self.assignment()?),
                _ => return Ok(list),
            }
        }
    }

    fn if_statement(&mut self) -> Read<Statement> {
        let first = self.at;
        let mut arm = first;
        self.open()?;
        let mut branches = Vec::new();
        let mut otherwise = Vec::new();
        loop {
            let condition = self.expression()?;
            self.expect_keyword(Keyword::Then)?;
            branches.push((condition, self.statements()?));
            self.put(arm, self.at as u32, 0);
            if !self.is_keyword(Keyword::Elsif) {
                break;
            }
            arm = self.at;
            self.advance();
        }
        if self.is_keyword(Keyword::Else) {
            self.advance();
            otherwise = self.statements()?;
        }
        self.expect_keyword(Keyword::End)?;
        self.depth -= 1;
        self.table[first][3] = self.at as u32;
        Ok(Statement::If(branches, otherwise))
    }

    fn forall(&mut self) -> Read<Statement> {
        let first = self.at;
        self.open()?;
        let slot = self.slots;
        let name = self.at;
        let number = self.declare(INDEX, slot)?;
        self.slots += 1;
        if !self.is_symbol(Symbol::Colon) {
            return self.complain(6);
        }
        self.advance();
        let (low, high) = self.range(MAX_LOOP)?;
        self.put(name, low as u32, high as u32);
        let entry = &mut self.names.entries[number];
        entry.low = low;
        entry.high = high;
        entry.noted = self.loops;
        entry.visible = true;
        self.loops += 1;
        let inner = self.at as u32;
        let body = self.statements()?;
        self.expect_keyword(Keyword::End)?;
        self.loops -= 1;
        self.depth -= 1;
        // "When a loop ends, its index record is free again."
        self.names.remove(number);
        self.put(first, inner, self.at as u32);
        Ok(Statement::Forall(slot, low, high, body))
    }

    fn assignment(&mut self) -> Read<Statement> {
        let first = self.at;
        let (target, number) = self.left_side()?;
        if !self.is_symbol(Symbol::Assign) {
            return self.complain(7);
        }
        let mut choices: Vec<Choice> = Vec::new();
        loop {
            // Here `:=` is looked at.
            let place = self.place();
            let assign = self.at;
            self.advance();
            let value = self.expression()?;
            let mut choice = Choice {
                place,
                value,
                condition: None,
            };
            if self.is_symbol(Symbol::Comma) {
                return self.complain(6);
            }
            if self.is_keyword(Keyword::When) {
                self.advance();
                let condition = self.at as u32;
                choice.condition = Some(self.expression()?);
                choices.push(choice);
                self.put(assign, condition, self.at as u32);
                if self.is_symbol(Symbol::Assign) {
                    continue;
                }
            } else if choices.is_empty() {
                // A lone expression; `otherwise` after it begins no
                // statement and is refused 7 there.
                choices.push(choice);
                self.put(assign, 0, self.at as u32);
            } else {
                self.expect_keyword(Keyword::Otherwise)?;
                choices.push(choice);
                self.put(assign, 0, self.at as u32);
            }
            self.put(first, number, self.at as u32);
            return Ok(Statement::Assign(target, choices));
        }
    }

    /// What is assigned, and its number: the field's, or the variable's among
    /// the variables.
    fn left_side(&mut self) -> Read<(Target, u32)> {
        let spelling = self.spelling();
        if spelling == b"cell" {
            self.advance();
            if self.named {
                let field = self.field_reference(true)?;
                return Ok((Target::Field(field), field as u32));
            }
            self.plain_name_end()?;
            return Ok((Target::Field(0), 0));
        }
        if spelling == b"time" {
            return self.complain(9);
        }
        let (slot, number) = match self.names.find(&spelling) {
            Some(entry) if entry.record.kind == VARIABLE => {
                let found = (entry.slot, entry.noted);
                self.advance();
                found
            }
            Some(_) => return self.complain(9),
            None => {
                let slot = self.slots;
                let number = self.names.variables();
                let record = self.declare(VARIABLE, slot)?;
                let entry = &mut self.names.entries[record];
                entry.noted = number;
                entry.visible = true;
                self.slots += 1;
                (slot, number)
            }
        };
        self.plain_name_end()?;
        Ok((Target::Slot(slot), number))
    }

    /// After a name that is a plain number: `[` is 6 and `.` is 12.
    fn plain_name_end(&self) -> Read<()> {
        if self.is_symbol(Symbol::OpenBracket) {
            return self.complain(6);
        }
        self.no_field_here()
    }

    /// After a plain number for which the grammar would allow a field.
    fn no_field_here(&self) -> Read<()> {
        if self.is_symbol(Symbol::Dot) {
            return self.complain(12);
        }
        Ok(())
    }

    /// `.name`, which must stand here, with fields named; `assigned` on a
    /// left side.
    fn field_reference(&mut self, assigned: bool) -> Read<usize> {
        if !self.is_symbol(Symbol::Dot) {
            return self.complain(6);
        }
        self.advance();
        if !self.is_name() {
            return self.complain(7);
        }
        let field = match self.names.find_field(&self.spelling()) {
            None => return self.complain(12),
            Some(entry) if assigned && entry.record.kind == CONST_FIELD => return self.complain(9),
            Some(entry) => entry.slot,
        };
        self.advance();
        if self.is_symbol(Symbol::OpenBracket) {
            return self.complain(6);
        }
        Ok(field)
    }
}
