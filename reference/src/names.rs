//! The name list: records in order of declaration, and what is visible. An
//! index has a record only while its loop is open.

/// Greatest number of name records.
pub const MAX_NAMES: usize = 256;

pub const CONSTANT: u32 = 1;
pub const ARRAY: u32 = 2;
pub const FIELD: u32 = 3;
pub const VARIABLE: u32 = 4;
pub const INDEX: u32 = 5;
pub const CONST_FIELD: u32 = 6;

/// One record as it is passed: start, length, kind and value.
#[derive(Clone, Copy, PartialEq, Eq, Debug)]
pub struct Record {
    pub start: u32,
    pub length: u32,
    pub kind: u32,
    pub value: i32,
}

/// A record with what only the reader needs.
#[derive(Clone, Debug)]
pub struct Entry {
    pub record: Record,
    /// The spelling in lower case; underscores count.
    pub spelling: Vec<u8>,
    pub visible: bool,
    /// Array number, or number of the variable's or index's slot.
    pub slot: usize,
    /// What the word table notes where the name is used: a constant's value,
    /// the position of an array constant's name, a variable's number among the
    /// variables, or an index's depth.
    pub noted: u32,
    /// An index variable's range.
    pub low: i32,
    pub high: i32,
}

#[derive(Default)]
pub struct Names {
    pub entries: Vec<Entry>,
}

fn is_field(kind: u32) -> bool {
    kind == FIELD || kind == CONST_FIELD
}

impl Names {
    /// The visible constant, array, variable or index of that name.
    pub fn find(&self, spelling: &[u8]) -> Option<&Entry> {
        self.entries.iter().find(|entry| {
            entry.visible && !is_field(entry.record.kind) && entry.spelling == spelling
        })
    }

    /// The field of that name; fields have a name space of their own.
    pub fn find_field(&self, spelling: &[u8]) -> Option<&Entry> {
        self.entries
            .iter()
            .find(|entry| is_field(entry.record.kind) && entry.spelling == spelling)
    }

    pub fn is_full(&self) -> bool {
        self.entries.len() == MAX_NAMES
    }

    /// Adds a record, not yet visible, and returns its number.
    pub fn add(&mut self, record: Record, spelling: Vec<u8>, slot: usize) -> usize {
        self.entries.push(Entry {
            record,
            spelling,
            visible: false,
            slot,
            noted: 0,
            low: 0,
            high: 0,
        });
        self.entries.len() - 1
    }

    /// Takes out the record of a loop that ends; those after it move down.
    pub fn remove(&mut self, number: usize) {
        self.entries.remove(number);
    }

    /// How many variables there are.
    pub fn variables(&self) -> u32 {
        let variables = self.entries.iter();
        variables
            .filter(|entry| entry.record.kind == VARIABLE)
            .count() as u32
    }

    pub fn records(&self) -> Vec<Record> {
        self.entries.iter().map(|entry| entry.record).collect()
    }
}
