//! The names of a source.

use crate::replies::Place;
use std::iter::FusedIterator;
use std::slice::ChunksExact;

/// What a name denotes.
#[derive(Clone, Copy, PartialEq, Eq, Hash, Debug)]
pub enum Kind {
    /// A constant; the name's value is its value.
    Constant = 1,
    /// An array constant; the name's value is how many values it has.
    ArrayConstant = 2,
    /// A field of the cell; the name's value is its number, from 0.
    Field = 3,
    /// A variable; the name's value is 0.
    Variable = 4,
    /// An index variable of a `forall`. Its record is free again where its
    /// loop ends, so that no list that is left has one.
    Index = 5,
    /// A field that can't be assigned; the name's value is its number, from 0.
    ConstField = 6,
}

impl Kind {
    fn of(number: u32) -> Option<Kind> {
        Some(match number {
            1 => Kind::Constant,
            2 => Kind::ArrayConstant,
            3 => Kind::Field,
            4 => Kind::Variable,
            5 => Kind::Index,
            6 => Kind::ConstField,
            _ => return None,
        })
    }
}

/// A name, as it was declared.
#[derive(Clone, Copy, PartialEq, Eq, Hash, Debug)]
pub struct Name<'a> {
    /// The name as it is written; letter case doesn't matter in a source.
    pub text: &'a str,
    /// Where it is declared.
    pub place: Place,
    /// What it denotes.
    pub kind: Kind,
    /// A number that goes with the kind.
    pub value: i32,
}

/// The names of a source, in order of declaration.
#[derive(Clone, Debug)]
pub struct Names<'a> {
    source: &'a [u8],
    records: ChunksExact<'a, u32>,
}

impl<'a> Names<'a> {
    /// The names in a list of flat words, four a name, that a call left for
    /// this source.
    pub fn new(source: &'a [u8], words: &'a [u32]) -> Names<'a> {
        Names {
            source,
            records: words.chunks_exact(4),
        }
    }
}

fn text_at(source: &[u8], start: u32, length: u32) -> &str {
    let rest = source.get(start as usize..).unwrap_or_default();
    let bytes = rest.get(..length as usize).unwrap_or_default();
    std::str::from_utf8(bytes).unwrap_or_default()
}

impl<'a> Iterator for Names<'a> {
    type Item = Name<'a>;

    fn next(&mut self) -> Option<Name<'a>> {
        let record = self.records.next()?;
        let Some(kind) = Kind::of(record[2]) else {
            self.records = [].chunks_exact(4);
            return None;
        };
        Some(Name {
            text: text_at(self.source, record[0], record[1]),
            place: Place(record[0]),
            kind,
            value: record[3] as i32,
        })
    }

    fn size_hint(&self) -> (usize, Option<usize>) {
        (0, Some(self.records.len()))
    }
}

impl FusedIterator for Names<'_> {}
