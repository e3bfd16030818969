//! The memory into which a source is read.

use crate::names::Names;

/// The length of a word table: four words a token.
pub const WORDS: usize = 16_384;

/// The length of a name list: four words a name.
pub const NAME_WORDS: usize = 1_024;

/// The word table and the name list of a source, 68 KiB, to be used again for
/// any number of calls.
#[derive(Clone, Debug)]
pub struct Rooms {
    pub(crate) words: Box<[u32]>,
    pub(crate) names: Box<[u32]>,
}

impl Rooms {
    /// Rooms of the right lengths, zero throughout.
    pub fn new() -> Rooms {
        Rooms {
            words: vec![0; WORDS].into_boxed_slice(),
            names: vec![0; NAME_WORDS].into_boxed_slice(),
        }
    }

    /// The word table: the program of the source that was read last, zero if
    /// it was refused. A source that is too long leaves it as it was.
    pub fn words(&self) -> &[u32] {
        &self.words
    }

    /// The name list in flat words, four a name: start, length, kind and value.
    pub fn name_words(&self) -> &[u32] {
        &self.names
    }

    /// The names of the source that was accepted last, in order of
    /// declaration; none after a refusal. `source` is that source: with
    /// another one, the texts of the names mean nothing.
    ///
    /// ```
    /// use cellang::{check, Kind, Rooms};
    ///
    /// let source = b"const Limit := 7 1 dimensions of 0..Limit n := [1] cell := n";
    /// let mut rooms = Rooms::new();
    /// check(source, &mut rooms)?;
    /// let names: Vec<_> = rooms.names(source).map(|name| (name.text, name.kind, name.value)).collect();
    /// assert_eq!(names, [("Limit", Kind::Constant, 7), ("n", Kind::Variable, 0)]);
    /// # Ok::<(), cellang::Refusal>(())
    /// ```
    pub fn names<'a>(&'a self, source: &'a [u8]) -> Names<'a> {
        Names::new(source, &self.names)
    }
}

impl Default for Rooms {
    fn default() -> Rooms {
        Rooms::new()
    }
}
