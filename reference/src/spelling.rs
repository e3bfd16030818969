//! The spelling that is returned with a refusal (document 02, 3/13).
//!
//! | Sentence | Where below |
//! |----------|-------------|
//! | "With every refusal from 3 to 15 and 40 to 45" | `names_token` |
//! | "that stands on a token, hand back its spelling" | the token of `lex` at the place |
//! | "for a predefined name, the spelling comes from the built-in list [..], in its lower-case form" | `listed` |
//! | "else from the source" | `spelling`, at its end |
//! | "For 3 it is the one byte at the place." | `spelling` |
//! | "At the end of the source, and for all other replies, it is empty." | `spelling` |
//! | "Any other built-in list than `cell time random` is refused 1." | `check_lent`, `admission::program_of` |

use crate::lex::lex;
use crate::parse::{check, Reply};

/// The built-in list, which is passed beside the source.
pub const BUILT_IN: &[u8] = b"cell time random";

/// The part of the source or of the built-in list that a spelling is.
#[derive(Clone, Copy, PartialEq, Eq, Debug)]
pub enum Spelling {
    Empty,
    Source { start: usize, length: usize },
    List { start: usize, length: usize },
}

impl Spelling {
    pub fn bytes<'a>(self, source: &'a [u8], list: &'a [u8]) -> &'a [u8] {
        match self {
            Spelling::Empty => &[],
            Spelling::Source { start, length } => &source[start..start + length],
            Spelling::List { start, length } => &list[start..start + length],
        }
    }

    /// Where it is (0 nowhere, 1 source, 2 list), its first byte and its
    /// length.
    pub fn numbers(self) -> [u32; 3] {
        match self {
            Spelling::Empty => [0, 0, 0],
            Spelling::Source { start, length } => [1, start as u32, length as u32],
            Spelling::List { start, length } => [2, start as u32, length as u32],
        }
    }
}

/// Whether a reply names a token.
fn names_token(number: u32) -> bool {
    matches!(number, 3..=15 | 40..=45)
}

/// Where a word is in the built-in list, whatever its letter case.
fn listed(word: &[u8]) -> Option<usize> {
    let mut start = 0;
    for name in BUILT_IN.split(|&byte| byte == b' ') {
        if word.eq_ignore_ascii_case(name) {
            return Some(start);
        }
        start += name.len() + 1;
    }
    None
}

/// The spelling that goes with a reply to a source.
pub fn spelling(source: &[u8], reply: Reply) -> Spelling {
    let start = reply.place as usize;
    if !names_token(reply.number) || start == source.len() {
        return Spelling::Empty;
    }
    if reply.number == 3 {
        return Spelling::Source { start, length: 1 };
    }
    let token = lex(source)
        .into_iter()
        .find(|token| token.start == reply.place)
        .expect("a refusal stands on a token");
    let length = token.length as usize;
    match listed(&source[start..start + length]) {
        Some(start) => Spelling::List { start, length },
        None => Spelling::Source { start, length },
    }
}

/// The reply to a source beside which a list is passed.
pub fn check_lent(source: &[u8], list: &[u8]) -> Reply {
    if list == BUILT_IN {
        check(source).reply
    } else {
        Reply {
            number: 1,
            place: 0,
        }
    }
}
