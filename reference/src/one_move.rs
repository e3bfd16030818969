//! The profile of rules that move a pixel once (document 02, 6/13).
//!
//! | Sentence | Where below |
//! |----------|-------------|
//! | "it is accepted" | `check_one_move`: rule 1 |
//! | "has a named field `moved`, not const, of range 0..1" | `flag_field`: rule 2 |
//! | "constants aside" | `statement_tokens` |
//! | "one statement at top level, exactly `if cell.moved = 0 then` .. `end` without `elsif` or `else`" | `moves_once`, with `FIRST`, and `one_branch`: rule 3 |
//! | "whose last statement is exactly `cell.moved := 1`" | `moves_once`, with `LAST`: rule 3 |
//! | "(the same tokens, letter case aside)" | `spelled` |
//!
//! Rule 3 is read off the tokens of a source that is accepted. There a `:=`
//! after a condition goes on with a chain, whose last expression has `when` or
//! `otherwise` after it; so `cell . moved := 1 end` ends with a statement.

use crate::admission::{program_of, Read};
use crate::lex::lex;
use crate::names::FIELD;
use crate::tree::{Field, Program};

/// The first rule that is missed, 1 to 3, and 0 in the profile; for rule 1 the
/// number and place of the refusal, else 0.
#[derive(Clone, Copy, PartialEq, Eq, Debug, Default)]
pub struct Profile {
    pub rule: u32,
    pub number: u32,
    pub place: u32,
}

/// How the one statement begins, and how it ends.
const FIRST: [&str; 7] = ["if", "cell", ".", "moved", "=", "0", "then"];
const LAST: [&str; 6] = ["cell", ".", "moved", ":=", "1", "end"];

/// The tokens of an accepted source, in small letters.
fn spelled(source: &[u8]) -> Vec<String> {
    let mut tokens = lex(source);
    tokens.pop();
    let spelling = |start: u32, length: u32| {
        let bytes = &source[start as usize..][..length as usize];
        String::from_utf8_lossy(bytes).to_ascii_lowercase()
    };
    let tokens = tokens.iter();
    tokens
        .map(|token| spelling(token.start, token.length))
        .collect()
}

/// The number of tokens of the constant's declaration at the front: up to `:=`,
/// then values, with a sign or without, and commas between them.
fn declaration_length(tokens: &[String]) -> usize {
    let is = |at: usize, words: &[&str]| tokens.get(at).is_some_and(|t| words.contains(&&t[..]));
    let mut at = 0;
    while !is(at, &[":="]) {
        at += 1;
    }
    loop {
        at += 1 + usize::from(is(at + 1, &["+", "-"]));
        at += 1;
        if !is(at, &[","]) {
            return at;
        }
    }
}

/// The tokens of the statements of a source with named fields, constants aside.
fn statement_tokens(tokens: &[String]) -> Vec<&str> {
    let fields = tokens.iter().position(|token| token == "end");
    let mut at = fields.expect("the end of the fields") + 1;
    let mut rest = Vec::new();
    while at < tokens.len() {
        if tokens[at] == "const" {
            at += declaration_length(&tokens[at..]);
        } else {
            rest.push(&tokens[at][..]);
            at += 1;
        }
    }
    rest
}

/// Whether the statement at the front goes up to the last token, and has
/// neither `elsif` nor `else` of its own.
fn one_branch(tokens: &[&str]) -> bool {
    let mut depth = 0;
    for (at, &token) in tokens.iter().enumerate() {
        match token {
            "if" | "forall" => depth += 1,
            "end" => depth -= 1,
            "elsif" | "else" if depth == 1 => return false,
            _ => {}
        }
        if depth == 0 {
            return at + 1 == tokens.len();
        }
    }
    false
}

/// Rule 3, of a source with named fields.
fn moves_once(source: &[u8]) -> bool {
    let tokens = spelled(source);
    let tokens = statement_tokens(&tokens);
    tokens.starts_with(&FIRST) && tokens.ends_with(&LAST) && one_branch(&tokens)
}

/// Rule 2: the number of the field `moved`, if it is as it has to be.
fn flag_field(source: &[u8], program: &Program) -> Option<usize> {
    let flag = program.names.iter().find(|name| {
        let spelling = &source[name.start as usize..][..name.length as usize];
        name.kind == FIELD && spelling.eq_ignore_ascii_case(b"moved")
    })?;
    let field = flag.value as usize;
    (program.fields[field] == Field { low: 0, high: 1 }).then_some(field)
}

/// The number of the field `moved` of a source in the profile; none of any
/// other accepted source.
pub fn flag(source: &[u8], program: &Program) -> Option<usize> {
    flag_field(source, program).filter(|_| moves_once(source))
}

/// Whether a source is in the profile, or which rule it misses first.
pub fn check_one_move(read: &Read) -> Profile {
    let missed = |rule| Profile {
        rule,
        ..Profile::default()
    };
    match program_of(read) {
        Err(refusal) => Profile {
            rule: 1,
            number: refusal.number,
            place: refusal.place,
        },
        Ok(program) if flag_field(read.source, &program).is_none() => missed(2),
        Ok(_) if !moves_once(read.source) => missed(3),
        Ok(_) => Profile::default(),
    }
}

/// The answer where all that is passed beside the source is right.
pub fn profile(source: &[u8]) -> Profile {
    check_one_move(&Read::of(source))
}
