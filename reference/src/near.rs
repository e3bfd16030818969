//! Sources near the profile of 6/13: in it, or one or two changes away.

use crate::damage::{damage_bytes, damage_tokens};
use crate::generate::{moving, Wish};
use crate::random::Random;
use crate::text::{any_style, write};

type Tokens = Vec<String>;

fn row(words: &str) -> Tokens {
    words.split_whitespace().map(str::to_string).collect()
}

fn some(random: &mut Random, row: &[&'static str]) -> &'static str {
    let word: &&str = random.pick(row);
    word
}

/// Where these words stand first.
fn find(tokens: &[String], words: &str) -> Option<usize> {
    let words = row(words);
    tokens.windows(words.len()).position(|part| part == words)
}

/// Where these words stand last.
fn find_last(tokens: &[String], words: &str) -> Option<usize> {
    let words = row(words);
    tokens.windows(words.len()).rposition(|part| part == words)
}

fn put(tokens: &mut Tokens, at: usize, words: &str) {
    tokens.splice(at..at, row(words));
}

/// Other words for so many at a place.
fn replace(tokens: &mut Tokens, at: usize, count: usize, words: &str) {
    tokens.splice(at..at + count, row(words));
}

const FIRST: &str = "if cell . moved = 0 then";
const LAST: &str = "cell . moved := 1";

/// Conditions that hold where the flag is 0, some of them always.
const CONDITIONS: [&str; 20] = [
    "0 = cell . moved",
    "cell . moved = 00",
    "cell . moved = 0_0",
    "cell . moved = - 0",
    "cell . moved = + 0",
    "cell . moved = ( 0 )",
    "( cell . moved = 0 )",
    "( cell . moved ) = 0",
    "! cell . moved",
    "cell . moved != 1",
    "cell . moved < 1",
    "cell . moved <= 0",
    "cell . moved = 0 & 1",
    "1 & cell . moved = 0",
    "cell . moved = 0 | time = 0",
    "cell . moved = cell . moved",
    "cell . moved = 1",
    "cell . moved",
    "1",
    "cell . moved = 0",
];

/// Last statements, some of them none.
const LASTS: [&str; 20] = [
    "cell . moved := 01",
    "cell . moved := 0_1",
    "cell . moved := + 1",
    "cell . moved := ( 1 )",
    "cell . moved := 1 + 0",
    "cell . moved := ! cell . moved",
    "cell . moved := 0",
    "cell . moved := 1 when 1",
    "cell . moved := 1 when cell . moved = 0",
    "cell . moved := 1 when 1 := 1 otherwise",
    "cell . moved := 1 when 0 := cell . moved when 1",
    "if 1 then cell . moved := 1 end",
    "if 0 then else cell . moved := 1 end",
    "forall q_7 : 0 .. 0 cell . moved := 1 end",
    "cell . moved := 1 q_7 := 1",
    "cell . moved := 1 cell . moved := 0",
    "cell . moved := 1 if 0 then end",
    "q_7 := cell . moved",
    "",
    "cell . moved := 0 cell . moved := 1",
];

/// Statements beside the one, and constants, which are none.
const BESIDE: [&str; 10] = [
    "q_8 := 1",
    "cell . moved := 1",
    "cell . moved := 0",
    "if 1 then end",
    "forall q_8 : 0 .. 1 end",
    "if cell . moved = 0 then cell . moved := 1 end",
    "const q_8 := 1",
    "const q_8 [ ] for 2 := 1 , - 1",
    "const q_8 := 1 q_9 := q_8",
    "exit",
];

/// More branches, and what may follow the last statement.
const BEHIND: [&str; 9] = [
    "else",
    "else q_6 := 1",
    "else cell . moved := 1",
    "else const q_6 := 1",
    "elsif 1 then",
    "elsif cell . moved = 0 then cell . moved := 1",
    "elsif 0 then else cell . moved := 1",
    "const q_6 := 1",
    "const q_6 [ ] for 1 := 1",
];

/// Other declarations of the flag.
const FLAGS: [&str; 8] = [
    "moved of 0 .. 2",
    "moved of - 1 .. 1",
    "moved of 1 .. 1",
    "moved of 0 .. 0",
    "moved of 0 .. 2147483647",
    "moved of + 0 .. 0_1",
    "moved , q_5 of 0 .. 1",
    "q_5 , MOVED of 00 .. 01",
];

/// Other names for the flag.
const NAMES: [&str; 6] = ["mo_ved", "move", "moves", "moved_1", "mooved", "Moved"];

/// A constant for the literal at a place.
fn put_constant(tokens: &mut Tokens, at: usize, name: &str) {
    let literal = std::mem::replace(&mut tokens[at], name.to_string());
    put(tokens, 0, &format!("const {name} := {literal}"));
}

/// Another declaration of the flag, where it is the last of its group.
fn put_flag(random: &mut Random, tokens: &mut Tokens) {
    let at = find(tokens, "moved of");
    let range = at.and_then(|at| find(&tokens[at..], ".."));
    if let (Some(at), Some(range)) = (at, range) {
        let rest = &tokens[at + range + 1..];
        let signed = rest
            .first()
            .is_some_and(|token| token == "+" || token == "-");
        let high = rest.len().min(1 + usize::from(signed));
        replace(tokens, at, range + 1 + high, some(random, &FLAGS));
    }
}

/// Another name for the flag wherever it stands.
fn put_name(random: &mut Random, tokens: &mut Tokens) {
    let name = some(random, &NAMES);
    for token in tokens.iter_mut().filter(|token| *token == "moved") {
        *token = name.to_string();
    }
}

/// The flag is const, and no longer assigned.
fn put_const_flag(random: &mut Random, tokens: &mut Tokens) {
    while let Some(at) = find(tokens, "cell . moved :=") {
        if random.chance(15) {
            break;
        }
        replace(tokens, at, 3, "q_4");
    }
    if let Some(at) = find(tokens, "moved of") {
        put(tokens, at, "const");
    }
}

/// One field without a name.
fn put_unnamed(random: &mut Random, tokens: &mut Tokens) {
    let words = match random.below(4) {
        0 => "1 dimensions of 0 .. 1 if cell = 0 then cell := 1 end",
        1 => "const moved := 0 1 dimensions of 0 .. 1 if cell = 0 then cell := 1 end",
        2 => "1 dimensions of 0 .. 1 moved := cell if moved = 0 then moved := 1 end",
        _ => "1 dimensions of 0 .. 1 if cell . moved = 0 then cell . moved := 1 end",
    };
    *tokens = row(words);
}

/// Another field in place of the flag, once.
fn put_other_field(random: &mut Random, tokens: &mut Tokens) {
    let places: Vec<usize> = (2..tokens.len())
        .filter(|&at| tokens[at] == "moved" && tokens[at - 1] == ".")
        .collect();
    let fields: Vec<usize> = (2..tokens.len())
        .filter(|&at| tokens[at - 1] == ".")
        .collect();
    if !places.is_empty() {
        let at = *random.pick(&places);
        tokens[at] = tokens[*random.pick(&fields)].clone();
    }
}

/// The rule inside another statement.
fn put_around(random: &mut Random, tokens: &mut Tokens) {
    let Some(at) = find(tokens, FIRST) else {
        return;
    };
    put(tokens, tokens.len(), "end");
    let front = some(random, &["if 1 then", "forall q_3 : 0 .. 0"]);
    put(tokens, at, front);
}

/// A relative index of the own cell, on the left or on the right.
fn put_index(random: &mut Random, tokens: &mut Tokens) {
    let words = if random.chance(80) { FIRST } else { LAST };
    if let Some(at) = find(tokens, words) {
        let cell = at + usize::from(tokens[at] == "if");
        let index = some(random, &["[ 0 ]", "[ 0 , 0 ]", "[ 0 , 0 , 0 ]"]);
        replace(tokens, cell, 1, index);
    }
}

/// Changes a rule once.
fn change(random: &mut Random, tokens: &mut Tokens) {
    let first = find(tokens, FIRST);
    let last = find_last(tokens, LAST);
    match (random.below(30), first, last) {
        (0..=4, Some(at), _) => replace(tokens, at + 1, 5, some(random, &CONDITIONS)),
        (5..=9, _, Some(at)) => replace(tokens, at, 5, some(random, &LASTS)),
        (10, _, Some(at)) => put(tokens, at, some(random, &LASTS)),
        (11 | 12, Some(at), _) => put(tokens, at, some(random, &BESIDE)),
        (13 | 14, ..) => put(tokens, tokens.len(), some(random, &BESIDE)),
        (15..=17, _, Some(at)) => put(tokens, at + 5, some(random, &BEHIND)),
        (18, Some(at), _) => put_constant(tokens, at + 5, "q_1"),
        (19, _, Some(at)) => put_constant(tokens, at + 4, "q_2"),
        (20..=22, ..) => put_flag(random, tokens),
        (23, ..) => put_name(random, tokens),
        (24, ..) => put_const_flag(random, tokens),
        (25, ..) => put_unnamed(random, tokens),
        (26, ..) => put_other_field(random, tokens),
        (27, ..) => put_around(random, tokens),
        (28, ..) => put_index(random, tokens),
        _ => damage_tokens(random, tokens),
    }
}

/// The tokens of a rule in the profile.
pub fn rule(random: &mut Random, tokens: usize) -> Tokens {
    let wish = Wish {
        tokens,
        reach: if random.chance(80) { 2 } else { 5 },
        turns: if random.chance(95) { 4 } else { 40 },
        safe: [100, 97, 90, 70][random.below(4)],
        time: random.chance(25),
    };
    moving(random, wish)
}

/// A source in the profile, or near it.
pub fn any(random: &mut Random) -> Vec<u8> {
    let size = [0, 40, 60, 90, 160][random.below(5)];
    let mut tokens = rule(random, size);
    let changes = [0, 0, 0, 1, 1, 1, 1, 1, 2, 2][random.below(10)];
    for _ in 0..changes {
        change(random, &mut tokens);
    }
    let style = any_style(random);
    let mut source = write(random, &tokens, style);
    if random.chance(2) {
        damage_bytes(random, &mut source);
    }
    source
}
