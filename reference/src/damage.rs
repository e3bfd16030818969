//! Damage to sources: to their tokens and to their bytes.

use crate::random::Random;

/// Words of the grammar, and others that are refused.
pub const VOCABULARY: [&str; 66] = [
    "+",
    "-",
    "*",
    "/",
    "%",
    "&",
    "|",
    "!",
    "=",
    "<",
    ">",
    "[",
    "]",
    "(",
    ")",
    ",",
    ":",
    ".",
    ":=",
    "..",
    "<=",
    ">=",
    "!=",
    "->",
    "+%",
    "-%",
    "\"",
    "agent",
    "const",
    "dimensions",
    "else",
    "elsif",
    "end",
    "exit",
    "for",
    "forall",
    "if",
    "of",
    "otherwise",
    "then",
    "when",
    "cell",
    "time",
    "random",
    "0",
    "1",
    "2",
    "3",
    "4",
    "9",
    "1024",
    "1025",
    "4096",
    "4097",
    "2147483647",
    "2147483648",
    "x",
    "i",
    "a",
    "n",
    "f",
    "zz",
    "1_",
    "x_",
    "_",
    "$",
];

const OPERATORS: [&str; 16] = [
    "+", "-", "*", "/", "%", "&", "|", "!", "=", "<", ">", "<=", ">=", "!=", ":=", ",",
];

/// Some token: of the vocabulary, or another one of the program.
fn some_token(random: &mut Random, tokens: &[String]) -> String {
    if random.chance(40) && !tokens.is_empty() {
        random.pick(tokens).clone()
    } else {
        random.pick(&VOCABULARY).to_string()
    }
}

fn is_name(token: &str) -> bool {
    token.as_bytes()[0].is_ascii_alphabetic() && !VOCABULARY[27..41].contains(&token)
}

/// Damages a row of tokens once.
pub fn damage_tokens(random: &mut Random, tokens: &mut Vec<String>) {
    if tokens.is_empty() {
        return;
    }
    let at = random.below(tokens.len());
    match random.below(13) {
        12 => {
            // An operator for an operator.
            let places: Vec<usize> = (0..tokens.len())
                .filter(|&place| OPERATORS.contains(&tokens[place].as_str()))
                .collect();
            if places.is_empty() {
                return;
            }
            let place = *random.pick(&places);
            tokens[place] = random.pick(&OPERATORS).to_string();
        }
        0 => {
            tokens.remove(at);
        }
        1 | 2 => {
            let token = some_token(random, tokens);
            tokens.insert(at, token);
        }
        3 => {
            let token = tokens[at].clone();
            tokens.insert(at, token);
        }
        4 if tokens.len() > 1 => {
            let other = random.below(tokens.len());
            tokens.swap(at, other);
        }
        5 if at + 1 < tokens.len() => tokens.swap(at, at + 1),
        6..=8 => {
            // A name for a name.
            let places: Vec<usize> = (0..tokens.len())
                .filter(|&place| is_name(&tokens[place]))
                .collect();
            if places.is_empty() {
                return;
            }
            let place = *random.pick(&places);
            tokens[place] = match random.below(5) {
                0 => "cell".to_string(),
                1 => "time".to_string(),
                2 => "zz".to_string(),
                _ => tokens[*random.pick(&places)].clone(),
            };
        }
        9 => tokens.truncate(at),
        _ => tokens[at] = some_token(random, tokens),
    }
}

/// Damages bytes once.
pub fn damage_bytes(random: &mut Random, source: &mut Vec<u8>) {
    if source.is_empty() {
        source.push(random.below(256) as u8);
        return;
    }
    let at = random.below(source.len());
    let kind = random.below(8);
    let byte = if random.chance(40) {
        random.below(256) as u8
    } else {
        *random.pick(b"_#[](),:=.<>!+-*/%&|\"0129azAZ \n\r\t\x0b\x0c")
    };
    match kind {
        0 => {
            source.remove(at);
        }
        1 | 2 => source.insert(at, byte),
        3 => source.truncate(at),
        4 => {
            let copy = source[at];
            source.insert(at, copy);
        }
        5 if at + 1 < source.len() => source.swap(at, at + 1),
        _ => source[at] = byte,
    }
}
