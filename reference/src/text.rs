//! From a row of tokens to the bytes of a source: spacing, letter case,
//! underscores and comments.

use crate::random::Random;

/// How loosely a source is written.
#[derive(Clone, Copy, PartialEq, Eq)]
pub enum Style {
    /// One space between all tokens.
    Plain,
    /// Spaces only where they are needed.
    Tight,
    /// Any separators, letter case and comments.
    Wild,
}

fn is_word(byte: u8) -> bool {
    byte.is_ascii_alphanumeric() || byte == b'_'
}

/// Whether two neighbours would be read as something else without a space.
fn needs_space(left: &str, right: &str) -> bool {
    let (Some(&last), Some(&first)) = (left.as_bytes().last(), right.as_bytes().first()) else {
        return false;
    };
    if is_word(last) && is_word(first) {
        return true;
    }
    matches!(
        (last, first),
        (b':', b'=')
            | (b'.', b'.')
            | (b'<', b'=')
            | (b'>', b'=')
            | (b'!', b'=')
            | (b'-', b'>')
            | (b'+', b'%')
            | (b'-', b'%')
    )
}

fn separator(random: &mut Random, out: &mut Vec<u8>) {
    let count = 1 + random.below(3);
    for _ in 0..count {
        match random.below(12) {
            0 => out.push(b'\t'),
            1 => out.push(11),
            2 => out.push(12),
            3 => out.push(b'\r'),
            4 | 5 => out.push(b'\n'),
            6 => comment(random, out),
            _ => out.push(b' '),
        }
    }
}

fn comment(random: &mut Random, out: &mut Vec<u8>) {
    out.push(b'#');
    for _ in 0..random.below(9) {
        let byte = random.below(256) as u8;
        if byte != b'\n' && byte != b'\r' {
            out.push(byte);
        }
    }
    if random.chance(15) {
        out.extend_from_slice(b" time random \" ");
    }
    out.push(if random.chance(70) { b'\n' } else { b'\r' });
}

fn put_token(random: &mut Random, token: &str, out: &mut Vec<u8>) {
    let mode = random.below(4);
    for &byte in token.as_bytes() {
        let upper = match mode {
            0 => random.chance(50),
            1 => true,
            _ => false,
        };
        out.push(if upper {
            byte.to_ascii_uppercase()
        } else {
            byte
        });
    }
}

/// The bytes of a row of tokens.
pub fn write(random: &mut Random, tokens: &[String], style: Style) -> Vec<u8> {
    let mut out = Vec::new();
    if style == Style::Wild && random.chance(30) {
        separator(random, &mut out);
    }
    for (number, token) in tokens.iter().enumerate() {
        if number > 0 {
            let needed = needs_space(&tokens[number - 1], token);
            match style {
                Style::Plain => out.push(b' '),
                Style::Tight if needed => out.push(b' '),
                Style::Tight => {}
                Style::Wild if needed || random.chance(50) => separator(random, &mut out),
                Style::Wild => {}
            }
        }
        if style == Style::Wild {
            put_token(random, token, &mut out);
        } else {
            out.extend_from_slice(token.as_bytes());
        }
    }
    if style == Style::Wild && random.chance(30) {
        separator(random, &mut out);
        if random.chance(30) {
            out.extend_from_slice(b"# end");
        }
    }
    out
}

/// A style at random, the plain one most often.
pub fn any_style(random: &mut Random) -> Style {
    match random.below(10) {
        0..=4 => Style::Plain,
        5 | 6 => Style::Tight,
        _ => Style::Wild,
    }
}
