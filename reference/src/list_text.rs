//! From lines to the bytes of a list, with damage to tokens, lines and bytes.

use crate::blocks::Line;
use crate::damage::damage_bytes;
use crate::random::Random;

/// How loosely a list is written.
#[derive(Clone, Copy, PartialEq, Eq)]
enum Style {
    /// As the writer writes.
    Plain,
    /// No spaces.
    Tight,
    /// Any separators, leading zeros, underscores and signs.
    Wild,
}

/// Words that may stand in a line, and others.
const VOCABULARY: [&str; 44] = [
    "[",
    "]",
    ",",
    "=",
    "+",
    "-",
    "[",
    "]",
    ",",
    "=",
    "+",
    "-",
    "0",
    "1",
    "2",
    "3",
    "9",
    "10",
    "2147483647",
    "2147483648",
    "4294967296",
    "99999999999999999999",
    "1_",
    "_1",
    "1__0",
    "0_1",
    "1a",
    "a",
    "0x1",
    "_",
    "#",
    "# 1",
    "(",
    ")",
    ":",
    "..",
    ":=",
    "+%",
    "->",
    "\"",
    "$",
    "cell",
    "time",
    "\0",
];

fn spelled(random: &mut Random, number: i64, style: Style) -> String {
    let digits = number.unsigned_abs().to_string();
    if style != Style::Wild {
        return digits;
    }
    let zeros = if random.chance(20) {
        random.below(12)
    } else {
        0
    };
    let bare = "0".repeat(zeros) + &digits;
    let mut text = String::new();
    for digit in bare.chars() {
        if !text.is_empty() && random.chance(15) {
            text.push('_');
        }
        text.push(digit);
    }
    text
}

/// Puts a number, its sign apart.
fn put_number(random: &mut Random, row: &mut Vec<String>, number: i64, style: Style, signed: bool) {
    let free = signed && style == Style::Wild && random.chance(25);
    if number < 0 || (free && number == 0 && random.chance(50)) {
        row.push("-".to_string());
    } else if free {
        row.push("+".to_string());
    }
    row.push(spelled(random, number, style));
}

/// The tokens of a line.
fn tokens(random: &mut Random, line: &Line, style: Style) -> Vec<String> {
    let mut row = Vec::new();
    match line {
        Line::Time(time) => put_number(random, &mut row, *time, style, false),
        Line::Cell(index, values) => {
            row.push("[".to_string());
            for (at, number) in index.iter().enumerate() {
                if at > 0 {
                    row.push(",".to_string());
                }
                put_number(random, &mut row, *number, style, false);
            }
            row.extend(["]".to_string(), "=".to_string()]);
            for (at, value) in values.iter().enumerate() {
                if at > 0 {
                    row.push(",".to_string());
                }
                if let Some(value) = value {
                    put_number(random, &mut row, *value, style, true);
                }
            }
        }
    }
    row
}

/// Damages a row of tokens once.
fn damage_row(random: &mut Random, row: &mut Vec<String>) {
    let word = random.pick(&VOCABULARY).to_string();
    if row.is_empty() {
        return row.push(word);
    }
    let at = random.below(row.len());
    match random.below(8) {
        0 => {
            row.remove(at);
        }
        1 | 2 => row.insert(at, word),
        3 => {
            let copy = row[at].clone();
            row.insert(at, copy);
        }
        4 if at + 1 < row.len() => row.swap(at, at + 1),
        5 => row.push(word),
        6 => row.truncate(at),
        _ => row[at] = word,
    }
}

fn put_separators(random: &mut Random, out: &mut Vec<u8>) {
    for _ in 0..1 + random.below(3) {
        out.push(*random.pick(b"   \t\x0b\x0c"));
    }
}

fn is_word(token: &str) -> bool {
    token
        .bytes()
        .all(|byte| byte.is_ascii_alphanumeric() || byte == b'_')
}

/// The bytes of a row of tokens, without the line's end.
fn line_of(random: &mut Random, row: &[String], style: Style) -> Vec<u8> {
    let mut out = Vec::new();
    for (at, token) in row.iter().enumerate() {
        let before = if at > 0 { row[at - 1].as_str() } else { "" };
        let apart = at > 0 && is_word(before) && is_word(token);
        match style {
            Style::Plain if apart || matches!(before, "," | "=") || token == "=" => out.push(b' '),
            Style::Tight if apart => out.push(b' '),
            Style::Wild if apart || random.chance(40) => put_separators(random, &mut out),
            _ => {}
        }
        out.extend_from_slice(token.as_bytes());
    }
    if style == Style::Wild && random.chance(25) {
        put_separators(random, &mut out);
    }
    out
}

/// A letter or an underscore right after some digit.
fn put_behind_digit(random: &mut Random, line: &mut Vec<u8>) {
    let digits: Vec<usize> = (0..line.len())
        .filter(|&at| line[at].is_ascii_digit())
        .collect();
    if !digits.is_empty() {
        let at = *random.pick(&digits);
        line.insert(at + 1, *random.pick(b"aZ__."));
    }
}

/// Damages lines, which have their ends, once.
fn damage_lines(random: &mut Random, lines: &mut Vec<Vec<u8>>) {
    if lines.is_empty() {
        let alone: [&[u8]; 8] = [b"\n", b"\r", b" ", b" \n", b"#\n", b"0", b"[", b"[0] = 1\n"];
        return lines.push(random.pick(&alone).to_vec());
    }
    let at = random.below(lines.len());
    let last = lines.len() - 1;
    match random.below(13) {
        0 => {
            lines[last].pop();
        }
        1 => lines.push(vec![*random.pick(b" \t1[#")]),
        2 => lines.insert(at, vec![*random.pick(b"\n\r")]),
        3 => {
            let mut blank = Vec::new();
            put_separators(random, &mut blank);
            blank.push(*random.pick(b"\n\r"));
            lines.insert(at, blank);
        }
        4 => {
            let ends: std::ops::RangeInclusive<usize> =
                if random.chance(50) { at..=at } else { 0..=last };
            for line in &mut lines[ends] {
                line.pop();
                line.extend_from_slice(if random.chance(80) { b"\r\n" } else { b"\n\r" });
            }
        }
        5 => {
            let end = lines[at].len() - 1;
            lines[at].splice(end..end, b" # note".iter().copied());
        }
        6 => lines.insert(at, b"# note\n".to_vec()),
        7 | 8 => put_behind_digit(random, &mut lines[at]),
        9 => {
            lines.remove(at);
        }
        10 => {
            let copy = lines[at].clone();
            lines.insert(at, copy);
        }
        11 => {
            let other = random.below(lines.len());
            lines.swap(at, other);
        }
        _ => {
            lines[at].pop();
        }
    }
}

/// What is damaged.
#[derive(Clone, Copy, PartialEq, Eq)]
pub enum Damage {
    None,
    Tokens,
    Lines,
    Bytes,
}

/// The bytes of a list.
pub fn write(random: &mut Random, lines: &[Line], damage: Damage) -> Vec<u8> {
    let style = match random.below(10) {
        0..=3 => Style::Plain,
        4 | 5 => Style::Tight,
        _ => Style::Wild,
    };
    let mut rows: Vec<Vec<String>> = Vec::new();
    for line in lines {
        rows.push(tokens(random, line, style));
    }
    if damage == Damage::Tokens && !rows.is_empty() {
        let at = random.below(rows.len());
        damage_row(random, &mut rows[at]);
    }
    let ends = *random.pick(&["\n", "\n", "\r", "\n\r"]);
    let mut ended: Vec<Vec<u8>> = Vec::new();
    for row in &rows {
        let mut line = line_of(random, row, style);
        line.push(*random.pick(ends.as_bytes()));
        ended.push(line);
    }
    if damage == Damage::Lines {
        damage_lines(random, &mut ended);
    }
    let mut text = ended.concat();
    if damage == Damage::Bytes {
        damage_bytes(random, &mut text);
    }
    text
}
