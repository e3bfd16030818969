//! Tokens of a source.
//!
//! The token row always ends with one `Stop`. A stop is whatever ends the
//! token sequence: bytes that are no token (3), a literal that is too large
//! (4), the 4,097th token (5), a form refused anywhere (6), or the end of the
//! source (7).

/// Greatest number of bytes in a source.
pub const MAX_SOURCE: usize = 65_535;
/// Greatest number of tokens in a source.
pub const MAX_TOKENS: usize = 4_096;
/// Greatest value of a literal.
pub const GREATEST_LITERAL: i64 = 2_147_483_647;

#[derive(Clone, Copy, PartialEq, Eq, Debug)]
pub enum Keyword {
    Const,
    Dimensions,
    Else,
    Elsif,
    End,
    Exit,
    For,
    Forall,
    If,
    Of,
    Otherwise,
    Then,
    When,
}

#[derive(Clone, Copy, PartialEq, Eq, Debug)]
pub enum Symbol {
    Plus,
    Minus,
    Star,
    Slash,
    Percent,
    And,
    Or,
    Not,
    Equal,
    NotEqual,
    Less,
    LessEqual,
    Greater,
    GreaterEqual,
    OpenBracket,
    CloseBracket,
    OpenParenthesis,
    CloseParenthesis,
    Comma,
    Colon,
    Dot,
    DotDot,
    Assign,
}

#[derive(Clone, Copy, PartialEq, Eq, Debug)]
pub enum Kind {
    Name,
    Literal(i32),
    Keyword(Keyword),
    Symbol(Symbol),
    Stop(u32),
}

#[derive(Clone, Copy, PartialEq, Eq, Debug)]
pub struct Token {
    pub kind: Kind,
    pub start: u32,
    pub length: u32,
}

/// The number of a token's kind in the word table (docs/LAYOUT.md).
pub fn kind_number(kind: Kind, spelling: &[u8]) -> u32 {
    match kind {
        Kind::Stop(_) => 0,
        Kind::Name if spelling.eq_ignore_ascii_case(b"cell") => 3,
        Kind::Name if spelling.eq_ignore_ascii_case(b"time") => 4,
        Kind::Name => 1,
        Kind::Literal(_) => 2,
        Kind::Keyword(keyword) => 5 + keyword as u32,
        Kind::Symbol(Symbol::Assign) => 128,
        Kind::Symbol(Symbol::DotDot) => 129,
        Kind::Symbol(Symbol::LessEqual) => 130,
        Kind::Symbol(Symbol::GreaterEqual) => 131,
        Kind::Symbol(Symbol::NotEqual) => 132,
        Kind::Symbol(_) => u32::from(spelling[0]),
    }
}

fn is_separator(byte: u8) -> bool {
    matches!(byte, b' ' | 9..=13)
}

fn ends_line(byte: u8) -> bool {
    byte == b'\n' || byte == b'\r'
}

/// The token that begins at `at`, which must be no separator and no `#`:
/// its kind and its length.
fn read_token(source: &[u8], at: usize) -> (Kind, usize) {
    let first = source[at];
    if first.is_ascii_alphabetic() {
        let end = word_end(source, at, |byte| byte.is_ascii_alphanumeric());
        return (word_kind(&source[at..end]), end - at);
    }
    if first.is_ascii_digit() {
        let end = word_end(source, at, |byte| byte.is_ascii_digit());
        return (literal_kind(source, at, end), end - at);
    }
    let second = source.get(at + 1).copied();
    let double = match (first, second) {
        (b':', Some(b'=')) => Some(Kind::Symbol(Symbol::Assign)),
        (b'.', Some(b'.')) => Some(Kind::Symbol(Symbol::DotDot)),
        (b'<', Some(b'=')) => Some(Kind::Symbol(Symbol::LessEqual)),
        (b'>', Some(b'=')) => Some(Kind::Symbol(Symbol::GreaterEqual)),
        (b'!', Some(b'=')) => Some(Kind::Symbol(Symbol::NotEqual)),
        (b'-', Some(b'>')) | (b'+', Some(b'%')) | (b'-', Some(b'%')) => Some(Kind::Stop(6)),
        _ => None,
    };
    if let Some(kind) = double {
        return (kind, 2);
    }
    let symbol = match first {
        b'+' => Symbol::Plus,
        b'-' => Symbol::Minus,
        b'*' => Symbol::Star,
        b'/' => Symbol::Slash,
        b'%' => Symbol::Percent,
        b'&' => Symbol::And,
        b'|' => Symbol::Or,
        b'!' => Symbol::Not,
        b'=' => Symbol::Equal,
        b'<' => Symbol::Less,
        b'>' => Symbol::Greater,
        b'[' => Symbol::OpenBracket,
        b']' => Symbol::CloseBracket,
        b'(' => Symbol::OpenParenthesis,
        b')' => Symbol::CloseParenthesis,
        b',' => Symbol::Comma,
        b':' => Symbol::Colon,
        b'.' => Symbol::Dot,
        b'"' => return (Kind::Stop(6), 1),
        _ => return (Kind::Stop(3), 1),
    };
    (Kind::Symbol(symbol), 1)
}

/// The end of an identifier or literal that begins at `at`: each further byte
/// may have one underscore before it.
fn word_end(source: &[u8], at: usize, belongs: impl Fn(u8) -> bool) -> usize {
    let holds = |place: usize| source.get(place).is_some_and(|&byte| belongs(byte));
    let mut end = at + 1;
    loop {
        if holds(end) {
            end += 1;
        } else if source.get(end) == Some(&b'_') && holds(end + 1) {
            end += 2;
        } else {
            return end;
        }
    }
}

fn word_kind(word: &[u8]) -> Kind {
    let keyword = match word.to_ascii_lowercase().as_slice() {
        b"agent" | b"random" => return Kind::Stop(6),
        b"const" => Keyword::Const,
        b"dimensions" => Keyword::Dimensions,
        b"else" => Keyword::Else,
        b"elsif" => Keyword::Elsif,
        b"end" => Keyword::End,
        b"exit" => Keyword::Exit,
        b"for" => Keyword::For,
        b"forall" => Keyword::Forall,
        b"if" => Keyword::If,
        b"of" => Keyword::Of,
        b"otherwise" => Keyword::Otherwise,
        b"then" => Keyword::Then,
        b"when" => Keyword::When,
        _ => return Kind::Name,
    };
    Kind::Keyword(keyword)
}

/// "A literal directly followed by a letter or by a stray underscore is
/// refused 3 at the literal"; over 2147483647 it is refused 4.
fn literal_kind(source: &[u8], at: usize, end: usize) -> Kind {
    if let Some(&next) = source.get(end) {
        if next.is_ascii_alphabetic() || next == b'_' {
            return Kind::Stop(3);
        }
    }
    let mut value: i64 = 0;
    for &byte in &source[at..end] {
        if byte != b'_' {
            value = value * 10 + i64::from(byte - b'0');
            if value > GREATEST_LITERAL {
                return Kind::Stop(4);
            }
        }
    }
    Kind::Literal(value as i32)
}

/// The place after the separators and comments at `at`.
fn past_separators(source: &[u8], mut at: usize) -> usize {
    while at < source.len() {
        if is_separator(source[at]) {
            at += 1;
        } else if source[at] == b'#' {
            while at < source.len() && !ends_line(source[at]) {
                at += 1;
            }
        } else {
            break;
        }
    }
    at
}

/// The kind of the token after another, however many there are before it.
pub fn kind_behind(source: &[u8], token: Token) -> Option<Kind> {
    let at = past_separators(source, (token.start + token.length) as usize);
    (at < source.len()).then(|| read_token(source, at).0)
}

/// All tokens of a source of at most `MAX_SOURCE` bytes, with the stop.
pub fn lex(source: &[u8]) -> Vec<Token> {
    let mut tokens = Vec::new();
    let mut at = 0;
    loop {
        at = past_separators(source, at);
        if at == source.len() {
            tokens.push(Token {
                kind: Kind::Stop(7),
                start: at as u32,
                length: 0,
            });
            return tokens;
        }
        let (mut kind, length) = read_token(source, at);
        if tokens.len() == MAX_TOKENS && !matches!(kind, Kind::Stop(3) | Kind::Stop(4)) {
            kind = Kind::Stop(5);
        }
        tokens.push(Token {
            kind,
            start: at as u32,
            length: length as u32,
        });
        if matches!(kind, Kind::Stop(_)) {
            return tokens;
        }
        at += length;
    }
}
