//! Sources on both sides of every limit.

use crate::lex::{MAX_SOURCE, MAX_TOKENS};
use crate::names::MAX_NAMES;
use crate::random::Random;

/// The shortest declaration, with its space.
pub const S: &str = "1 dimensions of 0..1 ";

fn with_s(rest: &str) -> Vec<u8> {
    format!("{S}{rest}").into_bytes()
}

// Length of the source.

fn filled(mut source: Vec<u8>, length: usize, byte: u8) -> Vec<u8> {
    source.resize(length.max(source.len()), byte);
    source
}

/// Sources of about the greatest length.
pub fn lengths() -> Vec<Vec<u8>> {
    let assigned = with_s("cell := 1 ");
    let commented = with_s("cell := 1 # ");
    let mut row = vec![
        filled(assigned.clone(), MAX_SOURCE, b' '),
        filled(assigned.clone(), MAX_SOURCE + 1, b' '),
        filled(commented.clone(), MAX_SOURCE, b'$'),
        filled(commented.clone(), MAX_SOURCE + 1, b'$'),
        filled(commented, 70_000, 0xff),
        filled(Vec::new(), MAX_SOURCE, b'\n'),
        filled(Vec::new(), MAX_SOURCE + 1, b'\n'),
    ];
    let mut last_wrong = filled(assigned.clone(), MAX_SOURCE - 1, b'\t');
    last_wrong.push(b'$');
    row.push(last_wrong);
    let mut last_beyond = filled(assigned, MAX_SOURCE, 12);
    last_beyond.push(b'$');
    row.push(last_beyond);
    let mut ends_exactly = filled(b"# ".to_vec(), MAX_SOURCE - 35, b'x');
    ends_exactly.push(b'\r');
    ends_exactly.extend(with_s("cell := cell"));
    row.push(filled(ends_exactly, MAX_SOURCE, b'\n'));
    let mut long_name = with_s("");
    long_name = filled(long_name, MAX_SOURCE - 4, b'q');
    long_name.extend(b" :=1");
    row.push(long_name);
    let mut long_literal = with_s("cell := ");
    long_literal = filled(long_literal, MAX_SOURCE - 1, b'0');
    long_literal.push(b'1');
    row.push(long_literal);
    let long_number = filled(with_s("cell := "), MAX_SOURCE, b'1');
    row.push(long_number);
    row
}

// Number of tokens.

/// A program of exactly `count` tokens, at least 12.
pub fn of_tokens(count: usize) -> String {
    let rest = count - 6;
    let (statements, additions) = match rest % 3 {
        0 => (rest / 3, 0),
        2 => (rest / 3, 1),
        _ => (rest / 3 - 1, 2),
    };
    let mut text = S.to_string();
    for _ in 0..statements {
        text.push_str("x:=1 ");
    }
    for _ in 0..additions {
        text.push_str("+1 ");
    }
    text
}

/// Programs of a given number of tokens, then one more.
pub fn token_counts() -> Vec<Vec<u8>> {
    let mut row = Vec::new();
    let after = [
        "",
        "x",
        "+",
        "]",
        "$",
        "_",
        "1_",
        "2147483648",
        "->",
        "+%",
        "-%",
        "\"",
        "agent",
        "random",
        "# only a comment",
        "end",
        "if",
        "otherwise",
    ];
    for last in after {
        row.push(format!("{}{last}", of_tokens(MAX_TOKENS)).into_bytes());
    }
    row.push(of_tokens(MAX_TOKENS - 1).into_bytes());
    row.push(of_tokens(MAX_TOKENS + 1).into_bytes());
    row.push(of_tokens(MAX_TOKENS + 7).into_bytes());
    row.push(format!("{}$ x := y", of_tokens(MAX_TOKENS - 1)).into_bytes());
    row.push(format!("{}x := 1", of_tokens(MAX_TOKENS - 3)).into_bytes());
    row.push(format!("{}x := 1", of_tokens(MAX_TOKENS - 2)).into_bytes());
    row.push(format!("{}x := 1", of_tokens(MAX_TOKENS - 1)).into_bytes());
    row.push(format!("{}x := y", of_tokens(MAX_TOKENS - 3)).into_bytes());
    row.push(format!("{}x := y", of_tokens(MAX_TOKENS - 2)).into_bytes());
    row.push(format!("{}cell , y", of_tokens(MAX_TOKENS - 2)).into_bytes());
    // An array constant without `[`, then the 4,097th token.
    let array = "const a[] for 1 := 1 ";
    for last in ["a", "a ]", "a +", "a $", "a 2147483648", "a ->"] {
        row.push(format!("{}{array}x := {last}", of_tokens(MAX_TOKENS - 11)).into_bytes());
    }
    // A list that is too short, then the 4,097th token.
    for last in ["", "x", "$", "->", "2147483648"] {
        let text = of_tokens(MAX_TOKENS - 8);
        row.push(format!("{text}const a[] for 2 := 1 {last}").into_bytes());
    }
    for (count, last, rest) in AFTER_OF {
        row.push(format!("{}{rest}", up_to_of(count, last)).into_bytes());
    }
    row
}

/// Constants c0, c1 and so on and the arrays a and b, so many that the declaration's `of`, the last word, is token number `last`.
pub fn up_to_of(count: usize, last: usize) -> String {
    let left = last - 3 - 4 * count - 12;
    let sign = if left.is_multiple_of(2) { "" } else { "-" };
    let list = |length: usize| format!("for {length}:={}1", "1,".repeat(length - 1));
    let (long, short) = (list(1_024), list(left / 2 - 1_024));
    let text = format!("{}const a[] {long} const b[] {short}", constants(count));
    let signed = text.replacen(":=1", &format!(":={sign}1"), 1);
    format!("{signed} 1 dimensions of ")
}

/// A name after the declaration's `of` and what follows it, about the greatest number of tokens: how many constants there are, the
/// number of `of`, and the rest.
const AFTER_OF: [(usize, usize, &str); 25] = [
    (0, MAX_TOKENS - 1, "q..1"),
    (0, MAX_TOKENS - 1, "a..1"),
    (0, MAX_TOKENS - 1, "cell..1"),
    (0, MAX_TOKENS - 1, "time..1"),
    (0, MAX_TOKENS - 1, "q of 0..1"),
    (0, MAX_TOKENS - 1, "cell of 0..1"),
    (0, MAX_TOKENS - 1, "q,"),
    (0, MAX_TOKENS - 1, "q["),
    (0, MAX_TOKENS - 1, "q."),
    (0, MAX_TOKENS - 1, "q->"),
    (0, MAX_TOKENS - 1, "q$"),
    (0, MAX_TOKENS - 1, "q 2147483648"),
    (0, MAX_TOKENS - 1, "q"),
    (0, MAX_TOKENS - 2, "q..1"),
    (2, MAX_TOKENS - 1, "c1..5"),
    (2, MAX_TOKENS - 1, "c1 # ->\n..5"),
    (2, MAX_TOKENS - 1, "c1 of 0..1"),
    (2, MAX_TOKENS - 2, "c1..5"),
    (2, MAX_TOKENS - 3, "c1..5"),
    (2, MAX_TOKENS, "c1..5"),
    (MAX_NAMES - 2, MAX_TOKENS - 1, "c1..5"),
    (MAX_NAMES - 2, MAX_TOKENS - 1, "c1 of 0..1"),
    (MAX_NAMES - 2, MAX_TOKENS - 1, "q..1"),
    (MAX_NAMES - 2, MAX_TOKENS - 1, "q of 0..1"),
    (MAX_NAMES - 2, MAX_TOKENS - 3, "c1..5"),
];

// Number of names.

fn constants(count: usize) -> String {
    (0..count).map(|i| format!("const c{i}:=1 ")).collect()
}

fn variables(count: usize) -> String {
    (0..count).map(|i| format!("v{i}:=1 ")).collect()
}

/// Sources with about the greatest number of names.
pub fn name_counts() -> Vec<Vec<u8>> {
    let full = MAX_NAMES;
    let mut row = Vec::new();
    for count in [full - 1, full, full + 1] {
        row.push(format!("{}{S}", constants(count)).into_bytes());
        row.push(with_s(&variables(count)));
        row.push(with_s(&constants(count)));
        row.push(with_s(&"forall i:0..0 end ".repeat(count)));
        let nested = "forall i:0..0 forall j:1..1 end end ".repeat(count / 2);
        row.push(with_s(&nested));
        let arrays: String = (0..count)
            .map(|i| format!("const c{i}[]for 1:=7 "))
            .collect();
        row.push(format!("{arrays}{S}").into_bytes());
    }
    row.extend(index_counts());
    let all = variables(full);
    for last in [
        "w := 1",
        "v0 := 2",
        "cell := 2",
        "time := 2",
        "const w := 1",
        "const v9 := 1",
        "const w [ ] for 1 := 1",
        "forall w : 0..1 end",
        "forall v9 : 0..1 end",
        "forall cell : 0..1 end",
        "cell := w",
        "w [ 0 ] := 1",
        "exit",
        "const cell := 1",
    ] {
        row.push(with_s(&format!("{all}{last}")));
    }
    for (count, fields) in [
        (full, "a of 0..1 end"),
        (full, "cell of 0..1 end"),
        (full - 1, "a of 0..1 end"),
        (full - 1, "a, b of 0..1 end"),
        (full - 1, "a, a of 0..1 end"),
        (full - 8, "a,b,c,d,e,f,g,h of 0..1 end"),
        (full - 8, "a,b,c,d,e,f,g,h,i of 0..1 end"),
        (full - 8, "a,b,c,d,e,f,g,h,a of 0..1 end"),
        (full - 7, "a,b,c,d,e,f,g,h of 0..1 end"),
        (full - 7, "a,b,c,d,e,f,g,h,i of 0..1 end"),
        (full - 8, "a,b,c,d,e,f,g,h of 0..1 end x := 1"),
        (full - 8, "a,b,c,d,e,f,g of 0..1 end a := 1 cell.a := a"),
    ] {
        row.push(format!("{}1 dimensions of {fields}", constants(count)).into_bytes());
    }
    row
}

/// Sources in which records of indices are freed and taken again.
pub fn index_counts() -> Vec<Vec<u8>> {
    let full = MAX_NAMES;
    let mut row = Vec::new();
    // Short loops in a row, of one name and of many, beside nothing, and beside
    // names that leave room for one index, for two, and for none.
    row.push(with_s(&"forall i : 0..1 x := i end ".repeat(full + 1)));
    let loops: String = (0..=full)
        .map(|i| format!("forall i{i}:0..1 end "))
        .collect();
    row.push(with_s(&loops));
    for names in [full - 2, full - 1, full] {
        row.push(with_s(&format!("{}{loops}", constants(names))));
        row.push(with_s(&format!("{loops}{}", variables(names))));
    }
    // All names at once, inside nested loops.
    for depth in [1, 16] {
        let open: String = (0..depth).map(|i| format!("forall i{i}:0..1 ")).collect();
        let close = "end ".repeat(depth);
        for names in [full - depth - 1, full - depth, full - depth + 1] {
            let inner = variables(names);
            row.push(with_s(&format!("{open}{inner}{close}")));
            row.push(with_s(&format!("{open}{inner}{close}w := v0 z := v1")));
            row.push(with_s(&format!("{inner}{open}cell := i0 {close}w := 1")));
        }
    }
    // Declared inside a loop whose index record they outlive.
    for inner in [
        "x := i",
        "const k := -1",
        "const a[] for 2 := 5, 6",
        "x := i const k := 7 y := x + k const a[] for 1 := k z := a[0] + y",
        "forall j : 0..1 x := i + j end y := x",
        "forall j : 0..1 x := 1 end forall j : 0..1 y := x + j end",
    ] {
        row.push(with_s(&format!(
            "u := 1 forall i : 0..1 {inner} v := u end w := v cell := w"
        )));
        row.push(with_s(&format!("forall i : 0..1 {inner} end cell := x")));
        row.push(with_s(&format!("forall i : 0..1 {inner} end cell := y")));
        row.push(with_s(&format!("forall i : 0..1 {inner} end cell := k")));
        row.push(with_s(&format!("forall i : 0..1 {inner} end cell := a[0]")));
        row.push(with_s(&format!("forall i : 0..1 {inner} end cell := i")));
    }
    // A name reused: as an index and then otherwise, and the other way.
    for text in [
        "forall i : 0..1 end i := 3 cell := i",
        "forall i : 0..1 x := i end i := x forall j : 0..1 i := i + j end",
        "forall i : 0..1 end const i := 3 cell := [i]",
        "forall i : 0..1 end const i[] for 1 := 1 cell := i[0]",
        "i := 1 forall i : 0..1 end",
        "const i := 1 forall i : 0..1 end",
        "forall i : 0..1 i := 1 end",
        "forall i : 0..1 const i := 1 end",
        "forall i : 0..1 forall i : 0..1 end end",
        "forall i : 0..1 forall j : 0..1 end j := i end i := j",
        "forall i : 0..1 forall j : 0..1 end forall j : 0..1 cell := [j] end end",
        "forall i : 0..1 cell := [i] end forall j : 0..1 cell := [i] end",
    ] {
        row.push(with_s(text));
    }
    // The last record, on both sides.
    for (names, text) in [
        (full - 1, "forall i : 0..1 x := 1 end"),
        (full - 1, "forall i : 0..1 end x := 1"),
        (full - 1, "forall i : 0..1 end x := 1 y := 1"),
        (full - 1, "x := 1 forall i : 0..1 end"),
        (full, "forall i : 0..1 end"),
        (full - 2, "forall i : 0..1 forall j : 0..1 end k := 1 end"),
        (full - 2, "forall i : 0..1 forall j : 0..1 k := 1 end end"),
        (full - 2, "forall i : 0..1 k := 1 end forall j : 0..1 end"),
        (full - 2, "forall i : 0..1 k := 1 forall j : 0..1 end end"),
        (full - 2, "forall i : 0..1 k := 1 end l := 1 cell := l"),
        (full - 2, "forall i : 0..1 k := 1 end l := 1 m := 1"),
    ] {
        row.push(with_s(&format!("{}{text}", constants(names))));
    }
    row
}

/// Names up to about the greatest number, with loops that take and free some.
fn near_full(random: &mut Random) -> String {
    let mut text = constants(MAX_NAMES - random.below(8));
    let mut depth = 0;
    for _ in 0..random.below(30) {
        let number = random.below(6);
        match random.below(9) {
            0..=2 if depth < 16 => {
                depth += 1;
                text += &format!("forall i{number} : 0..1 ");
            }
            3..=5 if depth > 0 => {
                depth -= 1;
                text += "end ";
            }
            6 => text += &format!("const d{number} := 1 "),
            7 => text += &format!("cell := i{number} "),
            _ => text += &format!("i{number} := 1 v{number} := v{number} "),
        }
    }
    text + &"end ".repeat(depth)
}

// Nesting.

/// What opens: statements first, then parts of expressions, and what stands
/// innermost.
#[derive(Clone, Copy, PartialEq, Eq)]
pub enum Inner {
    Literal,
    Relative,
    ArrayDeclaration,
    WrongBracket,
}

/// A program with `statements` of `if` and `forall` (by the bits of `which`)
/// around an expression with `parts` parentheses and array brackets.
pub fn nested(statements: usize, parts: usize, which: u64, inner: Inner) -> String {
    let mut text = format!("const a[] for 1 := 0 {S}");
    for level in 0..statements {
        if which >> level & 1 == 0 {
            text.push_str("if 1 then ");
        } else {
            text.push_str(&format!("forall i{level} : 0..0 "));
        }
    }
    if inner == Inner::ArrayDeclaration {
        text.push_str("const b [ ] for 1 := 3 ");
    } else {
        text.push_str("cell := ");
        let mut closing = Vec::new();
        for level in 0..parts {
            if which >> (level + 20) & 1 == 0 {
                text.push_str("( ");
                closing.push(") ");
            } else {
                text.push_str("a [ ");
                closing.push("] ");
            }
        }
        text.push_str(match inner {
            Inner::Relative => "[ 0 ] ",
            Inner::WrongBracket => "cell [ 0 ] ",
            _ => "0 ",
        });
        while let Some(close) = closing.pop() {
            text.push_str(close);
        }
    }
    text.push_str(&"end ".repeat(statements));
    text
}

fn nestings() -> Vec<Vec<u8>> {
    let mut row = Vec::new();
    let mut random = Random::new(14);
    for statements in 0..18 {
        for total in [15_usize, 16, 17] {
            let parts = total.saturating_sub(statements);
            let which = random.word();
            row.push(nested(statements, parts, which, Inner::Literal).into_bytes());
            let fewer = parts.saturating_sub(1);
            row.push(nested(statements, fewer, which, Inner::Relative).into_bytes());
            row.push(nested(statements, parts, which, Inner::WrongBracket).into_bytes());
        }
        row.push(nested(statements, 0, random.word(), Inner::ArrayDeclaration).into_bytes());
    }
    for depth in [15, 16, 17] {
        let open = "(".repeat(depth);
        let close = ")".repeat(depth);
        row.push(with_s(&format!("if {open}1{close} then end")));
        row.push(with_s(&format!("cell := {open}1{close}")));
        row.push(with_s(&format!(
            "cell := 1 when {open}1{close} := 0 otherwise"
        )));
        row.push(with_s(&format!("cell := {open}")));
        row.push(with_s(&"if 1 then ".repeat(depth)));
        row.push(with_s(&"if 1 then end ".repeat(depth)));
        row.push(with_s(&"if ( ".repeat(depth)));
    }
    row
}

// The other limits.

fn arrays() -> Vec<Vec<u8>> {
    let mut row = Vec::new();
    for (size, given) in [
        (0, 0),
        (0, 1),
        (1, 0),
        (1, 1),
        (1, 2),
        (2, 1),
        (2, 2),
        (2, 3),
        (5, 4),
        (5, 5),
        (5, 6),
        (1023, 1023),
        (1024, 1023),
        (1024, 1024),
        (1024, 1025),
        (1025, 1),
        (1025, 1025),
        (2147483647, 1),
    ] {
        let values: Vec<&str> = (0..given).map(|i| ["7", "-7", "+0"][i % 3]).collect();
        let values = values.join(",");
        row.push(format!("const a[] for {size} := {values} {S}").into_bytes());
        if given < 10 {
            row.push(format!("{S}const a[] for {size} := {values}").into_bytes());
            row.push(format!("{S}const a[] for {size} := {values} cell := 1").into_bytes());
            row.push(format!("{S}const a[] for {size} := {values} exit").into_bytes());
            row.push(format!("{S}if 1 then const a[] for {size} := {values}").into_bytes());
            row.push(format!("const a[] for {size} := {values}").into_bytes());
            row.push(format!("const a[] for {size} := {values} 4 dimensions").into_bytes());
            row.push(format!("const a[] for {size} := {values} zz dimensions").into_bytes());
            row.push(format!("const n := {size} const a[] for n := {values} {S}").into_bytes());
            row.push(format!("const n := -{size} const a[] for n := {values} {S}").into_bytes());
            row.push(
                format!("{S}x := 1 const n := 1 const a[] for {size} := {values} n := 1")
                    .into_bytes(),
            );
        }
    }
    row
}

fn ranges() -> Vec<Vec<u8>> {
    let mut row = Vec::new();
    for (low, high) in [
        ("0", "4095"),
        ("0", "4096"),
        ("1", "4096"),
        ("1", "4097"),
        ("-1", "4094"),
        ("-1", "4095"),
        ("-4095", "0"),
        ("-4096", "0"),
        ("- 4096", "- 1"),
        ("3", "2"),
        ("3", "3"),
        ("-3", "-4"),
        ("+3", "-3"),
        ("-2147483647", "2147483647"),
        ("2147483647", "2147483647"),
        ("-2147483647", "-2147483647"),
        ("2147483647", "-2147483647"),
        ("n", "n"),
        ("-n", "n"),
        ("n", "-n"),
        ("-n", "- n"),
        ("m", "n"),
        ("-m", "m"),
        ("0", "zz"),
        ("zz", "0"),
        ("i", "1"),
        ("0", "i"),
        ("cell", "1"),
        ("0", "time"),
        ("- -1", "1"),
        ("0", "+ +1"),
        ("0", ""),
    ] {
        let known = "const n := 5 const m := -7 ";
        row.push(format!("{known}{S}forall i : {low}..{high} end").into_bytes());
        row.push(
            format!("{known}{S}forall i:{low}..{high} cell:=i when i=1 exit end").into_bytes(),
        );
        row.push(format!("{known}1 dimensions of {low}..{high}").into_bytes());
        row.push(format!("{known}1 dimensions of i of {low}..{high} end").into_bytes());
    }
    for count in 0..5 {
        row.push(format!("{count} dimensions of 0..1").into_bytes());
        row.push(format!("{count}").into_bytes());
        row.push(format!("const d := {count} d dimensions of 0..1").into_bytes());
        row.push(format!("const d := -{count} d dimensions of 0..1").into_bytes());
        row.push(format!("-{count} dimensions of 0..1").into_bytes());
        for given in 1..5 {
            let index = vec!["0"; given].join(",");
            row.push(format!("{count} dimensions of 0..1 cell := [{index}]").into_bytes());
            row.push(
                format!("{count} dimensions of a of 0..1 end cell.a := [{index}].a").into_bytes(),
            );
            row.push(format!("{count} dimensions of 0..1 cell := [{index},]").into_bytes());
        }
    }
    for count in 1..11 {
        let names: Vec<String> = (0..count).map(|i| format!("f{i}")).collect();
        let together = names.join(",");
        row.push(format!("1 dimensions of {together} of 0..1 end").into_bytes());
        let apart: String = names
            .iter()
            .map(|n| format!("const {n} of 0..1 "))
            .collect();
        row.push(format!("1 dimensions of {apart} end").into_bytes());
        row.push(format!("1 dimensions of {together}, F0 of 0..1 end").into_bytes());
        row.push(format!("1 dimensions of {together}, time of 0..1 end").into_bytes());
    }
    row
}

fn spellings() -> Vec<Vec<u8>> {
    let mut row = Vec::new();
    let words = [
        "2147483647",
        "2147483648",
        "2_147_483_647",
        "2_147_483_648",
        "99999999999999999999",
        "00002147483647",
        "0000",
        "0_0",
        "1__0",
        "1_",
        "1_a",
        "1a",
        "_1",
        "1 _2",
        "a_",
        "a__b",
        "_a",
        "a_1",
        "A_b_C",
        "a1_2",
        "9a_",
        "2147483648a",
        "99999999999_",
        "_",
        "__",
        "a_ ",
        "a_b_",
        "1_2_3",
        "1_2_",
        "0x",
        "1e5",
        "2147483648_0",
        "21474836470",
        "a_+",
        "1_+",
        "1.5",
        "1..",
        ".1",
        "a.b",
        "1 .. 2",
        "$",
        "\u{1}",
        "é",
        "cell_",
        "time_1",
        "_time",
    ];
    for word in words {
        for form in [
            "1 dimensions of 0..1 cell := @",
            "1 dimensions of 0..1 @ := 1",
            "1 dimensions of 0..1 a_b_c := 1 a1_2 := 2 cell := @ + 1",
            "const c := @ 1 dimensions of 0..1",
            "const c := - @ 1 dimensions of 0..1",
            "@ dimensions of 0..1",
            "1 dimensions of @ of 0..1 end",
            "1 dimensions of 0..@",
            "1 dimensions of 0..1 cell := [@]",
            "@",
        ] {
            row.push(form.replace('@', word).into_bytes());
        }
    }
    let keywords = [
        "agent",
        "const",
        "dimensions",
        "else",
        "elsif",
        "end",
        "exit",
        "for",
        "forall",
        "if",
        "of",
        "otherwise",
        "then",
        "when",
        "random",
        "cell",
        "time",
    ];
    for word in keywords {
        let mut mixed = word.to_string();
        mixed[..1].make_ascii_uppercase();
        let last = mixed.len() - 1;
        mixed[last..].make_ascii_uppercase();
        for form in [word.to_ascii_uppercase(), mixed, word.to_string()] {
            row.push(form.clone().into_bytes());
            row.push(with_s(&form));
            row.push(with_s(&format!("cell := {form}")));
            row.push(format!("const {form} := 1 {S}").into_bytes());
            row.push(with_s(&format!("{form}x := 1")));
            row.push(with_s(&format!("{form}_x := 1 cell := {form}_X")));
        }
    }
    let whole = "const N[] for 2 := 1,-1 const m := 3 2 dimensions of const A of 0..1 \
                 b of -m..m end forall i : -1..1 if [i,0].a = n[0] then exit elsif cell.A then \
                 cell.B := 1 when time := 2 otherwise else y := cell.b end end";
    row.push(whole.as_bytes().to_vec());
    row.push(whole.to_ascii_uppercase().into_bytes());
    row.push(whole.to_ascii_lowercase().into_bytes());
    row.push(whole.replace(' ', "\x0b").into_bytes());
    row.push(whole.replace(' ', "\r").into_bytes());
    row.push(whole.replace(' ', "#\r").into_bytes());
    row.push(whole.replace(' ', "\t#x\n\x0c").into_bytes());
    row
}

fn bytes() -> Vec<Vec<u8>> {
    let mut row = Vec::new();
    for byte in 0..=255u8 {
        let mut at_start = vec![byte];
        at_start.extend_from_slice(S.as_bytes());
        row.push(at_start);
        let mut at_end = with_s("cell := 1");
        at_end.push(byte);
        row.push(at_end);
        let mut within = with_s("x:=1 cell:=x");
        within.push(byte);
        within.extend_from_slice(b"1");
        row.push(within);
        let mut comment = with_s("cell := 1 # c");
        comment.push(byte);
        comment.extend_from_slice(b" x := 1");
        row.push(comment);
    }
    row
}

/// All sources of small and middling size.
pub fn small() -> Vec<Vec<u8>> {
    let mut row = nestings();
    row.extend(arrays());
    row.extend(ranges());
    row.extend(spellings());
    row.extend(bytes());
    row
}

/// A source at some limit, chosen at random. The sources that are long are
/// seldom.
pub fn any(random: &mut Random, small_only: bool) -> Vec<u8> {
    let kind = if small_only {
        random.below(6)
    } else {
        random.below(12)
    };
    match kind {
        0..=3 => {
            let statements = random.below(17);
            let total = 15 + random.below(3);
            let inner = *random.pick(&[
                Inner::Literal,
                Inner::Literal,
                Inner::Relative,
                Inner::ArrayDeclaration,
                Inner::WrongBracket,
            ]);
            let parts = total.saturating_sub(statements);
            nested(statements, parts, random.word(), inner).into_bytes()
        }
        4 => {
            let size = random.below(4);
            let given = random.below(4);
            let values = vec!["1"; given].join(",");
            let after = *random.pick(&["", S, "x := 1", "zz", "4", "-", "1 dimensions of"]);
            let before = *random.pick(&["", "", S]);
            format!("{before}const a[] for {size} := {values} {after}").into_bytes()
        }
        5 => {
            let low = random.between(-4_200, 4_200);
            let high = low + 4_094 + random.between(0, 3);
            with_s(&format!("forall i:{low}..{high} end"))
        }
        6 | 7 => {
            let count = MAX_NAMES - 2 + random.below(4);
            let first = random.below(count + 1);
            let last =
                *random.pick(&["", "w := 1", "cell := v1", "forall w:0..1 end", "time := 1"]);
            let variables = variables(count - first);
            format!("{}{S}{variables}{last}", constants(first)).into_bytes()
        }
        8 | 9 => {
            let count = MAX_TOKENS - 3 + random.below(5);
            let last = *random.pick(&["", "", "x", "$", "2147483648", "->", "]", "x := y"]);
            format!("{}{last}", of_tokens(count)).into_bytes()
        }
        10 => with_s(&near_full(random)),
        _ => {
            let length = MAX_SOURCE - 1 + random.below(4);
            let begun = random.pick(&["", "cell := ", "cell := 1 #", "x := y #", "cell := 1 "]);
            let start = with_s(begun);
            let byte = *random.pick(b" 0#x\n$");
            filled(start, length, byte)
        }
    }
}
