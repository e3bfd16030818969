//! Spellings worked out by hand. In a source `^` stands before the token
//! named; it is taken out before the check.

use reference::limits;
use reference::{
    check, check_lent, run_full, run_quiet, spelling, Lent, Reply, Spelling, BUILT_IN,
};

const S: &str = "1 dimensions of 0..1 ";

/// Holds the reply to a marked source and its spelling to what is expected.
fn expect_part(number: u32, marked: &[u8], listed: bool, bytes: &[u8]) {
    let text = String::from_utf8_lossy(marked);
    let start = marked.iter().position(|&byte| byte == b'^').unwrap();
    let source = [&marked[..start], &marked[start + 1..]].concat();
    let reply = check_lent(&source, BUILT_IN);
    assert_eq!(
        (reply.number, reply.place as usize),
        (number, start),
        "{text}"
    );
    let length = bytes.len();
    let expected = if length == 0 {
        Spelling::Empty
    } else if listed {
        let start = BUILT_IN.windows(length).position(|part| part == bytes);
        let start = start.unwrap();
        Spelling::List { start, length }
    } else {
        Spelling::Source { start, length }
    };
    let found = spelling(&source, reply);
    assert_eq!(found, expected, "{text}");
    assert_eq!(found.bytes(&source, BUILT_IN), bytes, "{text}");
}

/// A spelling from the source, or an empty one.
fn expect(number: u32, marked: &str, bytes: &str) {
    expect_part(number, marked.as_bytes(), false, bytes.as_bytes());
}

/// The same with the shortest declaration in front.
fn expect_s(number: u32, marked: &str, bytes: &str) {
    expect(number, &format!("{S}{marked}"), bytes);
}

/// A spelling from the built-in list.
fn expect_listed(number: u32, marked: &str, bytes: &str) {
    expect_part(number, marked.as_bytes(), true, bytes.as_bytes());
}

/// The same with the shortest declaration in front.
fn expect_listed_s(number: u32, marked: &str, bytes: &str) {
    expect_listed(number, &format!("{S}{marked}"), bytes);
}

/// So many constants.
fn constants(count: usize) -> String {
    (0..count).map(|i| format!("const c{i} := 1 ")).collect()
}

#[test]
fn constant_rules() {
    expect(40, "^4 dimensions of 0..1", "4");
    expect(41, "1 dimensions of 1..-^1", "1");
    expect_s(41, "forall i : 1..^0_0 end", "0_0");
    expect_s(42, "forall i : 0..^4096 end", "4096");
    expect(43, "1 dimensions of a,b,c,d,e,f,g,h,^i of 0..1 end", "i");
    expect(44, "const a[] for ^1025 := 1", "1025");
    expect(44, "const n := 0 const a[] for ^N := 1", "N");
    expect(45, &format!("const a[] for 2 := 1,2^,3 {S}"), ",");
    expect(40, "const a[] for 3 := 1,2 ^4 dimensions of 0..1", "4");
    expect_listed_s(45, "const a[] for 2 := 1 ^cell.q := 1", "cell");
    expect_s(45, "const a[] for 3 := 1,2^", "");
    let front = constants(255);
    expect_s(45, &format!("{front}const a[] for 2 := 1 ^x := 1"), "x");
}

#[test]
fn what_ends_the_tokens() {
    expect_s(3, "^12ab", "1");
    expect_s(3, "^1_", "1");
    expect_s(3, "x^_", "_");
    expect_s(3, "^$$", "$");
    expect_part(3, b"^\xc3\xa9", false, b"\xc3");
    expect_s(4, "cell := ^2147483648", "2147483648");
    expect_s(4, "cell := ^9_999_999_999", "9_999_999_999");
    for form in ["->", "+%", "-%", "\"", "agent", "AGENT", "aGent"] {
        expect_s(6, &format!("^{form}"), form);
        expect_s(6, &format!("cell := 1 ^{form} 2"), form);
    }
    // 4,096 tokens stand in front.
    let front = format!("{S}{}x", "x := 1 ".repeat(1_363));
    for token in ["y", "CONST", ":=", "..", "(", "2147483647", "+%", "agent"] {
        expect(5, &format!("{front} ^{token}"), token);
    }
    for (token, name) in [("cell", "cell"), ("Time", "time"), ("RANDOM", "random")] {
        expect_listed(5, &format!("{front} ^{token}"), name);
    }
    expect(4, &format!("{front} ^2147483648"), "2147483648");
}

#[test]
fn predefined_names() {
    let named = "1 dimensions of f of 0..1 end cell.f := cell.";
    for name in ["random", "RanDom", "RANDOM"] {
        expect_listed_s(6, &format!("cell := ^{name}"), "random");
        expect_listed_s(6, &format!("^{name} := 1"), "random");
        expect_listed(6, &format!("{named}^{name}"), "random");
        expect_listed(6, &format!("const ^{name} := 1"), "random");
    }
    for (name, lower) in [("cell", "cell"), ("CELL", "cell"), ("tIme", "time")] {
        expect_listed(8, &format!("^{name} dimensions"), lower);
        expect_listed_s(7, &format!("cell ^{name}"), lower);
        expect_listed(9, &format!("const ^{name} := 1"), lower);
        expect_listed(9, &format!("1 dimensions of ^{name} of 0..1 end"), lower);
        expect_listed_s(9, &format!("forall ^{name} : 0..1 end"), lower);
        expect_listed(12, &format!("{named}^{name}"), lower);
    }
    expect_listed_s(9, "^TIME := 1", "time");
    let nine = "1 dimensions of a,b,c,d,e,f,g,h,^CELL of 0..1 end";
    expect_listed(9, nine, "cell");
    let noted = format!("const a[] for 1 := 1 {S}x := a ^Cell := 1");
    expect_listed(12, &noted, "cell");
    // Other names that begin so, or with which these begin.
    for name in ["cells", "cel", "ce_ll", "time1", "tim", "random1", "rando"] {
        expect_s(8, &format!("cell := ^{name}"), name);
    }
    expect_s(3, "cell^_", "_");
}

#[test]
fn words_and_literals() {
    let keywords = "const Dimensions ELSE elsif end EXIT for forAll if oF otherwise then When";
    for keyword in keywords.split(' ') {
        expect_s(7, &format!("cell := ^{keyword}"), keyword);
    }
    expect_s(8, "x := ^y", "y");
    expect_s(8, "x := ^Y_1z#comment", "Y_1z");
    expect_s(8, "x := 1+^y+1", "y");
    expect(9, "const a := 1 const ^A := 1", "A");
    expect_s(7, "cell ^1_0 := 1", "1_0");
    expect_s(14, &format!("{}^If 1", "if 1 then ".repeat(16)), "If");
    let front = constants(256);
    expect_s(15, &format!("{front}^long_name := 1"), "long_name");
}

#[test]
fn symbols() {
    let symbols = "+ - * / % & | ! = < > [ ] ( ) , : . := .. <= >= !=";
    for symbol in symbols.split(' ') {
        expect_s(7, &format!("^{symbol}1"), symbol);
    }
    for symbol in ["=", "!=", "<", "<=", ">", ">="] {
        expect_s(13, &format!("cell := 1 < 2 ^{symbol} 3"), symbol);
    }
    expect_s(12, "x := cell^.a", ".");
    expect_s(12, "x := [1^,1]", ",");
    expect(12, "2 dimensions of 0..1 x := [1^]", "]");
    expect_s(14, &format!("x := {}^(", "(".repeat(16)), "(");
    expect_s(6, "x^[1] := 1", "[");
    expect_s(6, "x := 1^, 1", ",");
}

#[test]
fn the_end_of_the_source() {
    expect(7, "^", "");
    expect_s(7, "if 1 then^", "");
    expect_s(7, "if 1 then # if \n ^", "");
    expect_s(6, "forall x^", "");
    expect(6, "1 dimensions of a of 0..1 end cell^", "");
    expect(12, &format!("const a[] for 1 := 1 {S}cell := a ^"), "");
}

#[test]
fn replies_that_name_a_token() {
    let source = b"CELL ..then";
    for number in (4..=15).chain(40..=45) {
        let at = |place| spelling(source, Reply { number, place });
        assert_eq!(at(0).numbers(), [2, 0, 4]);
        assert_eq!(at(5).bytes(source, BUILT_IN), b"..");
        assert_eq!(at(7).numbers(), [1, 7, 4]);
        assert_eq!(at(11), Spelling::Empty);
    }
}

#[test]
fn replies_that_name_no_token() {
    let source = b"cell cell cell";
    for number in (0..=2).chain(16..=39).chain(46..=70) {
        for place in [0, 5, 14] {
            let found = spelling(source, Reply { number, place });
            assert_eq!(found, Spelling::Empty, "{number} at {place}");
            assert_eq!(found.bytes(source, BUILT_IN), b"");
            assert_eq!(found.numbers(), [0, 0, 0]);
        }
    }
    let accepted = check(S.as_bytes()).reply;
    assert_eq!(accepted.number, 0);
    assert_eq!(spelling(S.as_bytes(), accepted), Spelling::Empty);
    let long = limits::lengths().into_iter().max_by_key(Vec::len).unwrap();
    let too_long = check(&long).reply;
    assert_eq!(too_long.number, 2);
    assert_eq!(spelling(&long, too_long), Spelling::Empty);
}

#[test]
fn numbers() {
    let of = |source: &str| {
        let source = source.as_bytes();
        spelling(source, check(source).reply).numbers()
    };
    assert_eq!(of(&format!("{S}x := y")), [1, 26, 1]);
    assert_eq!(of("CELL"), [2, 0, 4]);
    assert_eq!(of("TIME"), [2, 5, 4]);
    assert_eq!(of("RANDOM"), [2, 10, 6]);
    assert_eq!(of(""), [0, 0, 0]);
}

#[test]
fn another_list() {
    let lists: [&[u8]; 10] = [
        b"",
        b"cell",
        b"Cell time random",
        b"CELL TIME RANDOM",
        b"time cell random",
        b"cell  time random",
        b"cell time random ",
        b"cell time random\n",
        b"cell time rando",
        b"cell,time,random",
    ];
    let long = vec![b' '; 65_536];
    let sources = [b"", S.as_bytes(), b"cell", &long];
    let refused = Reply {
        number: 1,
        place: 0,
    };
    for list in lists {
        for source in sources {
            assert_eq!(check_lent(source, list), refused);
            assert_eq!(spelling(source, refused), Spelling::Empty);
            let lent = Lent {
                source,
                list,
                words: 16_384,
                names: 256,
                shape: &[1],
                values: &[],
                start: 0,
                steps: 1,
            };
            for run in [run_full, run_quiet] {
                let (mut grid, mut scratch, mut marks) = ([7], [7], [7]);
                let report = run(&lent, &mut grid, &mut scratch, &mut marks);
                assert_eq!((report.number, report.place, report.count), (1, 0, 0));
                assert_eq!((grid, scratch, marks), ([7], [7], [7]));
            }
        }
    }
    assert_eq!(check_lent(S.as_bytes(), BUILT_IN).number, 0);
}
