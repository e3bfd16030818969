//! Replies worked out by hand. In a source `^` stands before the token named;
//! it is taken out before the check.

use reference::check;
use reference::limits;

fn expect(number: u32, marked: &str) {
    let place = marked.find('^').unwrap_or(0);
    let source = marked.replacen('^', "", 1);
    let reply = check(source.as_bytes()).reply;
    assert_eq!(
        (reply.number, reply.place as usize),
        (number, place),
        "{marked}"
    );
}

/// With the shortest declaration in front.
fn expect_s(number: u32, marked: &str) {
    expect(number, &format!("1 dimensions of 0..1 {marked}"));
}

/// With a constant n, an array a and a variable x in front.
fn expect_n(number: u32, marked: &str) {
    let front = "const n := 1 const a[] for 2 := 3, -n 1 dimensions of 0..1 x := 1";
    expect(number, &format!("{front} {marked}"));
}

/// With the fields f and g, g a const field, in front.
fn expect_f(number: u32, marked: &str) {
    let front = "1 dimensions of f of 0..1 const g of 0..1 end";
    expect(number, &format!("{front} {marked}"));
}

#[test]
fn noted_complaints() {
    expect_n(7, "cell := a ^)");
    expect_n(12, "cell := a ^+ 1");
    expect_n(12, "cell := a^");
    expect_n(7, "if a^");
    expect_n(12, "cell := a ^x := 1");
    expect_n(9, "cell := a ^n := 1");
    expect_n(6, "cell := a ^, 1");
    expect_n(7, "cell := 1 when a ^, 1");
    expect_n(12, "cell := 1 when a ^:= 0 otherwise");
    expect_n(12, "cell := a ^. x");
    expect_n(12, "cell := (a ^) )");
    expect_n(12, "cell := a[a ^]");
    expect_n(3, "cell := a ^$");
    expect_n(4, "cell := a ^2147483648");
    expect_n(6, "cell := a ^random");
    expect_n(12, "cell := 1 < a ^< 1");
    expect_n(12, "cell := a ^+ y");
    expect_n(12, "cell := a ^if 1 then");
    expect_s(45, "const b[] for 2 := 1^");
    expect_s(45, "const b[] for 2 := 1 ^y := 1");
    expect_s(7, "const b[] for 2 := 1 ^exit");
    expect_s(7, "if 1 then const b[] for 2 := 1^");
    expect_s(45, "if 1 then const b[] for 2 := 1 ^end");
    expect_s(7, "const b[] for 2 := 1 ^- 3");
    expect_s(9, "const b[] for 2 := 1 ^b := 3");
    expect_s(9, "const b[] for 2 := 1 ^time := 3");
    expect_s(45, "const b[] for 2 := 1 ^cell := zz");
    expect_s(6, "const b[] for 2 := 1 ^\"");
    expect(7, "const b[] for 2 := 1^");
    expect(8, "const b[] for 2 := 1 ^zz dimensions of 0..1");
    expect(40, "const b[] for 2 := 1 ^4 dimensions of 0..1");
    expect(45, "const b[] for 2 := 1 ^const b := 1");
    expect(45, "const b[] for 2 := 1, 2 ^, 3");
}

#[test]
fn stops() {
    expect(7, "^");
    expect(3, "^$");
    expect_s(3, "cell := ^1a");
    expect_s(3, "cell := ^1_");
    expect_s(3, "cell := ^1__2");
    expect_s(3, "cell := ^99999999999_");
    expect_s(3, "a^_ := 1");
    expect_s(3, "a^__b := 1");
    expect_s(3, "^_a := 1");
    expect_s(4, "cell := ^2147483648");
    expect_s(0, "cell := 2_147_483_647");
    expect_s(6, "cell := 1 ^-> 2");
    expect_s(6, "cell := 1 ^+% 2");
    expect_s(6, "cell := 1^-%2");
    expect_s(6, "^AGENT");
    expect_s(6, "cell := ^Random");
    expect_s(6, "forall x^");
    expect_s(3, "forall x ^$");
    expect_f(6, "cell^");
    expect_f(4, "cell ^2147483648");
    expect_s(7, "if 1 then^");
    let tokens = limits::of_tokens(4096);
    expect(0, &tokens);
    expect(5, &format!("{tokens}^x := 1"));
    expect(5, &format!("{tokens}^->"));
    expect(4, &format!("{tokens}^2147483648"));
    expect(3, &format!("{tokens}^1_"));
}

/// A name after `of`, and `..` or another token as the 4,097th.
#[test]
fn last_tokens_after_of() {
    let expect_of = |number, count, last, rest: &str| {
        expect(number, &format!("{}{rest}", limits::up_to_of(count, last)));
    };
    expect_of(8, 0, 4095, "^q..1");
    expect_of(8, 0, 4095, "^cell..1");
    expect_of(8, 0, 4095, "^a..1");
    expect_of(5, 2, 4095, "c1^..5");
    expect_of(5, 2, 4095, "c1 # ->\n^..5");
    expect_of(5, 254, 4095, "c1^..5");
    expect_of(8, 254, 4095, "^q..1");
    expect_of(5, 0, 4095, "q ^of 0..1");
    expect_of(9, 0, 4095, "^cell of 0..1");
    expect_of(15, 254, 4095, "^c1 of 0..1");
    expect_of(5, 0, 4095, "q^[");
    expect_of(5, 0, 4095, "q^->");
    expect_of(3, 0, 4095, "q^$");
    expect_of(4, 0, 4095, "q ^2147483648");
    expect_of(7, 0, 4095, "q^");
    expect_of(8, 0, 4094, "^q..1");
    expect_of(5, 2, 4094, "c1..^5");
    expect_of(0, 2, 4093, "c1..5");
    expect_of(5, 2, 4096, "^c1..5");
}

#[test]
fn names_and_fields() {
    expect_s(6, "cell ^[0] := 1");
    expect_s(6, "x ^[0] := 1");
    expect_s(12, "cell ^. f := 1");
    expect_s(12, "x ^. f := 1");
    expect_n(12, "cell := x ^. f");
    expect_n(12, "cell := n ^. f");
    expect_n(12, "cell := time ^.f");
    expect_n(12, "cell := cell ^.f");
    expect_n(12, "cell := [0] ^.f");
    expect_n(12, "cell := a[0] ^.f");
    expect_n(7, "cell := 1 ^.f");
    expect_n(7, "cell := (1) ^.f");
    expect_n(6, "cell := x ^[0]");
    expect_n(6, "cell := cell ^[0]");
    expect_n(6, "cell := time ^[0]");
    expect_n(6, "cell := n ^[0]");
    expect_n(7, "cell := 1 ^[0]");
    expect_n(7, "cell := (1) ^[0]");
    expect_n(7, "cell := a[0] ^[0]");
    expect_n(7, "cell := [0] ^[0]");
    expect_f(6, "cell ^:= 1");
    expect_f(6, "cell.f := cell ^+ 1");
    expect_f(6, "cell.f := [0] ^+ 1");
    expect_f(6, "cell.f := [0] ^[0]");
    expect_f(7, "cell.f := cell.^1");
    expect_f(7, "cell.f := cell.^");
    expect_f(7, "cell.^if := 1");
    expect_f(12, "cell.^h := 1");
    expect_f(12, "cell.f := cell.^cell");
    expect_f(12, "cell.f := cell.^time");
    expect_f(9, "cell.^g := 1");
    expect_f(6, "cell.f ^[0] := 1");
    expect_f(6, "cell.f := cell.f ^[0]");
    expect_f(7, "cell.f := cell.f ^.f");
    expect_f(7, "cell.f := [0].g ^.f");
    expect_f(8, "cell.f := ^f");
    expect_f(0, "f := 1 g := f cell.f := [0].g + g");
    expect_n(9, "^n := 1");
    expect_n(9, "^a := 1");
    expect_n(9, "^time := 1");
    expect_n(9, "forall i : 0..1 ^i := 1 end");
    expect_n(9, "forall ^x : 0..1 end");
    expect_n(9, "const ^X := 1");
    expect_n(9, "const ^cell := 1");
    expect_n(8, "cell := ^X_1");
    expect_n(8, "const b := ^b");
    expect_n(8, "const b := ^x");
    expect_n(8, "const b := -^a");
    expect_n(8, "forall i : 0..^i end");
    expect_n(8, "forall i : 0..1 end cell := ^i");
    expect_n(0, "forall i : 0..1 end i := 1 cell := i");
    expect_n(0, "forall i : 0..1 end forall i : 2..3 end");
    expect_n(0, "y := y + 1");
    expect_n(0, "if 0 then y := 1 const z := 2 end cell := y + z");
}

#[test]
fn declarations() {
    expect(8, "^n dimensions of 0..1");
    expect(8, "^cell dimensions of 0..1");
    expect(7, "^- 1 dimensions of 0..1");
    expect(40, "^0 dimensions of 0..1");
    expect(40, "const n := -1 ^n dimensions of 0..1");
    expect(7, "1 dimensions of ^end");
    expect(7, "1 dimensions of const ^const f of 0..1 end");
    expect(7, "1 dimensions of const ^0..1");
    expect(8, "1 dimensions of ^zz..1");
    expect(8, "1 dimensions of ^cell..1");
    expect(9, "1 dimensions of ^cell of 0..1 end");
    expect(9, "1 dimensions of f, ^F of 0..1 end");
    expect(6, "1 dimensions of f ^[ ] for 2 of 0..1 end");
    expect(41, "1 dimensions of 1..^0");
    expect(41, "1 dimensions of 1..-^1");
    expect(7, "1 dimensions of f of 0..1^");
    expect(0, "1 dimensions of a,b,c,d,e,f,g,h of -1..+1 end");
    expect(43, "1 dimensions of a,b,c,d,e,f,g,h, ^i of 0..1 end");
    expect(9, "1 dimensions of a,b,c,d,e,f,g,h, ^a of 0..1 end");
    expect(0, "const n := 1 1 dimensions of n..n");
    expect(0, "const n := 1 1 dimensions of n of n..n end");
    expect(44, "const a[] for ^0 := 1");
    expect(44, "const a[] for ^1025 := 1");
    expect(7, "const a[] for ^-1 := 1");
    expect(6, "const a[] for 1 := ^\"file\"");
    expect_s(7, "^1 dimensions of 0..1");
}

#[test]
fn statements_and_expressions() {
    expect_s(7, "cell := 1 ^otherwise");
    expect_s(0, "cell := 1 when 0 := 0 otherwise");
    expect_s(0, "cell := 1 when 0 := 0 when 1 := 1 otherwise");
    expect_s(7, "cell := 1 when 0 := 0^");
    expect_s(7, "cell := 1 when 0 := 0 ^cell := 1");
    expect_s(6, "cell := 1 when 0 := 0 ^, 1");
    expect_s(6, "cell := 1^, 1");
    expect_s(7, "cell := 1 when 0^, 1");
    expect_s(7, "cell := 1 when 0 ^otherwise");
    expect_s(7, "cell := (1 ^, 1)");
    expect_s(7, "^exit");
    expect_s(0, "forall i : 0..1 if i then exit end end");
    expect_s(7, "forall i : 0..1 ^else end");
    expect_s(7, "if 1 then else ^elsif 1 then end");
    expect_s(6, "forall i ^:= 0..1 end");
    expect_s(7, "forall ^: 0..1 end");
    expect_s(42, "forall i : 0..^4096 end");
    expect_s(0, "forall i : -1..4094 end");
    expect_s(7, "cell := - ^- 1");
    expect_s(7, "cell := ! ^! 1");
    expect_s(0, "cell := 1 - -1 + !1 * +2");
    expect_s(13, "cell := 1 = 2 ^= 3");
    expect_s(13, "cell := 1 + 2 < 3 * 4 ^!= 5 & 1");
    expect_s(0, "cell := 1 = 2 & 3 = 4 | (5 < 6) < 7");
    expect_s(7, "cell := [^]");
    expect_s(12, "cell := [0^, 0]");
    expect(12, "2 dimensions of 0..1 cell := [0^]");
    expect(7, "2 dimensions of 0..1 cell := [0, ^]");
    expect(7, "2 dimensions of 0..1 cell := [0 ^0]");
    expect(12, "2 dimensions of 0..1 cell := [0, 0^, 0]");
    expect_n(8, "forall i : 0..1 cell := [-^i] end");
    expect_n(0, "forall i : 0..1 cell := [i] + [-n] + [+1] end");
    expect_n(8, "cell := [^x]");
    expect_n(8, "cell := [^cell]");
    expect_n(8, "cell := [^a]");
    expect_n(7, "cell := [- ^- 1]");
}

#[test]
fn nesting() {
    let sixteen = "(".repeat(16);
    let closed = ")".repeat(16);
    expect_s(0, &format!("cell := {sixteen}1{closed}"));
    expect_s(14, &format!("cell := {sixteen}^(1){closed}"));
    expect_s(14, &format!("cell := {sixteen}^[0]{closed}"));
    expect_s(6, &format!("cell := {sixteen}cell^[0]{closed}"));
    let ifs = "if 1 then ".repeat(16);
    expect_s(14, &format!("{ifs}^forall"));
    expect_s(14, &format!("{ifs}const b ^[ ] for 1 := 1"));
    expect_s(7, &format!("{ifs}^( 1"));
    let ends = "end ".repeat(16);
    expect_s(0, &format!("{ifs}{ends}{ifs}{ends}"));
}

#[test]
fn many_names() {
    let all: String = (0..256).map(|i| format!("v{i} := 1 ")).collect();
    expect_s(0, &all);
    expect_s(15, &format!("{all}^w := 1"));
    expect_s(15, &format!("{all}forall ^w : 0..1 end"));
    expect_s(9, &format!("{all}const ^cell := 1"));
    expect_s(0, &format!("{all}v0 := 1"));
    let most: String = (0..248).map(|i| format!("const c{i} := 1 ")).collect();
    expect(
        43,
        &format!("{most}1 dimensions of a,b,c,d,e,f,g,h,^i of 0..1 end"),
    );
    expect(
        15,
        &format!("{most}const x := 1 1 dimensions of a,b,c,d,e,f,g,^h of 0..1 end"),
    );
}

/// No literal is over 2147483647, so every constant has a negative.
#[test]
fn signs() {
    expect(0, "1 dimensions of -2147483647..0");
    expect(4, "1 dimensions of -^2147483648..0");
    expect_s(0, "const m := -2147483647 const p := -m cell := -p");
    expect_s(0, "const m := +2147483647 const a[] for 2 := -m, +m");
    expect_s(0, "cell := [-2147483647]");
    let source = "const m := -2147483647 const p := -m 1 dimensions of m..p";
    let names = check(source.as_bytes()).program.unwrap().names;
    let values: Vec<i32> = names.iter().map(|record| record.value).collect();
    assert_eq!(values, [-2_147_483_647, 2_147_483_647]);
}

/// Where a loop ends, its index's record is free again.
#[test]
fn names_of_ended_loops() {
    expect_s(0, &"forall i : 0..1 end ".repeat(300));
    let most: String = (0..255).map(|i| format!("const c{i} := 1 ")).collect();
    expect_s(15, &format!("{most}forall i : 0..1 ^x := 1 end"));
    expect_s(0, &format!("{most}forall i : 0..1 end x := 1"));
    expect_s(15, &format!("{most}forall i : 0..1 end x := 1 ^y := 1"));
    expect_s(15, &format!("{most}const w := 1 forall ^i : 0..1 end"));
    let most: String = (0..254).map(|i| format!("const c{i} := 1 ")).collect();
    expect_s(
        0,
        &format!("{most}forall i : 0..1 forall j : 0..1 end k := 1 end"),
    );
    expect_s(8, "forall i : 0..1 x := 1 end cell := ^i");
    let source = "const a := 5 1 dimensions of 0..1 forall i : 0..1 forall j : 0..1 x := 1 end \
                  const k := -1 end i := k";
    let names = check(source.as_bytes()).program.unwrap().names;
    let found: Vec<(&str, u32, i32)> = names
        .iter()
        .map(|r| (&source[r.start as usize..][..1], r.kind, r.value))
        .collect();
    assert_eq!(found, [("a", 1, 5), ("x", 4, 0), ("k", 1, -1), ("i", 4, 0)]);
}

/// Words 2 and 3 of the tokens, by docs/LAYOUT.md.
#[test]
fn table() {
    let source = "1 dimensions of 0..1 forall i : 0..1 x := i end y := x";
    let table = check(source.as_bytes()).program.unwrap().table;
    let words: Vec<(u32, u32)> = table.iter().map(|word| (word[2], word[3])).collect();
    let expected = [
        (1, 0),
        (0, 0),
        (0, 1), // `of`: the field's range
        (0, 0),
        (0, 0),
        (1, 0),
        (12, 16), // `forall`
        (0, 1),   // its index, declared
        (0, 0),
        (0, 0),
        (0, 0),
        (1, 0),
        (0, 15), // x, number 0
        (0, 15),
        (5, 0), // the index, at depth 0
        (0, 0),
        (1, 19), // y, number 1
        (0, 19),
        (4, 0), // x
        (0, 0),
    ];
    assert_eq!(words, expected);
}

#[test]
fn records() {
    let source = "const n := -2 const A[] for 2 := 1, n 1 dimensions of n.. 5 x := 1 \
                  forall i : n..0 y := i end forall I : 0..0 end";
    let program = check(source.as_bytes()).program.unwrap();
    let found: Vec<(u32, u32, u32, i32)> = program
        .names
        .iter()
        .map(|r| (r.start, r.length, r.kind, r.value))
        .collect();
    let expected = [(6, 1, 1, -2), (20, 1, 2, 2), (60, 1, 4, 0), (83, 1, 4, 0)];
    assert_eq!(found, expected);
    let fields = "1 dimensions of ab of 0..1 const c, d of 0..1 end";
    let program = check(fields.as_bytes()).program.unwrap();
    let found: Vec<(u32, u32, i32)> = program
        .names
        .iter()
        .map(|r| (r.length, r.kind, r.value))
        .collect();
    assert_eq!(found, [(2, 3, 0), (1, 6, 1), (1, 6, 2)]);
}
