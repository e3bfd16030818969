//! Each reply once, with its message, and what the caller's memory holds after it.

use cellang::{check, check_in, run, run_in, Kind, Lent, Mode, Rooms, NAME_WORDS, WORDS};

fn refusal(source: &str) -> (u32, String) {
    let refusal = check(source.as_bytes(), &mut Rooms::new()).unwrap_err();
    (refusal.number(), refusal.to_string())
}

/// The number and message of a run on a grid of one entry, if it stops.
fn stop(source: &str, shape: &[u32], entry: i32, start: i64) -> (u32, String) {
    let mut grid = [entry];
    let mut rooms = Rooms::new();
    let stop = run(
        source.as_bytes(),
        shape,
        &mut grid,
        &mut rooms,
        start,
        1,
        Mode::Quiet,
    );
    let stop = stop.unwrap_err();
    assert_eq!(grid, [entry]);
    (stop.number(), stop.to_string())
}

#[test]
fn refusals() {
    let names: String = (0..257).map(|i| format!("x{i} := 1 ")).collect();
    let nested = format!("1 dimensions of 0..1 cell := {}1", "(".repeat(17));
    let cases = [
        (" ".repeat(65_536), 2, "refused 2 at 65535: source"),
        ("1_".into(), 3, "refused 3 at 0: no token"),
        ("2147483648".into(), 4, "refused 4 at 0: literal"),
        (
            format!("1 dimensions of 0..1{}", " x := 1".repeat(1_365)),
            5,
            "refused 5 at ",
        ),
        (
            "1 dimensions of 0..1 cell := random".into(),
            6,
            "refused 6 at 29: a form",
        ),
        ("const const".into(), 7, "refused 7 at 6: token"),
        ("x dimensions".into(), 8, "refused 8 at 0: name unknown"),
        (
            "const a := 1 const a := 1".into(),
            9,
            "refused 9 at 19: name already",
        ),
        (
            "4 dimensions of 0..1".into(),
            40,
            "refused 40 at 0: dimensions not 1 to 3",
        ),
        (
            "1 dimensions of 1..0".into(),
            41,
            "refused 41 at 19: range reversed",
        ),
        (
            "1 dimensions of 0..1 forall i : 0..4096 end".into(),
            42,
            "refused 42 at 35: loop range",
        ),
        (
            "1 dimensions of a,b,c,d,e,f,g,h,i of 0..1 end".into(),
            43,
            "refused 43 at 32: more than 8 fields",
        ),
        (
            "const a[] for 1025 := 1".into(),
            44,
            "refused 44 at 14: array size",
        ),
        (
            "const a[] for 2 := 1,2,3 1 dimensions of 0..1".into(),
            45,
            "refused 45 at 22: wrong number of values",
        ),
        (
            "1 dimensions of 0..1 x := cell.a".into(),
            12,
            "refused 12 at 30: `.`",
        ),
        (
            "1 dimensions of 0..1 cell := 1 = 1 = 1".into(),
            13,
            "refused 13 at 35: relation",
        ),
        (nested, 14, "refused 14 at 45: nested"),
        (
            format!("1 dimensions of 0..1 {names}"),
            15,
            "refused 15 at ",
        ),
    ];
    for (source, number, message) in cases {
        let (given, text) = refusal(&source);
        assert_eq!(given, number, "{text}");
        assert!(text.starts_with(message), "{text}");
    }
}

#[test]
fn spellings() {
    let s = "1 dimensions of 0..1 ";
    let cases: [(&str, &[u8], &str); 17] = [
        ("x := y", b"y", " constant or index: `y`"),
        ("x := Y_1z", b"Y_1z", " constant or index: `Y_1z`"),
        ("cell := RanDom", b"random", " not taken: `random`"),
        ("forall CELL : 0..1 end", b"cell", " not assignable: `cell`"),
        ("Time := 1", b"time", " not assignable: `time`"),
        ("AGENT", b"AGENT", " not taken: `AGENT`"),
        ("cell := Then", b"Then", " the grammar: `Then`"),
        ("12ab", b"1", " can be read: `1`"),
        ("\u{e9}", b"\xc3", " can be read: `\\xc3`"),
        ("x := 9_999_999_999", b"9_999_999_999", ": `9_999_999_999`"),
        ("x := 1 +% 2", b"+%", " not taken: `+%`"),
        ("cell := 1 < 2 >= 3", b">=", " bare relation: `>=`"),
        ("forall i : 0..4_096 end", b"4_096", ": `4_096`"),
        ("const a[] for 2 := 1,2,3", b",", ": `,`"),
        ("const a[] for 2 := 1 CELL := 1", b"cell", ": `cell`"),
        ("if 1 then", b"", " the grammar"),
        ("forall x", b"", " not taken"),
    ];
    for (text, spelling, end) in cases {
        let source = format!("{s}{text}");
        let refusal = check(source.as_bytes(), &mut Rooms::new()).unwrap_err();
        assert_eq!(refusal.spelling, spelling, "{text}");
        assert!(refusal.to_string().ends_with(end), "{refusal}");
        let (_, message) = stop(&source, &[1], 0, 0);
        assert_eq!(message, refusal.to_string());
    }
    let long = " ".repeat(65_536);
    let refusal = check(long.as_bytes(), &mut Rooms::new()).unwrap_err();
    assert_eq!(refusal.spelling, b"");
}

#[test]
fn stops() {
    let keep = "1 dimensions of 0..1";
    let cases = [
        (stop("", &[1], 0, 0), 7, "refused 7 at 0: token"),
        (
            stop(keep, &[], 0, 0),
            20,
            "not admitted 20: number or size of dimensions",
        ),
        (stop(keep, &[4_097], 0, 0), 20, "not admitted 20: "),
        (
            stop("3 dimensions of 0..1", &[4_096; 3], 0, 0),
            20,
            "not admitted 20: ",
        ),
        (stop(keep, &[2], 0, 0), 21, "not admitted 21: grid"),
        (stop(keep, &[1], 0, -1), 22, "not admitted 22: start"),
        (
            stop(keep, &[1], 0, 2_147_483_647),
            22,
            "not admitted 22: start",
        ),
        (
            stop(&format!("{keep} cell := [2]"), &[1], 0, 0),
            23,
            "not admitted 23 at 30: index",
        ),
        (
            stop(keep, &[1], 2, 0),
            24,
            "not admitted 24 at grid entry 0: field",
        ),
        (
            stop(&format!("{keep} x := 2147483647 + 1"), &[1], 0, 0),
            30,
            "fault 30 at 37 in cell 0 after 0 steps: result out of range",
        ),
        (
            stop(&format!("{keep} x := 1 / cell"), &[1], 0, 0),
            31,
            "fault 31 at 28 in cell 0",
        ),
        (
            stop(
                &format!("const a[] for 1 := 0 {keep} cell := a[1]"),
                &[1],
                0,
                0,
            ),
            32,
            "fault 32 at 51 in cell 0",
        ),
        (
            stop(&format!("{keep} cell := 2"), &[1], 0, 0),
            33,
            "fault 33 at 26 in cell 0",
        ),
    ];
    for ((given, text), number, message) in cases {
        assert_eq!(given, number, "{text}");
        assert!(text.starts_with(message), "{text}");
    }
}

#[test]
fn rooms_of_wrong_length_are_not_touched() {
    for (words, names) in [(WORDS - 1, NAME_WORDS), (WORDS, NAME_WORDS + 4), (0, 0)] {
        let (mut words, mut names) = (vec![7; words], vec![7; names]);
        let refusal = check_in(b"", &mut words, &mut names).unwrap_err();
        assert_eq!((refusal.number(), refusal.place.index()), (1, 0));
        let (mut grid, mut scratch, mut marks) = ([0], [7], [7]);
        let lent = Lent {
            words: &mut words,
            names: &mut names,
            scratch: &mut scratch,
            marks: &mut marks,
        };
        let source = b"1 dimensions of 0..1";
        let stop = run_in(source, &[1], &mut grid, lent, 0, 1, Mode::Full).unwrap_err();
        assert_eq!(stop.number(), 1);
        assert!(words.iter().chain(&names).all(|&word| word == 7));
        assert_eq!((scratch, marks), ([7], [7]));
    }
}

#[test]
fn names_of_every_kind_left() {
    let source =
        b"const c := -4 const A[] for 2 := 1, 2 1 dimensions of f of 0..1 const g of 0..1 end
        v := c forall i : 0..1 cell.f := A[i] w := 1 end i := w";
    let mut rooms = Rooms::new();
    check(source, &mut rooms).unwrap();
    let names: Vec<_> = rooms
        .names(source)
        .map(|name| (name.text, name.kind, name.value))
        .collect();
    let expected = [
        ("c", Kind::Constant, -4),
        ("A", Kind::ArrayConstant, 2),
        ("f", Kind::Field, 0),
        ("g", Kind::ConstField, 1),
        ("v", Kind::Variable, 0),
        ("w", Kind::Variable, 0),
        ("i", Kind::Variable, 0),
    ];
    assert_eq!(names, expected);
    for name in rooms.names(source) {
        assert!(source[name.place.index()..].starts_with(name.text.as_bytes()));
    }
    assert!(check(b"", &mut rooms).is_err());
    assert_eq!(rooms.names(b"").count(), 0);
    assert!(rooms
        .words()
        .iter()
        .chain(rooms.name_words())
        .all(|&word| word == 0));
}
