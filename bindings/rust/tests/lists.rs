//! Runs with value lists and the writer: each reply once, with its message, and
//! what the caller's memory holds after it.

use cellang::{
    check, write_list, write_list_in, Done, Entry, Lent, Line, ListReason, ListRefusal, Mode,
    NotWritten, Objection, Place, Rooms, Run, Stop, WriterLent, NAME_WORDS, WORDS,
};

const MODES: [Mode; 2] = [Mode::Full, Mode::Quiet];

/// Three fields on a grid of 2 by 4, from time 3 on, 5 steps: the grid is left
/// as its blocks set it.
const PLANE: &[u8] = b"2 dimensions of a of -9..9 b of 0..1 c of 0..100 end";

/// A run on this grid, which is zero, in memory that holds sevens: its answer,
/// and the grid. A list that is refused leaves all memory but the tables.
fn on_plane(list: &str, mode: Mode) -> (Result<Done, Stop<'static>>, [i32; 24]) {
    let (mut words, mut names) = (vec![7; WORDS], vec![7; NAME_WORDS]);
    let (mut grid, mut scratch, mut marks) = ([0; 24], [7; 24], [7; 8]);
    let lent = Lent {
        words: &mut words,
        names: &mut names,
        scratch: &mut scratch,
        marks: &mut marks,
    };
    let run = Run::new(PLANE, &[2, 4], 3, 5, mode).with_list(list.as_bytes());
    let outcome = run.on_in(&mut grid, lent);
    let left = if outcome.is_ok() { 0 } else { 7 };
    assert_eq!((scratch, marks), ([left; 24], [left as u8; 8]), "{list:?}");
    let mut rooms = Rooms::new();
    check(PLANE, &mut rooms).expect("accepted");
    assert_eq!(
        (&words[..], &names[..]),
        (rooms.words(), rooms.name_words())
    );
    (outcome, grid)
}

#[test]
fn lists_that_pass() {
    for mode in MODES {
        for list in ["", "3\n8\n", "3\r4\r[1, 3] =\r", "3\n[0, 0] = , ,\n"] {
            let (outcome, grid) = on_plane(list, mode);
            assert_eq!(outcome.map(|done| done.steps), Ok(5), "{list:?}");
            assert_eq!(grid, [0; 24], "{list:?}");
        }
        let list = "3\n[0, 3] = 5, , 1\n8\n[1, 3] = -9\n\t[ 1,0_3 ] = - 8 , +1\n";
        let (outcome, grid) = on_plane(list, mode);
        assert_eq!(outcome.map(|done| done.steps), Ok(5));
        let mut expected = [0; 24];
        expected[9..12].copy_from_slice(&[5, 0, 1]);
        expected[21..].copy_from_slice(&[-8, 1, 0]);
        assert_eq!(grid, expected);
    }
}

#[test]
fn refused_lists() {
    use ListReason::*;
    let cases = [
        ("3\n\n", BadLine, 2, "list refused 50 at line 2: no time"),
        ("3\r\n", BadLine, 2, "list refused 50 at line 2: no time"),
        ("3\n[0, 3] = 5", BadLine, 2, "list refused 50 at line 2: "),
        ("[0, 3] = 5\n3\n", BadLine, 1, "list refused 50 at line 1: "),
        ("3\n[9] = 5\n", BadLine, 2, "list refused 50 at line 2: "),
        ("3\n[0, 3] = 2147483648\n", BadLine, 2, "list refused 50 "),
        (
            "3\n[0, 3] = --1\n",
            BadLine,
            2,
            "list refused 50 at line 2: ",
        ),
        (
            "3 # note\n",
            BadLine,
            1,
            "list refused 50 at line 1: no time",
        ),
        (
            "3\n[2, 3] = 5\n",
            OutsideGrid,
            2,
            "list refused 51 at line 2: cell outside the grid",
        ),
        (
            "3\n[0, 3] = , , ,\n",
            TooManyValues,
            2,
            "list refused 52 at line 2: more values than fields",
        ),
        (
            "3\n[1, 3] = 5, 2\n",
            ValueOutOfRange,
            2,
            "list refused 53 at line 2: value outside the range of its field",
        ),
        (
            "3\n[0, 4] = 10, 2, , 1\n",
            OutsideGrid,
            2,
            "list refused 51 at line 2",
        ),
        (
            "5\n5\n",
            TimeNotRising,
            2,
            "list refused 54 at line 2: time not above the time before it",
        ),
        (
            "0_2\n",
            TimeBeforeStart,
            1,
            "list refused 55 at line 1: time before the start",
        ),
        (
            "3\n4\n9\n",
            TimePastEnd,
            3,
            "list refused 56 at line 3: time past start plus steps",
        ),
    ];
    for (list, reason, line, message) in cases {
        for mode in MODES {
            let (outcome, grid) = on_plane(list, mode);
            let line = Line(line);
            let refusal = ListRefusal { reason, line };
            assert_eq!(outcome, Err(Stop::ListRefused(refusal)), "{list:?}");
            let stop = outcome.unwrap_err();
            assert_eq!(stop.number(), reason as u32);
            assert_eq!((stop.place(), stop.line()), (None, Some(line)));
            assert!(stop.to_string().starts_with(message), "{stop}");
            assert_eq!(grid, [0; 24]);
        }
    }
}

#[test]
fn lists_of_many_lines() {
    let mut list = "3\n".to_string() + &"[0, 3] = 5\n".repeat(100_000);
    let (outcome, grid) = on_plane(&list, Mode::Quiet);
    assert_eq!(outcome.map(|done| done.count), Ok(8));
    assert_eq!(grid[9], 5);
    list.push('\n');
    let (outcome, _) = on_plane(&list, Mode::Quiet);
    assert_eq!(outcome.unwrap_err().line(), Some(Line(100_002)));
}

#[test]
fn the_list_comes_last() {
    let stop = |source: &'static str, entry: i32, start: i64| {
        let run = Run::new(source.as_bytes(), &[2], start, 1, Mode::Full).with_list(b"x");
        let stop = run.on(&mut [0, entry], &mut Rooms::new()).unwrap_err();
        (stop.number(), stop.line())
    };
    assert_eq!(stop("1 dimensions of 0..9 x := y", 0, 0), (8, None));
    assert_eq!(stop("2 dimensions of 0..9", 0, 0), (20, None));
    assert_eq!(stop("1 dimensions of a, b of 0..9 end", 0, 0), (21, None));
    assert_eq!(stop("1 dimensions of 0..9", 0, -1), (22, None));
    assert_eq!(stop("1 dimensions of 0..9 cell := [3]", 0, 0), (23, None));
    assert_eq!(stop("1 dimensions of 0..9", 10, 0), (24, None));
    assert_eq!(stop("1 dimensions of 0..9", 9, 0), (50, Some(Line(1))));
}

#[test]
fn when_a_block_is_set() {
    let source = b"1 dimensions of 0..9 cell := cell + 1";
    for mode in MODES {
        for (list, left) in [
            ("5\n[1] = 4\n", [2, 6]),
            ("6\n[1] = 4\n", [2, 5]),
            ("7\n[1] = 4\n", [2, 4]),
        ] {
            let mut grid = [0, 0];
            let run = Run::new(source, &[2], 5, 2, mode).with_list(list.as_bytes());
            run.on(&mut grid, &mut Rooms::new()).expect("two steps");
            assert_eq!(grid, left, "{list:?}");
        }
        // A fault leaves the grid with that step's block set.
        let mut grid = [0, 0];
        let run = Run::new(source, &[2], 5, 4, mode);
        let run = run.with_list(b"6\n[0] = 2\n[1] = 9\n7\n[0] = 7\n");
        let stop = run.on(&mut grid, &mut Rooms::new()).unwrap_err();
        let Stop::Faulted(fault) = stop else {
            panic!("{stop}");
        };
        assert_eq!((fault.number(), fault.cell.0, fault.steps), (33, 1, 1));
        assert_eq!(grid, [2, 9]);
    }
}

#[test]
fn what_a_block_opens() {
    let count = |list: &str| {
        let mut grid = [0, 1, 2, 3, 4];
        let source = b"1 dimensions of 0..9 cell := cell";
        let run = Run::new(source, &[5], 0, 4, Mode::Quiet).with_list(list.as_bytes());
        run.on(&mut grid, &mut Rooms::new()).map(|done| done.count)
    };
    assert_eq!(count(""), Ok(5));
    assert_eq!(count("1\n[1] = 7\n"), Ok(6));
    assert_eq!(count("1\n[1] = 7\n2\n[1] = 6\n3\n[2] = 9\n"), Ok(8));
    assert_eq!(count("1\n[1] = 1\n"), Ok(5));
    assert_eq!(count("1\n[1] = 7\n[1] = 1\n"), Ok(5));
    assert_eq!(count("4\n[1] = 7\n"), Ok(5));
}

const PAIRS: &[u8] = b"2 dimensions of a of 0..9 b of -99..99 end";
const EARLIER: [i32; 8] = [1, 2, 3, 4, 5, 6, 7, 8];
const LATER: [i32; 8] = [1, 2, 0, 4, 5, 6, 7, -12];
const TEXT: &[u8] = b"40\n[0, 1] = 0, 4\n[1, 1] = 7, -12\n";

/// Writes into a room of sevens: the answer, and the room.
fn written<'a>(
    source: &'a [u8],
    shape: &[u32],
    grids: [&[i32]; 2],
    time: i64,
    length: usize,
) -> (Result<usize, NotWritten<'a>>, Vec<u8>) {
    let (mut words, mut names) = (vec![7; WORDS], vec![7; NAME_WORDS]);
    let mut room = vec![7; length];
    let lent = WriterLent {
        words: &mut words,
        names: &mut names,
        room: &mut room,
    };
    let answer = write_list_in(source, shape, grids[0], grids[1], time, lent);
    let mut rooms = Rooms::new();
    let _ = check(source, &mut rooms);
    assert_eq!(
        (&words[..], &names[..]),
        (rooms.words(), rooms.name_words())
    );
    (answer, room)
}

#[test]
fn texts() {
    let (answer, room) = written(PAIRS, &[2, 2], [&EARLIER, &LATER], 40, 35);
    assert_eq!(answer, Ok(33));
    assert_eq!(room[..33], *TEXT);
    assert_eq!(room[33..], [7; 2]);
    let exact = written(PAIRS, &[2, 2], [&EARLIER, &LATER], 40, 33);
    assert_eq!(exact, (Ok(33), TEXT.to_vec()));
    let same = written(PAIRS, &[2, 2], [&LATER, &LATER], 40, 3);
    assert_eq!(same, (Ok(3), b"40\n".to_vec()));
    let mut rooms = Rooms::new();
    let text = write_list(PAIRS, &[2, 2], &EARLIER, &LATER, 40, &mut rooms);
    assert_eq!(text, Ok(TEXT.to_vec()));
    for mode in MODES {
        let mut grid = EARLIER;
        let run = Run::new(PAIRS, &[2, 2], 40, 0, mode).with_list(TEXT);
        let done = run.on(&mut grid, &mut rooms);
        assert_eq!(done, Ok(Done { steps: 0, count: 0 }));
        assert_eq!(grid, LATER);
    }
}

#[test]
fn texts_of_large_grids() {
    let source = b"2 dimensions of 0..255";
    let shape = [1_024, 1_024];
    let earlier = vec![0; 1 << 20];
    let later: Vec<i32> = (0..1 << 20).map(|entry| (entry * 7 + 1) % 256).collect();
    let mut rooms = Rooms::new();
    let text = write_list(source, &shape, &earlier, &later, 0, &mut rooms).expect("written");
    let mut grid = earlier.clone();
    let run = Run::new(source, &shape, 0, 0, Mode::Quiet).with_list(&text);
    run.on(&mut grid, &mut rooms).expect("a list that passes");
    assert!(grid == later);
    let back = write_list(source, &shape, &later, &earlier, 0, &mut rooms).expect("written");
    let run = Run::new(source, &shape, 0, 0, Mode::Full).with_list(&back);
    run.on(&mut grid, &mut rooms).expect("a list that passes");
    assert!(grid == earlier);
}

#[test]
fn nothing_is_written() {
    let (answer, room) = written(PAIRS, &[2, 2], [&EARLIER, &LATER], 40, 32);
    assert_eq!(
        (&answer, room),
        (&Err(NotWritten::RoomTooShort), vec![7; 32])
    );
    let refusal = answer.unwrap_err();
    assert_eq!((refusal.number(), refusal.place()), (57, None));
    assert_eq!(
        refusal.to_string(),
        "not written 57: room shorter than the text"
    );
    let bits = b"1 dimensions of 0..1 cell := [3]";
    let objection = |shape: &[u32], earlier: &[i32], later: &[i32], time: i64| {
        let (answer, room) = written(bits, shape, [earlier, later], time, 9);
        assert_eq!(room, [7; 9]);
        let own = write_list(bits, shape, earlier, later, time, &mut Rooms::new());
        assert_eq!(own.as_ref().err(), answer.as_ref().err());
        match answer {
            Err(NotWritten::NotAdmitted(objection)) => objection,
            _ => panic!("{answer:?}"),
        }
    };
    let entry = |entry| Objection::EntryOutOfRange(Entry(entry));
    assert_eq!(objection(&[3], &[0, 0, 2], &[0, 2, 0], 5), entry(2));
    assert_eq!(objection(&[3], &[0, 0, 1], &[0, 2, 0], 5), entry(1));
    let lengths = objection(&[3], &[0, 0, 2], &[0, 0], 5);
    assert_eq!(lengths, Objection::LentLength);
    let late = objection(&[3], &[0; 3], &[0; 3], 2_147_483_648);
    assert_eq!(late, Objection::BadTimes);
    let far = objection(&[2], &[0, 2], &[2, 0], 5);
    assert_eq!(far, Objection::IndexTooFar(Place(30)));
    assert_eq!(objection(&[], &[], &[], 5), Objection::BadShape);
    assert_eq!(objection(&[1; 9], &[0], &[1], 5), Objection::BadShape);
    assert_eq!(objection(&[0], &[0, 2], &[2, 0], -5), Objection::BadShape);
    let source = b"1 dimensions of 0..1 x := y";
    let (answer, room) = written(source, &[0], [&[], &[]], -1, 9);
    assert_eq!(room, [7; 9]);
    let Err(NotWritten::Refused(refusal)) = answer else {
        panic!("{answer:?}");
    };
    assert_eq!((refusal.number(), refusal.place), (8, Place(26)));
    assert_eq!(refusal.spelling, b"y");
}

#[test]
fn tables_of_wrong_length_are_not_touched() {
    for (words, names) in [(WORDS - 1, NAME_WORDS), (WORDS, NAME_WORDS + 4), (0, 0)] {
        let (mut words, mut names) = (vec![7; words], vec![7; names]);
        let mut room = [7; 40];
        let lent = WriterLent {
            words: &mut words,
            names: &mut names,
            room: &mut room,
        };
        let answer = write_list_in(PAIRS, &[2, 2], &EARLIER, &LATER, 40, lent);
        assert_eq!(answer.unwrap_err().number(), 1);
        let (mut grid, mut scratch, mut marks) = (EARLIER, [7; 8], [7; 4]);
        let lent = Lent {
            words: &mut words,
            names: &mut names,
            scratch: &mut scratch,
            marks: &mut marks,
        };
        let run = Run::new(PAIRS, &[2, 2], 40, 0, Mode::Full).with_list(TEXT);
        assert_eq!(run.on_in(&mut grid, lent).unwrap_err().number(), 1);
        assert!(words.iter().chain(&names).all(|&word| word == 7));
        assert_eq!((grid, room), (EARLIER, [7; 40]));
        assert_eq!((scratch, marks), ([7; 8], [7; 4]));
    }
}
