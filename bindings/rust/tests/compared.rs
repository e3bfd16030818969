//! The library and the second program on the same checks, runs and writings.

use cellang::{
    check_in, write_list, write_list_in, Lent, Mode, Names, NotWritten, Objection, Rooms, Run,
    Stop, WriterLent, BUILT_IN, NAME_WORDS, WORDS,
};
use reference::case::{marks_on_entry, run_case, scratch_on_entry, RunCase};
use reference::lex::{lex, Keyword, Kind};
use reference::names::Record;
use reference::tree::Program;
use reference::write_case::{room_on_entry, write_case, WriteCase};
use reference::writing::{text_of, Written};
use reference::{vectors, Reply};
use told::{print_seen, report_of, Seen};

mod told;

const CHECKS: usize = 30_000;
const RUNS: usize = 16_000;
const LISTS: usize = 12_000;
const WRITINGS: usize = 20_000;
const SHOWN: usize = 10_000;

/// What the rooms hold on entry.
const BEFORE: u32 = 0x5A5A_5A5A;

/// The spelling that the second program gives a reply.
fn spelling_of(source: &[u8], reply: Reply) -> &[u8] {
    reference::spelling(source, reply).bytes(source, BUILT_IN)
}

fn all(words: &[u32], value: u32) -> bool {
    words.iter().all(|&word| word == value)
}

/// Holds the rooms to what the second program says of a source.
fn compare_rooms(source: &[u8], number: u32, words: &[u32], names: &[u32]) {
    match number {
        1 | 2 => assert!(all(words, BEFORE) && all(names, BEFORE)),
        3..=15 | 40..=45 => assert!(all(words, 0) && all(names, 0)),
        _ => {
            let program = reference::check(source).program.expect("accepted");
            let records: Vec<Record> = names
                .chunks(4)
                .map(|word| Record {
                    start: word[0],
                    length: word[1],
                    kind: word[2],
                    value: word[3] as i32,
                })
                .collect();
            assert_eq!(records[..program.names.len()], program.names);
            assert!(all(&names[4 * program.names.len()..], 0));
            compare_names(source, names, &program.names);
            compare_words(source, words, &program);
        }
    }
}

/// The names as the iterator gives them.
fn compare_names(source: &[u8], names: &[u32], records: &[Record]) {
    let mut count = 0;
    for (name, record) in Names::new(source, names).zip(records) {
        let start = record.start as usize;
        let text = &source[start..start + record.length as usize];
        assert_eq!(name.text.as_bytes(), text);
        assert_eq!(
            (name.place.0, name.kind as u32),
            (record.start, record.kind)
        );
        assert_eq!(name.value, record.value);
        count += 1;
    }
    assert_eq!(count, records.len());
    assert_eq!(count, Names::new(source, names).count());
}

/// Place and length of every token, and the ranges of the fields; zero
/// after the last token.
fn compare_words(source: &[u8], words: &[u32], program: &Program) {
    let mut tokens = lex(source);
    tokens.pop();
    for (token, word) in tokens.iter().zip(words.chunks(4)) {
        assert_ne!(word[0], 0);
        assert_eq!(word[1], token.start + 65_536 * token.length);
    }
    assert!(all(&words[4 * tokens.len()..], 0));
    let is = |at: usize, keyword| tokens[at].kind == Kind::Keyword(keyword);
    let dimensions = (0..tokens.len()).find(|&at| is(at, Keyword::Dimensions));
    let of = dimensions.expect("a declaration") + 1;
    assert!(is(of, Keyword::Of));
    for (field, word) in program.fields.iter().zip(words[4 * of..].chunks(4)) {
        assert_eq!([word[2] as i32, word[3] as i32], [field.low, field.high]);
    }
}

fn compare_check(source: &[u8], seen: &mut Seen) {
    let expected = reference::check(source).reply;
    let (mut words, mut names) = (vec![BEFORE; WORDS], vec![BEFORE; NAME_WORDS]);
    let (given, spelling) = match check_in(source, &mut words, &mut names) {
        Ok(()) => ((0, 0), &[][..]),
        Err(refusal) => ((refusal.number(), refusal.place.0), refusal.spelling),
    };
    let text = String::from_utf8_lossy(source);
    assert_eq!(given, (expected.number, expected.place), "{text}");
    assert_eq!(spelling, spelling_of(source, expected), "{text}");
    compare_rooms(source, expected.number, &words, &names);
    seen[expected.number as usize] += 1;
}

/// Compares a run; one whose list is empty is made with a list or without one.
fn compare_run(case: &RunCase, mode: Mode, listed: bool, seen: &mut Seen) {
    let expected = run_case(case, mode == Mode::Quiet);
    let (mut words, mut names) = (vec![BEFORE; case.words], vec![BEFORE; 4 * case.names]);
    let mut grid = case.grid.clone();
    let mut scratch = scratch_on_entry(case.scratch);
    let mut marks = marks_on_entry(case.marks);
    let lent = Lent {
        words: &mut words,
        names: &mut names,
        scratch: &mut scratch,
        marks: &mut marks,
    };
    let mut run = Run::new(&case.source, &case.shape, case.start, case.steps, mode);
    if listed {
        run = run.with_list(&case.values);
    }
    let outcome = run.on_in(&mut grid, lent);
    let [source, values] = [&case.source, &case.values].map(|text| String::from_utf8_lossy(text));
    let text = format!("{source} {values:?}");
    assert_eq!(report_of(&outcome), expected.report, "{mode:?} {text}");
    assert_eq!(grid, expected.grid, "{mode:?} {text}");
    if let Err(Stop::Refused(refusal)) = &outcome {
        let (number, place) = (refusal.number(), refusal.place.0);
        let spelling = spelling_of(&case.source, Reply { number, place });
        assert_eq!(refusal.spelling, spelling, "{mode:?} {text}");
    }
    if matches!(outcome, Ok(_) | Err(Stop::Faulted(_))) {
        assert!(scratch.iter().all(|&entry| entry == 0));
        assert!(marks.iter().all(|&mark| mark == 0));
    } else {
        assert_eq!(scratch, scratch_on_entry(case.scratch));
        assert_eq!(marks, marks_on_entry(case.marks));
    }
    compare_rooms(&case.source, expected.report.number, &words, &names);
    if expected.report.number != 1 {
        let (mut read, mut listed) = (vec![BEFORE; WORDS], vec![BEFORE; NAME_WORDS]);
        let _ = check_in(&case.source, &mut read, &mut listed);
        assert!(
            words == read && names == listed,
            "a run reads as a check does"
        );
    }
    seen[expected.report.number as usize] += 1;
}

#[test]
fn checks() {
    let mut seen = [0; 63];
    for source in vectors::stored_checks() {
        compare_check(&source, &mut seen);
    }
    for source in vectors::checks(20_001, CHECKS, false) {
        compare_check(&source, &mut seen);
    }
    print_seen("checks", &seen);
    for number in [
        0, 2, 3, 4, 5, 6, 7, 8, 9, 12, 13, 14, 15, 40, 41, 42, 43, 44, 45,
    ] {
        assert!(seen[number] > 0, "no check gave {number}");
    }
}

#[test]
fn runs() {
    for mode in [Mode::Full, Mode::Quiet] {
        let mut seen = [0; 63];
        let mut listed = [0; 63];
        let cases = vectors::stored_runs().into_iter();
        let cases = cases.chain(vectors::runs(20_002, RUNS, false));
        for case in cases.chain(vectors::lists(20_004, LISTS, false)) {
            if case.values.is_empty() {
                compare_run(&case, mode, false, &mut seen);
            }
            compare_run(&case, mode, true, &mut listed);
        }
        print_seen(&format!("{mode:?} runs without a list"), &seen);
        print_seen(&format!("{mode:?} runs with one"), &listed);
        for number in [0, 1, 20, 21, 22, 23, 24, 30, 31, 32, 33] {
            assert!(seen[number] > 0, "no run gave {number}");
            assert!(listed[number] > 0, "no run with a list gave {number}");
        }
        for number in [50, 51, 52, 53, 54, 55, 56] {
            assert!(listed[number] > 0, "no list gave {number}");
        }
    }
}

/// The three numbers of a writing.
fn written_of(answer: &Result<usize, NotWritten>) -> Written {
    let refusal = match answer {
        Ok(length) => {
            return Written {
                length: *length as u64,
                ..Written::default()
            }
        }
        Err(refusal) => refusal,
    };
    let place = match refusal {
        NotWritten::NotAdmitted(Objection::EntryOutOfRange(entry)) => entry.0,
        _ => refusal.place().map_or(0, |place| place.0),
    };
    Written {
        number: refusal.number(),
        place,
        length: 0,
    }
}

fn compare_writing(case: &WriteCase, seen: &mut Seen) {
    let (expected, expected_room) = write_case(case);
    let (mut words, mut names) = (vec![BEFORE; case.words], vec![BEFORE; 4 * case.names]);
    let mut room = room_on_entry(case.room);
    let lent = WriterLent {
        words: &mut words,
        names: &mut names,
        room: &mut room,
    };
    let (shape, earlier, later) = (&case.shape, &case.earlier, &case.later);
    let answer = write_list_in(&case.source, shape, earlier, later, case.time, lent);
    assert_eq!(written_of(&answer), expected, "{case:?}");
    assert_eq!(room, expected_room, "{case:?}");
    if let Err(NotWritten::Refused(refusal)) = &answer {
        let (number, place) = (refusal.number(), refusal.place.0);
        let spelling = spelling_of(&case.source, Reply { number, place });
        assert_eq!(refusal.spelling, spelling, "{case:?}");
    }
    compare_rooms(&case.source, expected.number, &words, &names);
    if expected.number != 1 {
        compare_text(case, expected.number);
    }
    seen[expected.number as usize] += 1;
}

/// The text in a room of the crate's, and what a run with it leaves.
fn compare_text(case: &WriteCase, number: u32) {
    let mut rooms = Rooms::new();
    let (shape, earlier, later) = (&case.shape, &case.earlier, &case.later);
    let answer = write_list(&case.source, shape, earlier, later, case.time, &mut rooms);
    let Ok(text) = answer else {
        let given = answer.map_err(|refusal| refusal.number());
        assert!(given == Err(number) && number != 57, "{case:?}");
        return;
    };
    assert!(matches!(number, 0 | 57), "{case:?}");
    let program = reference::check(&case.source).program.expect("accepted");
    let expected = text_of(&program, &case.wanted());
    assert_eq!(text, expected.as_bytes());
    for mode in [Mode::Full, Mode::Quiet] {
        let mut grid = earlier.clone();
        let run = Run::new(&case.source, shape, case.time, 0, mode).with_list(&text);
        run.on(&mut grid, &mut rooms).expect("a list that passes");
        assert_eq!(&grid == later, !case.flag_falls(), "{case:?}");
    }
}

#[test]
fn writings() {
    let mut seen = [0; 63];
    let cases = vectors::stored_writings().into_iter();
    let cases = cases.chain(vectors::writings(20_005, WRITINGS));
    for case in cases.chain(vectors::shown(20_006, SHOWN)) {
        compare_writing(&case, &mut seen);
    }
    print_seen("writings", &seen);
    for number in [0, 1, 7, 8, 20, 21, 22, 23, 24, 57] {
        assert!(seen[number] > 0, "no writing gave {number}");
    }
}
