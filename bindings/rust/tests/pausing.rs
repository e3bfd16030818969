//! Runs that are paused and resumed: worked cases, what is left after each
//! reply, and generated runs in slices beside the second program.

use cellang::{
    check_in, run, run_pausing_in, run_resuming_in, Cell, Done, Entry, Fault, FaultKind, Lent,
    Line, ListReason, ListRefusal, Mode, NotBegun, NotResumed, Objection, Outcome, Paused, Place,
    Rooms, Run, Stop, NAME_WORDS, WORDS,
};
use reference::admission::admit;
use reference::case::{cells_of, run_case, scratch_on_entry, RunCase};
use reference::interpret::{step, Fault as CellFault};
use reference::lists::Waiting;
use reference::open::open_cells;
use reference::places::reach;
use reference::random::Random;
use reference::tree::Program;
use reference::{vectors, Report, BUILT_IN};
use told::{print_seen, report_of};

mod told;

const CHAINS: usize = 12_000;
const MARKED: usize = 8_000;

/// Every cell takes the value of its left neighbour.
const SHIFT: &[u8] = b"1 dimensions of 0..1 cell := [-1]";
const COUNT_TO_3: &[u8] = b"1 dimensions of 0..3 cell := cell + 1";
const COUNT_TO_9: &[u8] = b"1 dimensions of 0..9 cell := cell + 1";

/// One of the two calls in the caller's buffers.
type Call = for<'a> fn(&'a [u8], &[u32], &mut [i32], Lent<'_>, i64, i64, &[u8]) -> Outcome<'a>;

/// A row of cells of one field, with its marks.
#[derive(Clone, PartialEq, Eq, Debug)]
struct Row {
    grid: Vec<i32>,
    marks: Vec<u8>,
}

fn row(grid: &[i32], marks: &[u8]) -> Row {
    Row {
        grid: grid.to_vec(),
        marks: marks.to_vec(),
    }
}

impl Row {
    /// Makes a call on the row. Scratch is zero after a run that began, else as
    /// it was.
    fn call<'a>(
        &mut self,
        call: Call,
        source: &'a [u8],
        times: (i64, i64),
        list: &str,
    ) -> Outcome<'a> {
        let mut scratch = vec![7; self.grid.len()];
        let lent = Lent {
            words: &mut vec![7; WORDS],
            names: &mut vec![7; NAME_WORDS],
            scratch: &mut scratch,
            marks: &mut self.marks,
        };
        let shape = [self.grid.len() as u32];
        let (start, steps) = times;
        let list = list.as_bytes();
        let outcome = call(source, &shape, &mut self.grid, lent, start, steps, list);
        let began = matches!(outcome, Ok(_) | Err(Stop::Faulted(_)));
        let left = if began { 0 } else { 7 };
        assert!(scratch.iter().all(|&entry| entry == left));
        outcome
    }
}

fn done<'a>(steps: u32, count: u64) -> Outcome<'a> {
    Ok(Done { steps, count })
}

fn outside(cell: u32, steps: u32, count: u64) -> Fault {
    Fault {
        kind: FaultKind::ValueOutsideField,
        place: Place(26),
        cell: Cell(cell),
        steps,
        count,
    }
}

fn list_refused<'a>(reason: ListReason, line: u64) -> Stop<'a> {
    let line = Line(line);
    Stop::ListRefused(ListRefusal { reason, line })
}

#[test]
fn worked_pausing() {
    let first = [1, 0, 0, 0, 0];
    for (times, list, outcome, after) in [
        ((0, 0), "", done(0, 0), row(&first, &[1; 5])),
        (
            (0, 1),
            "",
            done(1, 5),
            row(&[0, 1, 0, 0, 0], &[1, 1, 1, 0, 0]),
        ),
        (
            (0, 1),
            "1\n[3] = 1\n",
            done(1, 5),
            row(&[0, 1, 0, 1, 0], &[1; 5]),
        ),
        // Changed by the step, and changed back by the block.
        (
            (0, 1),
            "1\n[0] = 1\n[1] = 0\n",
            done(1, 5),
            row(&first, &[1, 1, 1, 0, 0]),
        ),
    ] {
        // What the marks hold on entry does not matter.
        for marks in [[0; 5], [1; 5], [0, 255, 0, 3, 0]] {
            let mut row = row(&first, &marks);
            assert_eq!(row.call(run_pausing_in, SHIFT, times, list), outcome);
            assert_eq!(row, after, "{times:?} {list:?}");
        }
    }
}

#[test]
fn worked_resuming() {
    let cases = [
        // One step on from the run above, in all M5; a list in the earlier
        // call, and in the later one.
        (
            row(&[0, 1, 0, 0, 0], &[1, 1, 1, 0, 0]),
            (1, 1, ""),
            done(1, 3),
            row(&[0, 0, 1, 0, 0], &[0, 1, 1, 1, 0]),
        ),
        (
            row(&[0, 1, 0, 1, 0], &[1; 5]),
            (1, 1, ""),
            done(1, 5),
            row(&[0, 0, 1, 0, 1], &[1; 5]),
        ),
        (
            row(&[0, 1, 0, 0, 0], &[1, 1, 1, 0, 0]),
            (1, 1, "1\n[3] = 1\n"),
            done(1, 5),
            row(&[0, 0, 1, 0, 1], &[1; 5]),
        ),
        // Other marks.
        (
            row(&[1, 0, 0, 0, 0], &[0, 7, 0, 0, 0]),
            (0, 1, ""),
            done(1, 1),
            row(&[1, 1, 0, 0, 0], &[0, 1, 1, 0, 0]),
        ),
        (
            row(&[1, 0, 0, 0, 0], &[0; 5]),
            (0, 2, ""),
            done(2, 0),
            row(&[1, 0, 0, 0, 0], &[0; 5]),
        ),
        (
            row(&[0, 0, 1, 0, 0], &[0, 0, 3, 0, 0]),
            (4, 0, "4\n[0] = 1\n"),
            done(0, 0),
            row(&[1, 0, 1, 0, 0], &[1, 1, 1, 0, 0]),
        ),
    ];
    for (mut row, (start, steps, list), outcome, after) in cases {
        let given = row.call(run_resuming_in, SHIFT, (start, steps), list);
        assert_eq!((given, row), (outcome, after), "{start} {steps} {list:?}");
    }
    // Where `time` occurs in the source, all cells are open.
    let timed = b"1 dimensions of 0..9 cell := time";
    let mut zero = row(&[0, 0], &[0, 0]);
    assert_eq!(zero.call(run_resuming_in, timed, (1, 2), ""), done(2, 4));
    assert_eq!(zero, row(&[2, 2], &[1, 1]));
}

#[test]
fn marks_after_a_fault() {
    let mut climbing = row(&[0, 2, 1], &[9, 9, 9]);
    let outcome = climbing.call(run_pausing_in, COUNT_TO_3, (0, 5), "");
    assert_eq!(outcome, Err(Stop::Faulted(outside(1, 1, 5))));
    assert_eq!(climbing, row(&[1, 3, 2], &[0, 0, 0]));
    // A cell that is not open does not fault.
    let mut high = row(&[0, 3, 1], &[9, 0, 9]);
    let outcome = high.call(run_resuming_in, COUNT_TO_3, (0, 2), "");
    assert_eq!(outcome, done(2, 4));
    assert_eq!(high, row(&[2, 3, 3], &[1, 0, 1]));
    let mut high = row(&[0, 3, 1], &[0, 9, 9]);
    let outcome = high.call(run_resuming_in, COUNT_TO_3, (0, 2), "");
    assert_eq!(outcome, Err(Stop::Faulted(outside(1, 0, 1))));
    assert_eq!(high, row(&[0, 3, 1], &[0, 0, 0]));
}

#[test]
fn marks_after_a_refusal() {
    let first = row(&[1, 0, 0, 0, 0], &[0, 1, 2, 3, 255]);
    for call in [run_pausing_in as Call, run_resuming_in] {
        for (source, times, list, number) in [
            (&b"1 dimensions of 0..1 x := y"[..], (0, 1), "", 8),
            (b"2 dimensions of 0..1", (0, 1), "", 20),
            (b"1 dimensions of a, b of 0..1 end", (0, 1), "", 21),
            (SHIFT, (0, -1), "", 22),
            (SHIFT, (2_147_483_647, 1), "", 22),
            (b"1 dimensions of 0..1 cell := [6]", (0, 1), "", 23),
            (b"1 dimensions of 2..3", (0, 1), "", 24),
            (SHIFT, (3, 1), "3", 50),
            (SHIFT, (3, 1), "3\n[5] = 1\n", 51),
            (SHIFT, (3, 1), "3\n3\n", 54),
            (SHIFT, (3, 1), "2\n", 55),
            (SHIFT, (3, 1), "5\n", 56),
        ] {
            let mut row = first.clone();
            let stop = row.call(call, source, times, list).unwrap_err();
            assert_eq!(stop.number(), number, "{stop}");
            assert_eq!(row, first, "{stop}");
        }
        for length in [0, 4, 6] {
            let before = row(&first.grid, &vec![7; length]);
            let mut row = before.clone();
            let stop = row.call(call, SHIFT, (0, 1), "").unwrap_err();
            assert_eq!(stop, Stop::NotAdmitted(Objection::LentLength));
            assert_eq!(row, before);
        }
    }
}

/// A run that is paused before its first step.
fn begun<'a>(source: &'a [u8], grid: &[i32], start: i64) -> Paused<'a> {
    let shape = [grid.len() as u32];
    Paused::begin(source, &shape, grid.to_vec(), start, &mut Rooms::new()).expect("admitted")
}

/// The run that a refusal returns, and why.
fn refused<'a>(answer: Result<Paused<'a>, NotResumed<'a>>) -> (Stop<'a>, Paused<'a>) {
    match answer {
        Err(NotResumed::Refused { stop, paused }) => (stop, *paused),
        _ => panic!("{answer:?}"),
    }
}

#[test]
fn in_slices() {
    let mut rooms = Rooms::new();
    let paused = begun(SHIFT, &[1, 0, 0, 0, 0], 40);
    assert_eq!((paused.source(), paused.shape()), (SHIFT, &[5][..]));
    assert_eq!((paused.start(), paused.time()), (40, 40));
    assert_eq!((paused.steps(), paused.count()), (0, 0));
    assert_eq!(paused.grid(), [1, 0, 0, 0, 0]);
    assert_eq!(paused.marks(), [1; 5]);
    let paused = paused.resume(1, b"", &mut rooms).expect("a step");
    assert_eq!((paused.start(), paused.time()), (40, 41));
    assert_eq!((paused.steps(), paused.count()), (1, 5));
    assert_eq!(paused.grid(), [0, 1, 0, 0, 0]);
    assert_eq!(paused.marks(), [1, 1, 1, 0, 0]);
    // The rooms may be others.
    let paused = paused.resume(1, b"", &mut Rooms::new()).expect("a step");
    assert_eq!((paused.time(), paused.steps(), paused.count()), (42, 2, 8));
    assert_eq!(paused.marks(), [0, 1, 1, 1, 0]);
    // It can be gone on from twice.
    let other = paused.clone().resume(3, b"", &mut rooms).expect("3 steps");
    assert_eq!((other.time(), other.count()), (45, 17));
    assert_eq!(other.into_grid(), [1, 0, 0, 0, 0]);
    let list = b"42\n[2] = 0\n";
    let paused = paused.resume(3, list, &mut rooms).expect("3 steps");
    assert_eq!((paused.time(), paused.count()), (45, 11));
    assert_eq!(paused.marks(), [0; 5]);
    assert_eq!(paused.into_grid(), [0; 5]);
}

#[test]
fn a_block_between_two_slices() {
    let mut rooms = Rooms::new();
    let block = b"1\n[3] = 1\n";
    for lists in [[&block[..], b"", b""], [b"", block, b""], [b"", b"", block]] {
        let paused = begun(SHIFT, &[1, 0, 0, 0, 0], 0);
        let paused = paused.resume(1, lists[0], &mut rooms).expect("a step");
        let paused = paused.resume(0, lists[1], &mut rooms).expect("no step");
        let paused = paused.resume(1, lists[2], &mut rooms).expect("a step");
        assert_eq!((paused.steps(), paused.count()), (2, 10));
        assert_eq!(paused.marks(), [1; 5]);
        assert_eq!(paused.into_grid(), [0, 0, 1, 0, 1]);
    }
}

#[test]
fn a_time_in_two_lists() {
    let mut rooms = Rooms::new();
    let not_rising = list_refused(ListReason::TimeNotRising, 1);
    // The last list has time 1, at which the run is paused.
    let mut stands = Vec::new();
    for list in [&b"1\n"[..], b"0\n[1] = 1\n 0_1\r[3] = 1\r[4] = 1\r"] {
        let paused = begun(SHIFT, &[1, 0, 0, 0, 0], 0);
        let paused = paused.resume(1, list, &mut rooms).expect("a step");
        stands.push(paused.clone());
        stands.push(paused.resume(0, b"", &mut rooms).expect("no step"));
    }
    let paused = begun(SHIFT, &[1, 0, 0, 0, 0], 1);
    stands.push(paused.resume(0, b"1\n[3] = 1\n", &mut rooms).expect("set"));
    for paused in stands {
        for list in [
            &b"1\n"[..],
            b"1\n[3] = 0\n",
            b"1\n\n",
            b"\t0_1\x0b \r2\r",
            b"1\n5\n",
        ] {
            for steps in [0, 1, 3] {
                let (stop, back) = refused(paused.clone().resume(steps, list, &mut rooms));
                assert_eq!(stop, not_rising, "{steps} {list:?}");
                assert_eq!(back, paused);
            }
        }
        // What is refused before it, and other lines.
        for (steps, list, number) in [
            (-1, &b"1\n"[..], 22),
            (2_147_483_647, b"1\n", 22),
            (1, b"1", 50),
            (1, b"1 1\n", 50),
            (1, b"1_\n", 50),
            (1, b"[3] = 1\n", 50),
            (1, b"\n1\n", 50),
            (1, b"0\n1\n", 55),
            (1, b"3\n1\n", 56),
        ] {
            let (stop, back) = refused(paused.clone().resume(steps, list, &mut rooms));
            assert_eq!(stop.number(), number, "{steps} {list:?}");
            assert_eq!(back, paused);
        }
        // Later times are not.
        let on = paused.resume(2, b"2\n[0] = 1\n3\n", &mut rooms);
        let on = on.expect("2 steps");
        let (stop, on) = refused(on.resume(1, b"3\n", &mut rooms));
        assert_eq!(stop, not_rising);
        on.resume(1, b"4\n", &mut rooms).expect("a step");
    }
    // A time of the earlier list that is gone by: its block may stand anew.
    let paused = begun(SHIFT, &[1, 0, 0, 0, 0], 0);
    let paused = paused.resume(1, b"0\n", &mut rooms).expect("a step");
    paused.resume(1, b"1\n", &mut rooms).expect("a step");
}

#[test]
fn a_fault_ends_it() {
    let mut rooms = Rooms::new();
    let paused = begun(COUNT_TO_9, &[0, 5, 1], 7);
    let paused = paused.resume(3, b"", &mut rooms).expect("3 steps");
    assert_eq!(paused.grid(), [3, 8, 4]);
    let answer = paused.resume(5, b"11\n[2] = 0\n", &mut rooms);
    let Err(not_resumed) = answer else {
        panic!("{answer:?}");
    };
    assert_eq!(not_resumed.number(), 33);
    assert_eq!(not_resumed.grid(), [4, 9, 0]);
    let message = "fault 33 at 26 in cell 1 after 4 steps: assigned value outside the field";
    assert_eq!(not_resumed.to_string(), message);
    // As the run at once gives it.
    let mut grid = [0, 5, 1];
    let run = Run::new(COUNT_TO_9, &[3], 7, 8, Mode::Quiet).with_list(b"11\n[2] = 0\n");
    let at_once = run.on(&mut grid, &mut rooms).unwrap_err();
    assert_eq!(at_once, Stop::Faulted(outside(1, 4, 14)));
    assert_eq!(Stop::from(not_resumed.clone()), at_once);
    let NotResumed::Faulted { fault, grid: left } = not_resumed else {
        panic!("{not_resumed:?}");
    };
    assert_eq!((fault, &left[..]), (outside(1, 4, 14), &grid[..]));
}

#[test]
fn not_begun() {
    let mut rooms = Rooms::new();
    let mut stop = |source: &'static [u8], shape: &[u32], grid: &[i32], start: i64| {
        let answer = Paused::begin(source, shape, grid.to_vec(), start, &mut rooms);
        let NotBegun { stop, grid: back } = answer.unwrap_err();
        assert_eq!(back, grid);
        // A run of 0 steps is refused so.
        let at_once = run(
            source,
            shape,
            &mut grid.to_vec(),
            &mut rooms,
            start,
            0,
            Mode::Quiet,
        );
        assert_eq!(at_once, Err(stop.clone()));
        stop
    };
    let refusal = stop(b"1 dimensions of 0..1 x := y", &[1], &[0], 0);
    assert_eq!((refusal.number(), refusal.place()), (8, Some(Place(26))));
    let objections = [
        (stop(SHIFT, &[], &[0], 0), Objection::BadShape),
        (stop(SHIFT, &[4_097], &[0], 0), Objection::BadShape),
        (stop(SHIFT, &[2, 2], &[0; 4], 0), Objection::BadShape),
        (stop(SHIFT, &[2], &[0; 3], 0), Objection::LentLength),
        (stop(SHIFT, &[2], &[0; 2], -1), Objection::BadTimes),
        (stop(SHIFT, &[2], &[0; 2], i64::MAX), Objection::BadTimes),
        (
            stop(b"1 dimensions of 0..1 cell := [6]", &[5], &[0; 5], 0),
            Objection::IndexTooFar(Place(30)),
        ),
        (
            stop(SHIFT, &[2], &[0, 2], 0),
            Objection::EntryOutOfRange(Entry(1)),
        ),
    ];
    for (stop, objection) in objections {
        assert_eq!(stop, Stop::NotAdmitted(objection));
    }
    let answer = Paused::begin(SHIFT, &[2], vec![0; 3], 0, &mut rooms);
    let not_begun = answer.unwrap_err();
    assert_eq!(
        not_begun.to_string(),
        "not admitted 21: grid, scratch, marks, rows or room of wrong length"
    );
    assert_eq!(Stop::from(not_begun).number(), 21);
}

#[test]
fn refused_and_still_there() {
    let mut rooms = Rooms::new();
    let mut paused = begun(COUNT_TO_9, &[0, 0, 4], 2_147_483_640);
    for (steps, list, stop, message) in [
        (
            -1,
            &b"x"[..],
            Stop::NotAdmitted(Objection::BadTimes),
            "not admitted 22: start or steps negative",
        ),
        (
            8,
            b"",
            Stop::NotAdmitted(Objection::BadTimes),
            "not admitted 22: start or steps negative",
        ),
        (
            i64::MAX,
            b"",
            Stop::NotAdmitted(Objection::BadTimes),
            "not admitted 22: start or steps negative",
        ),
        (
            2,
            b"2147483640\n[1] = 0",
            list_refused(ListReason::BadLine, 2),
            "list refused 50 at line 2: no time",
        ),
        (
            2,
            b"2147483640\n[0] = 1\n[1] = 10\n",
            list_refused(ListReason::ValueOutOfRange, 3),
            "list refused 53 at line 3: value outside",
        ),
        (
            2,
            b"2147483639\n",
            list_refused(ListReason::TimeBeforeStart, 1),
            "list refused 55 at line 1: time before",
        ),
        (
            2,
            b"2147483640\n2147483643\n",
            list_refused(ListReason::TimePastEnd, 2),
            "list refused 56 at line 2: time past",
        ),
    ] {
        let before = paused.clone();
        let not_resumed = paused.resume(steps, list, &mut rooms).unwrap_err();
        assert_eq!(not_resumed.number(), stop.number());
        assert_eq!(not_resumed.grid(), before.grid());
        let text = not_resumed.to_string();
        assert!(text.starts_with(message), "{text}");
        assert_eq!(Stop::from(not_resumed.clone()), stop);
        let (given, back) = refused(Err(not_resumed));
        assert_eq!((given, &back), (stop, &before));
        paused = back;
    }
    let list = b"2147483642\n[1] = 7\n";
    let paused = paused.resume(2, list, &mut rooms).expect("2 steps");
    assert_eq!(paused.grid(), [2, 7, 6]);
    let paused = paused.resume(2, b"", &mut rooms).expect("2 steps");
    assert_eq!((paused.time(), paused.count()), (2_147_483_644, 12));
    assert_eq!(paused.into_grid(), [4, 9, 8]);
}

// ---- beside the second program

/// Generated runs, with lists and without.
fn cases(seed: u64, count: usize) -> impl Iterator<Item = RunCase> {
    vectors::runs(seed, count / 2, false).chain(vectors::lists(seed, count - count / 2, false))
}

/// The blocks of a list that passes, each with its time.
fn blocks_of(list: &[u8]) -> Vec<(i64, Vec<u8>)> {
    let mut blocks: Vec<(i64, Vec<u8>)> = Vec::new();
    for line in list.split_inclusive(|byte| matches!(byte, b'\n' | b'\r')) {
        if !line.contains(&b'[') {
            let digits = line.iter().filter(|byte| byte.is_ascii_digit());
            let time = digits.fold(0, |time, digit| 10 * time + i64::from(digit - b'0'));
            blocks.push((time, Vec::new()));
        }
        let (_, lines) = blocks.last_mut().expect("a time");
        lines.extend_from_slice(line);
    }
    blocks
}

/// A run in slices: the steps of each, and its list. A block of the time
/// between two slices goes to either.
fn slices_of(random: &mut Random, case: &RunCase) -> Vec<(i64, Vec<u8>)> {
    let mut ends: Vec<i64> = (0..random.below(5))
        .map(|_| case.start + random.between(0, case.steps))
        .collect();
    ends.sort_unstable();
    ends.push(case.start + case.steps);
    let mut blocks = blocks_of(&case.values).into_iter().peekable();
    let mut slices = Vec::new();
    let mut time = case.start;
    for (slice, &end) in ends.iter().enumerate() {
        let to_last = slice + 1 == ends.len() || random.chance(50);
        let mut list = Vec::new();
        while let Some((_, lines)) = blocks.next_if(|block| block.0 < end + i64::from(to_last)) {
            list.extend(lines);
        }
        slices.push((end - time, list));
        time = end;
    }
    assert_eq!(blocks.next(), None);
    slices
}

/// Makes a run in slices, and holds what it returns to the run at once: the
/// second program's, and this library's for the marks.
fn compare_chain(random: &mut Random, case: &RunCase, mut paused: Paused, rooms: &mut Rooms) {
    let expected = run_case(case, true);
    let slices = slices_of(random, case);
    let text = format!("{} {slices:?}", String::from_utf8_lossy(&case.source));
    let mut outcome = done(0, 0);
    let mut grid = case.grid.clone();
    let mut marks = Vec::new();
    for (steps, list) in &slices {
        let time = paused.time();
        match paused.resume(*steps, list, rooms) {
            Ok(on) => paused = on,
            Err(not_resumed) => {
                grid = not_resumed.grid().to_vec();
                outcome = Err(not_resumed.into());
                assert!(matches!(outcome, Err(Stop::Faulted(_))), "{text}");
                break;
            }
        }
        assert_eq!(paused.time(), time + steps);
        assert_eq!(paused.start(), case.start);
        outcome = done(paused.steps(), paused.count());
        grid.copy_from_slice(paused.grid());
        marks = paused.marks().to_vec();
    }
    assert_eq!(report_of(&outcome), expected.report, "{text}");
    assert_eq!(grid, expected.grid, "{text}");
    if outcome.is_ok() {
        let mut at_once = Lending::of(case, vec![7; case.marks]);
        assert_eq!(at_once.call(run_pausing_in, case), outcome, "{text}");
        assert_eq!(marks, at_once.marks, "{text}");
    }
}

#[test]
fn chains() {
    let mut random = Random::new(20_006);
    let mut rooms = Rooms::new();
    let mut seen = [0; 63];
    for case in cases(20_006, CHAINS) {
        // All that is passed beside the grid has the right length.
        let RunCase { source, shape, .. } = &case;
        let plain = RunCase::new(source.clone(), shape, case.grid.clone(), case.start, 0);
        let steps = case.steps;
        let asked = RunCase {
            steps,
            ..plain.clone()
        };
        let listed = asked.clone().with_list(&case.values);
        let at_first = run_case(&plain, true).report;
        let expected = run_case(&listed, true).report;
        let begun = Paused::begin(source, shape, case.grid.clone(), case.start, &mut rooms);
        let paused = match begun {
            Ok(paused) => paused,
            Err(NotBegun { stop, grid }) => {
                assert_eq!(report_of(&Err(stop)), at_first);
                assert_eq!(grid, case.grid);
                seen[at_first.number as usize] += 1;
                continue;
            }
        };
        assert_eq!(at_first.number, 0);
        seen[expected.number as usize] += 1;
        if matches!(expected.number, 0 | 30..=33) {
            compare_chain(&mut random, &listed, paused, &mut rooms);
            continue;
        }
        // The steps or the list are refused, and the run is still there.
        let before = paused.clone();
        let (stop, paused) = refused(paused.resume(steps, &case.values, &mut rooms));
        assert_eq!(report_of(&Err(stop)), expected);
        assert_eq!(paused, before);
        if expected.number >= 50 {
            compare_chain(&mut random, &asked, paused, &mut rooms);
        }
    }
    print_seen("runs in slices", &seen);
    for number in [
        0, 7, 8, 20, 21, 22, 23, 24, 30, 31, 32, 33, 50, 51, 52, 53, 54, 55, 56,
    ] {
        assert!(seen[number] > 0, "no run gave {number}");
    }
}

/// What a call is passed for a case.
struct Lending {
    words: Vec<u32>,
    names: Vec<u32>,
    grid: Vec<i32>,
    scratch: Vec<i32>,
    marks: Vec<u8>,
}

impl Lending {
    fn of(case: &RunCase, marks: Vec<u8>) -> Lending {
        Lending {
            words: vec![7; case.words],
            names: vec![7; 4 * case.names],
            grid: case.grid.clone(),
            scratch: scratch_on_entry(case.scratch),
            marks,
        }
    }

    fn call<'a>(&mut self, call: Call, case: &'a RunCase) -> Outcome<'a> {
        let lent = Lent {
            words: &mut self.words,
            names: &mut self.names,
            scratch: &mut self.scratch,
            marks: &mut self.marks,
        };
        let RunCase { source, shape, .. } = case;
        let (start, steps, list) = (case.start, case.steps, &case.values);
        call(source, shape, &mut self.grid, lent, start, steps, list)
    }
}

/// The cell that lies from one cell as another lies from the first of all.
fn far_from(shape: &[u32], mut cell: usize, mut far: usize) -> usize {
    let (mut stride, mut at) = (1, 0);
    for &size in shape.iter().rev() {
        let size = size as usize;
        at += (cell % size + far % size) % size * stride;
        (cell, far, stride) = (cell / size, far / size, stride * size);
    }
    at
}

/// A step of the second program, of which single cells are asked.
struct Step<'a> {
    program: &'a Program,
    shape: &'a [u32],
    time: i32,
    old: &'a [i32],
    new: Vec<i32>,
    /// The new fields are those of the cells below this one.
    known: usize,
}

impl<'a> Step<'a> {
    fn of(program: &'a Program, shape: &'a [u32], time: i64, old: &'a [i32]) -> Step<'a> {
        let mut new = old.to_vec();
        let time = time as i32;
        let known = match step(program, shape, time, old, &mut new) {
            Ok(()) => old.len() / program.fields.len(),
            Err((cell, _)) => cell,
        };
        Step {
            program,
            shape,
            time,
            old,
            new,
            known,
        }
    }

    /// The next fields of one cell. No rule reads where a cell stands, so
    /// after a fault the grid is turned until this cell stands first.
    fn cell(&self, cell: usize) -> Result<Vec<i32>, CellFault> {
        let fields = self.program.fields.len();
        if cell < self.known {
            return Ok(self.new[cell * fields..][..fields].to_vec());
        }
        let turned: Vec<i32> = (0..self.old.len() / fields)
            .flat_map(|far| &self.old[far_from(self.shape, cell, far) * fields..][..fields])
            .copied()
            .collect();
        let mut new = turned.clone();
        match step(self.program, self.shape, self.time, &turned, &mut new) {
            Err((0, fault)) => Err(fault),
            _ => Ok(new[..fields].to_vec()),
        }
    }
}

/// The cells that differ in two grids.
fn differing(fields: usize, old: &[i32], new: &[i32]) -> Vec<bool> {
    let both = old.chunks(fields).zip(new.chunks(fields));
    both.map(|(old, new)| old != new).collect()
}

/// What a run returns and leaves that begins with these cells open, as the rules
/// say it: only the open cells are evaluated.
fn by_the_rules(case: &RunCase, marks: &[u8], mut open: Vec<bool>) -> (Report, Vec<i32>, Vec<u8>) {
    let RunCase { shape, .. } = case;
    let mut grid = case.grid.clone();
    let lent = reference::Lent {
        source: &case.source,
        list: BUILT_IN,
        words: case.words,
        names: case.names,
        shape,
        values: &case.values,
        start: case.start,
        steps: case.steps,
    };
    let scratch = scratch_on_entry(case.scratch);
    let (program, blocks) = match admit(&lent, &grid, &scratch, marks) {
        Ok(admitted) => admitted,
        Err(report) => return (report, grid, marks.to_vec()),
    };
    let reach = reach(&program);
    let fields = program.fields.len();
    let mut waiting = Waiting::new(blocks);
    let mut report = Report::default();
    for time in case.start.. {
        if let Some(block) = waiting.due(time) {
            let before = grid.clone();
            block.set(fields, &mut grid);
            let opened = open_cells(shape, &reach, &differing(fields, &before, &grid));
            open.iter_mut()
                .zip(opened)
                .for_each(|(all, by_block)| *all |= by_block);
        }
        if program.uses_time {
            open.fill(true);
        }
        if time == case.start + case.steps {
            break;
        }
        let old = grid.clone();
        let step = Step::of(&program, shape, time, &old);
        for cell in (0..open.len()).filter(|&cell| open[cell]) {
            report.count += 1;
            match step.cell(cell) {
                Ok(new) => grid[cell * fields..][..fields].copy_from_slice(&new),
                Err(fault) => {
                    report.number = fault.number();
                    report.place = fault.place();
                    report.cell = cell as u32;
                    return (report, old, vec![0; marks.len()]);
                }
            }
        }
        report.steps += 1;
        open = open_cells(shape, &reach, &differing(fields, &old, &grid));
    }
    (report, grid, open.into_iter().map(u8::from).collect())
}

/// Compares a call under marks with the rules.
fn compare_marked(call: Call, case: &RunCase, marks: &[u8], open: Vec<bool>) -> Report {
    let (report, grid, standing) = by_the_rules(case, marks, open);
    let mut lending = Lending::of(case, marks.to_vec());
    let outcome = lending.call(call, case);
    let [source, values] = [&case.source, &case.values].map(|text| String::from_utf8_lossy(text));
    let text = format!("{source} {:?} {marks:?} {values:?}", case.grid);
    assert_eq!(report_of(&outcome), report, "{text}");
    assert_eq!(lending.grid, grid, "{text}");
    assert_eq!(lending.marks, standing, "{text}");
    if matches!(outcome, Ok(_) | Err(Stop::Faulted(_))) {
        assert!(lending.scratch.iter().all(|&entry| entry == 0), "{text}");
    } else {
        assert_eq!(lending.scratch, scratch_on_entry(case.scratch), "{text}");
    }
    let (mut words, mut names) = (vec![7; case.words], vec![7; 4 * case.names]);
    let _ = check_in(&case.source, &mut words, &mut names);
    assert!(lending.words == words && lending.names == names, "{text}");
    report
}

/// Makes a run that begins from marks by calls that are joined, and holds what
/// they leave to the run at once.
fn compare_joined(random: &mut Random, call: Call, case: &RunCase, marks: &[u8]) {
    let mut at_once = Lending::of(case, marks.to_vec());
    let expected = report_of(&at_once.call(call, case));
    let mut lending = Lending::of(case, marks.to_vec());
    let mut slice = case.clone();
    let mut next = call;
    let mut sum = Report::default();
    for (steps, list) in slices_of(random, case) {
        (slice.steps, slice.values) = (steps, list);
        let report = report_of(&lending.call(next, &slice));
        sum = Report {
            steps: sum.steps + report.steps,
            count: sum.count + report.count,
            ..report
        };
        if report.number != 0 {
            break;
        }
        slice.start += steps;
        next = run_resuming_in;
    }
    let text = format!("{} {marks:?}", String::from_utf8_lossy(&case.source));
    assert_eq!(sum, expected, "{text}");
    assert_eq!(lending.grid, at_once.grid, "{text}");
    assert_eq!(lending.marks, at_once.marks, "{text}");
}

#[test]
fn any_marks() {
    let mut random = Random::new(20_007);
    let (mut paused, mut resumed) = ([0; 63], [0; 63]);
    for case in cases(20_007, MARKED) {
        let often = *random.pick(&[0, 10, 30, 50, 90, 100]);
        let marks: Vec<u8> = (0..case.marks)
            .map(|_| {
                if random.chance(often) {
                    1 + random.below(255) as u8
                } else {
                    0
                }
            })
            .collect();
        let every = vec![true; cells_of(&case.shape)];
        let report = compare_marked(run_pausing_in, &case, &marks, every);
        assert_eq!(report, run_case(&case, true).report, "the quiet run's");
        paused[report.number as usize] += 1;
        let open = marks.iter().map(|&mark| mark != 0).collect();
        let report = compare_marked(run_resuming_in, &case, &marks, open);
        resumed[report.number as usize] += 1;
        if matches!(report.number, 0 | 30..=33) {
            compare_joined(&mut random, run_pausing_in, &case, &marks);
            compare_joined(&mut random, run_resuming_in, &case, &marks);
        }
    }
    print_seen("pausing runs", &paused);
    print_seen("runs from any marks", &resumed);
    for seen in [paused, resumed] {
        for number in [0, 1, 20, 21, 22, 23, 24, 30, 31, 32, 33] {
            assert!(seen[number] > 0, "no run gave {number}");
        }
        for number in [50, 51, 52, 53, 54, 55, 56] {
            assert!(seen[number] > 0, "no list gave {number}");
        }
    }
}
