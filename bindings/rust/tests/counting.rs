//! Runs that keep row counts, and questions about these: worked cases, what is
//! left after each reply, and generated ones beside the second program.

use cellang::{
    first_zero_row, run_pausing_counting_in, run_resuming_counting_in, zeros_in_rows, Cell,
    CountingLent, Counts, Done, Entry, Fault, FaultKind, Lent, Line, ListReason, ListRefusal, Mode,
    NotCounted, NotResumed, Objection, Outcome, Paused, Place, Rooms, Run, Stop, NAME_WORDS, WORDS,
};
use reference::call_case::Call;
use reference::case::{scratch_on_entry, RunCase};
use reference::pausing::Manner;
use reference::rows::{self, row_counts};
use reference::vectors;
use told::{print_seen, report_of};

mod told;

const RUNS: usize = 16_000;
const QUESTIONS: usize = 100_000;

/// Every cell takes the value of its left neighbour.
const SHIFT: &[u8] = b"1 dimensions of 0..1 cell := [-1]";
const COUNT_TO_3: &[u8] = b"1 dimensions of 0..3 cell := cell + 1";
const FIRST: [i32; 5] = [1, 0, 0, 0, 0];
const BAD_COUNTS: Stop<'static> = Stop::NotAdmitted(Objection::BadCounts);

/// Makes a run that counts, in a manner; a full or quiet one without a list has
/// no list rather than an empty one.
fn count_in<'a>(
    manner: Manner,
    source: &'a [u8],
    shape: &[u32],
    grid: &mut [i32],
    (start, steps, list): (i64, i64, &[u8]),
    lent: CountingLent<'_>,
) -> Outcome<'a> {
    let mode = match manner {
        Manner::Full => Mode::Full,
        Manner::Quiet => Mode::Quiet,
        Manner::Pausing => {
            return run_pausing_counting_in(source, shape, grid, lent, start, steps, list)
        }
        Manner::Resuming => {
            return run_resuming_counting_in(source, shape, grid, lent, start, steps, list)
        }
    };
    let mut run = Run::new(source, shape, start, steps, mode);
    if !list.is_empty() {
        run = run.with_list(list);
    }
    run.on_counting_in(grid, lent)
}

/// A grid with its row counts, of which the field with this number is counted.
#[derive(Clone, PartialEq, Eq, Debug)]
struct Row {
    grid: Vec<i32>,
    field: u32,
    counts: Vec<u32>,
}

fn row(grid: &[i32], field: u32, counts: &[u32]) -> Row {
    Row {
        grid: grid.to_vec(),
        field,
        counts: counts.to_vec(),
    }
}

impl Row {
    /// Makes a run from time 0 on. A resumed one begins with all cells open.
    fn run<'a>(
        &mut self,
        manner: Manner,
        source: &'a [u8],
        shape: &[u32],
        steps: i64,
        list: &str,
    ) -> Outcome<'a> {
        let cells = shape.iter().product::<u32>() as usize;
        let lent = Lent {
            words: &mut vec![7; WORDS],
            names: &mut vec![7; NAME_WORDS],
            scratch: &mut vec![7; self.grid.len()],
            marks: &mut vec![7; cells],
        };
        let lent = CountingLent {
            lent,
            field: self.field,
            counts: &mut self.counts,
        };
        let asked = (0, steps, list.as_bytes());
        count_in(manner, source, shape, &mut self.grid, asked, lent)
    }
}

fn list_refused<'a>(reason: ListReason, line: u64) -> Stop<'a> {
    let line = Line(line);
    Stop::ListRefused(ListRefusal { reason, line })
}

#[test]
fn worked_runs() {
    let fault = |count| {
        Stop::Faulted(Fault {
            kind: FaultKind::ValueOutsideField,
            place: Place(26),
            cell: Cell(1),
            steps: 1,
            count,
        })
    };
    let before = [9, 8, 7, 6, 5];
    let past_end = list_refused(ListReason::TimePastEnd, 1);
    let entry = Stop::NotAdmitted(Objection::EntryOutOfRange(Entry(2)));
    let climbing = [0, 2, 1];
    let set = "1\n[0] = 0\n";
    let one = row(&FIRST, 0, &before);
    for (source, given, (steps, list), stop, grid, counts) in [
        (
            SHIFT,
            one.clone(),
            (0, ""),
            None,
            &FIRST[..],
            &[0, 1, 1, 1, 1][..],
        ),
        (
            SHIFT,
            one.clone(),
            (2, ""),
            None,
            &[0, 0, 1, 0, 0],
            &[1, 1, 0, 1, 1],
        ),
        (
            SHIFT,
            row(&FIRST, 1, &before),
            (2, ""),
            Some(BAD_COUNTS),
            &FIRST,
            &before,
        ),
        (
            SHIFT,
            row(&FIRST, 0, &before[..4]),
            (2, "\n"),
            Some(BAD_COUNTS),
            &FIRST,
            &before[..4],
        ),
        (
            SHIFT,
            row(&[1, 0, 2, 0, 0], 0, &before[..4]),
            (2, ""),
            Some(entry),
            &[1, 0, 2, 0, 0],
            &before[..4],
        ),
        (SHIFT, one, (2, "9\n"), Some(past_end), &FIRST, &before),
        (
            COUNT_TO_3,
            row(&climbing, 0, &before[..3]),
            (5, ""),
            Some(fault(5)),
            &[1, 3, 2],
            &[0, 0, 0],
        ),
        (
            COUNT_TO_3,
            row(&climbing, 0, &before[..3]),
            (5, set),
            Some(fault(5)),
            &[0, 3, 2],
            &[1, 0, 0],
        ),
    ] {
        for manner in Manner::ALL {
            let mut left = given.clone();
            let shape = [given.grid.len() as u32];
            let outcome = left.run(manner, source, &shape, steps, list);
            let text = format!("{manner:?} {given:?} {steps} {list:?}");
            assert_eq!(outcome.err(), stop, "{text}");
            assert_eq!(left, row(grid, given.field, counts), "{text}");
        }
    }
}

#[test]
fn rows_of_more_cells_and_fields() {
    let grid = [0, 0, 1, 1, 0, 1, 1, 0, 1, 1];
    for manner in Manner::ALL {
        let mut plane = row(&grid, 0, &[9; 5]);
        let outcome = plane.run(manner, b"2 dimensions of 0..1", &[5, 2], 0, "");
        assert_eq!(outcome, Ok(Done { steps: 0, count: 0 }));
        assert_eq!(plane.counts, [2, 0, 1, 1, 0]);
        // A block of the start time is counted, and one after the last step.
        let list = "0\n[1, 1] = 0\n1\n[0, 0] = 1\n";
        let mut plane = row(&grid, 0, &[9; 5]);
        let outcome = plane.run(manner, b"2 dimensions of 0..1", &[5, 2], 1, list);
        assert_eq!(outcome.map(|done| done.steps), Ok(1));
        assert_eq!(plane.counts, [1, 1, 1, 1, 0]);
        // Either of two fields; a pixel of each row is moved.
        let source = b"2 dimensions of a of 0..9 moved of 0..1 end
            if cell.moved = 0 then
                if [0,1].a > 4 then cell.a := [0,1].a cell.moved := 1 end
            end";
        for (field, counts) in [(0, [1, 0]), (1, [2, 0])] {
            let mut pixels = row(&[3, 0, 5, 0, 0, 0, 6, 1, 1, 1, 8, 0], field, &[9, 9]);
            let outcome = pixels.run(manner, source, &[2, 3], 1, "");
            assert_eq!(outcome.map(|done| done.steps), Ok(1));
            let after = [5, 1, 5, 0, 0, 0, 6, 1, 1, 1, 6, 1];
            assert_eq!(pixels, row(&after, field, &counts));
        }
        // Rows of a space are planes.
        let mut space = row(&[0, 1, 0, 0, 1, 1, 1, 1], 0, &[9, 9]);
        let outcome = space.run(manner, b"3 dimensions of 0..1", &[2, 2, 2], 3, "");
        assert_eq!(outcome.map(|done| done.steps), Ok(3));
        assert_eq!(space.counts, [3, 0]);
    }
}

#[test]
fn refused_counts_and_their_order() {
    let text = BAD_COUNTS.to_string();
    assert_eq!(
        text,
        "not admitted 61: no such field, or counts not one a row"
    );
    assert_eq!((BAD_COUNTS.number(), BAD_COUNTS.place()), (61, None));
    let pair = b"1 dimensions of a, b of 0..1 end";
    for manner in Manner::ALL {
        let number = |source: &[u8], given: Row, steps: i64, list: &str| {
            let mut left = given.clone();
            let shape = [5];
            let stop = left.run(manner, source, &shape, steps, list).unwrap_err();
            assert_eq!(left, given, "{stop}");
            stop.number()
        };
        // Fields that are none, and counts that are not one a row.
        for field in [1, 2, 8, 256, u32::MAX] {
            assert_eq!(number(SHIFT, row(&FIRST, field, &[9; 5]), 1, ""), 61);
        }
        assert_eq!(number(pair, row(&[0; 10], 2, &[9; 5]), 1, ""), 61);
        for length in [0, 1, 4, 6, 4_096, 4_097] {
            assert_eq!(number(SHIFT, row(&FIRST, 0, &vec![9; length]), 1, ""), 61);
        }
        assert_eq!(number(pair, row(&[0; 10], 1, &[9; 10]), 1, ""), 61);
        // All that is refused before it.
        let wrong = |grid: &[i32]| row(grid, 9, &[9; 4]);
        for (source, grid, steps, expected) in [
            (&b"1 dimensions of 0..1 x := y"[..], &FIRST[..], 1, 8),
            (b"4 dimensions of 0..1", &FIRST, 1, 40),
            (b"2 dimensions of 0..1", &FIRST, 1, 20),
            (SHIFT, &FIRST[..4], 1, 21),
            (SHIFT, &FIRST, -1, 22),
            (b"1 dimensions of 0..1 cell := [6]", &FIRST, 1, 23),
            (SHIFT, &[1, 0, 0, 0, 2], 1, 24),
        ] {
            assert_eq!(number(source, wrong(grid), steps, "x"), expected);
        }
        // The list is refused after it.
        for list in ["", "x", "\n", "0\n[5] = 1\n", "0\n0\n", "9\n"] {
            assert_eq!(number(SHIFT, wrong(&FIRST), 1, list), 61, "{list:?}");
        }
        for (list, expected) in [
            ("x", 50),
            ("0\n[5] = 1\n", 51),
            ("0\n[1] = 1, 1\n", 52),
            ("0\n[1] = 2\n", 53),
            ("0\n0\n", 54),
            ("9\n", 56),
        ] {
            assert_eq!(number(SHIFT, row(&FIRST, 0, &[9; 5]), 1, list), expected);
        }
    }
}

#[test]
fn counts_that_are_owned() {
    let mut rooms = Rooms::new();
    let mut counts = Counts::of_field(0);
    assert_eq!((counts.field(), counts.rows()), (0, &[][..]));
    assert_eq!(counts.zeros_in_rows(0, 0), Err(NotCounted));
    assert_eq!(counts.first_zero_row(), Err(NotCounted));
    let mut grid = FIRST;
    let run = Run::new(SHIFT, &[5], 0, 2, Mode::Full);
    let done = run.on_counting(&mut grid, &mut counts, &mut rooms);
    assert_eq!(done.map(|done| done.count), Ok(10));
    assert_eq!(
        (grid, counts.rows()),
        ([0, 0, 1, 0, 0], &[1, 1, 0, 1, 1][..])
    );
    assert_eq!(counts.zeros_in_rows(1, 3), Ok(2));
    assert_eq!(counts.zeros_in_rows(0, 5), Err(NotCounted));
    assert_eq!(counts.first_zero_row(), Ok(Some(0)));
    // Refusals leave them, of whatever shape they are.
    let before = counts.clone();
    for (source, shape, list, number) in [
        (&b"1 dimensions of 0..1 x := y"[..], &[5][..], &b""[..], 8),
        (SHIFT, &[], b"", 20),
        (SHIFT, &[4_097], b"", 20),
        (SHIFT, &[u32::MAX], b"", 20),
        (SHIFT, &[3], b"", 21),
        (SHIFT, &[5], b"3\n", 56),
    ] {
        let run = Run::new(source, shape, 0, 2, Mode::Quiet).with_list(list);
        let stop = run.on_counting(&mut grid, &mut counts, &mut rooms);
        assert_eq!(stop.unwrap_err().number(), number);
        assert_eq!(counts, before);
    }
    let mut other = Counts::of_field(1);
    let stop = run.on_counting(&mut grid, &mut other, &mut rooms);
    assert_eq!(stop, Err(BAD_COUNTS));
    assert_eq!(other, Counts::of_field(1));
    assert_eq!(grid, [0, 0, 1, 0, 0]);
    // Another shape, and a fault.
    let mut grid = [0, 2, 1];
    let run = Run::new(COUNT_TO_3, &[3], 0, 5, Mode::Quiet).with_list(b"1\n[0] = 0\n");
    let stop = run.on_counting(&mut grid, &mut counts, &mut rooms);
    assert_eq!(stop.unwrap_err().number(), 33);
    assert_eq!((grid, counts.rows()), ([0, 3, 2], &[1, 0, 0][..]));
    assert_eq!(counts.first_zero_row(), Ok(Some(0)));
    let mut grid = [1, 1];
    let run = Run::new(SHIFT, &[2], 0, 0, Mode::Quiet);
    let done = run.on_counting(&mut grid, &mut counts, &mut rooms);
    assert_eq!(done, Ok(Done { steps: 0, count: 0 }));
    assert_eq!(counts.rows(), [0, 0]);
    assert_eq!(counts.first_zero_row(), Ok(None));
}

#[test]
fn in_slices() {
    let mut rooms = Rooms::new();
    let mut counts = Counts::of_field(0);
    let begun = |source, grid: &[i32]| {
        let shape = [grid.len() as u32];
        Paused::begin(source, &shape, grid.to_vec(), 0, &mut Rooms::new()).expect("admitted")
    };
    let paused = begun(SHIFT, &FIRST);
    let paused = paused.resume_counting(1, b"1\n[3] = 1\n", &mut counts, &mut rooms);
    let paused = paused.expect("a step");
    assert_eq!(paused.grid(), [0, 1, 0, 1, 0]);
    assert_eq!(counts.rows(), [1, 0, 1, 0, 1]);
    // What is refused leaves run and counts as they were; 61 before the list.
    let (as_it_was, before) = (paused.clone(), counts.clone());
    let mut none = Counts::of_field(1);
    let mut refused = |counts: &mut Counts, steps, list: &[u8]| {
        let answer = as_it_was
            .clone()
            .resume_counting(steps, list, counts, &mut rooms);
        let Err(NotResumed::Refused { stop, paused }) = answer else {
            panic!("{answer:?}");
        };
        assert_eq!(*paused, as_it_was);
        stop.number()
    };
    for (steps, list, with_field, without) in [
        (-1, &b"1\n"[..], 22, 22),
        (1, b"", 0, 61),
        (1, b"1\n", 54, 61),
        (0, b"1\n[0] = 0\n", 54, 61),
        (1, b"x", 50, 61),
        (1, b"9\n", 56, 61),
    ] {
        assert_eq!(refused(&mut none, steps, list), without, "{list:?}");
        assert_eq!(none, Counts::of_field(1));
        if with_field != 0 {
            assert_eq!(refused(&mut counts, steps, list), with_field, "{list:?}");
            assert_eq!(counts, before);
        }
    }
    // It goes on with counts or without.
    let plain = paused.clone().resume(1, b"", &mut rooms).expect("a step");
    let paused = paused.resume_counting(1, b"", &mut counts, &mut rooms);
    assert_eq!(paused, Ok(plain));
    assert_eq!(counts.rows(), [1, 1, 0, 1, 0]);
    // At a fault they are those of the grid that is left.
    let paused = begun(COUNT_TO_3, &[0, 2, 1]);
    let answer = paused.resume_counting(5, b"1\n[0] = 0\n", &mut counts, &mut rooms);
    let not_resumed = answer.unwrap_err();
    assert_eq!(not_resumed.number(), 33);
    assert_eq!(
        (not_resumed.grid(), counts.rows()),
        (&[0, 3, 2][..], &[1, 0, 0][..])
    );
}

#[test]
fn worked_questions() {
    let counts = [2, 0, 1, 1, 0];
    assert_eq!(zeros_in_rows(&counts, 1, 3), Ok(2));
    assert_eq!(zeros_in_rows(&counts, 0, 4), Ok(4));
    assert_eq!(zeros_in_rows(&counts, 4, 4), Ok(0));
    for (first, last) in [(3, 1), (0, 5), (5, 5), (5, 4), (0, u32::MAX), (u32::MAX, 0)] {
        assert_eq!(zeros_in_rows(&counts, first, last), Err(NotCounted));
    }
    assert_eq!(zeros_in_rows(&[], 0, 0), Err(NotCounted));
    assert_eq!(first_zero_row(&counts), Ok(Some(0)));
    assert_eq!(first_zero_row(&[0, 0, 1, 1, 0]), Ok(Some(2)));
    assert_eq!(first_zero_row(&[0, 0]), Ok(None));
    assert_eq!(first_zero_row(&[]), Err(NotCounted));
    // As many as any grid has rows, and one more; the sum is of 64 bits.
    let most = vec![u32::MAX; 4_097];
    let total = 4_096 * u64::from(u32::MAX);
    assert_eq!(zeros_in_rows(&most[1..], 0, 4_095), Ok(total));
    assert_eq!(zeros_in_rows(&most, 0, 0), Err(NotCounted));
    assert_eq!(first_zero_row(&most), Err(NotCounted));
    assert_eq!(first_zero_row(&[0; 4_097]), Err(NotCounted));
    assert_eq!(first_zero_row(&[0; 4_096]), Ok(None));
    assert_eq!(NotCounted.number(), 61);
    assert_eq!(
        NotCounted.to_string(),
        "not counted 61: rows reversed or outside, or counts not one a row"
    );
}

// ---- beside the second program

/// Makes a call, and holds what it returns and leaves to the second program's.
fn compare_call(call: &Call) -> u32 {
    let expected = call.made();
    let RunCase { source, shape, .. } = &call.run;
    let mut grid = call.run.grid.clone();
    let before = scratch_on_entry(call.run.scratch);
    let mut scratch = before.clone();
    let mut marks = call.marks.clone();
    let mut counts = call.counts.clone();
    let lent = Lent {
        words: &mut vec![7; call.run.words],
        names: &mut vec![7; 4 * call.run.names],
        scratch: &mut scratch,
        marks: &mut marks,
    };
    let lent = CountingLent {
        lent,
        field: call.field,
        counts: &mut counts,
    };
    let asked = (call.run.start, call.run.steps, &call.run.values[..]);
    let outcome = count_in(call.manner, source, shape, &mut grid, asked, lent);
    assert_eq!(report_of(&outcome), expected.report, "{call:?}");
    assert_eq!(grid, expected.grid, "{call:?}");
    assert_eq!(marks, expected.marks, "{call:?}");
    assert_eq!(counts, expected.counts, "{call:?}");
    if expected.began() {
        assert!(scratch.iter().all(|&entry| entry == 0), "{call:?}");
        compare_answers(&call.run, call.field, &grid, &counts);
    } else {
        assert_eq!(scratch, before, "{call:?}");
    }
    expected.report.number
}

/// Holds the answers from counts to the grid itself.
fn compare_answers(run: &RunCase, field: u32, grid: &[i32], counts: &[u32]) {
    let rows = counts.len();
    let entries = grid.len() / rows;
    let fields = reference::check(&run.source)
        .program
        .expect("accepted")
        .fields
        .len();
    let zeros = |from: usize, to: usize| {
        let cells = grid[from * entries..to * entries].chunks(fields);
        cells.filter(|cell| cell[field as usize] == 0).count() as u64
    };
    for first in 0..rows {
        for last in first..rows.min(first + 5) {
            let given = zeros_in_rows(counts, first as u32, last as u32);
            assert_eq!(given, Ok(zeros(first, last + 1)), "{run:?}");
        }
    }
    let first = (0..rows).find(|&row| zeros(row, row + 1) > 0);
    assert_eq!(
        first_zero_row(counts),
        Ok(first.map(|row| row as u32)),
        "{run:?}"
    );
}

/// Makes a run that began in two slices, where the second one alone has the
/// list, and with counts that are owned.
fn compare_slices(call: &Call, rooms: &mut Rooms) {
    let RunCase { source, shape, .. } = &call.run;
    let (start, steps) = (call.run.start, call.run.steps);
    let at_once = call.in_manner(Manner::Quiet).made();
    let mut counts = Counts::of_field(call.field);
    let mut grid = call.run.grid.clone();
    let run = Run::new(source, shape, start, steps, Mode::Quiet).with_list(&call.run.values);
    let outcome = run.on_counting(&mut grid, &mut counts, rooms);
    assert_eq!(report_of(&outcome), at_once.report, "{call:?}");
    assert_eq!(
        (&grid, counts.rows()),
        (&at_once.grid, &at_once.counts[..]),
        "{call:?}"
    );
    // Before the first time of the list there is no block.
    let first = call
        .run
        .values
        .split(|byte| matches!(byte, b'\n' | b'\r'))
        .next();
    let digits = first
        .unwrap_or_default()
        .iter()
        .filter(|byte| byte.is_ascii_digit());
    let time = digits.fold(0, |time, digit| 10 * time + i64::from(digit - b'0'));
    let end = if call.run.values.is_empty() {
        start + steps / 2
    } else {
        time
    };
    let mut counts = Counts::of_field(call.field);
    let grid = call.run.grid.clone();
    let paused = Paused::begin(source, shape, grid, start, rooms).expect("admitted");
    let mut faulted = None;
    match paused.resume_counting(end - start, b"", &mut counts, rooms) {
        Ok(paused) => {
            let fields = paused.grid().len() / call.marks.len();
            let expected = row_counts(shape, fields, call.field as usize, paused.grid());
            assert_eq!(counts.rows(), expected, "{call:?}");
            let left = start + steps - end;
            match paused.resume_counting(left, &call.run.values, &mut counts, rooms) {
                Ok(paused) => assert_eq!(paused.grid(), at_once.grid, "{call:?}"),
                Err(not_resumed) => faulted = Some(not_resumed),
            }
        }
        Err(not_resumed) => faulted = Some(not_resumed),
    }
    if let Some(not_resumed) = faulted {
        assert_eq!(not_resumed.number(), at_once.report.number, "{call:?}");
        assert_eq!(not_resumed.grid(), at_once.grid, "{call:?}");
    }
    assert_eq!(counts.rows(), at_once.counts, "{call:?}");
}

#[test]
fn runs() {
    let mut rooms = Rooms::new();
    let mut seen = [0; 63];
    let calls = vectors::stored_counted().into_iter();
    for mut call in calls.chain(vectors::counted(20_011, RUNS, false)) {
        call.counted = true;
        let number = compare_call(&call);
        seen[number as usize] += 1;
        if matches!(number, 0 | 30..=33) {
            compare_slices(&call, &mut rooms);
        }
    }
    print_seen("runs that count", &seen);
    for number in [0, 20, 21, 22, 24, 30, 31, 33, 50, 51, 53, 54, 55, 56, 61] {
        assert!(seen[number] > 0, "no run gave {number}");
    }
}

#[test]
fn questions() {
    let mut seen = [0; 63];
    for question in vectors::questions(20_012, QUESTIONS) {
        let (counts, first, last) = (&question.counts, question.first, question.last);
        let expected = rows::zeros_in_rows(counts, first, last);
        let given = match zeros_in_rows(counts, first, last) {
            Ok(total) => (0, total),
            Err(refusal) => (refusal.number(), 0),
        };
        assert_eq!(given, (expected.number, expected.value), "{question:?}");
        seen[expected.number as usize] += 1;
        let expected = rows::first_zero_row(counts);
        let given = match first_zero_row(counts) {
            Ok(Some(row)) => (0, u64::from(row)),
            Ok(None) => (62, 0),
            Err(refusal) => (refusal.number(), 0),
        };
        assert_eq!(given, (expected.number, expected.value), "{question:?}");
        seen[expected.number as usize] += 1;
    }
    print_seen("questions about counts", &seen);
    for number in [0, 61, 62] {
        assert!(seen[number] > 0, "no question gave {number}");
    }
}
