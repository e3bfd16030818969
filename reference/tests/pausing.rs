//! Pausing and resuming: the cases worked out in the papers, and properties
//! over generated calls.

use reference::call_case::{call_line, put_call, Call, Left, MOST_ENTRIES};
use reference::case::{marks_on_entry, run_case, RunCase};
use reference::pausing::Manner;
use reference::vectors;
use reference::written_calls::worked;

/// The answers to the worked cases: number, place, line, cell, steps, count,
/// scratch; grid; marks.
const ANSWERS: [&str; 12] = [
    "0 0 0 0 0 0 zero : 1 0 0 0 0 : 0101010101 :\n",
    "0 0 0 0 1 5 zero : 0 1 0 0 0 : 0101010000 :\n",
    "0 0 0 0 1 3 zero : 0 0 1 0 0 : 0001010100 :\n",
    "0 0 0 0 1 1 zero : 1 1 0 0 0 : 0001010000 :\n",
    "0 0 0 0 2 0 zero : 1 0 0 0 0 : 0000000000 :\n",
    "0 0 0 0 1 5 zero : 0 1 0 1 0 : 0101010101 :\n",
    "0 0 0 0 1 5 zero : 0 0 1 0 1 : 0101010101 :\n",
    "0 0 0 0 1 5 zero : 0 0 1 0 1 : 0101010101 :\n",
    "0 0 0 0 0 0 zero : 1 0 1 0 0 : 0101010000 :\n",
    "0 0 0 0 1 5 zero : 1 0 0 0 0 : 0101010000 :\n",
    "33 26 0 1 1 5 zero : 1 3 2 : 000000 :\n",
    "0 0 0 0 2 4 zero : 2 2 : 0101 :\n",
];

#[test]
fn worked_cases() {
    let calls = worked();
    assert_eq!(calls.len(), ANSWERS.len());
    for (call, answer) in calls.iter().zip(ANSWERS) {
        assert_eq!(call_line(&call.made()), answer);
    }
    // Which calls resume which: the earlier one, its list in the later call.
    for (earlier, later) in [(1, 2), (5, 6), (1, 7)] {
        let left = calls[earlier].made();
        let next = &calls[later];
        let resumed = calls[earlier].resumed(&left, next.run.steps, &next.run.values);
        assert_eq!(resumed.run.grid, next.run.grid);
        assert_eq!(resumed.run.start, next.run.start);
        assert_eq!(resumed.marks, next.marks);
    }
    // M5, in two calls and in one.
    let whole = RunCase {
        steps: 2,
        ..calls[1].run.clone()
    };
    assert_eq!(run_case(&whole, true).report.count, 8);
    assert_eq!(run_case(&whole, false).grid, calls[2].made().grid);
    let listed = whole.with_list(b"1\n[3] = 1\n");
    assert_eq!(run_case(&listed, true).report.count, 10);
    // No agreement under wrong marks.
    let full = calls[4].in_manner(Manner::Full).made();
    assert_eq!(full.grid, [0, 0, 1, 0, 0]);
}

/// A resuming call on a row of cells.
fn resuming(source: &str, grid: &[i32], marks: &[u8], steps: i64, list: &str) -> Left {
    let shape = [grid.len() as u32];
    let run = RunCase::new(source.into(), &shape, grid.to_vec(), 0, steps);
    Call::new(
        run.with_list(list.as_bytes()),
        Manner::Resuming,
        marks.to_vec(),
    )
    .made()
}

#[test]
fn faults_of_closed_cells() {
    let by = "1 dimensions of 0..9 x := 6 / cell";
    // No open cell faults.
    let left = resuming(by, &[0, 0, 1], &[0, 0, 9], 3, "");
    assert_eq!(call_line(&left), "0 0 0 0 3 1 zero : 0 0 1 : 000000 :\n");
    // The lowest open cell that faults, and the open cells up to it.
    let left = resuming(by, &[0, 1, 0, 0], &[0, 1, 0, 1], 3, "");
    assert_eq!(
        call_line(&left),
        "31 28 0 3 0 2 zero : 0 1 0 0 : 00000000 :\n"
    );
    // A block opens a cell that faults, and stays; the later one is not set.
    let left = resuming(by, &[1, 1, 0], &[0, 0, 0], 3, "1\n[1] = 0\n2\n[0] = 9\n");
    assert_eq!(call_line(&left), "31 28 0 1 1 1 zero : 1 0 0 : 000000 :\n");
}

#[test]
fn refusals_leave_the_marks() {
    let source = "1 dimensions of 0..9 cell := [2]";
    let lent = [0, 7, 255];
    let cases: [(RunCase, u32); 7] = [
        (RunCase::new("".into(), &[3], vec![0; 3], 0, 1), 7),
        (RunCase::new(source.into(), &[3, 1], vec![0; 3], 0, 1), 20),
        (RunCase::new(source.into(), &[3], vec![0; 2], 0, 1), 21),
        (RunCase::new(source.into(), &[3], vec![0; 3], 0, -1), 22),
        (RunCase::new(source.into(), &[3], vec![0, 10, 0], 0, 1), 24),
        (
            RunCase::new(source.into(), &[3], vec![0; 3], 0, 1).with_list(b"0\n[3] = 1\n"),
            51,
        ),
        (RunCase::new(source.into(), &[4], vec![0; 4], 0, 1), 21),
    ];
    for (run, number) in cases {
        for manner in Manner::ALL {
            let left = Call::new(run.clone(), manner, lent.to_vec()).made();
            assert_eq!(left.report.number, number, "{manner:?}");
            assert_eq!(left.marks, lent, "{manner:?}");
            assert_eq!(left.grid, run.grid, "{manner:?}");
            assert_eq!(left.scratch, "same", "{manner:?}");
        }
    }
}

#[test]
fn manners_over_generated_runs() {
    let mut standing = 0;
    let cases = vectors::runs(21, 3_000, false).chain(vectors::lists(22, 3_000, false));
    for run in cases.filter(|run| run.marks <= 4_100) {
        let mut call = Call::new(run.clone(), Manner::Full, marks_on_entry(run.marks));
        let [full, quiet, pausing, _] = Manner::ALL.map(|manner| call.in_manner(manner).made());
        let zero = vec![0; run.marks];
        if !full.began() {
            for left in [&full, &quiet, &pausing] {
                assert_eq!((&left.marks, &left.grid), (&call.marks, &run.grid));
            }
            continue;
        }
        // A pausing run is a quiet one but for its marks.
        assert_eq!(pausing.report, quiet.report);
        assert_eq!((&full.marks, &quiet.marks), (&zero, &zero));
        for left in [&full, &quiet, &pausing] {
            assert_eq!((&left.grid, left.scratch), (&full.grid, "zero"));
        }
        if full.faulted() {
            assert_eq!(pausing.marks, zero);
        } else {
            assert!(pausing.marks.iter().all(|&mark| mark <= 1));
            standing += usize::from(pausing.marks != zero);
        }
        // Resumed with every cell marked, by any number, it is a fresh run.
        call.manner = Manner::Resuming;
        for (cell, mark) in call.marks.iter_mut().enumerate() {
            *mark = (cell % 255) as u8 + 1;
        }
        assert_eq!(call.made(), pausing);
        // With no cell marked and no list, nothing happens but for `time`.
        call.marks.fill(0);
        call.run.values.clear();
        let left = call.made();
        if reference::check(&run.source).program.unwrap().uses_time {
            assert!(left.faulted() || left.marks.iter().all(|&mark| mark == 1));
        } else {
            assert_eq!((&left.grid, &left.marks), (&run.grid, &zero));
            assert_eq!(i64::from(left.report.steps), run.steps);
            assert_eq!(left.report.count, 0);
        }
    }
    assert!(standing > 1_000, "{standing}");
}

/// The standing marks are the cells that one more step opens: it counts as
/// many, and each of them is opened by its mark alone.
#[test]
fn standing_marks_are_the_next_open_cells() {
    let mut seen = 0;
    for run in vectors::runs(23, 1_500, true) {
        let call = Call::pausing(run);
        let left = call.made();
        if left.report.number != 0 || call.run.start + call.run.steps == 2_147_483_647 {
            continue;
        }
        let next = call.resumed(&left, 1, b"");
        let more = Call {
            run: RunCase {
                steps: call.run.steps + 1,
                ..call.run.clone()
            },
            ..call.clone()
        };
        let (more, next) = (more.made(), next.made());
        assert_eq!(more.report.number, next.report.number);
        let opened = more.report.count - left.report.count;
        assert_eq!(opened, next.report.count);
        if next.report.number == 0 {
            let standing: u64 = left.marks.iter().map(|&mark| u64::from(mark)).sum();
            assert_eq!(opened, standing);
            seen += 1;
        }
    }
    assert!(seen > 500, "{seen}");
}

/// Chains give what the run at once returns.
#[test]
fn chains_join() {
    let (mut claimed, mut quieter, mut faulted) = (0, 0, 0);
    let chains = vectors::chains(24, 4_000, false).chain(vectors::chains(25, 4_000, true));
    for chain in chains {
        assert!((1..=5).contains(&chain.calls.len()));
        let lists: Vec<&[u8]> = chain
            .calls
            .iter()
            .map(|call| &call.run.values[..])
            .collect();
        let text = String::from_utf8_lossy(&chain.whole.run.source);
        assert!(chain.whole_left.began(), "{text}");
        assert!(chain.joins(), "{text} {:?}", chain.calls);
        if !chain.claimed() {
            continue;
        }
        claimed += 1;
        assert_eq!(lists.concat(), chain.whole.run.values);
        faulted += usize::from(chain.whole_left.faulted());
        // A chain that leads back to a fresh run agrees with the full run.
        if chain.whole.manner == Manner::Pausing {
            let full = chain.whole.in_manner(Manner::Full).made();
            let together = chain.together();
            assert_eq!(together.grid, full.grid);
            assert!(together.report.count <= full.report.count);
            quieter += usize::from(together.report.count < full.report.count);
        }
    }
    assert!(claimed > 6_000, "{claimed}");
    assert!(quieter > 2_000, "{quieter}");
    assert!(faulted > 300, "{faulted}");
}

/// Reads numbers and bytes off the front of a case's binary form.
struct Front<'a>(&'a [u8]);

impl Front<'_> {
    fn bytes(&mut self, length: usize) -> Vec<u8> {
        let (front, rest) = self.0.split_at(length);
        self.0 = rest;
        front.to_vec()
    }

    fn number(&mut self) -> u32 {
        let bytes = self.bytes(4);
        u32::from_le_bytes(bytes.try_into().unwrap())
    }

    fn long(&mut self) -> i64 {
        let bytes = self.bytes(8);
        i64::from_le_bytes(bytes.try_into().unwrap())
    }

    fn counted_bytes(&mut self) -> Vec<u8> {
        let length = self.number() as usize;
        self.bytes(length)
    }

    fn row(&mut self) -> Vec<u32> {
        let length = self.number();
        (0..length).map(|_| self.number()).collect()
    }

    /// A call, as its binary form is described.
    fn call(&mut self) -> Call {
        assert_eq!(self.number(), 2);
        let source = self.counted_bytes();
        let [words, names] = [self.number(), self.number()].map(|length| length as usize);
        let shape = self.row();
        let grid = self.row().into_iter().map(|entry| entry as i32).collect();
        let [scratch, marks] = [self.number(), self.number()].map(|length| length as usize);
        let [start, steps] = [self.long(), self.long()];
        let values = self.counted_bytes();
        let manner = Manner::ALL[self.number() as usize];
        let [counted, field, length] = [self.number(), self.number(), self.number()];
        let run = RunCase {
            source,
            words,
            names,
            shape,
            grid,
            scratch,
            marks,
            start,
            steps,
            values,
        };
        let mut call = Call::new(run, manner, self.bytes(marks));
        call.counted = counted == 1;
        call.field = field;
        call.counts = (0..length).map(|_| self.number()).collect();
        call
    }
}

#[test]
fn calls_are_read_back() {
    let mut calls = vectors::stored_calls();
    calls.extend(vectors::stored_counted());
    calls.extend(vectors::resumed(26, 2_000, false));
    calls.extend(vectors::counted(27, 2_000, false));
    let mut bytes = Vec::new();
    for call in &calls {
        put_call(&mut bytes, call);
    }
    let mut front = Front(&bytes);
    for call in &calls {
        let again = front.call();
        assert_eq!(format!("{again:?}"), format!("{call:?}"));
        assert_eq!(again.made(), call.made());
        let rooms = [
            call.run.grid.len(),
            call.run.scratch,
            call.marks.len(),
            call.counts.len(),
        ];
        assert!(rooms.iter().all(|&length| length <= MOST_ENTRIES));
        assert!(call.run.values.len() <= 4_096 && call.run.shape.len() <= 8);
        assert!(call.run.words <= 16_400 && call.run.names <= 1_024);
        assert!(call_line(&call.made()).len() < 65_536);
    }
    assert!(front.0.is_empty());
}
