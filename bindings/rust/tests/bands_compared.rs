//! The library and the second program on the same plan checks, planner calls,
//! band calls, runs under a plan and border rows; such runs also beside the
//! library's own full run.
//!
//! Other numbers of cases can be compared by hand, as `tools/agree_bands.sh` does:
//! `CELLANG_CASES` says how many of each kind, and `CELLANG_SEED` which.

use banding::{bordered, checked, planned, ran, stepped, Tables};
use cellang::{CountingLent, Lent, Mode, Run};
use reference::band_case::{BandedCase, BorderCase};
use reference::bands::{border, Band};
use reference::call_case::Left;
use reference::case::{began, scratch_on_entry, word};
use reference::{check, vectors, written_bands, written_edges, written_orders};
use std::env;
use told::{print_seen, report_of};

mod banding;
mod told;

const PLANS: usize = 30_000;
const PLANNERS: usize = 10_000;
const BANDS: usize = 30_000;
const RUNS: usize = 20_000;

/// The number in an environment variable, if there is one.
fn number_in(variable: &str) -> Option<u64> {
    let text = env::var(variable).ok()?;
    Some(text.parse().expect("a number"))
}

fn cases(usual: usize) -> usize {
    number_in("CELLANG_CASES").map_or(usual, |count| count as usize)
}

fn seed(usual: u64) -> u64 {
    number_in("CELLANG_SEED").unwrap_or(usual)
}

/// Cases without the numbers that they are written with.
fn plain<C>(ordered: Vec<(u32, C)>) -> impl Iterator<Item = C> {
    ordered.into_iter().map(|(_, case)| case)
}

#[test]
fn plans() {
    let mut seen = [0; 63];
    let written = plain(written_orders::plans())
        .chain(written_bands::plans())
        .chain(written_edges::plans());
    for case in written.chain(vectors::plans(seed(20_041), cases(PLANS))) {
        let expected = case.made();
        assert_eq!(checked(&case), expected, "{case:?}");
        let asked = case.asked;
        let question = BorderCase { asked };
        assert_eq!(bordered(&question), question.made(), "{question:?}");
        seen[expected.0 as usize] += 1;
    }
    print_seen("plan checks, each with border rows,", &seen);
    for number in [0, 1, 20, 23, 60] {
        assert!(seen[number] > 0, "no plan check gave {number}");
    }
}

#[test]
fn planners() {
    let mut seen = [0; 63];
    let written = plain(written_orders::planners())
        .chain(written_bands::planners())
        .chain(written_edges::planners());
    for case in written.chain(vectors::planners(seed(20_042), cases(PLANNERS))) {
        let expected = case.made();
        assert_eq!(planned(&case), expected, "{case:?}");
        seen[expected.number as usize] += 1;
    }
    print_seen("planner calls", &seen);
    for number in [0, 1, 20, 21, 23, 59] {
        assert!(seen[number] > 0, "no planner call gave {number}");
    }
}

#[test]
fn band_calls() {
    let mut seen = [0; 63];
    let written = plain(written_orders::bands())
        .chain(written_bands::bands())
        .chain(written_edges::bands());
    for case in written.chain(vectors::bands(seed(20_043), cases(BANDS))) {
        let expected = case.made();
        assert_eq!(stepped(&case), expected, "{case:?}");
        seen[expected.0.number as usize] += 1;
    }
    print_seen("band calls", &seen);
    for number in [0, 1, 20, 21, 22, 23, 24, 30, 31, 32, 33, 60] {
        assert!(seen[number] > 0, "no band call gave {number}");
    }
}

/// What the library's own full run leaves of a case, the plan aside.
fn ran_whole(case: &BandedCase) -> Left {
    let (call, run) = (&case.call, &case.call.run);
    let mut tables = Tables::new(run.words, run.names);
    let before = scratch_on_entry(run.scratch);
    let (mut grid, mut scratch) = (run.grid.clone(), before.clone());
    let (mut marks, mut counts) = (call.marks.clone(), call.counts.clone());
    let lent = Lent {
        words: &mut tables.words,
        names: &mut tables.names,
        scratch: &mut scratch,
        marks: &mut marks,
    };
    let asked = Run::new(&run.source, &run.shape, run.start, run.steps, Mode::Full);
    let asked = asked.with_list(&run.values);
    let outcome = if call.counted {
        let counting = CountingLent {
            lent,
            field: call.field,
            counts: &mut counts,
        };
        asked.on_counting_in(&mut grid, counting)
    } else {
        asked.on_in(&mut grid, lent)
    };
    let report = report_of(&outcome);
    tables.compare(&run.source, report.number);
    Left {
        report,
        grid,
        scratch: word(&scratch, &before, began(report.number)),
        marks,
        counts,
    }
}

/// Compares a run under a plan; whether it began.
fn compare_run(case: &BandedCase, seen: &mut told::Seen) -> bool {
    let (expected, expected_room) = case.made();
    let (left, room) = ran(case);
    assert_eq!((&left, room), (&expected, expected_room), "{case:?}");
    let (number, whole) = (left.report.number, ran_whole(case));
    if number == whole.report.number {
        assert_eq!(left, whole, "{case:?}");
    } else {
        // The room, or the plan: a refusal before which the whole run gives none.
        let later = whole.began() || (22..=61).contains(&whole.report.number);
        assert!(number == 21 && later || number == 60 && whole.began());
    }
    seen[number as usize] += 1;
    left.began()
}

/// What the runs that begin have to show.
#[derive(Default, Debug)]
struct Shown {
    began: usize,
    several_bands: usize,
    lists: usize,
    counts: usize,
    faults: usize,
    repeated_rows: usize,
}

impl Shown {
    fn note(&mut self, case: &BandedCase) {
        let run = &case.call.run;
        let border = border(&check(&run.source).program.expect("a run that began"));
        let with = |band: &[u32]| border.rows_with(Band::new(band[0], band[1]));
        let repeated = |band: &[u32]| with(band) > u64::from(run.shape[0]);
        let several = case.plan.len() > 2;
        self.began += 1;
        self.several_bands += usize::from(several);
        self.lists += usize::from(several && !run.values.is_empty());
        self.counts += usize::from(several && case.call.counted);
        self.faults += usize::from(several && case.made().0.faulted());
        self.repeated_rows += usize::from(case.plan.chunks(2).any(repeated));
    }

    /// Whether each is shown at least once in so many cases.
    fn each_in(&self, cases: usize, of: usize) -> bool {
        let all = [
            self.several_bands,
            self.lists,
            self.counts,
            self.faults,
            self.repeated_rows,
        ];
        self.began * 2 > of && all.iter().all(|&count| count * cases > of)
    }
}

#[test]
fn runs() {
    let mut seen = [0; 63];
    let mut shown = Shown::default();
    let count = cases(RUNS);
    let written = plain(written_orders::runs())
        .chain(written_bands::runs())
        .chain(written_edges::runs());
    for case in written.chain(vectors::banded(seed(20_044), count, false)) {
        if compare_run(&case, &mut seen) {
            shown.note(&case);
        }
    }
    print_seen("runs under a plan", &seen);
    println!("{shown:?}");
    assert!(shown.each_in(25, count), "{shown:?}");
    for number in (20..=24).chain(30..=33).chain(50..=56) {
        assert!(seen[number] > 0, "no run under a plan gave {number}");
    }
    for number in [0, 1, 2, 58, 60, 61] {
        assert!(seen[number] > 0, "no run under a plan gave {number}");
    }
}
