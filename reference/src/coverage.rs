//! How often generated cases show what they are generated for.

mod bands;
mod moves;

use crate::call_case::{Call, Left};
use crate::case::{began, row_text, run_case, RunCase};
use crate::chains::Chain;
use crate::lists::{before_time, times_of};
use crate::parse::check;
use crate::pausing::Manner;
use crate::places::places;
use crate::rows::row_counts;
use crate::vectors;
use crate::write_case::write_case;
use bands::{see_band, see_banded, see_plan, see_planner};
use moves::{see_moving, see_near, see_shown};

/// What was seen, in the order in which it is printed: how often, and whether
/// it has to be seen or may not be.
#[derive(Default)]
struct Seen(Vec<(&'static str, usize, bool)>);

impl Seen {
    fn add(&mut self, what: &'static str, holds: bool, wanted: bool) {
        match self.0.iter_mut().find(|(known, ..)| *known == what) {
            Some((_, count, _)) => *count += usize::from(holds),
            None => self.0.push((what, holds.into(), wanted)),
        }
    }

    /// Notes what has to be seen.
    fn note(&mut self, what: &'static str, holds: bool) {
        self.add(what, holds, true);
    }

    /// Notes what may not be.
    fn never(&mut self, what: &'static str, holds: bool) {
        self.add(what, holds, false);
    }
}

/// Runs a case full and quiet, and returns the number.
fn see_run(case: &RunCase, seen: &mut Seen) -> u32 {
    let outcome = run_case(case, false);
    let (full, quiet) = (outcome.report, run_case(case, true).report);
    let less = quiet.count < full.count;
    seen.note("runs whose quiet count is less than the full one", less);
    if !began(full.number) {
        return full.number;
    }
    if let Some(program) = check(&case.source).program {
        let widths = program.bounds().into_iter();
        let vectors: i64 = widths
            .map(|bound| i64::from(bound.1) - i64::from(bound.0) + 1)
            .product();
        let listed = places(&program).map(|list| list.len() as i64);
        seen.note(
            "runs that begin, with fewer places than the box",
            listed.is_some_and(|length| length < vectors),
        );
        seen.note(
            "runs that begin, with more than 256 places",
            listed.is_none(),
        );
    }
    if !case.values.is_empty() {
        let bare = case.clone().with_list(&[]);
        let other = run_case(&bare, false).grid != outcome.grid;
        let opened = run_case(&bare, true).report.count != quiet.count;
        seen.note("runs whose list changes what is left", other);
        seen.note("runs whose list changes the quiet count", opened);
        seen.note(
            "runs that fault, whose list changes what is left",
            other && full.number != 0,
        );
    }
    full.number
}

/// What the call leaves with another list, and so many steps.
fn left_with(call: &Call, list: &[u8], steps: i64) -> Left {
    let mut other = call.clone();
    other.run.values = list.to_vec();
    other.run.steps = steps;
    other.made()
}

/// Whether some cell differs in the first two grids, and is in the third as it
/// was in the first.
fn changed_back(fields: usize, grids: [&[i32]; 3]) -> bool {
    let [first, second, third] = grids.map(|grid| grid.chunks(fields));
    first
        .zip(second)
        .zip(third)
        .any(|((first, second), third)| first != second && first == third)
}

/// Two calls of a chain, the earlier without a fault.
fn see_joint(earlier: (&Call, &Left), later: &Call, fields: usize, seen: &mut Seen) {
    let (call, left) = earlier;
    let (now, list) = (later.run.start, &call.run.values);
    let is_now = |block: Option<&(i64, usize)>| block.is_some_and(|block| block.0 == now);
    // The grid before the earlier call's last step, with its block set.
    let stepped = |list: &[u8]| {
        let list = before_time(list, now);
        left_with(call, list, call.run.steps - 1).grid
    };
    if is_now(times_of(list).last()) {
        let without = left_with(call, before_time(list, now), call.run.steps);
        seen.note(
            "blocks at a boundary, in the earlier list, that change what is left",
            without != *left,
        );
        let back =
            call.run.steps > 0 && changed_back(fields, [&stepped(list), &without.grid, &left.grid]);
        seen.note(
            "blocks at a boundary, in the earlier list, that change a cell back",
            back,
        );
    }
    if is_now(times_of(&later.run.values).first()) {
        let front = before_time(&later.run.values, now + 1);
        let set = left_with(later, front, 0);
        let rest = &later.run.values[front.len()..];
        let without = left_with(later, rest, later.run.steps);
        seen.note(
            "blocks at a boundary, in the later list, that change what is left",
            without != later.made(),
        );
        let back =
            call.run.steps > 0 && changed_back(fields, [&stepped(list), &left.grid, &set.grid]);
        seen.note(
            "blocks at a boundary, in the later list, that change a cell back",
            back,
        );
    }
    let fresh = later.in_manner(Manner::Pausing).made();
    seen.note(
        "calls in chains that evaluate fewer cells than a fresh run",
        later.made().report.count < fresh.report.count,
    );
}

/// Gives the numbers of the calls.
fn see_chain(chain: &Chain, seen: &mut Seen) -> Vec<u32> {
    let program = check(&chain.whole.run.source).program.expect("accepted");
    let claimed = chain.claimed();
    let together = chain.together();
    seen.never(
        "chains that do not give what the run at once gives",
        !chain.joins(),
    );
    seen.note("chains without a list", chain.whole.run.values.is_empty());
    seen.note("chains whose source reads time", program.uses_time);
    seen.note(
        "chains begun from lent marks",
        chain.whole.manner == Manner::Resuming,
    );
    seen.note(
        "chains with a call of 0 steps",
        chain.calls.iter().any(|call| call.run.steps == 0),
    );
    let full = chain.whole.in_manner(Manner::Full).made();
    let fresh = chain.whole.manner == Manner::Pausing;
    seen.note(
        "chains whose summed count is less than the full one",
        claimed && fresh && together.report.count < full.report.count,
    );
    seen.note(
        "chains whose last call faults",
        claimed && together.faulted() && chain.calls.len() > 1,
    );
    seen.note("chains with a call behind a fault", !claimed);
    let joints = chain.calls.iter().zip(&chain.left).zip(&chain.calls[1..]);
    for (earlier, later) in joints {
        if earlier.1.report.number == 0 {
            see_joint(earlier, later, program.fields.len(), seen);
        }
    }
    let numbers = chain.left.iter().map(|left| left.report.number);
    numbers.collect()
}

fn see_resumed(call: &Call, seen: &mut Seen) -> u32 {
    let left = call.made();
    let number = left.report.number;
    if call.manner != Manner::Resuming {
        return number;
    }
    let zero = left.marks.iter().all(|&mark| mark == 0);
    if !left.began() {
        seen.note(
            "resumed runs that are refused, with marks left standing",
            !zero,
        );
        return number;
    }
    let full = call.in_manner(Manner::Full).made();
    let both = number == 0 && full.report.number == 0;
    seen.note(
        "resumed runs that leave another grid than the full run",
        both && left.grid != full.grid,
    );
    seen.note(
        "resumed runs that leave the grid of the full run, with fewer cells evaluated",
        both && left.grid == full.grid && left.report.count < full.report.count,
    );
    seen.note(
        "resumed runs without the full run's fault",
        number == 0 && full.report.number != 0,
    );
    seen.note(
        "resumed runs with another fault than the full run's",
        number != 0 && left.report != full.report && left.grid != full.grid,
    );
    seen.note(
        "resumed runs that evaluate nothing",
        left.report.count == 0 && left.report.steps > 0,
    );
    seen.note(
        "resumed runs with marks over 1",
        call.marks.iter().any(|&mark| mark > 1),
    );
    seen.note(
        "resumed runs that leave some marks and not all",
        !zero && left.marks.contains(&0),
    );
    let bare = left_with(call, &[], call.run.steps);
    seen.note(
        "resumed runs whose list changes the count",
        bare.report.count != left.report.count,
    );
    number
}

/// A run that counts, asked to count or not.
fn see_counted(call: &Call, seen: &mut Seen) -> u32 {
    let left = call.made();
    let number = left.report.number;
    let mut bare = call.clone();
    bare.counted = false;
    if !call.counted {
        seen.note(
            "runs lent counts that they are not asked for",
            !call.counts.is_empty() && left.began(),
        );
        return number;
    }
    let fields = check(&call.run.source)
        .program
        .map_or(0, |program| program.fields.len());
    let rows = call.run.shape.first().map_or(0, |&size| size as usize);
    let no_field = call.field as usize >= fields;
    let no_rows = call.counts.len() != rows;
    seen.note("20 to 24 where the counts are wrong too", {
        (20..=24).contains(&number) && (no_field || no_rows)
    });
    if number == 61 {
        let bad = bare.made().report.number;
        seen.note("61 for the field alone", no_field && !no_rows);
        seen.note("61 for the number of counts alone", no_rows && !no_field);
        seen.note("61 where the list is refused too", (50..=58).contains(&bad));
    }
    if !left.began() {
        return number;
    }
    let before = row_counts(&call.run.shape, fields, call.field as usize, &call.run.grid);
    let moved = before != left.counts;
    let [full, quiet, pausing, resuming] = [
        "full runs whose counts moved",
        "quiet runs whose counts moved",
        "pausing runs whose counts moved",
        "resumed runs whose counts moved",
    ];
    let title = match call.manner {
        Manner::Full => full,
        Manner::Quiet => quiet,
        Manner::Pausing => pausing,
        Manner::Resuming => resuming,
    };
    seen.note(title, moved);
    let wide = call.run.shape[1..].iter().any(|&size| size > 1);
    seen.note("counts moved in rows of more than one cell", moved && wide);
    seen.note("counts moved of another field than the first", {
        moved && call.field > 0
    });
    seen.note("counts moved by a block alone", {
        moved && left.report.steps == 0
    });
    seen.note("counts moved before a fault", moved && left.faulted());
    number
}

/// The cases of one kind: their numbers, and those that there have to be.
struct Kind {
    title: &'static str,
    found: [usize; 64],
    wanted: Vec<usize>,
}

impl Kind {
    fn new(
        title: &'static str,
        numbers: impl Iterator<Item = u32>,
        wanted: &[std::ops::RangeInclusive<usize>],
    ) -> Kind {
        let mut found = [0; 64];
        for number in numbers {
            found[number as usize] += 1;
        }
        let wanted = wanted.iter().cloned().flatten().collect();
        Kind {
            title,
            found,
            wanted,
        }
    }

    fn missing(&self) -> impl Iterator<Item = usize> + '_ {
        let wanted = self.wanted.iter().copied();
        wanted.filter(|&number| self.found[number] == 0)
    }
}

/// The cases of each kind that are generated for a count.
fn kinds(seed: u64, count: usize, seen: &mut Seen) -> Vec<Kind> {
    let checks = vectors::checks(seed, count, false);
    let part = count / 10;
    vec![
        Kind::new(
            "checks",
            checks.map(|source| check(&source).reply.number),
            &[0..=0, 2..=9, 12..=15, 40..=45],
        ),
        Kind::new(
            "runs",
            vectors::runs(seed, part, false).map(|case| see_run(&case, seen)),
            &[0..=0, 20..=24, 30..=33, 50..=56],
        ),
        Kind::new(
            "lists",
            vectors::lists(seed, part, false).map(|case| see_run(&case, seen)),
            &[0..=0, 30..=33, 50..=56],
        ),
        Kind::new(
            "writings",
            vectors::writings(seed, part).map(|case| write_case(&case).0.number),
            &[0..=1, 20..=24, 57..=57],
        ),
        Kind::new(
            "chains",
            vectors::chains(seed, part, false).flat_map(|chain| see_chain(&chain, seen)),
            &[0..=0, 30..=33],
        ),
        Kind::new(
            "resumed",
            vectors::resumed(seed, part, false).map(|call| see_resumed(&call, seen)),
            &[0..=1, 20..=24, 30..=33, 50..=56],
        ),
        Kind::new(
            "counted",
            vectors::counted(seed, part, false).map(|call| see_counted(&call, seen)),
            &[0..=1, 20..=24, 30..=33, 50..=56, 61..=61],
        ),
        Kind::new(
            "near",
            vectors::near(seed, part, false).map(|source| see_near(&source, seen)),
            &[0..=0, 7..=9, 12..=12],
        ),
        Kind::new(
            "moving",
            vectors::moving(seed, part, false).map(|call| see_moving(&call, seen)),
            &[0..=1, 20..=24, 30..=33, 50..=56, 58..=58, 61..=61],
        ),
        Kind::new(
            "shown",
            vectors::shown(seed, part).map(|case| see_shown(&case, seen)),
            &[0..=1, 20..=24, 57..=57],
        ),
        Kind::new(
            "plans",
            vectors::plans(seed, part).map(|case| see_plan(&case, seen)),
            &[0..=1, 20..=20, 23..=23, 60..=60],
        ),
        Kind::new(
            "planners",
            vectors::planners(seed, part).map(|case| see_planner(&case, seen)),
            &[0..=1, 20..=21, 23..=23, 59..=59],
        ),
        Kind::new(
            "bands",
            vectors::bands(seed, part).map(|case| see_band(&case, seen)),
            &[0..=1, 20..=24, 30..=33, 60..=60],
        ),
        Kind::new(
            "banded",
            vectors::banded(seed, part, false).map(|case| see_banded(&case, seen)),
            &[0..=1, 20..=24, 30..=33, 50..=56, 58..=58, 60..=61],
        ),
    ]
}

/// Counts generated cases of each kind by their numbers, and what is seen in
/// them; the second result says whether nothing is missing.
pub fn coverage(seed: u64, count: usize) -> (String, bool) {
    let mut seen = Seen::default();
    let kinds = kinds(seed, count, &mut seen);
    let titles: Vec<&str> = kinds.iter().map(|kind| kind.title).collect();
    let mut text = format!("number {}\n", titles.join(" "));
    for number in 0..64 {
        if kinds.iter().any(|kind| kind.found[number] > 0) {
            let each: Vec<usize> = kinds.iter().map(|kind| kind.found[number]).collect();
            text += &format!("{number}{}\n", row_text(&each));
        }
    }
    let mut complete = true;
    for (what, count, wanted) in seen.0 {
        text += &format!("{what}: {count}\n");
        complete &= wanted == (count > 0);
    }
    for kind in kinds {
        for number in kind.missing() {
            text += &format!("never among {}: {number}\n", kind.title);
            complete = false;
        }
    }
    (text, complete)
}
