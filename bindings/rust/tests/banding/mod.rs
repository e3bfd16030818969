//! The library on cases of the second program on bands of rows: what it returns and
//! leaves, in the form in which the second program answers.

use crate::told::report_of;
use cellang::{check_in, Band, BandedLent, BandedRun, Held, Lent, NotPlanned, Outcome, Stop};
use reference::band_case::{
    numbers_on_entry, Asked, BandCase, BandedCase, BorderCase, Bordered, PlanCase, Planned,
    PlannerCase,
};
use reference::call_case::Left;
use reference::case::{began, scratch_on_entry, word};
use reference::spelling::BUILT_IN;
use reference::{spelling, Reply, Report};

/// What the tables hold on entry.
const BEFORE: u32 = 0x5A5A_5A5A;

/// Word table and name list.
pub struct Tables {
    pub words: Vec<u32>,
    pub names: Vec<u32>,
}

impl Tables {
    pub fn new(words: usize, records: usize) -> Tables {
        Tables {
            words: vec![BEFORE; words],
            names: vec![BEFORE; 4 * records],
        }
    }

    fn of(asked: &Asked) -> Tables {
        Tables::new(asked.words, asked.names)
    }

    /// Holds them to what a check leaves. A reply is 1 or 2 exactly if the check's
    /// is.
    pub fn compare(&self, source: &[u8], number: u32) {
        let mut checked = Tables::new(self.words.len(), self.names.len() / 4);
        let check = check_in(source, &mut checked.words, &mut checked.names);
        let same = check.map_or_else(|refusal| refusal.number() == number, |()| true);
        assert!(same, "{}", source.escape_ascii());
        assert!(self.words == checked.words && self.names == checked.names);
    }
}

fn held_of(asked: &Asked) -> Held<'_, '_> {
    Held::new(&asked.source, &asked.shape, asked.held)
}

/// Holds the spelling of a refusal to the second program's.
fn compare_spelling(source: &[u8], refusal: &cellang::Refusal) {
    let (number, place) = (refusal.number(), refusal.place.0);
    let expected = spelling(source, Reply { number, place });
    assert_eq!(refusal.spelling, expected.bytes(source, BUILT_IN));
}

/// Number and place of an answer.
fn told_of<T>(source: &[u8], answer: &Result<T, NotPlanned>) -> (u32, u32) {
    let Err(not_planned) = answer else {
        return (0, 0);
    };
    if let NotPlanned::Refused(refusal) = not_planned {
        compare_spelling(source, refusal);
    }
    let place = not_planned.place().map_or(0, |place| place.0);
    (not_planned.number(), place)
}

/// The numbers of a run or of a band's step.
fn reported(source: &[u8], outcome: &Outcome) -> Report {
    if let Err(Stop::Refused(refusal)) = outcome {
        compare_spelling(source, refusal);
    }
    report_of(outcome)
}

pub fn bordered(case: &BorderCase) -> Bordered {
    let asked = &case.asked;
    let mut tables = Tables::of(asked);
    let answer = held_of(asked).border_in(&mut tables.words, &mut tables.names);
    let (number, place) = told_of(&asked.source, &answer);
    tables.compare(&asked.source, number);
    let border = answer.unwrap_or_default();
    Bordered {
        number,
        place,
        before: border.before,
        behind: border.behind,
    }
}

pub fn checked(case: &PlanCase) -> (u32, u32) {
    let asked = &case.asked;
    let mut tables = Tables::of(asked);
    let answer = held_of(asked).check_plan_in(&case.plan, &mut tables.words, &mut tables.names);
    let told = told_of(&asked.source, &answer);
    tables.compare(&asked.source, told.0);
    told
}

pub fn planned(case: &PlannerCase) -> Planned {
    let asked = &case.asked;
    let mut tables = Tables::of(asked);
    let mut room = numbers_on_entry(case.room);
    let answer = held_of(asked).plan_in(&mut room, &mut tables.words, &mut tables.names);
    let (number, place) = told_of(&asked.source, &answer);
    tables.compare(&asked.source, number);
    Planned {
        number,
        place,
        bands: answer.unwrap_or(0),
        room,
    }
}

pub fn stepped(case: &BandCase) -> (Report, Vec<i32>) {
    let asked = &case.asked;
    let mut tables = Tables::of(asked);
    let mut room = scratch_on_entry(case.room);
    let band = Band {
        first: case.band.first,
        last: case.band.last,
    };
    let (words, names) = (&mut tables.words, &mut tables.names);
    let outcome = held_of(asked).step_in(band, &case.rows, &mut room, case.time, words, names);
    let report = reported(&asked.source, &outcome);
    tables.compare(&asked.source, report.number);
    (report, room)
}

/// What a run under a plan left, and what became of its room.
pub fn ran(case: &BandedCase) -> (Left, &'static str) {
    let (call, run) = (&case.call, &case.call.run);
    let mut tables = Tables::new(run.words, run.names);
    let (before, room_before) = (scratch_on_entry(run.scratch), scratch_on_entry(case.room));
    let (mut grid, mut scratch) = (run.grid.clone(), before.clone());
    let (mut marks, mut counts) = (call.marks.clone(), call.counts.clone());
    let mut room = room_before.clone();
    let lent = Lent {
        words: &mut tables.words,
        names: &mut tables.names,
        scratch: &mut scratch,
        marks: &mut marks,
    };
    let lent = BandedLent {
        lent,
        plan: &case.plan,
        room: &mut room,
        counts: call.counted.then_some((call.field, &mut counts[..])),
    };
    let held = Held::new(&run.source, &run.shape, case.held);
    let asked = BandedRun::new(held, run.start, run.steps).with_list(&run.values);
    let report = reported(&run.source, &asked.on_in(&mut grid, lent));
    tables.compare(&run.source, report.number);
    let began = began(report.number);
    let left = Left {
        report,
        grid,
        scratch: word(&scratch, &before, began),
        marks,
        counts,
    };
    (left, word(&room, &room_before, began))
}
