//! What is seen in plans, planner calls, band calls and runs under a plan.

use super::Seen;
use crate::band_case::{Asked, BandCase, BandedCase, PlanCase, PlannerCase};
use crate::bands::{bands_of, border, row_entries, Band, Border};
use crate::case::began;
use crate::parse::check;
use crate::pausing::Manner;
use crate::tree::Program;

/// The program and its border rows, where the source is accepted.
fn program_of(source: &[u8]) -> Option<(Program, Border)> {
    let program = check(source).program?;
    let border = border(&program);
    Some((program, border))
}

/// The rows of a grid whose sizes are right.
fn rows_of(asked: &Asked) -> u64 {
    u64::from(asked.shape[0])
}

/// A plan check.
pub(super) fn see_plan(case: &PlanCase, seen: &mut Seen) -> u32 {
    let (number, _) = case.made();
    if number != 0 && number != 60 {
        return number;
    }
    let (_, border) = program_of(&case.asked.source).expect("accepted");
    let (rows, held) = (rows_of(&case.asked), u64::from(case.asked.held));
    let Some(bands) = bands_of(&case.plan) else {
        seen.note("plans with a number too many", true);
        return number;
    };
    let longest = bands.iter().map(|&band| border.rows_with(band)).max();
    if number == 0 {
        seen.note(
            "accepted plans of one band",
            bands.len() == 1 && longest < Some(held),
        );
        seen.note(
            "accepted plans that need all rows held",
            bands.len() > 1 && longest == Some(held),
        );
        seen.note(
            "accepted plans with more border rows than the grid has",
            border.before + border.behind > rows,
        );
        return number;
    }
    let reversed = bands.iter().any(|band| band.last < band.first);
    let too_long = longest > Some(held);
    seen.note("plans without a band", bands.is_empty());
    seen.note("plans with a reversed band", reversed && !too_long);
    if reversed || bands.is_empty() {
        return number;
    }
    let follow = |test: fn(u64, u64) -> bool| {
        bands
            .windows(2)
            .any(|pair| test(u64::from(pair[0].last) + 1, u64::from(pair[1].first)))
    };
    let (gap, overlap) = (
        follow(|end, first| end < first),
        follow(|end, first| end > first),
    );
    let first = bands[0].first != 0;
    let last = u64::from(bands[bands.len() - 1].last) + 1;
    seen.note("plans with a gap alone", gap && !overlap && !too_long);
    seen.note("plans with an overlap alone", overlap && !gap && !too_long);
    seen.note("plans that begin behind row 0", first && !too_long);
    let whole = !gap && !overlap && !first && !too_long;
    seen.note("plans that end early", whole && last < rows);
    seen.note("plans that end past the last row", whole && last > rows);
    let right = !gap && !overlap && !first && last == rows;
    seen.note("plans one row too long alone", {
        right && longest == Some(held + 1)
    });
    number
}

/// A planner call.
pub(super) fn see_planner(case: &PlannerCase, seen: &mut Seen) -> u32 {
    let planned = case.made();
    let Some((_, border)) = program_of(&case.asked.source) else {
        return planned.number;
    };
    let held = u64::from(case.asked.held);
    let borders = border.before + border.behind;
    match planned.number {
        0 => {
            let rows = rows_of(&case.asked);
            seen.note("planned in one band", planned.bands == 1 && rows > 1);
            seen.note(
                "planned in bands of one row",
                u64::from(planned.bands) == rows && rows > 1,
            );
            seen.note(
                "planned with a shorter last band",
                planned.bands > 1 && !rows.is_multiple_of(held - borders),
            );
            seen.note("planned with one row to spare", held == borders + 1);
        }
        59 => {
            seen.note("no plan by one row", held == borders && held > 0);
            seen.note("no plan where no row is held", held == 0);
        }
        _ => {}
    }
    planned.number
}

/// One band's call.
pub(super) fn see_band(case: &BandCase, seen: &mut Seen) -> u32 {
    let (report, _) = case.made();
    let Some((_, border)) = program_of(&case.asked.source) else {
        return report.number;
    };
    let Band { first, last } = case.band;
    if report.number == 60 {
        let rows = rows_of(&case.asked);
        seen.note("bands that are reversed", last < first);
        seen.note("bands past the last row", {
            first <= last && u64::from(last) >= rows
        });
        seen.note("bands of one row too many", {
            first <= last && border.rows_with(case.band) == u64::from(case.asked.held) + 1
        });
    }
    if !began(report.number) {
        return report.number;
    }
    let rows = rows_of(&case.asked);
    let (first, last) = (u64::from(first), u64::from(last));
    seen.note("bands whose rows wrap before", first < border.before);
    seen.note("bands whose rows wrap behind", last + border.behind >= rows);
    seen.note("bands whose rows repeat", {
        border.rows_with(case.band) > rows
    });
    seen.note("bands with all rows held", {
        border.rows_with(case.band) == u64::from(case.asked.held)
    });
    if report.number != 0 {
        seen.note("bands that fault behind their first cell", report.count > 1);
    }
    report.number
}

/// A run under a plan.
pub(super) fn see_banded(case: &BandedCase, seen: &mut Seen) -> u32 {
    let (left, room) = case.made();
    let number = left.report.number;
    let full = case.call.in_manner(Manner::Full).made();
    seen.never("runs under a plan that leave other than the full run", {
        left.began() && (left != full || room != "zero")
    });
    seen.never("runs refused for the plan that are refused anyway", {
        number == 60 && !full.began()
    });
    seen.note("runs refused for the room alone", {
        number == 21 && full.began()
    });
    if !left.began() {
        return number;
    }
    let (program, border) = program_of(&case.call.run.source).expect("accepted");
    let shape = &case.call.run.shape;
    let bands = bands_of(&case.plan).expect("an accepted plan");
    let several = bands.len() > 1;
    let [one, two, three] = [
        "runs under several bands in 1 dimension",
        "runs under several bands in 2 dimensions",
        "runs under several bands in 3 dimensions",
    ];
    seen.note([one, two, three][shape.len() - 1], several);
    let listed = !case.call.run.values.is_empty();
    seen.note("runs under several bands with a list", several && listed);
    seen.note("runs under several bands that count", {
        several && case.call.counted
    });
    seen.note("runs under several bands whose rows repeat", {
        let with = bands.iter().map(|&band| border.rows_with(band)).max();
        several && with > Some(u64::from(shape[0]))
    });
    seen.note("runs under several bands that change the grid", {
        several && left.grid != case.call.run.grid
    });
    if left.faulted() && bands.len() > 2 {
        let cells = row_entries(&program, shape) / program.fields.len();
        let row = left.report.cell / cells as u32;
        let at = bands.iter().position(|band| row <= band.last);
        seen.note("faults in the first of several bands", at == Some(0));
        seen.note("faults in the last of several bands", {
            at == Some(bands.len() - 1)
        });
        seen.note("faults in a band between", {
            at != Some(0) && at != Some(bands.len() - 1)
        });
    }
    number
}
