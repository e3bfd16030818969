//! What is seen in cases of rules that move a pixel once.

use super::{left_with, Seen};
use crate::call_case::Call;
use crate::lists::{read_list, Limits};
use crate::one_move::{flag, profile, Profile};
use crate::parse::check;
use crate::pausing::Manner;
use crate::write_case::{write_case, WriteCase};

/// The number of fields and the flag of a source in the profile.
fn flag_of(source: &[u8]) -> Option<(usize, usize)> {
    let program = check(source).program?;
    Some((program.fields.len(), flag(source, &program)?))
}

/// A source near the profile of 6/13.
pub(super) fn see_near(source: &[u8], seen: &mut Seen) -> u32 {
    let Profile { rule, number, .. } = profile(source);
    let titles = [
        "sources in the profile",
        "sources that miss rule 1",
        "sources that miss rule 2",
        "sources that miss rule 3",
    ];
    for (title, this) in titles.into_iter().zip(0..) {
        seen.note(title, rule == this);
    }
    number
}

/// A run of a rule that moves a pixel once, or of one near it.
pub(super) fn see_moving(call: &Call, seen: &mut Seen) -> u32 {
    let left = call.made();
    let number = left.report.number;
    let Some((fields, flag)) = flag_of(&call.run.source) else {
        seen.never("58 of a source that is not in the profile", number == 58);
        return number;
    };
    let flags = |grid: &[i32]| -> Vec<i32> { grid.chunks(fields).map(|c| c[flag]).collect() };
    let bare = left_with(call, &[], call.run.steps);
    if number == 58 {
        seen.note(
            "58 where all flags are 0",
            !flags(&call.run.grid).contains(&1),
        );
        seen.note(
            "58 where all flags are 1",
            !flags(&call.run.grid).contains(&0),
        );
    }
    let stepped = left.began() && left.report.steps > 0 && call.manner != Manner::Resuming;
    if stepped {
        seen.never(
            "flags of 0 behind a completed step",
            flags(&left.grid).contains(&0),
        );
        seen.never("faults behind a completed step", left.faulted());
        seen.note("runs with a flag of 1 that change something", {
            flags(&call.run.grid).contains(&1) && left.grid != call.run.grid
        });
        seen.note("runs of such rules whose list changes what is left", {
            bare.began() && bare.grid != left.grid
        });
    }
    number
}

/// A writing of a rule that moves a pixel once, or of one near it.
pub(super) fn see_shown(case: &WriteCase, seen: &mut Seen) -> u32 {
    let (written, room) = write_case(case);
    let program = check(&case.source).program;
    let flag = program
        .as_ref()
        .and_then(|program| flag(&case.source, program));
    if let (0, Some(program), Some(flag)) = (written.number, program, flag) {
        let text = &room[..written.length as usize];
        let limits = Limits {
            sizes: &case.shape,
            fields: &program.fields,
            flag: Some(flag),
            start: case.time,
            steps: 0,
        };
        let blocks = read_list(text, &limits);
        seen.never("texts with a flag of 0", blocks.is_err());
        let lines = blocks.map_or(Vec::new(), |mut blocks| blocks.remove(0).lines);
        let missing = lines.iter().any(|line| line.values[flag].is_none());
        seen.note("texts that leave a flag missing", missing);
        seen.note("texts of flags that fall", case.flag_falls() && missing);
    }
    written.number
}
