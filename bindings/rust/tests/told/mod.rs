//! Outcomes of runs as the second program returns them, and how often each reply
//! occurred.

use cellang::{Objection, Outcome, Stop};
use reference::Report;

/// How many cases had each number.
pub type Seen = [usize; 63];

/// The six numbers of an outcome.
pub fn report_of(outcome: &Outcome) -> Report {
    let stop = match outcome {
        Ok(done) => {
            return Report {
                steps: done.steps,
                count: done.count,
                ..Report::default()
            }
        }
        Err(stop) => stop,
    };
    let mut report = Report {
        number: stop.number(),
        place: stop.place().map_or(0, |place| place.0),
        line: stop.line().map_or(0, |line| line.0),
        ..Report::default()
    };
    match stop {
        Stop::NotAdmitted(Objection::EntryOutOfRange(entry)) => report.place = entry.0,
        Stop::Faulted(fault) => {
            report.cell = fault.cell.0;
            report.steps = fault.steps;
            report.count = fault.count;
        }
        _ => {}
    }
    report
}

pub fn print_seen(what: &str, seen: &Seen) {
    let total: usize = seen.iter().sum();
    let each: Vec<String> = (0..seen.len())
        .filter(|&number| seen[number] > 0)
        .map(|number| format!("{number}: {}", seen[number]))
        .collect();
    println!("{total} {what} compared; by reply {}", each.join(", "));
}
