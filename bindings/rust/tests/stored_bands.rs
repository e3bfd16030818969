//! The stored cases on bands of rows, each made by the library: every number that
//! it returns and every entry that it leaves is held to the stored answer.

use banding::{bordered, checked, planned, ran, stepped};
use reference::band_case::{band_line, banded_line, plan_line};
use reference::band_file::{read, AnyCase};
use told::{print_seen, Seen};

mod banding;
mod told;

const CASES: &[u8] = include_bytes!("stored/bands.cases");
const ANSWERS: &str = include_str!("stored/bands.answers");

/// The kinds of cases, by their number.
const KINDS: [&str; 5] = [
    "plan checks",
    "planner calls",
    "band calls",
    "runs under a plan",
    "border rows",
];

/// The number of a case's kind, and the line of what the library returns.
fn made(case: &AnyCase) -> (usize, String) {
    match case {
        AnyCase::Plan(case) => (0, plan_line(checked(case))),
        AnyCase::Planner(case) => (1, planned(case).line()),
        AnyCase::Band(case) => {
            let (report, room) = stepped(case);
            (2, band_line(&report, &room))
        }
        AnyCase::Run(case) => {
            let (left, room) = ran(case);
            (3, banded_line(&left, room))
        }
        AnyCase::Border(case) => (4, bordered(case).line()),
    }
}

#[test]
fn stored_cases() {
    let cases = read(CASES).expect("a file of cases");
    let answers: Vec<&str> = ANSWERS.split_inclusive('\n').collect();
    assert_eq!(cases.len(), answers.len());
    let mut seen: [Seen; 5] = [[0; 63]; 5];
    for (case, answer) in cases.iter().zip(answers) {
        let (kind, line) = made(case);
        assert_eq!(line, answer, "{case:?}");
        let number = answer.split_whitespace().next().expect("a number");
        let number: usize = number.parse().expect("a number");
        seen[kind][number] += 1;
    }
    for (kind, seen) in KINDS.iter().zip(&seen) {
        print_seen(&format!("stored {kind}"), seen);
        assert!(seen.iter().sum::<usize>() > 100, "{kind}");
    }
}
