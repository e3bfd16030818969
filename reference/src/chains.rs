//! Generated chains: calls of which each resumes the one before it, and the run
//! at once that they are compared with.

use crate::admission::{GREATEST, WORDS};
use crate::call_case::{Call, Left};
use crate::case::RunCase;
use crate::listed::{admitted, give_list, of_rule};
use crate::lists::times_of;
use crate::names::MAX_NAMES;
use crate::parse::check;
use crate::pausing::Manner;
use crate::random::Random;
use crate::resumed::{any_marks, calm};
use crate::runs;

/// Calls and what each of them left; and the run at once, which is begun as the
/// first call was, with all steps and the joined list.
pub struct Chain {
    pub calls: Vec<Call>,
    pub left: Vec<Left>,
    pub whole: Call,
    pub whole_left: Left,
}

impl Chain {
    /// Whether joining is claimed: all calls are admitted, and no earlier one
    /// faults.
    pub fn claimed(&self) -> bool {
        let (last, earlier) = self.left.split_last().expect("a call");
        last.began() && earlier.iter().all(|left| left.report.number == 0)
    }

    /// What the last call left, with the steps and the counts of all.
    pub fn together(&self) -> Left {
        let mut sum = self.left[self.left.len() - 1].clone();
        sum.report.steps = self.left.iter().map(|left| left.report.steps).sum();
        sum.report.count = self.left.iter().map(|left| left.report.count).sum();
        sum
    }

    /// Whether the calls return what the run at once returns, where that is claimed.
    pub fn joins(&self) -> bool {
        !self.claimed() || self.together() == self.whole_left
    }

    /// All calls, and the run at once, with what they left.
    pub fn all(&self) -> impl Iterator<Item = (&Call, &Left)> {
        let calls = self.calls.iter().zip(&self.left);
        calls.chain([(&self.whole, &self.whole_left)])
    }
}

/// A run that is admitted, in most cases with a list that passes.
fn base(random: &mut Random, small: bool) -> RunCase {
    loop {
        let mut case = if random.chance(40) {
            of_rule(random)
        } else {
            let small = small || random.chance(60);
            runs::any(random, small, 60)
        };
        let Some(program) = check(&case.source).program else {
            continue;
        };
        if random.chance(85) {
            case.steps = random.between(2, 9);
        }
        case.start = case.start.min(GREATEST.saturating_sub(case.steps));
        if random.chance(40) {
            calm(random, &mut case, program.fields.len());
        }
        let tables = (case.words, case.names) == (WORDS, MAX_NAMES);
        if tables && admitted(&case, &program) {
            if random.chance(70) {
                give_list(random, &mut case, 0);
            }
            return case;
        }
    }
}

/// The times at which the calls begin and end, many of them at a block's time,
/// few the same as the one before.
fn cuts(random: &mut Random, case: &RunCase) -> Vec<i64> {
    let blocks = times_of(&case.values);
    let last = case.start + case.steps;
    let cut = |random: &mut Random| match random.below(10) {
        0..=5 if !blocks.is_empty() => random.pick(&blocks).0,
        6 => *random.pick(&[case.start, last]),
        _ => random.between(case.start, last),
    };
    let mut cuts = vec![case.start, last];
    for _ in 0..1 + random.below(4) {
        cuts.push(cut(random));
    }
    cuts.sort();
    if random.chance(80) {
        cuts.dedup();
    }
    while cuts.len() < 3 {
        cuts.push(cut(random));
        cuts.sort();
    }
    cuts
}

/// The parts of a run's list, one for each call. The block of a time at which
/// one call ends and another begins is in either list.
fn parts(random: &mut Random, case: &RunCase, cuts: &[i64]) -> Vec<Vec<u8>> {
    let calls = cuts.len() - 1;
    let mut ends = vec![0; calls];
    let blocks = times_of(&case.values);
    for (number, &(time, _)) in blocks.iter().enumerate() {
        let fitting: Vec<usize> = (0..calls)
            .filter(|&call| (cuts[call]..=cuts[call + 1]).contains(&time))
            .collect();
        let end = blocks.get(number + 1).map(|&(_, at)| at);
        ends[*random.pick(&fitting)] = end.unwrap_or(case.values.len());
    }
    let mut parts = Vec::new();
    let mut at = 0;
    for end in ends {
        let end = end.max(at);
        parts.push(case.values[at..end].to_vec());
        at = end;
    }
    parts
}

/// A chain of 2 to 5 calls. It ends with a call that faults, or one after it.
pub fn any(random: &mut Random, small: bool) -> Chain {
    let case = base(random, small);
    let cuts = cuts(random, &case);
    let parts = parts(random, &case, &cuts);
    let mut whole = if random.chance(75) {
        Call::pausing(case)
    } else {
        let marks = any_marks(random, case.marks);
        Call::new(case, Manner::Resuming, marks)
    };
    let mut calls: Vec<Call> = Vec::new();
    let mut left: Vec<Left> = Vec::new();
    for (number, list) in parts.iter().enumerate() {
        let steps = cuts[number + 1] - cuts[number];
        let behind_fault = left.last().is_some_and(Left::faulted);
        if behind_fault && random.chance(50) {
            break;
        }
        let call = match calls.last().zip(left.last()) {
            Some((earlier, left)) => earlier.resumed(left, steps, list),
            None => {
                let mut first = whole.clone();
                first.run.steps = steps;
                first.run.values.clone_from(list);
                first
            }
        };
        left.push(call.made());
        calls.push(call);
        if behind_fault {
            break;
        }
    }
    let lists = calls.iter().map(|call| &call.run.values[..]);
    whole.run.values = lists.collect::<Vec<&[u8]>>().concat();
    whole.run.steps = calls.iter().map(|call| call.run.steps).sum();
    let whole_left = whole.made();
    Chain {
        calls,
        left,
        whole,
        whole_left,
    }
}
