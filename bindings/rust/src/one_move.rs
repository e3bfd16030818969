//! Rules that move a pixel once.

use crate::calls::BUILT_IN;
use crate::foreign;
use crate::replies::{Place, Reason};
use crate::rooms::Rooms;
use std::error::Error;
use std::fmt;

/// Why a source is not in the profile of [`check_one_move`]: the first rule that
/// it misses.
#[derive(Clone, Copy, PartialEq, Eq, Hash, Debug)]
pub enum Missed {
    /// Rule 1: the source is refused. [`check`](crate::check) returns the spelling
    /// of the token at the place too.
    Refused {
        /// Why.
        reason: Reason,
        /// Where.
        place: Place,
    },
    /// Rule 2: there is no named field `moved`, or it is const, or its range is
    /// not 0..1.
    Flag,
    /// Rule 3: the statements, constants aside, are not
    /// `if cell.moved = 0 then` .. `cell.moved := 1 end` alone.
    Statement,
}

impl Missed {
    /// The number of the rule, from 1.
    pub fn rule(&self) -> u32 {
        match self {
            Missed::Refused { .. } => 1,
            Missed::Flag => 2,
            Missed::Statement => 3,
        }
    }
}

impl fmt::Display for Missed {
    fn fmt(&self, f: &mut fmt::Formatter<'_>) -> fmt::Result {
        write!(f, "misses rule {}: ", self.rule())?;
        match self {
            Missed::Refused { reason, place } => {
                write!(f, "refused {} at {place}: {reason}", *reason as u32)
            }
            Missed::Flag => f.write_str("no field `moved` of range 0..1 that is not const"),
            Missed::Statement => f.write_str(
                "not `if cell.moved = 0 then` .. `cell.moved := 1 end` alone, constants aside",
            ),
        }
    }
}

impl Error for Missed {}

/// Checks whether a source is a rule that moves a pixel once. If it is not, the
/// error names which of three rules it misses first:
///
/// 1. It is accepted.
/// 2. It has a named field `moved` that is not const and whose range is 0..1.
/// 3. It has one statement, constants aside: `if cell.moved = 0 then` .. `end`,
///    without `elsif` and `else`, whose last statement, constants aside, is
///    `cell.moved := 1`. Both are exactly these tokens; letter case does not
///    matter.
///
/// Then in every run a cell whose `moved` is 1 never changes in a later step and
/// never faults, and after one completed step `moved` is 1 in every cell and no
/// later step changes anything; of a run that is resumed this is said where the
/// calls are joined, as those of [`Paused`](crate::Paused) are. A run of such a
/// rule refuses a value list that sets `moved` to 0:
/// [`ListReason::MovedZero`](crate::ListReason::MovedZero).
///
/// The rooms are left as [`check`](crate::check) leaves them, also where rule 2
/// or 3 is missed.
///
/// ```
/// use cellang::{check_one_move, ListReason, Missed, Mode, Rooms, Run, Stop};
///
/// let source = b"1 dimensions of a of 0..9 moved of 0..1 end
///     if cell.moved = 0 then cell.a := [1].a cell.moved := 1 end";
/// let mut rooms = Rooms::new();
/// assert_eq!(check_one_move(source, &mut rooms), Ok(()));
///
/// let near = b"1 dimensions of a of 0..9 moved of 0..1 end
///     if cell.moved = 0 then cell.a := [1].a cell.moved := 1 when cell.a end";
/// assert_eq!(check_one_move(near, &mut rooms), Err(Missed::Statement));
///
/// let mut grid = [1, 0, 2, 1, 3, 0];
/// let run = Run::new(source, &[3], 0, 9, Mode::Quiet);
/// run.on(&mut grid, &mut rooms)?;
/// assert_eq!(grid, [2, 1, 2, 1, 1, 1]);
///
/// let stop = run.with_list(b"4\n[0] = 5, 0\n").on(&mut grid, &mut rooms).unwrap_err();
/// assert_eq!(stop.number(), ListReason::MovedZero as u32);
/// # Ok::<(), Stop>(())
/// ```
pub fn check_one_move(source: &[u8], rooms: &mut Rooms) -> Result<(), Missed> {
    check_one_move_in(source, &mut rooms.words, &mut rooms.names)
}

/// As [`check_one_move`], in the caller's buffers.
pub fn check_one_move_in(
    source: &[u8],
    words: &mut [u32],
    names: &mut [u32],
) -> Result<(), Missed> {
    check_lent(source, BUILT_IN, words, names)
}

/// The same where a built-in list is passed beside the source.
fn check_lent(
    source: &[u8],
    list: &[u8],
    words: &mut [u32],
    names: &mut [u32],
) -> Result<(), Missed> {
    let mut told = [0; foreign::PROFILE];
    // SAFETY: each pointer and length is those of a slice, and the slices
    // that are written overlap nothing.
    unsafe {
        foreign::cellang_check_one_move(
            source.as_ptr(),
            source.len(),
            list.as_ptr(),
            list.len(),
            words.as_mut_ptr(),
            words.len(),
            names.as_mut_ptr(),
            names.len(),
            told.as_mut_ptr(),
            told.len(),
        );
    }
    let [rule, number, place] = told;
    match (rule, Reason::of(number)) {
        (0, _) => Ok(()),
        (1, Some(reason)) => Err(Missed::Refused {
            reason,
            place: Place(place),
        }),
        (2, _) => Err(Missed::Flag),
        (3, _) => Err(Missed::Statement),
        _ => unreachable!("rule {rule} with reply {number}"),
    }
}

#[cfg(test)]
mod tests {
    use super::*;
    use crate::rooms::{NAME_WORDS, WORDS};

    const BEFORE: u32 = 0x5A5A_5A5A;
    const SOURCE: &[u8] =
        b"1 dimensions of moved of 0..1 end if cell.moved = 0 then cell.moved := 1 end";

    #[test]
    fn another_list_is_refused_and_touches_nothing() {
        for list in [
            &b""[..],
            b"cell time",
            b"Cell time random",
            b"cell time random ",
        ] {
            let (mut words, mut names) = ([BEFORE; WORDS], [BEFORE; NAME_WORDS]);
            let missed = check_lent(SOURCE, list, &mut words, &mut names);
            let expected = Missed::Refused {
                reason: Reason::RoomLength,
                place: Place(0),
            };
            assert_eq!(missed, Err(expected));
            assert!(words.iter().chain(&names).all(|&word| word == BEFORE));
        }
    }
}
