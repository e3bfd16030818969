//! Runs under a plan: worked cases, what is left after each reply, and generated
//! runs beside those of the whole grid.

use cellang::{
    BandedLent, BandedRun, Cell, Counts, Done, Entry, Fault, FaultKind, Held, Lent, Line,
    ListReason, ListRefusal, Mode, Objection, Outcome, Place, Rooms, Run, Stop, NAME_WORDS, WORDS,
};
use plans::{any_plan, as_checked, band, BEFORE};
use reference::random::Random;
use reference::vectors;

mod plans;

const RUNS: usize = 5_000;

/// Every cell takes the value of the one before it.
const SHIFT: &[u8] = b"1 dimensions of 0..9 cell := [-1]";
const COUNT_TO_3: &[u8] = b"1 dimensions of 0..3 cell := cell + 1";
const TOO_FAR: &[u8] = b"1 dimensions of 0..9 cell := [6]";
const UNKNOWN: &[u8] = b"1 dimensions of 0..9 cell := [6] + x";

/// Two fields.
const PAIRS: &[u8] = b"2 dimensions of a, b of 0..9 end cell.a := [-1,1].b cell.b := [1,0].a";

const FIVE: [i32; 5] = [5, 6, 7, 8, 9];

/// The request of a run under a plan beside its source, its sizes and its grid.
#[derive(Clone, Copy, Debug)]
struct Under<'l> {
    plan: &'l [u32],
    room: usize,
    times: (i64, i64),
    list: &'l [u8],
    /// The field that is counted, and how many counts are passed.
    counted: Option<(u32, usize)>,
}

fn under(plan: &[u32], room: usize, steps: i64) -> Under<'_> {
    Under {
        plan,
        room,
        times: (0, steps),
        list: b"",
        counted: None,
    }
}

/// What a run returned, the grid, and the counts, which held 9s.
type Left<'a> = (Outcome<'a>, Vec<i32>, Vec<u32>);

/// Makes a run under a plan. Scratch, marks and the room, which hold 9s, are to be
/// zero where it began, and else as they were.
fn run_under<'a>(held: Held<'a, '_>, source: &[u8], asked: Under, grid: &[i32]) -> Left<'a> {
    let (mut words, mut names) = (vec![BEFORE; WORDS], vec![BEFORE; NAME_WORDS]);
    let (mut grid, mut scratch) = (grid.to_vec(), vec![9; grid.len()]);
    let fields = if source == PAIRS { 2 } else { 1 };
    let mut marks = vec![9; grid.len() / fields];
    let mut room = vec![9; asked.room];
    let mut counts = vec![9; asked.counted.map_or(0, |(_, length)| length)];
    let lent = Lent {
        words: &mut words,
        names: &mut names,
        scratch: &mut scratch,
        marks: &mut marks,
    };
    let counting = asked.counted.map(|(field, _)| (field, &mut counts[..]));
    let lent = BandedLent {
        lent,
        plan: asked.plan,
        room: &mut room,
        counts: counting,
    };
    let run = BandedRun::new(held, asked.times.0, asked.times.1).with_list(asked.list);
    let outcome = run.on_in(&mut grid, lent);
    let began = matches!(outcome, Ok(_) | Err(Stop::Faulted(_)));
    let left = if began { 0 } else { 9 };
    assert!(scratch.iter().chain(&room).all(|&entry| entry == left));
    assert!(marks.iter().all(|&mark| i32::from(mark) == left));
    as_checked(source, &words, &names);
    (outcome, grid, counts)
}

#[test]
fn worked_runs() {
    let done = |steps, count| Ok(Done { steps, count });
    let fault = |place, cell, steps, count| {
        Err(Stop::Faulted(Fault {
            kind: FaultKind::ValueOutsideField,
            place: Place(place),
            cell: Cell(cell),
            steps,
            count,
        }))
    };
    let two = under(&[0, 1, 2, 4], 4, 1);
    let three = under(&[0, 0, 1, 2, 3, 4], 2, 1);
    let list = b"0\n[1] = 3\n1\n[0] = 0\n2\n[4] = 1\n";
    for (source, held, asked, grid, outcome, after, counts) in [
        (
            SHIFT,
            4,
            two,
            &FIVE[..],
            done(1, 5),
            &[9, 5, 6, 7, 8][..],
            &[][..],
        ),
        (
            SHIFT,
            4,
            Under {
                times: (7, 3),
                ..two
            },
            &FIVE,
            done(3, 15),
            &[7, 8, 9, 5, 6],
            &[],
        ),
        (
            SHIFT,
            4,
            Under {
                times: (0, 0),
                ..two
            },
            &FIVE,
            done(0, 0),
            &FIVE,
            &[],
        ),
        // The block of the start time is set even where there are 0 steps.
        (
            SHIFT,
            4,
            Under {
                times: (1, 0),
                list: b"1\n[0] = 0\n",
                ..two
            },
            &FIVE,
            done(0, 0),
            &[0, 6, 7, 8, 9],
            &[],
        ),
        (
            SHIFT,
            4,
            Under {
                times: (0, 2),
                list,
                counted: Some((0, 5)),
                ..two
            },
            &FIVE,
            done(2, 10),
            &[8, 0, 5, 3, 1],
            &[0, 1, 0, 0, 0],
        ),
        // More rows can be held than there are with borders.
        (
            SHIFT,
            9,
            under(&[0, 4], 9, 1),
            &FIVE,
            done(1, 5),
            &[9, 5, 6, 7, 8],
            &[],
        ),
        // As many border rows as rows on either side.
        (
            b"1 dimensions of 0..9 cell := ([-3] + [3] + [1]) % 10",
            7,
            under(&[0, 0, 1, 1, 2, 2], 7, 1),
            &[1, 5, 9],
            done(1, 3),
            &[7, 9, 9],
            &[],
        ),
        (
            PAIRS,
            3,
            Under {
                counted: Some((1, 2)),
                ..under(&[0, 0, 1, 1], 12, 1)
            },
            &[1, 2, 3, 0, 5, 6, 0, 8],
            done(1, 4),
            &[8, 5, 6, 0, 0, 1, 2, 3],
            &[1, 0],
        ),
        // A fault in the second band, in a later step, and in the last band.
        (
            COUNT_TO_3,
            2,
            three,
            &[0, 3, 1, 3, 2],
            fault(26, 1, 0, 2),
            &[0, 3, 1, 3, 2],
            &[],
        ),
        (
            COUNT_TO_3,
            2,
            Under {
                times: (0, 4),
                counted: Some((0, 5)),
                ..three
            },
            &[0, 1, 0, 2, 1],
            fault(26, 3, 1, 9),
            &[1, 2, 1, 3, 2],
            &[0, 0, 0, 0, 0],
        ),
        (
            COUNT_TO_3,
            2,
            Under {
                times: (0, 4),
                list: b"1\n[4] = 3\n[0] = 0\n",
                counted: Some((0, 5)),
                ..three
            },
            &[0, 1, 0, 0, 0],
            fault(26, 4, 1, 10),
            &[0, 2, 1, 1, 3],
            &[1, 0, 0, 0, 0],
        ),
    ] {
        let sizes: &[u32] = if source == PAIRS {
            &[2, 2]
        } else {
            &[grid.len() as u32]
        };
        let given = run_under(Held::new(source, sizes, held), source, asked, grid);
        let expected = (outcome, after.to_vec(), counts.to_vec());
        assert_eq!(given, expected, "{asked:?}");
    }
}

#[test]
fn run_refusals() {
    let refused = |objection| Stop::NotAdmitted(objection);
    let bad_line = |line| {
        let (reason, line) = (ListReason::BadLine, Line(line));
        Stop::ListRefused(ListRefusal { reason, line })
    };
    let right = under(&[0, 1, 2, 4], 4, 1);
    // No plan, no list, no such field, no such entry, no times, and no room.
    let plan = Under { plan: &[], ..right };
    let list = Under {
        list: b"0\nx\n",
        ..plan
    };
    let counts = Under {
        counted: Some((1, 5)),
        ..list
    };
    let times = Under {
        times: (-1, 1),
        ..counts
    };
    let room = Under { room: 5, ..times };
    let high = [5, 6, 7, 8, 10];
    let far = Objection::IndexTooFar(Place(30));
    let entry = Objection::EntryOutOfRange(Entry(4));
    for (source, shape, asked, grid, stop) in [
        // In the order of the replies.
        (
            TOO_FAR,
            &[5, 1][..],
            room,
            &high,
            refused(Objection::BadShape),
        ),
        (TOO_FAR, &[5], room, &high, refused(Objection::LentLength)),
        (TOO_FAR, &[5], times, &high, refused(Objection::BadTimes)),
        (TOO_FAR, &[5], counts, &high, refused(far)),
        (SHIFT, &[5], counts, &high, refused(entry)),
        (SHIFT, &[5], counts, &FIVE, refused(Objection::BadCounts)),
        (
            SHIFT,
            &[5],
            Under {
                counted: Some((0, 4)),
                ..list
            },
            &FIVE,
            refused(Objection::BadCounts),
        ),
        (SHIFT, &[5], list, &FIVE, bad_line(2)),
        (SHIFT, &[5], plan, &FIVE, refused(Objection::BadPlan)),
        // The plan, whatever the number of steps, with a list and counts that are right.
        (
            SHIFT,
            &[5],
            Under {
                times: (0, 0),
                ..plan
            },
            &FIVE,
            refused(Objection::BadPlan),
        ),
        (
            SHIFT,
            &[5],
            Under {
                list: b"0\n[0] = 1\n",
                counted: Some((0, 5)),
                ..plan
            },
            &FIVE,
            refused(Objection::BadPlan),
        ),
        (
            SHIFT,
            &[5],
            Under {
                plan: &[0, 1, 2, 3],
                ..right
            },
            &FIVE,
            refused(Objection::BadPlan),
        ),
        (
            SHIFT,
            &[5],
            Under {
                plan: &[0, 1, 2, 4, 0],
                ..right
            },
            &FIVE,
            refused(Objection::BadPlan),
        ),
        (
            SHIFT,
            &[5],
            Under {
                plan: &[0, 3, 4, 4],
                ..right
            },
            &FIVE,
            refused(Objection::BadPlan),
        ),
        // The room alone.
        (
            SHIFT,
            &[5],
            Under { room: 3, ..right },
            &FIVE,
            refused(Objection::LentLength),
        ),
        (
            SHIFT,
            &[5],
            Under { room: 5, ..right },
            &FIVE,
            refused(Objection::LentLength),
        ),
        (
            SHIFT,
            &[5],
            Under { room: 0, ..right },
            &FIVE,
            refused(Objection::LentLength),
        ),
    ] {
        let held = Held::new(source, shape, 4);
        let (outcome, after, counts) = run_under(held, source, asked, grid);
        assert_eq!(outcome, Err(stop), "{asked:?}");
        assert_eq!(after, grid);
        assert!(counts.iter().all(|&count| count == 9));
    }
    // As many rows as can be held, where these are no plan's.
    for held in [0, 1, 2] {
        let asked = Under {
            room: held,
            ..right
        };
        let given = run_under(Held::new(SHIFT, &[5], held as u32), SHIFT, asked, &FIVE);
        assert_eq!(given.0, Err(refused(Objection::BadPlan)), "{held}");
    }
    // A room cannot have so many rows.
    let given = run_under(Held::new(SHIFT, &[5], u32::MAX), SHIFT, right, &FIVE);
    assert_eq!(given.0, Err(refused(Objection::LentLength)));
    let held = Held::new(UNKNOWN, &[5, 5], 0);
    let (outcome, after, _) = run_under(held, UNKNOWN, room, &high);
    assert_eq!((outcome.unwrap_err().number(), &after[..]), (8, &high[..]));
}

#[test]
fn runs_in_memory_of_the_crate() {
    let mut rooms = Rooms::new();
    let plan = [band(0, 1), band(2, 4)];
    // However many rows can be held, the room is no longer than the grid needs.
    for rows in [4, 5, 6, 15, 16, u32::MAX] {
        let held = Held::new(SHIFT, &[5], rows);
        let mut grid = FIVE;
        let done = held.run_banded(&plan, &mut grid, 0, 1, &mut rooms);
        assert_eq!(
            (done, grid),
            (Ok(Done { steps: 1, count: 5 }), [9, 5, 6, 7, 8])
        );
    }
    let held = Held::new(SHIFT, &[5], 3);
    let mut grid = FIVE;
    let stop = held.run_banded(&plan, &mut grid, 0, 1, &mut rooms);
    assert_eq!(
        (stop, grid),
        (Err(Stop::NotAdmitted(Objection::BadPlan)), FIVE)
    );
    for (shape, number) in [
        (&[0][..], 20),
        (&[4_097], 20),
        (&[], 20),
        (&[4], 21),
        (&[6], 21),
    ] {
        let held = Held::new(SHIFT, shape, u32::MAX);
        let stop = held.run_banded(&plan, &mut grid, 0, 1, &mut rooms);
        assert_eq!((stop.unwrap_err().number(), grid), (number, FIVE));
    }
    // Counts of a field that there is not are as they were.
    let mut counts = Counts::of_field(1);
    let run = BandedRun::new(Held::new(SHIFT, &[5], 4), 0, 1);
    let stop = run.on_counting(&plan, &mut grid, &mut counts, &mut rooms);
    assert_eq!(stop, Err(Stop::NotAdmitted(Objection::BadCounts)));
    assert!(counts.rows().is_empty());
}

#[test]
fn tables_of_wrong_length_are_not_touched() {
    for (words, names) in [(WORDS - 1, NAME_WORDS), (WORDS, NAME_WORDS + 4), (0, 0)] {
        let (mut words, mut names) = (vec![BEFORE; words], vec![BEFORE; names]);
        let (mut grid, mut scratch, mut marks) = (FIVE, [9; 5], [9; 5]);
        let (mut room, mut counts) = ([9; 4], [9; 5]);
        let lent = Lent {
            words: &mut words,
            names: &mut names,
            scratch: &mut scratch,
            marks: &mut marks,
        };
        let lent = BandedLent {
            lent,
            plan: &[0, 1, 2, 4],
            room: &mut room,
            counts: Some((0, &mut counts)),
        };
        let held = Held::new(SHIFT, &[5], 4);
        let stop = BandedRun::new(held, 0, 1).on_in(&mut grid, lent);
        assert_eq!(stop.unwrap_err().number(), 1);
        assert!(words.iter().chain(&names).all(|&word| word == BEFORE));
        assert_eq!((grid, scratch, marks), (FIVE, [9; 5], [9; 5]));
        assert_eq!((room, counts), ([9; 4], [9; 5]));
    }
}

/// Runs under the longest plan and under any other, with lists and counts, beside
/// the run of the whole grid.
#[test]
fn runs_beside_the_whole_run() {
    let mut random = Random::new(20_032);
    let mut rooms = Rooms::new();
    let (mut runs, mut faults, mut lists, mut refused) = (0, 0, 0, 0);
    for case in vectors::runs(20_032, RUNS, false) {
        let (source, shape) = (&case.source[..], &case.shape[..]);
        let whole = Run::new(source, shape, case.start, case.steps, Mode::Full);
        let whole = whole.with_list(&case.values);
        let (mut expected, mut zeros) = (case.grid.clone(), Counts::of_field(0));
        let outcome = whole.on_counting(&mut expected, &mut zeros, &mut rooms);
        let border = Held::new(source, shape, 0).border(&mut rooms);
        let borders = border.map_or(0, |border| border.before + border.behind);
        let rows = shape.first().map_or(1, |&rows| rows.clamp(1, 4_096));
        let most = 1 + random.below(rows as usize) as u32;
        let held = Held::new(source, shape, borders + most);
        let any = any_plan(&mut random, rows, most);
        let longest = held.plan(&mut rooms).unwrap_or_else(|_| any.clone());
        for plan in [longest, any] {
            let run = BandedRun::new(held, case.start, case.steps).with_list(&case.values);
            let (mut grid, mut counts) = (case.grid.clone(), Counts::of_field(0));
            let given = run.on_counting(&plan, &mut grid, &mut counts, &mut rooms);
            assert_eq!(given, outcome, "{case:?} {plan:?}");
            assert_eq!((&grid, &counts), (&expected, &zeros), "{case:?} {plan:?}");
            let mut grid = case.grid.clone();
            assert_eq!(
                run.on(&plan, &mut grid, &mut rooms),
                outcome,
                "{case:?} {plan:?}"
            );
            assert_eq!(grid, expected, "{case:?} {plan:?}");
            match given {
                Ok(_) => lists += usize::from(!case.values.is_empty()),
                Err(Stop::Faulted(_)) => faults += 1,
                Err(_) => refused += 1,
            }
            runs += 1;
        }
    }
    println!("{runs} runs under a plan compared: {faults} with a fault, {lists} with a list, {refused} refused");
    assert!(faults > 500 && lists > 1_500 && refused > 500);
}
