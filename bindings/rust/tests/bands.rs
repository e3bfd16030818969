//! Bands of rows: worked plans and steps of bands, what is left after each reply,
//! and generated grids that are stepped by bands and as a whole.

use cellang::{
    Band, Border, Cell, Done, Entry, Fault, FaultKind, Held, Mode, NotPlanned, Objection, Outcome,
    Place, Rooms, Run, Stop, NAME_WORDS, WORDS,
};
use plans::{any_plan, as_checked, band, BEFORE};
use reference::random::Random;
use reference::vectors;

mod plans;

const RUNS: usize = 12_000;

/// Every cell takes the value of the one before it.
const SHIFT: &[u8] = b"1 dimensions of 0..9 cell := [-1]";
const COUNT_TO_3: &[u8] = b"1 dimensions of 0..3 cell := cell + 1";
const AROUND: &[u8] = b"1 dimensions of 0..9 cell := [-3] + [3]";
const TOO_FAR: &[u8] = b"1 dimensions of 0..9 cell := [6]";
const UNKNOWN: &[u8] = b"1 dimensions of 0..9 cell := [6] + x";

const BAD_PLAN: NotPlanned<'static> = NotPlanned::NotAdmitted(Objection::BadPlan);

/// Bands by the entries of a plan.
fn bands(entries: &[u32]) -> Vec<Band> {
    let pairs = entries.chunks(2);
    pairs.map(|pair| band(pair[0], pair[1])).collect()
}

fn number_of<T>(answer: Result<T, NotPlanned>) -> u32 {
    answer.err().map_or(0, |not_planned| not_planned.number())
}

/// Plans in a room of this length that holds 9s; the number of bands, and the room.
fn plan_in<'a>(
    held: Held<'a, '_>,
    source: &[u8],
    length: usize,
) -> (Result<u32, NotPlanned<'a>>, Vec<u32>) {
    let (mut words, mut names) = (vec![BEFORE; WORDS], vec![BEFORE; NAME_WORDS]);
    let mut room = vec![9; length];
    let planned = held.plan_in(&mut room, &mut words, &mut names);
    as_checked(source, &words, &names);
    (planned, room)
}

#[test]
fn borders() {
    let border = |source: &str, shape: &[u32]| {
        let (mut words, mut names) = (vec![BEFORE; WORDS], vec![BEFORE; NAME_WORDS]);
        let held = Held::new(source.as_bytes(), shape, 0);
        let answer = held.border_in(&mut words, &mut names);
        as_checked(source.as_bytes(), &words, &names);
        assert_eq!(answer, held.border(&mut Rooms::new()));
        answer
            .map(|border| (border.before, border.behind))
            .map_err(|not_planned| (not_planned.number(), not_planned.place()))
    };
    for (source, shape, expected) in [
        ("1 dimensions of 0..9", &[5][..], (0, 0)),
        ("1 dimensions of 0..9 cell := [-1]", &[5], (1, 0)),
        ("1 dimensions of 0..9 cell := [-1] + [2]", &[5], (1, 2)),
        ("1 dimensions of 0..9 cell := [2] + [4]", &[5], (0, 4)),
        // Indices that are never read.
        (
            "1 dimensions of 0..9 if 0 then cell := [-3] end",
            &[3],
            (3, 0),
        ),
        (
            "1 dimensions of 0..9 forall i : -3..2 cell := [i] end",
            &[3],
            (3, 2),
        ),
        // In more dimensions the first one counts.
        (
            "2 dimensions of 0..9 cell := [0,3] + [1,-2]",
            &[4, 3],
            (0, 1),
        ),
        ("3 dimensions of 0..9 cell := [-2,1,2]", &[3, 2, 2], (2, 0)),
        // More than 256 places.
        (
            "2 dimensions of 0..9 forall i : -2..1 forall j : -32..32 cell := [i,j] end end",
            &[3, 32],
            (2, 1),
        ),
        (
            "1 dimensions of 0..9 cell := [-4096] + [4096]",
            &[4_096],
            (4_096, 4_096),
        ),
    ] {
        assert_eq!(border(source, shape), Ok(expected), "{source}");
    }
    let unknown = "1 dimensions of 0..9 cell := [6] + x";
    let far = "1 dimensions of 0..9 cell := [6]";
    assert_eq!(border(unknown, &[]), Err((8, Some(Place(35)))));
    assert_eq!(border(far, &[5, 5]), Err((20, None)));
    assert_eq!(border(far, &[0]), Err((20, None)));
    assert_eq!(border(far, &[4_097]), Err((20, None)));
    assert_eq!(border(far, &[5]), Err((23, Some(Place(30)))));
}

#[test]
fn rows_that_a_band_is_lent() {
    let lent = |before, behind, first, last, rows| {
        let border = Border { before, behind };
        let numbers = border.rows_lent(band(first, last), rows);
        assert_eq!(numbers.len(), border.rows_with(band(first, last)));
        numbers.collect::<Vec<u32>>()
    };
    assert_eq!(lent(0, 0, 2, 4, 5), [2, 3, 4]);
    assert_eq!(lent(1, 0, 0, 1, 5), [4, 0, 1]);
    assert_eq!(lent(0, 2, 3, 4, 5), [3, 4, 0, 1]);
    assert_eq!(lent(2, 0, 0, 0, 2), [0, 1, 0]);
    assert_eq!(lent(3, 3, 1, 1, 3), [1, 2, 0, 1, 2, 0, 1]);
    assert_eq!(lent(1, 1, 0, 0, 1), [0, 0, 0]);
    assert_eq!(lent(1, 1, 2, 1, 5), []);
    let border = Border {
        before: 1,
        behind: 0,
    };
    assert_eq!(border.rows_lent(band(0, 0), 0).len(), 0);
    let most = border.rows_with(band(0, u32::MAX));
    assert_eq!(most, u32::MAX as usize + 2);
}

#[test]
fn worked_plans() {
    let far = u32::MAX;
    for (source, rows, held, plan) in [
        (SHIFT, 5, 3, &[0, 1, 2, 3, 4, 4][..]),
        (SHIFT, 5, 2, &[0, 0, 1, 1, 2, 2, 3, 3, 4, 4]),
        (SHIFT, 5, 1, &[]),
        (SHIFT, 5, 0, &[]),
        (SHIFT, 5, 5, &[0, 3, 4, 4]),
        (SHIFT, 5, 6, &[0, 4]),
        (SHIFT, 5, far, &[0, 4]),
        (COUNT_TO_3, 3, 1, &[0, 0, 1, 1, 2, 2]),
        (COUNT_TO_3, 3, 0, &[]),
        (
            b"1 dimensions of 0..9 cell := [-1] + [1]",
            10,
            5,
            &[0, 2, 3, 5, 6, 8, 9, 9],
        ),
        (AROUND, 3, 7, &[0, 0, 1, 1, 2, 2]),
        (AROUND, 3, 6, &[]),
        (AROUND, 3, 9, &[0, 2]),
    ] {
        let shape = [rows];
        let asked = Held::new(source, &shape, held);
        let (planned, room) = plan_in(asked, source, 2 * rows as usize);
        let typed = asked.plan(&mut Rooms::new());
        let mut expected = vec![9; 2 * rows as usize];
        if plan.is_empty() {
            assert_eq!(planned, Err(NotPlanned::NoPlan), "{held}");
            assert_eq!(typed, Err(NotPlanned::NoPlan), "{held}");
        } else {
            expected[..plan.len()].copy_from_slice(plan);
            assert_eq!(planned, Ok(plan.len() as u32 / 2), "{held}");
            assert_eq!(typed, Ok(bands(plan)), "{held}");
            assert_eq!(asked.check_plan(&bands(plan), &mut Rooms::new()), Ok(()));
        }
        assert_eq!(room, expected, "{held}");
    }
}

#[test]
fn planner_refusals() {
    for length in [0, 2, 6, 8, 9, 11, 12, 20] {
        let held = Held::new(SHIFT, &[5], 3);
        let (planned, room) = plan_in(held, SHIFT, length);
        let wrong = NotPlanned::NotAdmitted(Objection::LentLength);
        assert_eq!(planned, Err(wrong));
        assert_eq!(room, vec![9; length]);
    }
    // The order of the replies: the source, 20, 21, 23, 59.
    for (source, shape, length, number, place) in [
        (UNKNOWN, &[5, 5][..], 0, 8, Some(Place(35))),
        (TOO_FAR, &[5, 5], 0, 20, None),
        (TOO_FAR, &[0], 1, 20, None),
        (TOO_FAR, &[4_097], 0, 20, None),
        (TOO_FAR, &[5], 8, 21, None),
        (TOO_FAR, &[5], 10, 23, Some(Place(30))),
        (AROUND, &[3], 6, 59, None),
    ] {
        let held = Held::new(source, shape, 0);
        let (planned, room) = plan_in(held, source, length);
        let refused = planned.unwrap_err();
        assert_eq!((refused.number(), refused.place()), (number, place));
        assert_eq!(room, vec![9; length]);
        if number != 21 {
            assert_eq!(number_of(held.plan(&mut Rooms::new())), number);
        }
    }
    assert_eq!(
        NotPlanned::NoPlan.to_string(),
        "not planned 59: with the border rows not one row can be held"
    );
    let refused = Held::new(UNKNOWN, &[5], 9).plan(&mut Rooms::new());
    assert_eq!(
        refused.unwrap_err().to_string(),
        "refused 8 at 35: name unknown, or of the wrong sort for a constant or index: `x`"
    );
}

#[test]
fn plan_checks() {
    let checked = |source, shape: &[u32], held, plan: &[u32]| {
        let (mut words, mut names) = (vec![BEFORE; WORDS], vec![BEFORE; NAME_WORDS]);
        let asked = Held::new(source, shape, held);
        let answer = asked.check_plan_in(plan, &mut words, &mut names);
        as_checked(source, &words, &names);
        if plan.len() % 2 == 0 {
            let typed = asked.check_plan(&bands(plan), &mut Rooms::new());
            assert_eq!(answer, typed);
        }
        number_of(answer)
    };
    for plan in [
        &[0, 0, 1, 2, 3, 4][..],
        &[0, 1, 2, 3, 4, 4],
        &[0, 0, 1, 1, 2, 2, 3, 3, 4, 4],
    ] {
        assert_eq!(checked(SHIFT, &[5], 3, plan), 0, "{plan:?}");
        assert_eq!(checked(SHIFT, &[5], 1, plan), 60, "{plan:?}");
    }
    for plan in [
        // A gap, an overlap, an early end.
        &[0, 0, 2, 3, 4, 4][..],
        &[0, 1, 1, 2, 3, 4],
        &[0, 1, 2, 3],
        // Three rows with the border row are four.
        &[0, 2, 3, 4],
        // An empty band; one whose length wraps.
        &[0, 1, 3, 2, 4, 4],
        &[0, u32::MAX, 0, 1, 2, 3, 4, 4],
        &[0, 1, 2, 3, 4, 4, 5, 4],
        // An odd number of entries, and none.
        &[0, 1, 2, 3, 4],
        &[0, 0, 1, 2, 3, 4, 5],
        &[],
        // Past the last row; not from row 0; out of order; twice.
        &[0, 1, 2, 3, 4, 5],
        &[0, 1, 2, 3, 4, u32::MAX],
        &[1, 2, 3, 4],
        &[2, 3, 0, 1, 4, 4],
        &[0, 1, 0, 1, 2, 3, 4, 4],
        // A band more, after the last row.
        &[0, 1, 2, 3, 4, 4, 5, 5],
    ] {
        assert_eq!(checked(SHIFT, &[5], 3, plan), 60, "{plan:?}");
    }
    // The order of the replies: the source, 20, 23, 60.
    assert_eq!(checked(UNKNOWN, &[5, 5], 0, &[]), 8);
    assert_eq!(checked(TOO_FAR, &[5, 5], 0, &[]), 20);
    assert_eq!(checked(TOO_FAR, &[5], 0, &[]), 23);
    let five = b"1 dimensions of 0..9 cell := [5]";
    assert_eq!(checked(five, &[5], 9, &[0, 4]), 60);
    assert_eq!(checked(five, &[5], 10, &[0, 4]), 0);
    assert_eq!(
        BAD_PLAN.to_string(),
        "not admitted 60: plan not accepted, or band that could stand in no accepted plan"
    );
    assert_eq!((BAD_PLAN.number(), BAD_PLAN.place()), (60, None));
}

/// Steps a band into a room of 9s; what is returned, and the room.
fn step<'a>(
    held: Held<'a, '_>,
    source: &[u8],
    band: Band,
    rows: &[i32],
    own: usize,
    time: i64,
) -> (Outcome<'a>, Vec<i32>) {
    let (mut words, mut names) = (vec![BEFORE; WORDS], vec![BEFORE; NAME_WORDS]);
    let mut next = vec![9; own];
    let outcome = held.step_in(band, rows, &mut next, time, &mut words, &mut names);
    as_checked(source, &words, &names);
    (outcome, next)
}

#[test]
fn worked_steps() {
    let one = |count| Ok(Done { steps: 1, count });
    let fault = |kind, place, cell, count| {
        Err(Stop::Faulted(Fault {
            kind,
            place: Place(place),
            cell: Cell(cell),
            steps: 0,
            count,
        }))
    };
    let outside = FaultKind::ValueOutsideField;
    for (source, shape, held, band, rows, outcome, next) in [
        // The grid 5 6 7 8 9 in two bands.
        (
            SHIFT,
            &[5][..],
            4,
            band(0, 1),
            &[9, 5, 6][..],
            one(2),
            &[9, 5][..],
        ),
        (
            SHIFT,
            &[5],
            4,
            band(2, 4),
            &[6, 7, 8, 9],
            one(3),
            &[6, 7, 8],
        ),
        // Two rows, and two border rows before.
        (
            b"1 dimensions of 0..9 cell := [-2]",
            &[2],
            3,
            band(0, 0),
            &[5, 6, 5],
            one(1),
            &[5],
        ),
        (
            b"2 dimensions of 0..9 cell := [1,1]",
            &[3, 2],
            2,
            band(2, 2),
            &[7, 8, 1, 2],
            one(2),
            &[2, 1],
        ),
        (
            b"1 dimensions of a, b of 0..9 end cell.a := [1].b",
            &[3],
            2,
            band(1, 1),
            &[1, 2, 3, 4],
            one(1),
            &[4, 2],
        ),
        // Faults: the cell by its number in the whole grid, and zeros.
        (
            COUNT_TO_3,
            &[5],
            2,
            band(1, 2),
            &[3, 1],
            fault(outside, 26, 1, 1),
            &[0, 0],
        ),
        (
            COUNT_TO_3,
            &[5],
            2,
            band(3, 4),
            &[2, 3],
            fault(outside, 26, 4, 2),
            &[0, 0],
        ),
        (
            b"2 dimensions of 0..9 cell := 6 / cell",
            &[4, 2],
            2,
            band(2, 3),
            &[1, 2, 0, 0],
            fault(FaultKind::ZeroDivisor, 31, 6, 3),
            &[0, 0, 0, 0],
        ),
        // None in a border row.
        (
            b"1 dimensions of 0..9 cell := 6 / cell + [-1]",
            &[5],
            2,
            band(2, 2),
            &[0, 2],
            one(1),
            &[3],
        ),
    ] {
        let asked = Held::new(source, shape, held);
        let (given, left) = step(asked, source, band, rows, next.len(), 0);
        assert_eq!((given, &left[..]), (outcome, next), "{band:?} {rows:?}");
    }
    let source = b"1 dimensions of 0..2147483647 cell := time";
    let last = 2_147_483_646;
    let asked = Held::new(source, &[3], 1);
    let (given, left) = step(asked, source, band(1, 1), &[0], 1, last);
    assert_eq!((given, left), (one(1), vec![last as i32]));
}

#[test]
fn step_refusals() {
    let entry = |entry| Objection::EntryOutOfRange(Entry(entry));
    let far = Objection::IndexTooFar(Place(30));
    let five = b"1 dimensions of 0..9 cell := [5]";
    let wide = b"2 dimensions of 0..9 cell := [1,0]";
    let most = u32::MAX;
    let six = &[5, 6, 7, 8, 9, 5, 10][..];
    for (source, shape, held, band, rows, own, time, objection) in [
        // In the order of the replies.
        (
            TOO_FAR,
            &[5, 5][..],
            0,
            band(1, 0),
            &[][..],
            1,
            -1,
            Objection::BadShape,
        ),
        (TOO_FAR, &[5], 6, band(0, 0), &[], 1, -1, Objection::BadPlan),
        (
            TOO_FAR,
            &[5],
            7,
            band(0, 0),
            &[],
            1,
            -1,
            Objection::LentLength,
        ),
        (
            TOO_FAR,
            &[5],
            7,
            band(0, 0),
            six,
            1,
            -1,
            Objection::BadTimes,
        ),
        (TOO_FAR, &[5], 7, band(0, 0), six, 1, 0, far),
        (five, &[5], 6, band(0, 0), &six[1..], 1, 0, entry(5)),
        (SHIFT, &[5], 4, band(2, 4), &[6, -1, 8, 10], 3, 0, entry(1)),
        (COUNT_TO_3, &[5], 2, band(3, 4), &[3, 4], 2, 0, entry(1)),
        // Bands that stand in no accepted plan.
        (SHIFT, &[5], 4, band(2, 1), &[5], 0, 0, Objection::BadPlan),
        (
            SHIFT,
            &[5],
            most,
            band(1, 0),
            &[5],
            0,
            0,
            Objection::BadPlan,
        ),
        (
            SHIFT,
            &[5],
            4,
            band(4, 5),
            &[8, 9, 5],
            2,
            0,
            Objection::BadPlan,
        ),
        (
            SHIFT,
            &[5],
            most,
            band(0, most),
            &[8, 9],
            1,
            0,
            Objection::BadPlan,
        ),
        (
            SHIFT,
            &[5],
            most,
            band(most, most),
            &[8, 9],
            1,
            0,
            Objection::BadPlan,
        ),
        (
            SHIFT,
            &[5],
            3,
            band(2, 4),
            &[6, 7, 8, 9],
            3,
            0,
            Objection::BadPlan,
        ),
        // Rows and rooms of other lengths.
        (
            SHIFT,
            &[5],
            4,
            band(2, 4),
            &[7, 8, 9],
            3,
            0,
            Objection::LentLength,
        ),
        (
            SHIFT,
            &[5],
            4,
            band(2, 3),
            &[6, 7, 8, 9],
            2,
            0,
            Objection::LentLength,
        ),
        (
            SHIFT,
            &[5],
            4,
            band(2, 4),
            &[6, 7, 8, 9],
            2,
            0,
            Objection::LentLength,
        ),
        (
            SHIFT,
            &[5],
            4,
            band(2, 4),
            &[6, 7, 8, 9],
            4,
            0,
            Objection::LentLength,
        ),
        (SHIFT, &[5], 4, band(2, 4), &[], 0, 0, Objection::LentLength),
        (
            wide,
            &[3, 2],
            2,
            band(2, 2),
            &[7, 8, 1],
            2,
            0,
            Objection::LentLength,
        ),
        // Times, as of a run of one step.
        (
            COUNT_TO_3,
            &[5],
            2,
            band(3, 4),
            &[2, 7],
            2,
            2_147_483_647,
            Objection::BadTimes,
        ),
        (
            COUNT_TO_3,
            &[5],
            2,
            band(3, 4),
            &[2, 7],
            2,
            i64::MIN,
            Objection::BadTimes,
        ),
    ] {
        let asked = Held::new(source, shape, held);
        let (given, next) = step(asked, source, band, rows, own, time);
        let refused = Err(Stop::NotAdmitted(objection));
        assert_eq!(given, refused, "{band:?} {rows:?}");
        assert_eq!(next, vec![9; own]);
    }
    let asked = Held::new(UNKNOWN, &[5, 5], 0);
    let (given, next) = step(asked, UNKNOWN, band(1, 0), &[], 1, -1);
    assert_eq!((given.unwrap_err().number(), next), (8, vec![9]));
}

#[test]
fn rooms_of_wrong_length_are_not_touched() {
    let held = Held::new(SHIFT, &[5], 3);
    for (words, names) in [(WORDS - 1, NAME_WORDS), (WORDS, NAME_WORDS + 4), (0, 0)] {
        let (mut words, mut names) = (vec![BEFORE; words], vec![BEFORE; names]);
        let (mut room, mut next) = ([9; 10], [9; 2]);
        let border = held.border_in(&mut words, &mut names);
        assert_eq!(number_of(border), 1);
        let checked = held.check_plan_in(&[0, 4], &mut words, &mut names);
        assert_eq!(number_of(checked), 1);
        let planned = held.plan_in(&mut room, &mut words, &mut names);
        assert_eq!(number_of(planned), 1);
        let rows = [9, 5, 6];
        let stop = held.step_in(band(0, 1), &rows, &mut next, 0, &mut words, &mut names);
        assert_eq!(stop.unwrap_err().number(), 1);
        assert!(words.iter().chain(&names).all(|&word| word == BEFORE));
        assert_eq!((room, next), ([9; 10], [9; 2]));
    }
}

/// Steps a grid band by band, and returns what the run of one step returns.
fn by_bands<'a>(
    held: Held<'a, '_>,
    (border, plan, rows): (Border, &[Band], u32),
    grid: &mut [i32],
    time: i64,
    rooms: &mut Rooms,
) -> Outcome<'a> {
    let row = grid.len() / rows as usize;
    let mut after = Vec::new();
    let mut count = 0;
    for &band in plan {
        let lent = border.rows_lent(band, rows).flat_map(|number| {
            let at = number as usize * row;
            &grid[at..at + row]
        });
        let lent: Vec<i32> = lent.copied().collect();
        let mut next = vec![9; band.rows().count() * row];
        match held.step(band, &lent, &mut next, time, rooms) {
            Ok(done) => count += done.count,
            Err(Stop::Faulted(fault)) => {
                assert!(next.iter().all(|&entry| entry == 0));
                let count = count + fault.count;
                return Err(Stop::Faulted(Fault { count, ..fault }));
            }
            Err(stop) => return Err(stop),
        }
        after.extend(next);
    }
    grid.copy_from_slice(&after);
    Ok(Done { steps: 1, count })
}

#[test]
fn bands_beside_the_whole_run() {
    let mut random = Random::new(20_031);
    let mut rooms = Rooms::new();
    let (mut steps, mut faults, mut wrapped) = (0, 0, 0);
    for case in vectors::runs(20_031, RUNS, false) {
        let (source, shape) = (&case.source[..], &case.shape[..]);
        let mut whole = case.grid.clone();
        let expected =
            Run::new(source, shape, case.start, 1, Mode::Full).on(&mut whole, &mut rooms);
        let expected = match expected {
            Err(Stop::Refused(_) | Stop::NotAdmitted(_)) => continue,
            outcome => outcome,
        };
        let rows = shape[0];
        let border = Held::new(source, shape, 0).border(&mut rooms);
        let border = border.expect("the run began");
        let borders = border.before + border.behind;
        wrapped += usize::from(borders >= rows);
        let none = Held::new(source, shape, borders).plan(&mut rooms);
        assert_eq!(none, Err(NotPlanned::NoPlan), "{case:?}");
        for most in [1, 1 + random.below(rows as usize) as u32, rows] {
            let held = Held::new(source, shape, borders + most);
            let longest = held.plan(&mut rooms).expect("a plan");
            let any = any_plan(&mut random, rows, most);
            assert!(longest.len() <= any.len(), "{case:?}");
            for plan in [longest, any] {
                assert_eq!(held.check_plan(&plan, &mut rooms), Ok(()), "{case:?}");
                let mut grid = case.grid.clone();
                let by = (border, &plan[..], rows);
                let given = by_bands(held, by, &mut grid, case.start, &mut rooms);
                assert_eq!(given, expected, "{case:?} {plan:?}");
                assert_eq!(grid, whole, "{case:?} {plan:?}");
                steps += 1;
                faults += usize::from(given.is_err());
            }
        }
    }
    println!("{steps} steps by bands compared, {faults} with a fault; in {wrapped} runs border rows repeat");
    assert!(steps > 20_000 && faults > 1_000 && wrapped > 500);
}
