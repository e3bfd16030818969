//! The marked examples M1 to M13.

use cellang::{
    check, run, Cell, Done, Fault, FaultKind, Mode, Objection, Outcome, Place, Reason, Rooms, Stop,
};

const S: &str = "1 dimensions of 0..1 ";
const MODES: [Mode; 2] = [Mode::Full, Mode::Quiet];

/// Reason and place of a refusal.
fn reply(source: &str) -> Result<(), (Reason, Place)> {
    check(source.as_bytes(), &mut Rooms::new()).map_err(|refusal| (refusal.reason, refusal.place))
}

fn refused(reason: Reason, place: u32) -> Result<(), (Reason, Place)> {
    Err((reason, Place(place)))
}

/// The outcome of a run on a row of cells, and the grid that it leaves.
fn on_row<'a>(source: &'a str, row: &[i32], steps: i64, mode: Mode) -> (Outcome<'a>, Vec<i32>) {
    let mut grid = row.to_vec();
    let shape = [row.len() as u32];
    let mut rooms = Rooms::new();
    let outcome = run(
        source.as_bytes(),
        &shape,
        &mut grid,
        &mut rooms,
        0,
        steps,
        mode,
    );
    (outcome, grid)
}

#[test]
fn m1_to_m4_and_m13() {
    assert_eq!(reply(""), refused(Reason::NotAllowed, 0));
    assert_eq!(reply(S), Ok(()));
    assert_eq!(
        reply(&format!("{S}x := y")),
        refused(Reason::NameUnknown, 26)
    );
    let chained = format!("{S}cell := 1 < 2 < 3");
    assert_eq!(reply(&chained), refused(Reason::RelationOnRelation, 35));
    assert_eq!(
        reply("4 dimensions of 0..1"),
        refused(Reason::BadDimensions, 0)
    );
}

#[test]
fn m5() {
    for (mode, count) in [(Mode::Full, 10), (Mode::Quiet, 8)] {
        let source = format!("{S}cell := [-1]");
        let (outcome, grid) = on_row(&source, &[1, 0, 0, 0, 0], 2, mode);
        assert_eq!(outcome, Ok(Done { steps: 2, count }));
        assert_eq!(grid, [0, 0, 1, 0, 0]);
    }
}

#[test]
fn m6() {
    for mode in MODES {
        let (outcome, grid) = on_row("1 dimensions of 0..9 cell := time", &[0, 0], 3, mode);
        assert_eq!(outcome, Ok(Done { steps: 3, count: 6 }));
        assert_eq!(grid, [2, 2]);
    }
}

#[test]
fn m7() {
    for mode in MODES {
        let (outcome, grid) = on_row("1 dimensions of 0..3 cell := cell + 1", &[0, 2, 1], 5, mode);
        let fault = Fault {
            kind: FaultKind::ValueOutsideField,
            place: Place(26),
            cell: Cell(1),
            steps: 1,
            count: 5,
        };
        assert_eq!(outcome, Err(Stop::Faulted(fault)));
        assert_eq!(grid, [1, 3, 2]);
    }
}

#[test]
fn m8_to_m11() {
    for (expression, value) in [
        ("1 | 0 & 0", 0),
        ("7 / -2", -3),
        ("-7 % 2", -1),
        ("7 % -2", 1),
    ] {
        for mode in MODES {
            let source = format!("1 dimensions of -99..99 cell := {expression}");
            let (outcome, grid) = on_row(&source, &[0], 1, mode);
            assert_eq!(outcome, Ok(Done { steps: 1, count: 1 }));
            assert_eq!(grid, [value], "{expression}");
        }
    }
}

#[test]
fn m12() {
    let row = [1, 2, 3, 4, 5];
    for mode in MODES {
        let (outcome, grid) = on_row("1 dimensions of 0..9 cell := [5]", &row, 1, mode);
        assert_eq!(outcome, Ok(Done { steps: 1, count: 5 }));
        assert_eq!(grid, row);
        let (outcome, grid) = on_row("1 dimensions of 0..9 cell := [6]", &row, 1, mode);
        let too_far = Objection::IndexTooFar(Place(30));
        assert_eq!(outcome, Err(Stop::NotAdmitted(too_far)));
        assert_eq!(grid, row);
    }
}
