//! Calls on bands of rows that are wrong in several ways at once, written by
//! hand. Each stands with the number that refuses it: what is tried before is
//! right, and what is tried later is wrong too. With 0 stands a call that is right.

use crate::band_case::{Asked, BandCase, BandedCase, BorderCase, PlanCase, PlannerCase};
use crate::bands::Band;
use crate::call_case::Call;
use crate::case::{marks_on_entry, RunCase};
use crate::pausing::Manner;

/// A rule that moves a pixel once, with one border row before.
const MOVES: &str = "1 dimensions of a of 0..9 moved of 0..1 end \
    if cell.moved = 0 then cell.a := [-1].a cell.moved := 1 end";

/// The same with an index that is too far for five rows.
const FAR: &str = "1 dimensions of a of 0..9 moved of 0..1 end \
    if cell.moved = 0 then cell.a := [-6].a cell.moved := 1 end";

const GRID: [i32; 10] = [5, 0, 6, 1, 7, 0, 8, 0, 9, 1];

/// A way in which a case can be wrong, and the number that tells it.
type Wrong<'a, C> = (u32, &'a dyn Fn(&mut C));

/// A case that is right, wrong from each way on, and right.
fn ordered<C: Clone>(right: &C, wrongs: &[Wrong<C>]) -> Vec<(u32, C)> {
    let mut row = Vec::new();
    for (at, (number, _)) in wrongs.iter().enumerate() {
        let mut case = right.clone();
        for (_, make_wrong) in wrongs[at..].iter().rev() {
            make_wrong(&mut case);
        }
        row.push((*number, case));
    }
    row.push((0, right.clone()));
    row
}

/// So many short assignments, and one token more.
fn many_tokens(assignments: usize) -> String {
    let each = "x:=1 ".repeat(assignments);
    format!("1 dimensions of 0..1 {each}x")
}

fn many_names(count: usize) -> String {
    let each: String = (0..count).map(|name| format!("n{name}:=1 ")).collect();
    format!("1 dimensions of 0..1 {each}")
}

/// A source that is refused with each number from 3 to 15 and 40 to 45.
pub fn refused_sources() -> Vec<(u32, Vec<u8>)> {
    let rule = |text: &str| format!("1 dimensions of 0..1 {text}");
    let sources = [
        (3, rule("cell := ~")),
        (4, "1 dimensions of 0..2147483648".into()),
        (5, many_tokens(1_363) + ":=1"),
        (6, rule("cell := random")),
        (7, String::new()),
        (8, rule("cell := y")),
        (9, rule("time := 1")),
        (12, rule("cell := [0,0]")),
        (13, rule("cell := 1 < 2 < 3")),
        (14, rule(&format!("cell := {}1", "(".repeat(17)))),
        (15, many_names(257)),
        (40, "4 dimensions of 0..1".into()),
        (41, "1 dimensions of 1..0".into()),
        (42, rule("forall i : 0..4096 end")),
        (43, "1 dimensions of a,b,c,d,e,f,g,h,i of 0..1 end".into()),
        (44, rule("const t[] for 0 := 1")),
        (45, rule("const t[] for 2 := 1")),
    ];
    let sources = sources.into_iter();
    sources
        .map(|(number, text)| (number, text.into_bytes()))
        .collect()
}

/// Puts each refused source in a case that is wrong in all that is tried later.
fn with_sources<C: Clone>(row: &mut Vec<(u32, C)>, wrong: &C, put: impl Fn(&mut C, Vec<u8>)) {
    for (number, source) in refused_sources() {
        let mut case = wrong.clone();
        put(&mut case, source);
        row.push((number, case));
    }
}

fn asked(held: u32) -> Asked {
    Asked::new(MOVES.into(), &[5], held)
}

/// The case of a row that is refused with 8, which the other sources are put in.
fn refused_with_8<C: Clone>(row: &[(u32, C)]) -> C {
    let found = row.iter().find(|(number, _)| *number == 8);
    found.expect("one is").1.clone()
}

const UNKNOWN: &[u8] = b"1 dimensions of 0..9 cell := y";

pub fn borders() -> Vec<(u32, BorderCase)> {
    let right = BorderCase { asked: asked(0) };
    let mut row = ordered(
        &right,
        &[
            (1, &|case| case.asked.words = 16_383),
            (1, &|case| case.asked.names = 257),
            (8, &|case| case.asked.source = UNKNOWN.into()),
            (20, &|case| case.asked.shape = vec![]),
            (20, &|case| case.asked.shape = vec![0]),
            (20, &|case| case.asked.shape = vec![4_097]),
            (20, &|case| case.asked.shape = vec![5, 5]),
            (23, &|case| case.asked.source = FAR.into()),
        ],
    );
    let wrong = refused_with_8(&row);
    with_sources(&mut row, &wrong, |case, source| case.asked.source = source);
    row
}

pub fn plans() -> Vec<(u32, PlanCase)> {
    let right = PlanCase {
        asked: asked(4),
        plan: vec![0, 1, 2, 4],
    };
    let mut row = ordered(
        &right,
        &[
            (1, &|case| case.asked.words = 0),
            (1, &|case| case.asked.names = 255),
            (8, &|case| case.asked.source = UNKNOWN.into()),
            (20, &|case| case.asked.shape = vec![0]),
            (20, &|case| case.asked.shape = vec![5, 5]),
            (23, &|case| case.asked.source = FAR.into()),
            (60, &|case| case.plan.clear()),
            (60, &|case| case.asked.held = 3),
        ],
    );
    let wrong = refused_with_8(&row);
    with_sources(&mut row, &wrong, |case, source| case.asked.source = source);
    row
}

pub fn planners() -> Vec<(u32, PlannerCase)> {
    let right = PlannerCase {
        asked: asked(4),
        room: 10,
    };
    let mut row = ordered(
        &right,
        &[
            (1, &|case| case.asked.words = 16_385),
            (1, &|case| case.asked.names = 0),
            (8, &|case| case.asked.source = UNKNOWN.into()),
            (20, &|case| case.asked.shape = vec![4_097]),
            (20, &|case| case.asked.shape = vec![5, 5]),
            (21, &|case| case.room = 9),
            (21, &|case| case.room = 11),
            (23, &|case| case.asked.source = FAR.into()),
            (59, &|case| case.asked.held = 0),
            (59, &|case| case.asked.held = 1),
        ],
    );
    let wrong = refused_with_8(&row);
    with_sources(&mut row, &wrong, |case, source| case.asked.source = source);
    row
}

pub fn bands() -> Vec<(u32, BandCase)> {
    let right = BandCase {
        asked: asked(4),
        band: Band::new(2, 4),
        room: 6,
        time: 3,
        rows: GRID[2..].to_vec(),
    };
    let mut row = ordered(
        &right,
        &[
            (1, &|case| case.asked.words = 1),
            (1, &|case| case.asked.names = 1),
            (8, &|case| case.asked.source = UNKNOWN.into()),
            (20, &|case| case.asked.shape = vec![0]),
            (20, &|case| case.asked.shape = vec![5, 5]),
            (60, &|case| case.asked.held = 8),
            (60, &|case| case.band = Band::new(4, 2)),
            (60, &|case| case.band = Band::new(2, 5)),
            (21, &|case| case.rows.truncate(17)),
            (21, &|case| case.room = 5),
            (22, &|case| case.time = -1),
            (22, &|case| case.time = 2_147_483_647),
            // Six border rows and three others, whose entries are wrong.
            (23, &|case| {
                case.asked.source = FAR.into();
                case.asked.held = 9;
                case.rows = vec![10; 18];
            }),
            (24, &|case| case.rows[3] = 2),
            (24, &|case| case.rows[6] = 10),
        ],
    );
    let wrong = refused_with_8(&row);
    with_sources(&mut row, &wrong, |case, source| case.asked.source = source);
    row
}

/// A run of two steps from time 3 on, with a list, and counts of the flag.
fn right_run() -> BandedCase {
    let run = RunCase::new(MOVES.into(), &[5], GRID.to_vec(), 3, 2);
    let run = run.with_list(b"4\n[0] = 5, 1\n5\n[2] = 1\n");
    let call = Call::new(run, Manner::Full, marks_on_entry(5));
    BandedCase {
        call: call.counting(1, vec![9; 5]),
        held: 4,
        plan: vec![0, 1, 2, 4],
        room: 8,
    }
}

fn set_marks(case: &mut BandedCase, count: usize) {
    case.call.marks = marks_on_entry(count);
    case.call.run.marks = count;
}

pub fn runs() -> Vec<(u32, BandedCase)> {
    let list = |case: &mut BandedCase, text: &str| case.call.run.values = text.into();
    let mut row = ordered(
        &right_run(),
        &[
            (1, &|case| case.call.run.words = 0),
            (1, &|case| case.call.run.names = 257),
            (2, &|case| case.call.run.source = vec![b' '; 65_536]),
            (8, &|case| case.call.run.source = UNKNOWN.into()),
            (20, &|case| case.call.run.shape = vec![0]),
            (20, &|case| case.call.run.shape = vec![5, 1]),
            (21, &|case| case.call.run.grid.push(0)),
            (21, &|case| case.call.run.scratch = 9),
            (21, &|case| set_marks(case, 6)),
            (21, &|case| case.room = 7),
            (22, &|case| case.call.run.start = -1),
            (22, &|case| case.call.run.steps = 2_147_483_647),
            (23, &|case| case.call.run.source = FAR.into()),
            (24, &|case| case.call.run.grid[4] = 10),
            (24, &|case| case.call.run.grid[9] = -1),
            (61, &|case| case.call.field = 2),
            (61, &|case| case.call.counts = vec![9; 4]),
            (50, &|case| list(case, "x\n")),
            (51, &|case| list(case, "3\n[5] = 1\n")),
            (52, &|case| list(case, "3\n[0] = 1, 1, 1\n")),
            (53, &|case| list(case, "3\n[0] = 10\n")),
            (54, &|case| list(case, "3\n3\n")),
            (55, &|case| list(case, "2\n")),
            (56, &|case| list(case, "6\n")),
            (58, &|case| list(case, "3\n[0] = 1, 0\n")),
            (60, &|case| case.plan = vec![]),
            (60, &|case| (case.held, case.room) = (3, 6)),
        ],
    );
    let wrong = refused_with_8(&row);
    with_sources(&mut row, &wrong, |case, source| {
        case.call.run.source = source
    });
    row
}
