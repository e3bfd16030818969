//! Rules that move a pixel once: answers, lists and texts of such rules, what
//! is claimed of their runs, and generated cases beside the second program.

use cellang::{
    check, check_one_move, check_one_move_in, run_pausing_counting_in, run_pausing_in,
    run_resuming_counting_in, run_resuming_in, write_list, CountingLent, Lent, Line, ListReason,
    ListRefusal, Missed, Mode, Outcome, Place, Reason, Rooms, Run, Stop, NAME_WORDS, WORDS,
};
use reference::call_case::Call;
use reference::case::scratch_on_entry;
use reference::one_move::{profile, Profile};
use reference::pausing::Manner;
use reference::vectors;
use reference::written_moves::{
    not_once, on_three, shown, IN_PROFILE, LISTS, NO_FLAG, REFUSED, SHOWN, THREE,
};
use told::{print_seen, report_of};

mod told;

const SOURCES: usize = 30_000;
const RUNS: usize = 12_000;

/// What the rooms hold on entry.
const BEFORE: u32 = 0x5A5A_5A5A;

/// The numbers of an answer.
fn told_of(answer: Result<(), Missed>) -> Profile {
    let Err(missed) = answer else {
        return Profile::default();
    };
    let (number, place) = match missed {
        Missed::Refused { reason, place } => (reason as u32, place.0),
        _ => (0, 0),
    };
    Profile {
        rule: missed.rule(),
        number,
        place,
    }
}

#[test]
fn answers() {
    let mut rooms = Rooms::new();
    let mut rule = |source: &str| told_of(check_one_move(source.as_bytes(), &mut rooms)).rule;
    for source in IN_PROFILE {
        assert_eq!(rule(source), 0, "{source}");
    }
    for source in REFUSED {
        assert_eq!(rule(source), 1, "{source}");
    }
    for source in NO_FLAG {
        assert_eq!(rule(source), 2, "{source}");
    }
    for source in not_once() {
        assert_eq!(rule(&source), 3, "{source}");
    }
    let missed = check_one_move(b"1 dimensions of 0..1 x := y", &mut rooms).unwrap_err();
    let reason = Reason::NameUnknown;
    let place = Place(26);
    assert_eq!(missed, Missed::Refused { reason, place });
    assert_eq!(
        missed.to_string(),
        "misses rule 1: refused 8 at 26: name unknown, or of the wrong sort for a constant or index"
    );
    assert_eq!(
        Missed::Flag.to_string(),
        "misses rule 2: no field `moved` of range 0..1 that is not const"
    );
    assert_eq!(
        Missed::Statement.to_string(),
        "misses rule 3: not `if cell.moved = 0 then` .. `cell.moved := 1 end` alone, constants aside"
    );
}

#[test]
fn rooms_of_wrong_length_are_not_touched() {
    for (words, names) in [(WORDS - 1, NAME_WORDS), (WORDS, NAME_WORDS + 4), (0, 0)] {
        let (mut words, mut names) = (vec![BEFORE; words], vec![BEFORE; names]);
        let answer = check_one_move_in(IN_PROFILE[0].as_bytes(), &mut words, &mut names);
        let (rule, number, place) = (1, 1, 0);
        assert_eq!(
            told_of(answer),
            Profile {
                rule,
                number,
                place
            }
        );
        assert!(words.iter().chain(&names).all(|&word| word == BEFORE));
    }
}

#[test]
fn lists_that_give_0() {
    for (number, line, list) in LISTS {
        let case = on_three(THREE, list);
        for mode in [Mode::Full, Mode::Quiet] {
            let mut grid = case.grid.clone();
            let run = Run::new(&case.source, &case.shape, case.start, case.steps, mode);
            let outcome = run.with_list(&case.values).on(&mut grid, &mut Rooms::new());
            let report = report_of(&outcome);
            assert_eq!((report.number, report.line), (number, line), "{list:?}");
            if number == 58 {
                let refusal = ListRefusal {
                    reason: ListReason::MovedZero,
                    line: Line(line),
                };
                assert_eq!(outcome, Err(Stop::ListRefused(refusal)));
                assert_eq!(grid, case.grid);
            }
        }
    }
    let reason = ListReason::MovedZero;
    let refusal = ListRefusal {
        reason,
        line: Line(2),
    };
    assert_eq!(
        refusal.to_string(),
        "list refused 58 at line 2: value 0 for `moved` in a rule that moves a pixel once"
    );
}

#[test]
fn texts_that_leave_it_missing() {
    for (fields, order, end) in SHOWN {
        let case = shown(fields, order, false, 0);
        let [earlier, later] = [&case.earlier, &case.later];
        let mut rooms = Rooms::new();
        let text = write_list(&case.source, &case.shape, earlier, later, 40, &mut rooms);
        let expected = format!("40\n[0, 3] = {end}\n");
        assert_eq!(text.as_deref(), Ok(expected.as_bytes()));
    }
}

/// Makes a call in its manner, with counts or without.
fn made<'a>(call: &'a Call, grid: &mut [i32], lent: Lent<'_>, counts: &mut [u32]) -> Outcome<'a> {
    let run = &call.run;
    let (source, shape, values) = (&run.source, &run.shape, &run.values);
    let (start, steps) = (run.start, run.steps);
    let plain = |mode| Run::new(source, shape, start, steps, mode).with_list(values);
    if !call.counted {
        return match call.manner {
            Manner::Full => plain(Mode::Full).on_in(grid, lent),
            Manner::Quiet => plain(Mode::Quiet).on_in(grid, lent),
            Manner::Pausing => run_pausing_in(source, shape, grid, lent, start, steps, values),
            Manner::Resuming => run_resuming_in(source, shape, grid, lent, start, steps, values),
        };
    }
    let field = call.field;
    let lent = CountingLent {
        lent,
        field,
        counts,
    };
    match call.manner {
        Manner::Full => plain(Mode::Full).on_counting_in(grid, lent),
        Manner::Quiet => plain(Mode::Quiet).on_counting_in(grid, lent),
        Manner::Pausing => run_pausing_counting_in(source, shape, grid, lent, start, steps, values),
        Manner::Resuming => {
            run_resuming_counting_in(source, shape, grid, lent, start, steps, values)
        }
    }
}

/// Makes a call, and holds what it returns and leaves to the second program's.
fn compare_call(call: &Call) -> u32 {
    let expected = call.made();
    let mut grid = call.run.grid.clone();
    let mut scratch = scratch_on_entry(call.run.scratch);
    let mut marks = call.marks.clone();
    let mut counts = call.counts.clone();
    let lent = Lent {
        words: &mut vec![7; call.run.words],
        names: &mut vec![7; 4 * call.run.names],
        scratch: &mut scratch,
        marks: &mut marks,
    };
    let outcome = made(call, &mut grid, lent, &mut counts);
    assert_eq!(report_of(&outcome), expected.report, "{call:?}");
    assert_eq!(grid, expected.grid, "{call:?}");
    assert_eq!(marks, expected.marks, "{call:?}");
    assert_eq!(counts, expected.counts, "{call:?}");
    expected.report.number
}

#[test]
fn sources_near_the_profile() {
    let mut seen = [0; 4];
    let sources = vectors::stored_checks().into_iter();
    for source in sources.chain(vectors::near(20_021, SOURCES, false)) {
        let (mut words, mut names) = (vec![BEFORE; WORDS], vec![BEFORE; NAME_WORDS]);
        let answer = told_of(check_one_move_in(&source, &mut words, &mut names));
        let text = String::from_utf8_lossy(&source);
        assert_eq!(answer, profile(&source), "{text}");
        seen[answer.rule as usize] += 1;
        if answer.number == 2 {
            assert!(words.iter().chain(&names).all(|&word| word == BEFORE));
            continue;
        }
        let mut rooms = Rooms::new();
        assert_eq!(check(&source, &mut rooms).is_ok(), answer.rule != 1);
        assert!(
            words == rooms.words() && names == rooms.name_words(),
            "{text}"
        );
    }
    println!("sources compared, by rule missed: {seen:?}");
    assert!(seen.iter().all(|&count| count > 1_000));
}

#[test]
fn runs_beside_the_second_program() {
    let mut seen = [0; 63];
    let calls = vectors::stored_moving().into_iter();
    for call in calls.chain(vectors::moving(20_022, RUNS, false)) {
        seen[compare_call(&call) as usize] += 1;
    }
    print_seen("runs of rules that move a pixel once", &seen);
    for number in [
        0, 1, 20, 21, 22, 23, 24, 30, 31, 33, 50, 51, 52, 53, 54, 55, 56, 58, 61,
    ] {
        assert!(seen[number] > 0, "no run gave {number}");
    }
}

/// The flag of a rule in the profile: its number among the fields, and how many
/// these are.
fn flag_of(source: &[u8], rooms: &mut Rooms) -> Option<(usize, usize)> {
    check_one_move(source, rooms).ok()?;
    let fields = rooms.names(source).filter(|name| {
        let kind = name.kind as u32;
        kind == 3 || kind == 6
    });
    let flag = rooms
        .names(source)
        .find(|name| name.kind as u32 == 3 && name.text.eq_ignore_ascii_case("moved"))?;
    Some((flag.value as usize, fields.count()))
}

/// A run, a step at a time: a cell whose flag is 1 stays as it is in every step,
/// and does not fault; after a completed step no step changes anything.
#[test]
fn what_moved_stays() {
    let mut rooms = Rooms::new();
    let (mut kept, mut settled) = (0, 0);
    for call in vectors::moving(20_023, RUNS, false) {
        let (run, start) = (&call.run, call.run.start);
        let Some((flag, fields)) = flag_of(&run.source, &mut rooms) else {
            continue;
        };
        let step = |grid: &mut [i32], time, rooms: &mut Rooms| {
            Run::new(&run.source, &run.shape, time, 1, Mode::Full)
                .on(grid, rooms)
                .map(|_| ())
                .map_err(|stop| stop.number())
        };
        let mut grid = run.grid.clone();
        let before = grid.clone();
        match step(&mut grid, start, &mut rooms) {
            Ok(()) => {}
            // A cell that has not moved yet.
            Err(30..=33) => {
                assert!(before.chunks(fields).any(|cell| cell[flag] == 0));
                continue;
            }
            Err(_) => continue,
        }
        for (old, new) in before.chunks(fields).zip(grid.chunks(fields)) {
            assert_eq!(new[flag], 1, "{call:?}");
            assert!(old[flag] == 0 || old == new, "{call:?}");
            kept += usize::from(old[flag] == 1);
        }
        for time in start + 1..=(start + 3).min(2_147_483_646) {
            let settled_grid = grid.clone();
            assert_eq!(step(&mut grid, time, &mut rooms), Ok(()), "{call:?}");
            assert_eq!(grid, settled_grid, "{call:?}");
            settled += 1;
        }
    }
    println!("{kept} cells that had moved stayed, {settled} steps changed nothing");
    assert!(kept > 1_000 && settled > 1_000);
}
