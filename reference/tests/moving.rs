//! Rules that move a pixel once: what is claimed of their runs, lists and
//! writings, over generated cases.

use reference::call_case::Call;
use reference::interpret::{step, step_open};
use reference::lists::{read_list, Block, Limits};
use reference::one_move::{flag, profile};
use reference::pausing::Manner;
use reference::tree::{Binary, Expression, Program, Statement, Target};
use reference::write_case::write_case;
use reference::{check, vectors};

/// The program and the flag of a source in the profile.
fn in_profile(source: &[u8]) -> Option<(Program, usize)> {
    let program = check(source).program?;
    let flag = flag(source, &program)?;
    Some((program, flag))
}

/// What the tokens say is what the tree says.
#[test]
fn trees() {
    let mut seen = 0;
    for source in vectors::near(61, 20_000, false) {
        let Some((program, flag)) = in_profile(&source) else {
            assert_ne!(profile(&source).rule, 0);
            continue;
        };
        assert_eq!(profile(&source).rule, 0);
        let [Statement::If(branches, otherwise)] = &program.statements[..] else {
            panic!("{}", String::from_utf8_lossy(&source));
        };
        let [(Expression::Binary(Binary::Equal, _, sides), body)] = &branches[..] else {
            panic!("{}", String::from_utf8_lossy(&source));
        };
        assert!(otherwise.is_empty());
        assert!(matches!(sides.0, Expression::Own(field) if field == flag));
        assert!(matches!(sides.1, Expression::Number(0)));
        let Some(Statement::Assign(target, choices)) = body.last() else {
            panic!("{}", String::from_utf8_lossy(&source));
        };
        assert_eq!(*target, Target::Field(flag));
        assert!(matches!(choices[..], [ref only] if only.condition.is_none()
            && matches!(only.value, Expression::Number(1))));
        seen += 1;
    }
    assert!(seen > 5_000, "{seen}");
}

/// The list of a call, held to what the flag asks or not.
fn read(call: &Call, program: &Program, flag: Option<usize>) -> Result<Vec<Block>, (u32, u64)> {
    let limits = Limits {
        sizes: &call.run.shape,
        fields: &program.fields,
        flag,
        start: call.run.start,
        steps: call.run.steps,
    };
    read_list(&call.run.values, &limits).map_err(|bad| (bad.number, bad.line))
}

/// A run, step by step: nothing happens to a cell whose flag is 1, and after one
/// completed step nothing happens at all. How many steps there were in which a
/// cell with a flag of 1 stood beside one with 0, and how many after a
/// completed one.
fn settles(call: &Call, program: &Program, flag: usize, blocks: &[Block]) -> (usize, usize) {
    let (run, fields) = (&call.run, program.fields.len());
    let flags = |grid: &[i32]| -> Vec<bool> { grid.chunks(fields).map(|c| c[flag] == 1).collect() };
    let mut grid = run.grid.clone();
    let mut moved = flags(&grid);
    let (mut beside, mut behind) = (0, 0);
    for time in run.start..=run.start + run.steps {
        if let Some(block) = blocks.iter().find(|block| block.time == time) {
            block.set(fields, &mut grid);
        }
        // Once a flag is 1, it stays.
        let now = flags(&grid);
        assert!(moved.iter().zip(&now).all(|(&before, &now)| now || !before));
        moved.clone_from(&now);
        if time == run.start + run.steps {
            break;
        }
        let mut next = grid.clone();
        let at = time as i32;
        let only_moved = step_open(program, &run.shape, at, &grid, &mut next, |cell| now[cell]);
        assert!(only_moved.is_ok());
        assert_eq!(next, grid);
        let stepped = step(program, &run.shape, at, &grid, &mut next);
        beside += usize::from(now.contains(&true) && now.contains(&false));
        if time > run.start {
            assert!(!now.contains(&false));
            assert!(stepped.is_ok());
            assert_eq!(next, grid);
            behind += 1;
        }
        if let Err((cell, _)) = stepped {
            assert!(!now[cell]);
            break;
        }
        assert!(!flags(&next).contains(&false));
        grid = next;
    }
    let left = call.in_manner(Manner::Full).made();
    assert_eq!(left.grid, grid);
    (beside, behind)
}

#[test]
fn runs() {
    let (mut listed, mut beside, mut behind, mut faults) = (0, 0, 0, 0);
    for call in vectors::moving(62, 12_000, false) {
        let Some((program, flag)) = in_profile(&call.run.source) else {
            continue;
        };
        let full = call.in_manner(Manner::Full).made();
        if !full.began() {
            continue;
        }
        let blocks = read(&call, &program, Some(flag)).expect("a list that passes");
        let (a, b) = settles(&call, &program, flag, &blocks);
        listed += usize::from(!blocks.is_empty());
        beside += a;
        behind += b;
        faults += usize::from(full.faulted());
        // Without a list the first step leaves what all steps leave.
        let mut once = call.in_manner(Manner::Full);
        once.run.values.clear();
        let all = once.made();
        once.run.steps = call.run.steps.min(1);
        let once = once.made();
        assert_eq!(all.grid, once.grid);
        if once.report.number == 0 && call.run.steps > 0 {
            assert_eq!(
                (all.report.number, all.report.steps),
                (0, call.run.steps as u32)
            );
        }
    }
    let seen = [listed, beside, behind, faults];
    assert!(seen.iter().all(|&count| count > 300), "{seen:?}");
}

/// A run in slices, the first of which has a step: no later one changes
/// anything.
#[test]
fn slices() {
    let mut seen = 0;
    for call in vectors::moving(65, 6_000, false) {
        if in_profile(&call.run.source).is_none() {
            continue;
        }
        let mut first = Call::pausing(call.run.clone());
        first.run.steps = 1;
        first.run.values.clear();
        let left = first.made();
        if left.report.number != 0 || first.run.start > 2_147_483_000 {
            continue;
        }
        let second = first.resumed(&left, 2, b"");
        let between = second.made();
        let third = second.resumed(&between, 1, b"").made();
        for later in [&between, &third] {
            assert_eq!((later.report.number, &later.grid), (0, &left.grid));
        }
        // All that one step changed is looked at once more, and nothing else.
        assert_eq!(
            third.report.count,
            if uses_time(&call) { cells(&call) } else { 0 }
        );
        seen += 1;
    }
    assert!(seen > 3_000, "{seen}");
}

fn uses_time(call: &Call) -> bool {
    check(&call.run.source)
        .program
        .is_some_and(|program| program.uses_time)
}

fn cells(call: &Call) -> u64 {
    call.run.shape.iter().map(|&size| u64::from(size)).product()
}

/// The line of the first flag that blocks give 0.
fn first_zero(blocks: &[Block], flag: usize) -> Option<u64> {
    let mut line = 0;
    for block in blocks {
        line += 1;
        for cell in &block.lines {
            line += 1;
            if cell.values.get(flag) == Some(&Some(0)) {
                return Some(line);
            }
        }
    }
    None
}

/// The front of a text, so many lines.
fn front(text: &[u8], lines: u64) -> &[u8] {
    let ends = (0..text.len()).filter(|&at| matches!(text[at], b'\n' | b'\r'));
    let end = ends.take(lines as usize).last();
    &text[..end.map_or(0, |at| at + 1)]
}

/// 58 stands beside the other numbers: the lowest line wins, then the lowest
/// number.
#[test]
fn lists() {
    let mut seen = [0; 3];
    for call in vectors::moving(63, 12_000, false) {
        let Some((program, flag)) = in_profile(&call.run.source) else {
            continue;
        };
        let mut bare = call.clone();
        bare.run.values.clear();
        if !bare.made().began() {
            continue;
        }
        let without = read(&call, &program, None);
        let mut before = call.clone();
        if let Err((_, line)) = without {
            before.run.values = front(&call.run.values, line - 1).to_vec();
        }
        let blocks = read(&before, &program, None).expect("what stands before it passes");
        let expected = match (first_zero(&blocks, flag), &without) {
            (Some(line), _) => (58, line),
            (None, Ok(_)) => (0, 0),
            (None, Err(bad)) => *bad,
        };
        let report = call.made().report;
        let given = match report.number {
            0 | 30..=33 => (0, 0),
            number => (number, report.line),
        };
        assert_eq!(
            given,
            expected,
            "{:?}",
            String::from_utf8_lossy(&call.run.values)
        );
        seen[0] += usize::from(expected.0 == 58 && without.is_ok());
        seen[1] += usize::from(expected.0 == 58 && without.is_err());
        seen[2] += usize::from((50..=56).contains(&expected.0));
    }
    assert!(seen.iter().all(|&count| count > 100), "{seen:?}");
}

/// The writer's text always passes, and where no flag falls it leads from the
/// earlier grid to the later one.
#[test]
fn writings() {
    let (mut missing, mut fallen, mut back) = (0, 0, 0);
    for case in vectors::shown(64, 20_000).chain(vectors::stored_writings()) {
        let (written, room) = write_case(&case);
        let Some((program, flag)) = in_profile(&case.source) else {
            continue;
        };
        if written.number != 0 {
            continue;
        }
        let fields = program.fields.len();
        let limits = Limits {
            sizes: &case.shape,
            fields: &program.fields,
            flag: Some(flag),
            start: case.time,
            steps: 0,
        };
        let text = &room[..written.length as usize];
        let blocks = read_list(text, &limits).expect("a list that passes");
        let mut grid = case.earlier.clone();
        blocks[0].set(fields, &mut grid);
        let cells = || case.earlier.chunks(fields).zip(case.later.chunks(fields));
        let falls = case.flag_falls();
        assert_eq!(grid == case.later, !falls);
        let differing = cells().filter(|(old, new)| old != new).count();
        assert_eq!(blocks[0].lines.len(), differing);
        for line in &blocks[0].lines {
            assert_eq!(line.values.len(), fields);
            for (field, value) in line.values.iter().enumerate() {
                let entry = case.later[line.cell * fields + field];
                let shown = (field != flag || entry != 0).then_some(entry);
                assert_eq!(*value, shown);
                missing += usize::from(value.is_none());
            }
        }
        fallen += usize::from(falls);
        back += usize::from(!falls && differing > 0);
    }
    assert!(
        missing > 1_000 && fallen > 500 && back > 1_000,
        "{missing} {fallen} {back}"
    );
}
