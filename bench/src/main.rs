//! Times runs of the proved library beside the second program's interpreter and loops written by hand, in one run on one grid.

mod bands;
mod hand;
mod proved;

use cellang::{Mode, NAME_WORDS, WORDS};
use proved::Rooms;
use std::env;
use std::fs;
use std::time::Instant;

const SIDE: usize = 1_024;
const CELLS: usize = SIDE * SIDE;
const SIZES: [u32; 2] = [SIDE as u32, SIDE as u32];
const LIFE: &str = "2 dimensions of 0..1
n := [-1,-1] + [-1,0] + [-1,1] + [0,-1] + [0,1] + [1,-1] + [1,0] + [1,1]
cell := 1 when n = 3 := cell when n = 2 := 0 otherwise
";
const SHIFT: &str = "2 dimensions of grey of 0..255 shift of -1..1 moved of 0..1 end
if cell.moved = 0 then
    if cell.shift < 0 then cell.grey := [0,-1].grey
    elsif cell.shift > 0 then cell.grey := [0,1].grey
    end
    cell.moved := 1
else
    cell.moved := 0
end
";
/// Every cell changes in each step, and is read by its eight neighbours.
const FLIP: &str = "2 dimensions of 0..1
n := [-1,-1] + [-1,0] + [-1,1] + [0,-1] + [0,1] + [1,-1] + [1,0] + [1,1]
cell := 1 - cell when n >= 0
";

/// Reads two cells that lie far apart, so that its places are fewer than the box of a hundred.
const CORNER: &str = "2 dimensions of 0..1 cell := ([0,9] + [9,0]) = 2";

type Step = fn(&[i32], &mut [i32], usize);

struct Rule {
    name: &'static str,
    source: String,
    fields: usize,
    grid: Vec<i32>,
    hand: Step,
}

/// Numbers that look random.
struct Random(u64);

impl Random {
    fn below(&mut self, n: u64) -> i32 {
        self.0 ^= self.0 << 13;
        self.0 ^= self.0 >> 7;
        self.0 ^= self.0 << 17;
        ((self.0 >> 20) % n) as i32
    }
}

/// A rule of 40 branches, one for each of the states 0 to 39, and an `else`.
fn branching() -> String {
    let mut text = String::from("2 dimensions of 0..40\n");
    for state in 0..40 {
        let word = if state == 0 { "if" } else { "elsif" };
        let added = (state * 7 + 3) % 41;
        text += &format!("{word} cell = {state} then cell := ([0,1] + {added}) % 41\n");
    }
    text + "else cell := [0,1]\nend\n"
}

/// Half of the cells are alive.
fn random_life() -> Vec<i32> {
    rules().swap_remove(0).grid
}

fn rules() -> Vec<Rule> {
    let mut random = Random(88_172_645_463_325_252);
    let life = (0..CELLS).map(|_| random.below(2)).collect();
    let mut shift = Vec::new();
    for _ in 0..CELLS {
        shift.extend([random.below(256), random.below(3) - 1, random.below(2)]);
    }
    let branches = (0..CELLS).map(|_| random.below(41)).collect();
    vec![
        Rule {
            name: "Life",
            source: LIFE.into(),
            fields: 1,
            grid: life,
            hand: hand::life,
        },
        Rule {
            name: "shift",
            source: SHIFT.into(),
            fields: 3,
            grid: shift,
            hand: hand::shift,
        },
        Rule {
            name: "40 branches",
            source: branching(),
            fields: 1,
            grid: branches,
            hand: hand::branches,
        },
    ]
}

/// The seconds that this thread has run, where the system reports it, so that other work on the machine counts little.
fn seconds(begun: Instant) -> f64 {
    let told = fs::read_to_string("/proc/thread-self/schedstat").unwrap_or_default();
    match told
        .split(' ')
        .next()
        .and_then(|word| word.parse::<u64>().ok())
    {
        Some(nanoseconds) => nanoseconds as f64 / 1e9,
        None => begun.elapsed().as_secs_f64(),
    }
}

/// The best time of some for each of several works, in seconds. They take turns, so that a slow spell of the machine meets all.
fn best_each<const N: usize>(times: usize, mut works: [&mut dyn FnMut(); N]) -> [f64; N] {
    let begun = Instant::now();
    let mut least = [f64::MAX; N];
    for _ in 0..times {
        for (work, least) in works.iter_mut().zip(&mut least) {
            let before = seconds(begun);
            work();
            *least = least.min(seconds(begun) - before);
        }
    }
    least
}

fn run_proved(mode: Mode, source: &str, grid: &[i32], fields: usize, steps: i64) -> Vec<i32> {
    let mut rooms = Rooms::new(CELLS, fields);
    let mut left = grid.to_vec();
    proved::run(mode, source, &SIZES, &mut left, &mut rooms, steps);
    left
}

/// A full run of the second program.
fn run_second(source: &str, sizes: &[u32], grid: &[i32], steps: i64) -> Vec<i32> {
    run_second_with(source, sizes, grid, steps, &[])
}

/// A full run of the second program with a value list.
fn run_second_with(
    source: &str,
    sizes: &[u32],
    grid: &[i32],
    steps: i64,
    values: &[u8],
) -> Vec<i32> {
    let lent = reference::Lent {
        source: source.as_bytes(),
        list: reference::BUILT_IN,
        words: WORDS,
        names: NAME_WORDS / 4,
        shape: sizes,
        values,
        start: 0,
        steps,
    };
    let cells: u32 = sizes.iter().product();
    let mut left = grid.to_vec();
    let (mut scratch, mut marks) = (vec![0; left.len()], vec![0; cells as usize]);
    let report = reference::run_full(&lent, &mut left, &mut scratch, &mut marks);
    assert_eq!(report.number, 0);
    left
}

fn run_hand(rule: &Rule, steps: i64) -> Vec<i32> {
    let mut left = rule.grid.clone();
    let mut next = vec![0; left.len()];
    for _ in 0..steps {
        (rule.hand)(&left, &mut next, SIDE);
        std::mem::swap(&mut left, &mut next);
    }
    left
}

/// The full runs: cell evaluations a second, of runs from the source to the grid that is left.
fn full(times: usize, steps: i64) {
    println!("full run, {steps} steps, million cell evaluations a second");
    println!("| rule | proved | second program | by hand | proved / second | by hand / proved |");
    println!("|---|---|---|---|---|---|");
    for rule in rules() {
        let result = run_hand(&rule, 3);
        let proved = run_proved(Mode::Full, &rule.source, &rule.grid, rule.fields, 3);
        assert!(proved == result, "{}: the proved run differs", rule.name);
        let second = run_second(&rule.source, &SIZES, &rule.grid, 3);
        assert!(
            second == result,
            "{}: the second program differs",
            rule.name
        );
        let seconds = best_each(
            times,
            [
                &mut || {
                    drop(run_proved(
                        Mode::Full,
                        &rule.source,
                        &rule.grid,
                        rule.fields,
                        steps,
                    ))
                },
                &mut || drop(run_second(&rule.source, &SIZES, &rule.grid, steps)),
                &mut || drop(run_hand(&rule, steps)),
            ],
        );
        let [a, b, c] = seconds.map(|s| CELLS as f64 * steps as f64 / s / 1e6);
        println!(
            "| {} | {a:.2} | {b:.2} | {c:.0} | {:.2} | {:.0} |",
            rule.name,
            a / b,
            c / a
        );
    }
}

/// The seconds of a quiet and of a full step: each the difference of two runs by the difference of their steps.
fn step_times(times: usize, source: &str, grid: &[i32], quiet: i64, full: i64) -> [f64; 2] {
    let run = |mode, steps| drop(run_proved(mode, source, grid, 1, steps));
    let each = best_each(
        times,
        [
            &mut || run(Mode::Quiet, 1),
            &mut || run(Mode::Quiet, quiet),
            &mut || run(Mode::Full, 1),
            &mut || run(Mode::Full, full),
        ],
    );
    [
        (each[1] - each[0]) / (quiet - 1) as f64,
        (each[3] - each[2]) / (full - 1) as f64,
    ]
}

/// How many cells one change opens under the rule that reads two cells far apart.
fn opened_by_one_change() -> u64 {
    let mut grid = vec![0; CELLS];
    grid[500 * SIDE + 500] = 1;
    let mut rooms = Rooms::new(CELLS, 1);
    let done = proved::run(Mode::Quiet, CORNER, &SIZES, &mut grid, &mut rooms, 2);
    done.count - CELLS as u64
}

/// A grid with one glider.
fn glider() -> Vec<i32> {
    let mut grid = vec![0; CELLS];
    for (row, column) in [(0, 1), (1, 2), (2, 0), (2, 1), (2, 2)] {
        grid[(500 + row) * SIDE + 500 + column] = 1;
    }
    grid
}

fn quiet(times: usize) {
    let glider = glider();
    let random = random_life();
    println!("quiet run, milliseconds a step");
    println!("| grid | quiet | full | ratio |");
    println!("|---|---|---|---|");
    let table = [
        ("Life, one glider", LIFE, &glider, 1_001),
        ("Life, half filled, 20 steps", LIFE, &random, 21),
        ("every cell changes, 10 steps", FLIP, &random, 11),
        ("[0,9] and [9,0], half filled", CORNER, &random, 21),
    ];
    for (name, source, grid, many) in table {
        let few = if many == 1_001 { 11 } else { many };
        assert!(
            run_proved(Mode::Quiet, source, grid, 1, few)
                == run_proved(Mode::Full, source, grid, 1, few),
            "{name}: the quiet run differs"
        );
        let [q, f] = step_times(times, source, grid, many, many.min(21));
        println!(
            "| {name} | {:.3} | {:.1} | {:.3} = 1/{:.0} |",
            q * 1e3,
            f * 1e3,
            q / f,
            f / q
        );
    }
    println!(
        "a rule that reads [0,9] and [9,0]: one change opens {} cells",
        opened_by_one_change()
    );
}

/// The seconds of a run of Life on a square grid of some side, for the three programs; so many runs that they evaluate as many cells as on the
/// largest grid.
fn on_side(side: usize, times: usize, steps: i64) -> [f64; 3] {
    let runs = CELLS / (side * side);
    let mut random = Random(88_172_645_463_325_252);
    let grid: Vec<i32> = (0..side * side).map(|_| random.below(2)).collect();
    let sizes = [side as u32, side as u32];
    let mut rooms = Rooms::new(side * side, 1);
    let mut proved = || {
        for _ in 0..runs {
            let mut left = grid.clone();
            proved::run(Mode::Full, LIFE, &sizes, &mut left, &mut rooms, steps);
        }
    };
    let mut second = || {
        for _ in 0..runs {
            run_second(LIFE, &sizes, &grid, steps);
        }
    };
    let mut by_hand = || {
        for _ in 0..runs {
            let mut left = grid.clone();
            let mut next = vec![0; left.len()];
            for _ in 0..steps {
                hand::life(&left, &mut next, side);
                std::mem::swap(&mut left, &mut next);
            }
            assert_eq!(left.len(), side * side);
        }
    };
    best_each(times, [&mut proved, &mut second, &mut by_hand]).map(|t| t / runs as f64)
}

/// A source of about so many tokens: constants, and one assignment to `cell`.
fn long_source(tokens: usize) -> String {
    let mut text = String::from("1 dimensions of 0..9\n");
    for line in 0..(tokens - 9) / 5 {
        text += &format!("x{} := {line} + 1\n", line % 100);
    }
    text + "cell := 1\n"
}

/// A run of 0 steps on one cell: what reading and admission cost.
fn on_tokens(tokens: usize, times: usize) -> [f64; 2] {
    let source = long_source(tokens);
    let mut rooms = Rooms::new(1, 1);
    let again = 200;
    let mut proved = || {
        for _ in 0..again {
            proved::run(Mode::Full, &source, &[1], &mut [0], &mut rooms, 0);
        }
    };
    let mut second = || {
        for _ in 0..again {
            run_second(&source, &[1], &[0], 0);
        }
    };
    best_each(times, [&mut proved, &mut second]).map(|t| t / f64::from(again))
}

/// How the times grow with the side of the grid, and with the tokens of the source.
fn growth(times: usize) {
    println!("Life, 4 steps, nanoseconds a cell evaluation");
    println!("| grid | proved | second program | by hand |");
    println!("|---|---|---|---|");
    for side in [32, 64, 128, 256, 512, 1_024] {
        let each = on_side(side, times, 4).map(|t| t * 1e9 / (side * side * 4) as f64);
        println!(
            "| {side} x {side} | {:.0} | {:.0} | {:.1} |",
            each[0], each[1], each[2]
        );
    }
    println!("reading a source for a run of 0 steps, microseconds");
    println!("| tokens | proved | second program |");
    println!("|---|---|---|");
    for tokens in [256, 512, 1_024, 2_048, 4_096] {
        let each = on_tokens(tokens, times).map(|t| t * 1e6);
        println!("| {tokens} | {:.0} | {:.0} |", each[0], each[1]);
    }
}

/// A value list of so many lines: a time, and a line for each of the first cells.
fn long_list(lines: usize) -> Vec<u8> {
    let mut random = Random(88_172_645_463_325_252);
    let mut text = String::from("0\n");
    for cell in 0..lines - 1 {
        let (row, column, value) = (cell / SIDE, cell % SIDE, random.below(256));
        text += &format!("[{row}, {column}] = {value}\n");
    }
    text.into_bytes()
}

/// The seconds in which the two programs check and set a value list by a run of 0 steps.
fn on_list(lines: usize, times: usize) -> [f64; 2] {
    const SOURCE: &str = "2 dimensions of 0..255";
    let list = long_list(lines);
    let grid = vec![0; CELLS];
    let mut rooms = Rooms::new(CELLS, 1);
    let mut proved = || {
        let mut left = grid.clone();
        proved::set(SOURCE, &SIZES, &mut left, &mut rooms, &list);
        left
    };
    let second = || run_second_with(SOURCE, &SIZES, &grid, 0, &list);
    assert!(proved() == second(), "{lines} lines: the programs differ");
    // Short runs are made several times, since the system reports the time in coarse steps.
    let again = (1_000_000 / lines).min(20);
    let mut proved = || (0..again).for_each(|_| drop(proved()));
    let mut second = || (0..again).for_each(|_| drop(second()));
    best_each(times, [&mut proved, &mut second]).map(|t| t / again as f64)
}

/// Value lists of one block: how the time grows with the lines. What a run takes with the time's line alone is printed first, and left out of the
/// time a line.
fn lists(times: usize) {
    println!(
        "a value list checked and set by a run of 0 steps on {SIDE} x {SIDE} cells, milliseconds"
    );
    println!("| lines | proved | second program | second / proved | proved, nanoseconds a line | second, nanoseconds a line |");
    println!("|---|---|---|---|---|---|");
    let alone = on_list(1, times);
    println!(
        "| 1 | {:.1} | {:.1} | | | |",
        alone[0] * 1e3,
        alone[1] * 1e3
    );
    for lines in [250_000, 500_000, 1_000_000] {
        let each = on_list(lines, times);
        let a_line = |program: usize| (each[program] - alone[program]) * 1e9 / lines as f64;
        println!(
            "| {lines} | {:.1} | {:.1} | {:.2} | {:.0} | {:.0} |",
            each[0] * 1e3,
            each[1] * 1e3,
            each[1] / each[0],
            a_line(0),
            a_line(1)
        );
    }
}

/// A run of the proved library that keeps row counts; they are held to the grid that is left.
fn run_counting(mode: Mode, source: &str, grid: &[i32], steps: i64) -> Vec<i32> {
    let mut rooms = Rooms::new(CELLS, 1);
    let mut left = grid.to_vec();
    let mut row_counts = vec![0; SIDE];
    proved::run_counting(
        mode,
        source,
        &SIZES,
        &mut left,
        &mut rooms,
        &mut row_counts,
        steps,
    );
    let zeros = |row: &[i32]| row.iter().filter(|&&entry| entry == 0).count() as u32;
    let expected: Vec<u32> = left.chunks(SIDE).map(zeros).collect();
    assert!(row_counts == expected, "the row counts differ");
    left
}

/// What row counts cost in a step, by the difference of two runs with different numbers of steps.
fn counts(times: usize) {
    let (glider, random) = (glider(), random_life());
    println!("row counts, milliseconds a step");
    println!("| grid | without | with counts | ratio |");
    println!("|---|---|---|---|");
    let table = [
        ("quiet, Life, one glider", Mode::Quiet, LIFE, &glider, 1_001),
        ("quiet, Life, half filled", Mode::Quiet, LIFE, &random, 21),
        ("quiet, every cell changes", Mode::Quiet, FLIP, &random, 11),
        ("full, Life, half filled", Mode::Full, LIFE, &random, 11),
    ];
    for (name, mode, source, grid, many) in table {
        assert!(
            run_counting(mode, source, grid, 11) == run_proved(mode, source, grid, 1, 11),
            "{name}: the run with counts differs"
        );
        let run = |steps| drop(run_proved(mode, source, grid, 1, steps));
        let counting = |steps| drop(run_counting(mode, source, grid, steps));
        let each = best_each(
            times,
            [
                &mut || run(1),
                &mut || run(many),
                &mut || counting(1),
                &mut || counting(many),
            ],
        );
        let without = (each[1] - each[0]) / (many - 1) as f64;
        let with = (each[3] - each[2]) / (many - 1) as f64;
        println!(
            "| {name} | {:.3} | {:.3} | {:.3} |",
            without * 1e3,
            with * 1e3,
            with / without
        );
    }
}

/// `bench [TIMES [full|quiet|growth|lists|counts|bands|memory]]`: the best of so many runs counts.
fn main() {
    let words: Vec<String> = env::args().collect();
    let times = words.get(1).and_then(|word| word.parse().ok()).unwrap_or(3);
    let which = words.get(2).map_or("", String::as_str);
    if ["", "full"].contains(&which) {
        full(times, 8);
    }
    if ["", "quiet"].contains(&which) {
        quiet(times);
    }
    if ["", "growth"].contains(&which) {
        growth(times);
    }
    if ["", "lists"].contains(&which) {
        lists(times);
    }
    if ["", "counts"].contains(&which) {
        counts(times);
    }
    if ["", "bands"].contains(&which) {
        bands::bands(times);
    }
    if ["", "memory"].contains(&which) {
        bands::memory();
    }
}
