//! The stored vectors, and rows of generated cases.

use crate::band_case::{BandCase, BandedCase, BorderCase, PlanCase, PlannerCase};
use crate::band_file::AnyCase;
use crate::call_case::{call_line, put_call, Call};
use crate::case::{check_answer, put_check, put_run, run_lines, RunCase};
use crate::chains::{self, Chain};
use crate::counted::{self, Question};
use crate::damage::{damage_bytes, damage_tokens, VOCABULARY};
use crate::generate::{program, Wish};
use crate::limits;
use crate::listed;
use crate::moving;
use crate::near;
use crate::plans;
use crate::random::Random;
use crate::resumed;
use crate::runs;
use crate::soup::{soup, HALVES};
use crate::spelled;
use crate::strips;
use crate::text::{any_style, write, Style};
use crate::write_case::{put_writing, writing_line, WriteCase};
use crate::writings;
use crate::written;
use crate::written_bands;
use crate::written_calls;
use crate::written_counts;
use crate::written_edges;
use crate::written_lists;
use crate::written_moves;
use crate::written_orders;

/// A generated source. In `small` ones there are at most about 120 tokens.
pub fn any_check(random: &mut Random, small: bool) -> Vec<u8> {
    loop {
        let source = one_check(random, small);
        if !small || (source.len() <= 700 && crate::lex::lex(&source).len() <= 121) {
            return source;
        }
    }
}

fn one_check(random: &mut Random, small: bool) -> Vec<u8> {
    let kind = random.below(100);
    if kind < 34 {
        let tokens = soup(random);
        let style = any_style(random);
        let mut source = write(random, &tokens, style);
        if random.chance(3) {
            damage_bytes(random, &mut source);
        }
        return source;
    }
    if kind >= 97 {
        return limits::any(random, small);
    }
    let wish = Wish {
        tokens: if small || random.chance(60) {
            20 + random.below(80)
        } else {
            20 + random.below(300)
        },
        reach: random.between(1, 9),
        turns: 50,
        safe: [100, 90, 60, 0][random.below(4)],
        time: random.chance(60),
    };
    let mut tokens = program(random, wish);
    if (55..85).contains(&kind) {
        damage_tokens(random, &mut tokens);
        while random.chance(20) {
            damage_tokens(random, &mut tokens);
        }
    }
    let style = any_style(random);
    let mut source = write(random, &tokens, style);
    if kind >= 85 {
        damage_bytes(random, &mut source);
        while random.chance(20) {
            damage_bytes(random, &mut source);
        }
    }
    source
}

/// Generated sources, in order.
pub fn checks(seed: u64, count: usize, small: bool) -> impl Iterator<Item = Vec<u8>> {
    let mut random = Random::new(seed);
    (0..count).map(move |_| any_check(&mut random, small))
}

/// Generated runs without lists, in order.
fn unlisted_runs(seed: u64, count: usize, small: bool) -> impl Iterator<Item = RunCase> {
    let mut random = Random::new(seed.wrapping_add(1 << 40));
    (0..count).map(move |_| runs::any(&mut random, small, 120))
}

/// Generated runs, in order; half of them have a list, most often one that
/// passes.
pub fn runs(seed: u64, count: usize, small: bool) -> impl Iterator<Item = RunCase> {
    let mut random = Random::new(seed.wrapping_add(1 << 42));
    unlisted_runs(seed, count, small).map(move |mut case| {
        if random.chance(50) {
            listed::give_list(&mut random, &mut case, 35);
        }
        case
    })
}

/// Generated runs with lists, in order; most lists are at a limit or damaged.
pub fn lists(seed: u64, count: usize, small: bool) -> impl Iterator<Item = RunCase> {
    let mut random = Random::new(seed.wrapping_add(1 << 43));
    (0..count).map(move |_| listed::any(&mut random, small))
}

/// Generated writings, in order.
pub fn writings(seed: u64, count: usize) -> impl Iterator<Item = WriteCase> {
    let mut random = Random::new(seed.wrapping_add(1 << 44));
    (0..count).map(move |_| writings::any(&mut random))
}

/// Generated chains of calls, in order.
pub fn chains(seed: u64, count: usize, small: bool) -> impl Iterator<Item = Chain> {
    let mut random = Random::new(seed.wrapping_add(1 << 45));
    (0..count).map(move |_| chains::any(&mut random, small))
}

/// Generated runs that are resumed with any marks, in order.
pub fn resumed(seed: u64, count: usize, small: bool) -> impl Iterator<Item = Call> {
    let mut random = Random::new(seed.wrapping_add(1 << 46));
    (0..count).map(move |_| resumed::any(&mut random, small))
}

/// Generated runs that count, in order.
pub fn counted(seed: u64, count: usize, small: bool) -> impl Iterator<Item = Call> {
    let mut random = Random::new(seed.wrapping_add(1 << 47));
    (0..count).map(move |_| counted::any(&mut random, small))
}

/// Generated questions about counts, in order.
pub fn questions(seed: u64, count: usize) -> impl Iterator<Item = Question> {
    let mut random = Random::new(seed.wrapping_add(1 << 48));
    (0..count).map(move |_| counted::question(&mut random))
}

/// Generated sources near the profile of 6/13, in order.
pub fn near(seed: u64, count: usize, small: bool) -> impl Iterator<Item = Vec<u8>> {
    let mut random = Random::new(seed.wrapping_add(1 << 49));
    let mut source = move || loop {
        let source = near::any(&mut random);
        if !small || source.len() <= 700 {
            return source;
        }
    };
    (0..count).map(move |_| source())
}

/// Generated runs of rules that move a pixel once, in order.
pub fn moving(seed: u64, count: usize, small: bool) -> impl Iterator<Item = Call> {
    let mut random = Random::new(seed.wrapping_add(1 << 50));
    (0..count).map(move |_| moving::any(&mut random, small))
}

/// Generated writings of such rules, in order.
pub fn shown(seed: u64, count: usize) -> impl Iterator<Item = WriteCase> {
    let mut random = Random::new(seed.wrapping_add(1 << 51));
    (0..count).map(move |_| moving::writing(&mut random))
}

/// Generated plan checks, in order.
pub fn plans(seed: u64, count: usize) -> impl Iterator<Item = PlanCase> {
    let mut random = Random::new(seed.wrapping_add(1 << 52));
    (0..count).map(move |_| plans::any_plan(&mut random))
}

/// Generated planner calls, in order.
pub fn planners(seed: u64, count: usize) -> impl Iterator<Item = PlannerCase> {
    let mut random = Random::new(seed.wrapping_add(1 << 53));
    (0..count).map(move |_| plans::any_planner(&mut random))
}

/// Generated band calls, in order.
pub fn bands(seed: u64, count: usize) -> impl Iterator<Item = BandCase> {
    let mut random = Random::new(seed.wrapping_add(1 << 54));
    (0..count).map(move |_| strips::any_band(&mut random))
}

/// Generated runs under a plan, in order.
pub fn banded(seed: u64, count: usize, small: bool) -> impl Iterator<Item = BandedCase> {
    let mut random = Random::new(seed.wrapping_add(1 << 55));
    (0..count).map(move |_| strips::any_banded(&mut random, small))
}

/// Generated questions for border rows, in order: those of plan checks.
pub fn borders(seed: u64, count: usize) -> impl Iterator<Item = BorderCase> {
    plans(seed, count).map(|case| BorderCase { asked: case.asked })
}

/// Sources from the papers' own examples.
const EXAMPLES: [&str; 40] = [
    "",
    "1 dimensions of 0..1 ",
    "1 dimensions of 0..1 x := y",
    "1 dimensions of 0..1 cell := 1 < 2 < 3",
    "1 dimensions of 0..1 cell := (1 < 2) < 3",
    "4 dimensions of 0..1",
    "const a[] for 1 := 1 1 dimensions of 0..1 cell := a )",
    "const a[] for 1 := 1 1 dimensions of 0..1 cell := a + 1",
    "const a[] for 1 := 1 1 dimensions of 0..1 cell := a",
    "const a[] for 1 := 1 1 dimensions of 0..1 if a",
    "const a := a 1 dimensions of 0..1",
    "1 dimensions of a of 0..1 end cell",
    "1 dimensions of 0..1 if 1 then",
    "1 dimensions of 0..1 forall x",
    "1 dimensions of end",
    "1 dimensions of 0..1 exit",
    "1 dimensions of 0..1 forall i : 0..1 exit end",
    "1 dimensions of 0..1 cell := 1 otherwise",
    "1 dimensions of 0..1 cell := 1 when 1 := 0 otherwise",
    "const n := 1 1 dimensions of n..n",
    "const n := 1 1 dimensions of n of n..n end",
    "1 dimensions of cell..1",
    "1 dimensions of cell of 0..1 end",
    "1 dimensions of zz..1",
    "const min_value := -15 const max_value := -min_value const size := 5 const rates[ ] for 3 := \
     1, 2, 3 const times[ ] for size := 1, 2, 3, 4, 5 1 dimensions of min_value..max_value",
    "const groups[ ] for 256 := \"groups_table\" 1 dimensions of 0..1",
    "2 dimensions of 0..255",
    "const dims := 3 dims dimensions of const x, y of -9..9 distance of 0..999 end",
    "const size := 4 2 dimensions of count of 0..3 const value[] for size of -9..9 end",
    "1 dimensions of 0..1 forall i : 0..1 end i := 1 forall i : 0..1 end",
    "1 dimensions of 0..1 forall i : 0..1 end forall i : 0..1 end i := 1",
    "1 dimensions of 0..1 forall i : agent end",
    "1 dimensions of 0..1 cell := 1 -> 2",
    "1 dimensions of -2147483647..0",
    "1 dimensions of -2147483648..0",
    "1 dimensions of 0..1 const m := -2147483647 const p := -m cell := p - m",
    "1 dimensions of 0..1 const m := +2147483647 const a[] for 2 := -m, +m cell := a[0]",
    "1 dimensions of 0..1 cell := [-2147483647]",
    "1 dimensions of 0..1 cell := -(0-2147483647-1)",
    "1 dimensions of i of 0..1 end i := cell.i forall j : 0..1 cell.i := [j].i when i = j end",
];

/// The stored checks.
pub fn stored_checks() -> Vec<Vec<u8>> {
    let mut row: Vec<Vec<u8>> = EXAMPLES
        .iter()
        .map(|text| text.as_bytes().to_vec())
        .collect();
    let mut random = Random::new(1);
    for half in HALVES {
        for word in VOCABULARY.iter().chain(&[""]) {
            let text = format!("{half} {word}");
            let tokens: Vec<String> = text.split_whitespace().map(str::to_string).collect();
            let style = if random.chance(80) {
                Style::Plain
            } else {
                any_style(&mut random)
            };
            row.push(write(&mut random, &tokens, style));
        }
    }
    row.extend(spelled::sources());
    row.extend(written_moves::sources());
    row.extend(near(34, 300, true));
    row.extend(limits::small());
    row.extend(limits::name_counts());
    row.extend(limits::token_counts());
    row.extend(checks(2, 2_500, true));
    row.extend(checks(3, 500, false).filter(|source| source.len() < 3_000));
    row.extend(limits::lengths());
    row
}

/// The stored runs.
pub fn stored_runs() -> Vec<RunCase> {
    let mut row = written::runs();
    row.extend(unlisted_runs(4, 2_100, false));
    row.extend(unlisted_runs(5, 300, true));
    let mut random = Random::new(6);
    let mut large = 0;
    while large < 16 {
        let case = runs::any(&mut random, false, 3_000);
        if (700..=4_096).contains(&case.grid.len()) {
            row.push(case);
            large += 1;
        }
    }
    // Sources that are refused.
    row.extend(checks(7, 60, true).map(|source| RunCase::new(source, &[2], vec![0, 1], 0, 2)));
    // Runs with lists.
    row.extend(written_lists::runs());
    row.extend(lists(8, 300, true));
    row.extend(runs(9, 240, true).filter(|case| !case.values.is_empty()));
    row.extend(written_moves::runs());
    row
}

/// The stored writings.
pub fn stored_writings() -> Vec<WriteCase> {
    let mut row = written_lists::writings();
    row.extend(writings(10, 130));
    row.extend(written_moves::writings());
    row.extend(shown(35, 60));
    row
}

/// The kinds of cases that are stored. A kind is stored once the proved program
/// reads it: the files are written again by `reference vectors`.
struct Stored {
    /// Runs that are paused and resumed.
    calls: bool,
    /// Runs that count, which are of the same kind with counts passed.
    counted: bool,
    /// Runs of rules that move a pixel once, also of this kind.
    moving: bool,
}

const STORED: Stored = Stored {
    calls: true,
    counted: true,
    moving: true,
};

/// The stored runs that are paused and resumed.
pub fn stored_calls() -> Vec<Call> {
    let mut row = written_calls::calls();
    for chain in chains(31, 22, true) {
        row.extend(chain.all().map(|(call, _)| call.clone()));
    }
    row.extend(resumed(32, 90, true));
    row
}

/// The stored runs that count.
pub fn stored_counted() -> Vec<Call> {
    let mut row = written_counts::calls();
    row.extend(counted(33, 80, true));
    row
}

/// The stored runs of rules that move a pixel once.
pub fn stored_moving() -> Vec<Call> {
    let mut row = written_moves::calls();
    row.extend(moving(36, 120, true));
    row
}

/// The cases on bands of rows that are written by hand, those of a kind together.
fn written_on_bands() -> Vec<AnyCase> {
    /// Those of a kind that are in order, without their numbers.
    fn plain<C>(ordered: Vec<(u32, C)>) -> impl Iterator<Item = C> {
        ordered.into_iter().map(|(_, case)| case)
    }
    let borders = plain(written_orders::borders()).chain(written_edges::borders());
    let plans = plain(written_orders::plans())
        .chain(written_bands::plans())
        .chain(written_edges::plans());
    let planners = plain(written_orders::planners())
        .chain(written_bands::planners())
        .chain(written_edges::planners())
        // One of the longest rooms is enough.
        .filter(|case| case.room < 8_192 || case.asked.held == 2);
    let bands = plain(written_orders::bands())
        .chain(written_bands::bands())
        .chain(written_edges::bands());
    let runs = plain(written_orders::runs())
        .chain(written_bands::runs())
        .chain(written_edges::runs());
    borders
        .map(AnyCase::Border)
        .chain(plans.map(AnyCase::Plan))
        .chain(planners.map(AnyCase::Planner))
        .chain(bands.map(AnyCase::Band))
        .chain(runs.map(AnyCase::Run))
        .collect()
}

/// Whether a generated case is short enough to be stored.
fn is_short(case: &AnyCase) -> bool {
    let mut bytes = Vec::new();
    case.put(&mut bytes);
    bytes.len() + case.line().len() <= 1_200
}

/// The stored cases on bands of rows. No proved program reads them: they are held
/// to the library by the tests of the Rust crate.
pub fn stored_bands() -> Vec<AnyCase> {
    let mut row = written_on_bands();
    let generated = borders(37, 100)
        .map(AnyCase::Border)
        .chain(plans(38, 300).map(AnyCase::Plan))
        .chain(planners(39, 300).map(AnyCase::Planner))
        .chain(bands(40, 400).map(AnyCase::Band))
        .chain(banded(41, 500, true).map(AnyCase::Run));
    row.extend(generated.filter(is_short));
    row
}

/// The files of vectors.
pub struct Files {
    pub input: Vec<u8>,
    pub output: Vec<u8>,
    pub bands_in: Vec<u8>,
    pub bands_out: Vec<u8>,
    pub checks: usize,
    pub runs: usize,
    pub writings: usize,
    pub calls: usize,
    pub bands: usize,
}

pub fn files() -> Files {
    let checks = stored_checks();
    let runs = stored_runs();
    let writings = stored_writings();
    let mut calls = Vec::new();
    if STORED.calls {
        calls.extend(stored_calls());
    }
    if STORED.counted {
        calls.extend(stored_counted());
    }
    if STORED.moving {
        calls.extend(stored_moving());
    }
    let bands = stored_bands();
    let mut files = Files {
        input: Vec::new(),
        output: Vec::new(),
        bands_in: Vec::new(),
        bands_out: Vec::new(),
        checks: checks.len(),
        runs: runs.len(),
        writings: writings.len(),
        calls: calls.len(),
        bands: bands.len(),
    };
    for source in &checks {
        put_check(&mut files.input, source);
        files.output.extend(check_answer(source).bytes());
    }
    for case in &runs {
        put_run(&mut files.input, case);
        files.output.extend(run_lines(case).bytes());
    }
    for case in &writings {
        put_writing(&mut files.input, case);
        files.output.extend(writing_line(case).bytes());
    }
    for call in &calls {
        put_call(&mut files.input, call);
        files.output.extend(call_line(&call.made()).bytes());
    }
    for case in &bands {
        case.put(&mut files.bands_in);
        files.bands_out.extend(case.line().bytes());
    }
    files
}
