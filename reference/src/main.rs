//! The program: `reference SUBCOMMAND ...`; see `USAGE`.

use reference::call_case::{call_line, put_call, Call};
use reference::case::{check_answer, check_line, profile_line, put_check, put_run};
use reference::case::{run_case, run_lines, RunCase, CHECK};
use reference::coverage::coverage;
use reference::one_move::profile;
use reference::write_case::{put_writing, writing_line, WriteCase};
use reference::{check, json, vectors, Report};
use std::io::{self, BufWriter, Read, Write};
use std::path::Path;
use std::process::ExitCode;

const USAGE: &str = "\
usage: reference check                        one source on standard input
       reference profile                      one source on standard input
       reference names                        one source on standard input
       reference answer                       checks on standard input, as in the vectors
       reference run FILE                     one run, as JSON
       reference cases checks|runs|lists SEED COUNT [--small]
       reference stream KIND SEED COUNT [--small] [--replies]
                                              checks, runs, lists, writings, chains, resumed, counted, near,
                                              moving, shown, plans, planners, bands or banded
       reference vectors DIR
       reference verify ROOT
       reference count SEED COUNT
";

/// The kinds of cases that are streamed.
const STREAMS: [&str; 14] = [
    "checks", "runs", "lists", "writings", "chains", "resumed", "counted", "near", "moving",
    "shown", "plans", "planners", "bands", "banded",
];

fn main() -> ExitCode {
    let mut words: Vec<String> = std::env::args().skip(1).collect();
    let mut flag = |name: &str| {
        let before = words.len();
        words.retain(|word| word != name);
        words.len() != before
    };
    let small = flag("--small");
    let replies = flag("--replies");
    let words: Vec<&str> = words.iter().map(String::as_str).collect();
    let done = match words.as_slice() {
        ["check"] => check_input(),
        ["profile"] => profile_input(),
        ["names"] => names_input(),
        ["answer"] => answer_input(),
        ["run", file] => run_file(file),
        ["cases", what @ ("checks" | "runs" | "lists"), seed, count] => {
            match numbers(seed, count) {
                Some((seed, count)) => cases(what, seed, count, small),
                None => return usage(),
            }
        }
        ["stream", what, seed, count] if STREAMS.contains(what) => match numbers(seed, count) {
            Some((seed, count)) => stream(what, seed, count, small, replies),
            None => return usage(),
        },
        ["vectors", folder] => write_vectors(Path::new(folder)),
        ["verify", root] => verify(Path::new(root)),
        ["count", seed, count] => match numbers(seed, count) {
            Some((seed, count)) => count_replies(seed, count),
            None => return usage(),
        },
        _ => return usage(),
    };
    match done {
        Ok(code) => code,
        Err(error) => {
            eprintln!("{error}");
            ExitCode::from(2)
        }
    }
}

fn usage() -> ExitCode {
    eprint!("{USAGE}");
    ExitCode::from(2)
}

fn numbers(seed: &str, count: &str) -> Option<(u64, usize)> {
    Some((seed.parse().ok()?, count.parse().ok()?))
}

fn read_source() -> io::Result<Vec<u8>> {
    let mut source = Vec::new();
    io::stdin().take(65_536).read_to_end(&mut source)?;
    Ok(source)
}

fn check_input() -> io::Result<ExitCode> {
    let line = check_line(check(&read_source()?).reply);
    io::stdout().write_all(line.as_bytes())?;
    Ok(ExitCode::SUCCESS)
}

fn profile_input() -> io::Result<ExitCode> {
    let line = profile_line(profile(&read_source()?));
    io::stdout().write_all(line.as_bytes())?;
    Ok(ExitCode::SUCCESS)
}

/// The answer to each check on standard input.
fn answer_input() -> io::Result<ExitCode> {
    let mut input = io::stdin().lock();
    let mut out = BufWriter::new(io::stdout().lock());
    let mut word = [0; 4];
    while input.read_exact(&mut word).is_ok() {
        if u32::from_le_bytes(word) != CHECK {
            return Err(io::Error::other("not a check"));
        }
        input.read_exact(&mut word)?;
        let mut source = vec![0; u32::from_le_bytes(word) as usize];
        input.read_exact(&mut source)?;
        out.write_all(check_answer(&source).as_bytes())?;
    }
    out.flush()?;
    Ok(ExitCode::SUCCESS)
}

fn names_input() -> io::Result<ExitCode> {
    let checked = check(&read_source()?);
    let Some(program) = checked.program else {
        print!("{}", check_line(checked.reply));
        return Ok(ExitCode::from(1));
    };
    for record in &program.names {
        println!(
            "{} {} {} {}",
            record.start, record.length, record.kind, record.value
        );
    }
    Ok(ExitCode::SUCCESS)
}

fn print_report(title: &str, report: &Report) {
    println!(
        "{title} number {} place {} line {} cell {} steps {} count {}",
        report.number, report.place, report.line, report.cell, report.steps, report.count
    );
}

fn run_file(file: &str) -> io::Result<ExitCode> {
    let text = std::fs::read(file)?;
    let Some(case) = json::read(&text).as_ref().and_then(json::run_case_of) else {
        eprintln!("not a run: {file}");
        return Ok(ExitCode::from(2));
    };
    let full = run_case(&case, false);
    let quiet = run_case(&case, true);
    print_report("full", &full.report);
    let grid: Vec<String> = full.grid.iter().map(|value| value.to_string()).collect();
    println!("grid {}", grid.join(" "));
    print_report("quiet", &quiet.report);
    Ok(ExitCode::SUCCESS)
}

/// Generated runs; those of `lists` all have a list.
fn runs_of(what: &str, seed: u64, count: usize, small: bool) -> Box<dyn Iterator<Item = RunCase>> {
    if what == "lists" {
        Box::new(vectors::lists(seed, count, small))
    } else {
        Box::new(vectors::runs(seed, count, small))
    }
}

/// Generated runs in a manner; those of `counted` are passed counts, those of
/// `moving` are of rules that move a pixel once.
fn calls_of(what: &str, seed: u64, count: usize, small: bool) -> Box<dyn Iterator<Item = Call>> {
    match what {
        "counted" => Box::new(vectors::counted(seed, count, small)),
        "moving" => Box::new(vectors::moving(seed, count, small)),
        _ => Box::new(vectors::resumed(seed, count, small)),
    }
}

/// Generated sources; those of `near` are near the profile of 6/13.
fn sources_of(
    what: &str,
    seed: u64,
    count: usize,
    small: bool,
) -> Box<dyn Iterator<Item = Vec<u8>>> {
    if what == "near" {
        Box::new(vectors::near(seed, count, small))
    } else {
        Box::new(vectors::checks(seed, count, small))
    }
}

/// Generated writings; those of `shown` are of rules that move a pixel once.
fn writings_of(what: &str, seed: u64, count: usize) -> Box<dyn Iterator<Item = WriteCase>> {
    if what == "shown" {
        Box::new(vectors::shown(seed, count))
    } else {
        Box::new(vectors::writings(seed, count))
    }
}

fn cases(what: &str, seed: u64, count: usize, small: bool) -> io::Result<ExitCode> {
    let mut out = BufWriter::new(io::stdout().lock());
    if what == "checks" {
        for source in vectors::checks(seed, count, small) {
            out.write_all(json::check_line(&source).as_bytes())?;
        }
    } else {
        for case in runs_of(what, seed, count, small) {
            out.write_all(json::run_line(&case).as_bytes())?;
        }
    }
    out.flush()?;
    Ok(ExitCode::SUCCESS)
}

/// Generated cases in their binary form, or the lines that answer them. Of a
/// chain the calls come first, then the run at once.
fn stream(what: &str, seed: u64, count: usize, small: bool, replies: bool) -> io::Result<ExitCode> {
    let mut out = BufWriter::new(io::stdout().lock());
    let mut put = |binary: &dyn Fn(&mut Vec<u8>), line: &dyn Fn() -> String| {
        let mut bytes = Vec::new();
        if replies {
            bytes.extend(line().bytes());
        } else {
            binary(&mut bytes);
        }
        out.write_all(&bytes)
    };
    match what {
        "checks" | "near" => {
            for source in sources_of(what, seed, count, small) {
                put(&|bytes| put_check(bytes, &source), &|| {
                    check_answer(&source)
                })?;
            }
        }
        "writings" | "shown" => {
            for case in writings_of(what, seed, count) {
                put(&|bytes| put_writing(bytes, &case), &|| writing_line(&case))?;
            }
        }
        "chains" => {
            for chain in vectors::chains(seed, count, small) {
                for (call, left) in chain.all() {
                    put(&|bytes| put_call(bytes, call), &|| call_line(left))?;
                }
                if !chain.joins() {
                    return Err(io::Error::other("a chain that does not join"));
                }
            }
        }
        "plans" => {
            for case in vectors::plans(seed, count) {
                put(&|bytes| case.put(bytes), &|| case.line())?;
            }
        }
        "planners" => {
            for case in vectors::planners(seed, count) {
                put(&|bytes| case.put(bytes), &|| case.line())?;
            }
        }
        "bands" => {
            for case in vectors::bands(seed, count) {
                put(&|bytes| case.put(bytes), &|| case.line())?;
            }
        }
        "banded" => {
            for case in vectors::banded(seed, count, small) {
                put(&|bytes| case.put(bytes), &|| case.line())?;
            }
        }
        "resumed" | "counted" | "moving" => {
            for call in calls_of(what, seed, count, small) {
                put(&|bytes| put_call(bytes, &call), &|| call_line(&call.made()))?;
            }
        }
        _ => {
            for case in runs_of(what, seed, count, small) {
                put(&|bytes| put_run(bytes, &case), &|| run_lines(&case))?;
            }
        }
    }
    out.flush()?;
    Ok(ExitCode::SUCCESS)
}

fn write_vectors(folder: &Path) -> io::Result<ExitCode> {
    std::fs::create_dir_all(folder)?;
    let files = vectors::files();
    let contents = [
        ("stdin", &files.input),
        ("stdout", &files.output),
        ("bands.cases", &files.bands_in),
        ("bands.answers", &files.bands_out),
    ];
    for (name, content) in contents {
        std::fs::write(folder.join(name), content)?;
        println!("{name}: {} bytes", content.len());
    }
    println!(
        "{} checks, {} runs, {} writings, {} runs in a manner, {} calls on bands of rows",
        files.checks, files.runs, files.writings, files.calls, files.bands
    );
    Ok(ExitCode::SUCCESS)
}

/// Where each file of vectors is, and what the second program returns.
fn stored(files: &vectors::Files) -> [(&'static str, &[u8]); 4] {
    [
        ("crates/vectors/stdin", &files.input),
        ("crates/vectors/stdout", &files.output),
        ("bindings/rust/tests/stored/bands.cases", &files.bands_in),
        ("bindings/rust/tests/stored/bands.answers", &files.bands_out),
    ]
}

fn verify(root: &Path) -> io::Result<ExitCode> {
    let files = vectors::files();
    for (title, expected) in stored(&files) {
        let stored = match std::fs::read(root.join(title)) {
            Ok(stored) => stored,
            Err(error) => {
                println!("{title}: {error}");
                return Ok(ExitCode::from(1));
            }
        };
        if stored != expected {
            let same = stored.iter().zip(expected).take_while(|(a, b)| a == b);
            println!("{title}: differs from byte {}", same.count());
            return Ok(ExitCode::from(1));
        }
        println!("{title}: the same, {} bytes", stored.len());
    }
    Ok(ExitCode::SUCCESS)
}

fn count_replies(seed: u64, count: usize) -> io::Result<ExitCode> {
    let (text, complete) = coverage(seed, count);
    print!("{text}");
    Ok(if complete {
        ExitCode::SUCCESS
    } else {
        ExitCode::from(1)
    })
}
