//! The comparison: sessions from a seed, run through a program of the bench
//! form (or of the raw form) and through the independent program.

mod cover;
mod generate;
mod rng;
mod run;
mod speed;
mod table;
mod variants;

use run::{Difference, Program};
use std::io::Write;
use std::process::ExitCode;
use std::time::Instant;

const USAGE: &str = "usage:
  compare [--raw] [--seed N] [--lines N] [--progress] [--brief] PROGRAM [ARGUMENT...]
      runs generated sessions (200,000 lines, seed 1) through PROGRAM and through the independent program
  compare counter PROGRAM                             9,999,999 changes of LFT and what follows
  compare coverage [--raw] [--seed N] [--lines N]     the coverage alone, without a program
  compare generate [--raw] SEED LINES                 prints one session
  compare variants [--lines N] [LABEL...]             shows that the sessions tell every wrong variant apart
  compare speed PROGRAM ORACLE                        times both on three kinds of sessions";

/// Options before the first plain word, and the words.
struct Asked {
    raw: bool,
    progress: bool,
    brief: bool,
    seed: u64,
    lines: usize,
    words: Vec<String>,
}

fn asked(args: &[String]) -> Option<Asked> {
    let mut a = Asked { raw: false, progress: false, brief: false, seed: 1, lines: 200_000, words: Vec::new() };
    let mut at = 0;
    while at < args.len() {
        match args[at].as_str() {
            "--raw" => a.raw = true,
            "--progress" => a.progress = true,
            "--brief" => a.brief = true,
            "--seed" => {
                at += 1;
                a.seed = args.get(at)?.parse().ok()?;
            }
            "--lines" => {
                at += 1;
                a.lines = args.get(at)?.parse().ok().filter(|n| *n > 0)?;
            }
            word if word.starts_with("--") => return None,
            _ => {
                a.words = args[at..].to_vec();
                break;
            }
        }
        at += 1;
    }
    Some(a)
}

fn main() -> ExitCode {
    let args: Vec<String> = std::env::args().skip(1).collect();
    let (mode, rest) = match args.first().map(String::as_str) {
        Some("counter" | "coverage" | "generate" | "variants" | "speed") => (args[0].as_str(), &args[1..]),
        _ => ("compare", &args[..]),
    };
    let done = asked(rest).and_then(|a| match (mode, &a.words[..]) {
        ("counter", [_]) => Some(counter(&a)),
        ("coverage", []) => Some(coverage(&a)),
        ("generate", [seed, lines]) => Some(print(seed.parse().ok()?, lines.parse().ok()?, a.raw)),
        ("variants", labels) => Some(variants::check(a.seed, a.lines, labels)),
        ("speed", [program, oracle]) => Some(speed::table(program, oracle)),
        ("compare", [_, ..]) => Some(compare(&a)),
        _ => None,
    });
    match done {
        Some(true) => ExitCode::SUCCESS,
        Some(false) => ExitCode::FAILURE,
        None => {
            eprintln!("{USAGE}");
            ExitCode::from(2)
        }
    }
}

fn print(seed: u64, lines: usize, raw: bool) -> bool {
    let made = run::session(seed, lines, raw, &mut cover::Cover::new());
    std::io::stdout().write_all(&made.input).is_ok()
}

fn coverage(a: &Asked) -> bool {
    let mut cover = cover::Cover::new();
    for (own, length) in run::plan(a.seed, a.lines) {
        run::session(own, length, a.raw, &mut cover);
    }
    judge(&cover, a)
}

/// Prints the coverage; false where something to be reached was not.
fn judge(cover: &cover::Cover, a: &Asked) -> bool {
    let report = cover.report(a.raw);
    if !a.brief || report.fails {
        println!("{}", report.text);
    }
    println!("{}", report.summary);
    !report.fails
}

fn program(a: &Asked) -> Program {
    Program { path: a.words[0].clone(), args: a.words[1..].to_vec() }
}

/// One session whose answer is known; false where the program's differs.
fn same(program: &Program, input: &[u8]) -> bool {
    let want = oracle::session(&mut oracle::Unit::new(), input, false);
    let got = program.serve(input);
    if got.as_ref() == Ok(&want) {
        return true;
    }
    run::explain(program, &Difference { seed: None, input: input.to_vec(), why: got.err() }, false);
    false
}

fn counter(a: &Asked) -> bool {
    let start = Instant::now();
    let good = same(&program(a), &run::counter_session());
    if good {
        println!("counter: 9,999,999 changes of LFT: no difference, {:.1} s", start.elapsed().as_secs_f64());
    }
    good
}

fn compare(a: &Asked) -> bool {
    let start = Instant::now();
    let program = program(a);
    let fixed = if a.raw { Vec::new() } else { run::fixed_sessions() };
    if !fixed.iter().all(|input| same(&program, input)) {
        return false;
    }
    let outcome = run::compare(&program, a.seed, a.lines, a.raw, a.progress);
    if let Some(difference) = &outcome.difference {
        run::explain(&program, difference, a.raw);
        return false;
    }
    let covered = judge(&outcome.cover, a);
    println!(
        "compare: {} {} lines in {} sessions (seed {}) and {} fixed sessions: no difference, {:.1} s",
        a.lines,
        if a.raw { "raw" } else { "bench" },
        outcome.sessions,
        a.seed,
        fixed.len(),
        start.elapsed().as_secs_f64()
    );
    covered
}
