//! Times a bench program and the independent program on the same sessions.

use crate::rng::Rng;
use crate::run::Program;
use oracle::Unit;
use std::fs::{self, File};
use std::process::{Command, Stdio};
use std::time::Instant;

const LINES: usize = 1_000_000;
const PART: usize = 20_000;
const RUNS: usize = 5;
const KINDS: [&str; 3] = ["queries", "samples", "settings"];

/// One line of a kind; the lock is open and a sample held.
fn line(kind: &str, rng: &mut Rng) -> String {
    match kind {
        "queries" => {
            let names = ["GCA", "CWT", "LDW", "LWT", "NOV", "RSN", "ZSE", "LFT", "COF", "TAS", "TAV", "TCR", "ESR"];
            if rng.one_in(2) {
                "c MSV?".into()
            } else {
                format!("c {}?", rng.of(&names))
            }
        }
        "samples" => match rng.below(4) {
            0 => "c MSV?".into(),
            1 => format!("s {} 1", rng.between(-200, 200)),
            _ => format!("s {} {}", rng.between(-1_700_000, 1_700_000), rng.below(2)),
        },
        _ => match rng.below(8) {
            0 => format!("c NOV{}", rng.between(100, 100_000)),
            1 => format!("c GDE{}", rng.between(970_000, 990_000)),
            2 => format!("c RSN{}", rng.of(&crate::table::RSN)),
            3 => format!("c TAV{}", rng.between(0, 100)),
            4 => format!("c LDW{}", rng.between(-1000, 1000)),
            5 => format!("c LWT{}", rng.between(500_000, 1_500_000)),
            6 => format!("c COF{}", rng.of(&crate::table::COF)),
            _ => "c TDD1".into(),
        },
    }
}

fn session(kind: &str, lines: usize) -> Vec<u8> {
    let mut rng = Rng::new(7);
    let mut text = String::from("c SPW\"AED\"\nc ZTR1\ns 500166 1\n");
    for _ in 3..lines {
        text.push_str(&line(kind, &mut rng));
        text.push('\n');
    }
    text.into_bytes()
}

/// Seconds for one run from a file.
fn seconds(program: &str, input: &str) -> Result<f64, String> {
    let fail = |e: std::io::Error| format!("{program}: {e}");
    let file = File::open(input).map_err(fail)?;
    let start = Instant::now();
    let status = Command::new(program).stdin(file).stdout(Stdio::null()).status().map_err(fail)?;
    if !status.success() {
        return Err(format!("{program} stops with {status}"));
    }
    Ok(start.elapsed().as_secs_f64())
}

/// Instructions of one run by callgrind, where it is on the machine.
fn instructions(program: &str, input: &str) -> Option<u64> {
    let file = File::open(input).ok()?;
    let out = Command::new("valgrind")
        .args(["--tool=callgrind", "--callgrind-out-file=/dev/null", program])
        .stdin(file)
        .output()
        .ok()
        .filter(|o| o.status.success())?;
    let text = String::from_utf8_lossy(&out.stderr).into_owned();
    let line = text.lines().find(|l| l.contains("Collected"))?;
    line.rsplit(' ').next()?.parse().ok()
}

/// Instructions a line, without those of an empty session.
fn per_line(program: &str, input: &str, empty: &str) -> Option<f64> {
    let all = instructions(program, input)?;
    let start = instructions(program, empty)?;
    Some((all as f64 - start as f64) / PART as f64)
}

pub fn table(program: &str, oracle: &str) -> bool {
    match run(program, oracle) {
        Ok(()) => true,
        Err(e) => {
            println!("{e}");
            false
        }
    }
}

/// Writes the sessions of a kind, the whole one and its first part, and sees that both programs answer it alike.
fn prepare(kind: &str, program: &str) -> Result<(), String> {
    let fail = |e: std::io::Error| format!("target/speed: {e}");
    let input = session(kind, LINES);
    fs::write(whole(kind), &input).map_err(fail)?;
    fs::write(part(kind), session(kind, PART)).map_err(fail)?;
    let tested = Program { path: program.into(), args: Vec::new() };
    if tested.serve(&input)? != oracle::session(&mut Unit::new(), &input, false) {
        return Err(format!("{kind}: the answers differ, no times"));
    }
    Ok(())
}

fn whole(kind: &str) -> String {
    format!("target/speed/{kind}")
}

fn part(kind: &str) -> String {
    format!("target/speed/{kind}.part")
}

/// The best times of both programs on each kind. A round runs each once, so that the runs of one lie apart: a machine that is slow
/// for a second or two is not slow for all of them.
fn times(programs: [&str; 2]) -> Result<[[f64; 2]; 3], String> {
    let mut best = [[f64::INFINITY; 2]; 3];
    for _ in 0..RUNS {
        for (row, kind) in best.iter_mut().zip(KINDS) {
            for (time, program) in row.iter_mut().zip(programs) {
                *time = time.min(seconds(program, &whole(kind))?);
            }
        }
    }
    Ok(best)
}

fn run(program: &str, oracle: &str) -> Result<(), String> {
    let fail = |e: std::io::Error| format!("target/speed: {e}");
    fs::create_dir_all("target/speed").map_err(fail)?;
    fs::write("target/speed/empty", "").map_err(fail)?;
    for kind in KINDS {
        prepare(kind, program)?;
    }
    println!("| {LINES} lines | bench | independent | ratio | bench, instructions a line | independent | ratio |");
    println!("|---|---|---|---|---|---|---|");
    for (kind, [a, b]) in KINDS.into_iter().zip(times([program, oracle])?) {
        let counts = [program, oracle].map(|p| per_line(p, &part(kind), "target/speed/empty"));
        let counted = match counts {
            [Some(a), Some(b)] => format!("{a:.0} | {b:.0} | {:.2}", a / b),
            _ => "no valgrind | | ".into(),
        };
        println!("| {kind} | {a:.3} s | {b:.3} s | {:.2} | {counted} |", a / b);
    }
    println!("\nBest of {RUNS} runs each; instructions by callgrind on the first {PART} lines, start-up taken off.");
    Ok(())
}
