//! Wrong variants of the independent program: each is built from one changed
//! line and has to be told apart by the generated sessions.

use crate::cover::Cover;
use crate::generate::Session;
use crate::run::{cores, counter_session, first_line, plan, session, Program};
use oracle::Unit;
use std::fs;
use std::process::Command;
use std::sync::atomic::{AtomicUsize, Ordering};
use std::sync::Mutex;

struct Variant {
    label: String,
    /// The changed line is the first such line after a line with this text.
    after: String,
    old: String,
    new: String,
    /// Told apart by the session of the counter's end.
    counter: bool,
}

/// Blocks of `label:`, `old:`, `new:`, where the line stands more than once
/// `after:`, and `run: counter`.
fn read(text: &str) -> Result<Vec<Variant>, String> {
    let mut all: Vec<Variant> = Vec::new();
    for line in text.lines().filter(|l| !l.is_empty() && !l.starts_with('#')) {
        let (key, value) = line.split_once(": ").ok_or(format!("no key: {line}"))?;
        let value = value.to_string();
        if key == "label" {
            let (after, old, new, counter) = Default::default();
            all.push(Variant { label: value, after, old, new, counter });
            continue;
        }
        let last = all.last_mut().ok_or("a key before the first label")?;
        match key {
            "after" => last.after = value,
            "old" => last.old = value,
            "new" => last.new = value,
            "run" if value == "counter" => last.counter = true,
            _ => return Err(format!("key {key}")),
        }
    }
    Ok(all)
}

/// The source with one line changed.
fn vary(source: &str, v: &Variant) -> Result<String, String> {
    let lines: Vec<&str> = source.lines().collect();
    let fits = |i: &usize| lines[*i].trim() == v.old;
    let from = match v.after.as_str() {
        "" => 0,
        after => lines.iter().position(|l| l.contains(after)).ok_or(format!("{}: no line {after}", v.label))?,
    };
    let found: Vec<usize> = (from..lines.len()).filter(fits).collect();
    if found.is_empty() || v.after.is_empty() && found.len() > 1 || v.old == v.new {
        return Err(format!("{}: {} lines are {}", v.label, found.len(), v.old));
    }
    let at = found[0];
    let indent = &lines[at][..lines[at].len() - lines[at].trim_start().len()];
    let changed = format!("{indent}{}", v.new);
    let all: Vec<&str> = lines.iter().enumerate().map(|(i, l)| if i == at { &changed } else { *l }).collect();
    Ok(all.join("\n") + "\n")
}

/// Builds one source as a bench program, in a folder of its own.
fn build(label: &str, source: &str, main: &str) -> Result<Program, String> {
    let folder = format!("target/variants/{label}");
    let fail = |e: std::io::Error| format!("{folder}: {e}");
    fs::create_dir_all(&folder).map_err(fail)?;
    fs::write(format!("{folder}/oracle.rs"), source).map_err(fail)?;
    fs::write(format!("{folder}/main.rs"), format!("{main}\nmod oracle;\n")).map_err(fail)?;
    let path = format!("{folder}/variant");
    let out = Command::new("rustc")
        .args(["--edition", "2021", "-C", "opt-level=0", "-C", "overflow-checks=on", "-A", "warnings", "-o"])
        .args([&path, &format!("{folder}/main.rs")])
        .output()
        .map_err(fail)?;
    if !out.status.success() {
        return Err(format!("{label} does not build:\n{}", String::from_utf8_lossy(&out.stderr)));
    }
    Ok(Program { path, args: Vec::new() })
}

/// Where a program first differs, or that it does not.
fn apart(program: &Program, sessions: &[Session]) -> Result<Option<usize>, String> {
    let mut before = 0;
    for made in sessions {
        let got = program.serve(&made.input)?;
        if got != made.output {
            return Ok(Some(before + first_line(made, &got)));
        }
        before += made.ends.len();
    }
    Ok(None)
}

fn sessions(seed: u64, lines: usize, raw: bool) -> Vec<Session> {
    let mut cover = Cover::new();
    plan(seed, lines).into_iter().map(|(own, length)| session(own, length, raw, &mut cover)).collect()
}

struct Job<'a> {
    label: &'a str,
    source: String,
    counter: bool,
}

/// The verdict on one source: the line of the bench run, or of the raw run.
fn verdict(job: &Job, main: &str, runs: &[Vec<Session>; 2]) -> Result<Option<String>, String> {
    let mut program = build(job.label, &job.source, main)?;
    if job.counter {
        let input = counter_session();
        let output = oracle::session(&mut Unit::new(), &input, false);
        let differs = program.serve(&input)? != output;
        return Ok(differs.then(|| "the counter's end".to_string()));
    }
    if let Some(line) = apart(&program, &runs[0])? {
        return Ok(Some(format!("bench line {line}")));
    }
    program.args = vec!["--raw".into()];
    Ok(apart(&program, &runs[1])?.map(|line| format!("raw line {line}")))
}

pub fn check(seed: u64, lines: usize, labels: &[String]) -> bool {
    match run(seed, lines, labels) {
        Ok(good) => good,
        Err(e) => {
            println!("{e}");
            false
        }
    }
}

fn run(seed: u64, lines: usize, labels: &[String]) -> Result<bool, String> {
    let load = |path: &str| fs::read_to_string(path).map_err(|e| format!("{path}: {e}"));
    let (source, main) = (load("src/lib.rs")?, load("src/main.rs")?);
    let mut all = read(&load("variants.txt")?)?;
    all.retain(|v| labels.is_empty() || labels.contains(&v.label));
    let runs = [sessions(seed, lines, false), sessions(seed, lines, true)];
    let mut work = vec![Job { label: "unchanged", source: source.clone(), counter: false }];
    for v in &all {
        work.push(Job { label: &v.label, source: vary(&source, v)?, counter: v.counter });
    }
    let results = judge(&work, &main, &runs);
    let mut bad = 0;
    for (job, said) in work.iter().zip(results) {
        let good = match &said {
            Ok(None) => job.label == "unchanged",
            Ok(Some(_)) => job.label != "unchanged",
            Err(_) => false,
        };
        bad += usize::from(!good);
        let text = match said {
            Ok(Some(at)) => format!("told apart at {at}"),
            Ok(None) => "not told apart".to_string(),
            Err(e) => e,
        };
        println!("{}{:40} {text}", if good { "" } else { "FAIL " }, job.label);
    }
    println!("variants: {} wrong variants on {lines} bench and {lines} raw lines, {bad} failures", all.len());
    Ok(bad == 0)
}

/// All verdicts, on all cores.
fn judge(work: &[Job], main: &str, runs: &[Vec<Session>; 2]) -> Vec<Result<Option<String>, String>> {
    let next = AtomicUsize::new(0);
    let results = Mutex::new(vec![None; work.len()]);
    std::thread::scope(|scope| {
        for _ in 0..cores() {
            scope.spawn(|| loop {
                let i = next.fetch_add(1, Ordering::SeqCst);
                let Some(job) = work.get(i) else { break };
                let said = verdict(job, main, runs);
                results.lock().expect("no panic")[i] = Some(said);
            });
        }
    });
    let results = results.into_inner().expect("no panic");
    results.into_iter().map(|r| r.expect("all done")).collect()
}

#[cfg(test)]
mod tests {
    use super::*;

    #[test]
    fn every_variant_changes_one_line() {
        let source = include_str!("../lib.rs");
        let all = read(include_str!("../../variants.txt")).expect("the list");
        assert!(all.len() >= 40);
        for v in &all {
            let changed = vary(source, v).expect("a line to change");
            let differing = source.lines().zip(changed.lines()).filter(|(a, b)| a != b).count();
            assert_eq!((differing, changed.lines().count()), (1, source.lines().count()), "{}", v.label);
            assert_eq!(all.iter().filter(|w| w.label == v.label).count(), 1, "{}", v.label);
        }
    }
}
