//! Runs sessions through a program and through the independent library, and
//! says where they part.

use crate::cover::Cover;
use crate::generate::{self, Session};
use crate::rng::Rng;
use oracle::Unit;
use std::io::{self, Read, Write};
use std::process::{Command, Stdio};
use std::sync::atomic::{AtomicUsize, Ordering};
use std::sync::{mpsc, Mutex};
use std::time::Duration;

/// The program compared and its arguments.
#[derive(Clone)]
pub struct Program {
    pub path: String,
    pub args: Vec<String>,
}

impl Program {
    /// What it answers to a whole session. Ending without success is an error,
    /// and so is not ending: each program has a minute, and more for long input.
    pub fn serve(&self, input: &[u8]) -> Result<Vec<u8>, String> {
        let fail = |e: io::Error| format!("{}: {e}", self.path);
        let mut child = Command::new(&self.path)
            .args(&self.args)
            .stdin(Stdio::piped())
            .stdout(Stdio::piped())
            .spawn()
            .map_err(fail)?;
        let mut stdin = child.stdin.take().expect("piped");
        let mut stdout = child.stdout.take().expect("piped");
        let limit = Duration::from_secs(60 + input.len() as u64 / 100_000);
        let (done, answer) = mpsc::channel();
        let read = std::thread::scope(|scope| {
            scope.spawn(move || {
                // a program that stops reading shows by its output
                let _ = stdin.write_all(input);
            });
            scope.spawn(move || {
                let mut output = Vec::new();
                let read = stdout.read_to_end(&mut output).map(|_| output);
                let _ = done.send(read);
            });
            let read = answer.recv_timeout(limit);
            if read.is_err() {
                let _ = child.kill();
            }
            read
        });
        let status = child.wait().map_err(fail)?;
        let output = read.map_err(|_| format!("{} does not end", self.path))?.map_err(fail)?;
        if !status.success() {
            return Err(format!("{} stops with {status}", self.path));
        }
        Ok(output)
    }
}

/// The seeds and lengths of the sessions of a run.
pub fn plan(seed: u64, lines: usize) -> Vec<(u64, usize)> {
    let mut plan = Vec::new();
    let mut left = lines;
    for index in 0.. {
        if left == 0 {
            break;
        }
        let mut rng = Rng::session(seed, index);
        let own = rng.next();
        let length = if rng.one_in(4) { rng.between(30, 400) } else { rng.between(1000, 6000) };
        let length = left.min(length as usize);
        plan.push((own, length));
        left -= length;
    }
    plan
}

pub fn session(own: u64, length: usize, raw: bool, cover: &mut Cover) -> Session {
    generate::session(Rng::new(own), length, raw, cover)
}

/// The inputs of the page of readings, and the document's listing.
pub fn fixed_sessions() -> Vec<Vec<u8>> {
    let listing = "c MSV?|s 500166 1|c MSV?|c TAR|c MSV?|c TDD1|c TAV0|c NOV6000|c ESR?|r|c TAV?|c TAS?|\
                   c SPW\"AED\"|c LFT1|c TCR?|c TAV?|c TDD0|c ESR?|";
    let mut all = vec![Vec::new(), listing.replace('|', "\n").into_bytes()];
    let mut block: Option<Vec<u8>> = None;
    for line in include_str!("../../AMBIGUITIES.md").lines() {
        match &mut block {
            Some(_) if line == "```" => all.extend(block.take()),
            Some(body) => {
                body.extend(unescape(line));
                body.push(b'\n');
            }
            None if line == "```in" => block = Some(Vec::new()),
            None => {}
        }
    }
    all
}

/// The counter's end: 9,999,999 changes of LFT, many to a line, then what is
/// refused and what is done there.
pub fn counter_session() -> Vec<u8> {
    let mut text = String::from("c SPW\"AED\"\n");
    for _ in 0..1999 {
        text.push_str(&format!("c {}\n", "LFT1;LFT0;".repeat(2500)));
    }
    text.push_str(&format!("c {}\nc TCR?\n", "LFT2;LFT0;".repeat(2499)));
    for command in [
        "LFT3",
        "TCR?",
        "LDW5",
        "TAV7",
        "TAS0",
        "LFT4",
        "ESR?",
        "LFT3",
        "LFT5",
        "ESR?",
        "TCR?",
        "TAV?",
        "LFT0",
        "TCR?",
        "TAV?",
        "TAS?",
        "LFT0",
        "LFT1",
        "ESR?",
        "LFT?",
        "TCR?",
        "NOV6000",
        "TDD2",
        "NOV?",
        "RES",
        "LFT1",
        "ESR?",
        "SPW\"AED\"",
        "LFT2",
        "ESR?",
        "TCR?",
    ] {
        text.push_str(&format!("c {command}\n"));
    }
    text.into_bytes()
}

/// `\xNN` and `\r` of the page's inputs.
fn unescape(line: &str) -> Vec<u8> {
    let mut pieces = line.split("\\x");
    let mut out = pieces.next().unwrap_or("").replace("\\r", "\r").into_bytes();
    for piece in pieces {
        out.push(u8::from_str_radix(&piece[..2], 16).expect("two hex digits"));
        out.extend(piece[2..].replace("\\r", "\r").bytes());
    }
    out
}

/// A session on which the program differs.
pub struct Difference {
    pub seed: Option<u64>,
    pub input: Vec<u8>,
    pub why: Option<String>,
}

pub struct Outcome {
    pub cover: Cover,
    pub sessions: usize,
    pub difference: Option<Difference>,
}

/// What the cores share while they run.
struct Shared {
    next: AtomicUsize,
    first_bad: AtomicUsize,
    total: Mutex<Total>,
}

struct Total {
    cover: Cover,
    lines: usize,
    difference: Option<(usize, Difference)>,
}

/// Runs all sessions on all cores. The difference given is the one of the
/// first session that has one, whatever the cores' order.
pub fn compare(program: &Program, seed: u64, lines: usize, raw: bool, progress: bool) -> Outcome {
    let plan = plan(seed, lines);
    let total = Total { cover: Cover::new(), lines: 0, difference: None };
    let shared =
        Shared { next: AtomicUsize::new(0), first_bad: AtomicUsize::new(usize::MAX), total: Mutex::new(total) };
    let report = |done: usize, before: usize| {
        if progress && done * 50 / lines > before * 50 / lines {
            println!("{:3} %  {done} lines", done * 100 / lines);
            let _ = io::stdout().flush();
        }
    };
    std::thread::scope(|scope| {
        for _ in 0..cores() {
            scope.spawn(|| work(program, &plan, raw, &shared, &report));
        }
    });
    let total = shared.total.into_inner().expect("no panic");
    Outcome { cover: total.cover, sessions: plan.len(), difference: total.difference.map(|d| d.1) }
}

/// One core's share of the sessions.
fn work(program: &Program, plan: &[(u64, usize)], raw: bool, shared: &Shared, report: &dyn Fn(usize, usize)) {
    let mut cover = Cover::new();
    loop {
        let i = shared.next.fetch_add(1, Ordering::SeqCst);
        if i >= plan.len() || i > shared.first_bad.load(Ordering::SeqCst) {
            break;
        }
        let (own, length) = plan[i];
        let made = session(own, length, raw, &mut cover);
        let answer = program.serve(&made.input);
        let mut total = shared.total.lock().expect("no panic");
        if answer.as_ref() != Ok(&made.output) {
            shared.first_bad.fetch_min(i, Ordering::SeqCst);
            if total.difference.as_ref().is_none_or(|d| i < d.0) {
                let difference = Difference { seed: Some(own), input: made.input, why: answer.err() };
                total.difference = Some((i, difference));
            }
        }
        total.lines += length;
        report(total.lines, total.lines - length);
    }
    shared.total.lock().expect("no panic").cover.add(&cover);
}

pub fn cores() -> usize {
    std::thread::available_parallelism().map_or(1, |n| n.get())
}

fn lines_of(input: &[u8]) -> Vec<&[u8]> {
    input.split_inclusive(|b| *b == b'\n').collect()
}

/// Both answers to a session.
fn both(program: &Program, input: &[u8], raw: bool) -> (Vec<u8>, Result<Vec<u8>, String>) {
    (oracle::session(&mut Unit::new(), input, raw), program.serve(input))
}

fn parts(program: &Program, input: &[u8], raw: bool) -> bool {
    let (want, got) = both(program, input, raw);
    got.as_ref() != Ok(&want)
}

/// The shortest differing prefix, by halving.
fn prefix(program: &Program, input: &[u8], raw: bool) -> usize {
    let lines = lines_of(input);
    let (mut same, mut differs) = (0, lines.len());
    while differs - same > 1 {
        let middle = (same + differs) / 2;
        if parts(program, &lines[..middle].concat(), raw) {
            differs = middle;
        } else {
            same = middle;
        }
    }
    differs
}

/// Leaves lines out as long as the difference stays.
fn shorten(program: &Program, input: &[u8], raw: bool) -> Vec<u8> {
    let mut lines: Vec<Vec<u8>> = lines_of(input).into_iter().map(<[u8]>::to_vec).collect();
    let mut chunk = lines.len().div_ceil(2);
    let mut runs = 0;
    // bytes sent in all are bounded: a long session is shortened less
    let most = (400_000_000 / input.len().max(1)).clamp(8, 2000);
    while chunk > 0 && runs < most {
        let mut at = 0;
        while at < lines.len() && runs < most {
            let mut fewer = lines.clone();
            fewer.drain(at..(at + chunk).min(lines.len()));
            runs += 1;
            if !fewer.is_empty() && parts(program, &fewer.concat(), raw) {
                lines = fewer;
            } else {
                at += chunk;
            }
        }
        chunk = if chunk == 1 { 0 } else { chunk.div_ceil(2) };
    }
    lines.concat()
}

/// A line in plain letters, cut where it is very long.
fn brief(line: &[u8]) -> String {
    let line = line.strip_suffix(b"\n").unwrap_or(line);
    let text = line[..line.len().min(400)].escape_ascii().to_string();
    if line.len() > 400 {
        format!("{text}... ({} bytes)", line.len())
    } else {
        text
    }
}

/// At most the last 60 lines.
fn show(title: &str, bytes: &[u8]) {
    let lines = lines_of(bytes);
    let skipped = lines.len().saturating_sub(60);
    println!("{title}{}:", if skipped > 0 { format!(" (without its first {skipped} lines)") } else { String::new() });
    for line in &lines[skipped..] {
        println!("  {}", brief(line));
    }
}

/// Prints a difference: seed, prefix, a short session and both answers.
pub fn explain(program: &Program, difference: &Difference, raw: bool) {
    if let Some(why) = &difference.why {
        println!("{why}");
    }
    let input = &difference.input;
    let count = lines_of(input).len();
    if let Some(seed) = difference.seed {
        let flag = if raw { "--raw " } else { "" };
        println!("DIFFERENCE: compare generate {flag}{seed} {count}");
    } else {
        println!("DIFFERENCE: fixed session");
    }
    if difference.why.as_ref().is_some_and(|why| why.ends_with("does not end")) {
        // every further run would cost the whole time
        return;
    }
    if !parts(program, input, raw) {
        println!("not seen again when the session is run a second time");
        return;
    }
    let k = prefix(program, input, raw);
    println!("shortest differing prefix: {k} of {count} lines");
    let lines = lines_of(input);
    if let Some(last) = lines[..k].last() {
        println!("its last line: {}", brief(last));
    }
    let short = shorten(program, &lines[..k].concat(), raw);
    show("session without the lines that do not matter", &short);
    let (want, got) = both(program, &short, raw);
    show("independent program", &want);
    match got {
        Ok(got) => show("program compared", &got),
        Err(e) => println!("program compared: {e}"),
    }
}

/// The number of the first line whose answer differs.
pub fn first_line(made: &Session, got: &[u8]) -> usize {
    let same = made.output.iter().zip(got).take_while(|(a, b)| a == b).count();
    let at = made.ends.iter().position(|e| e.1 > same);
    at.unwrap_or(made.ends.len().saturating_sub(1)) + 1
}

#[cfg(test)]
mod tests {
    use super::*;

    #[test]
    fn a_seed_gives_one_session() {
        for raw in [false, true] {
            let made = session(5, 3000, raw, &mut Cover::new());
            let again = session(5, 3000, raw, &mut Cover::new());
            let other = session(6, 3000, raw, &mut Cover::new());
            assert_eq!(made.input, again.input);
            assert_ne!(made.input, other.input);
            assert_eq!(made.ends.len(), 3000);
            assert_eq!(made.ends.last(), Some(&(made.input.len(), made.output.len())));
            assert_eq!(oracle::session(&mut Unit::new(), &made.input, raw), made.output);
        }
    }

    #[test]
    fn a_plan_has_its_lines() {
        for lines in [1, 30, 5000, 200_000] {
            assert_eq!(plan(1, lines).iter().map(|s| s.1).sum::<usize>(), lines);
        }
    }

    #[test]
    fn everything_reachable_is_reached() {
        for raw in [false, true] {
            let mut cover = Cover::new();
            for (own, length) in plan(1, 200_000) {
                session(own, length, raw, &mut cover);
            }
            let report = cover.report(raw);
            assert!(!report.fails, "{}", report.text);
        }
    }

    #[test]
    fn a_short_run_is_found_wanting() {
        let mut cover = Cover::new();
        session(1, 500, false, &mut cover);
        let report = cover.report(false);
        assert!(report.fails && report.text.contains("NOT REACHED"));
    }

    #[test]
    fn fixed_sessions_are_the_page_and_the_listing() {
        let all = fixed_sessions();
        assert_eq!(all.len(), 33);
        assert!(all.iter().any(|s| s == b"c TAS\x11?\nc ESR?\n"));
        let listing = oracle::session(&mut Unit::new(), &all[1], false);
        assert!(listing.starts_with(b"?\n 0001501\n0\n 0000000\n"));
    }

    #[test]
    fn the_first_differing_line_is_named() {
        let made = session(5, 50, false, &mut Cover::new());
        let mut got = made.output.clone();
        *got.last_mut().expect("an answer") ^= 1;
        let last = made.ends.iter().position(|e| e.1 == made.output.len()).expect("a line");
        assert_eq!(first_line(&made, &got), last + 1);
    }
}
