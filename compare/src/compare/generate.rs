//! Sessions from a seed. The independent program runs beside the generator, so
//! that samples and values can be aimed at the limits of the state reached.

mod lines;
mod moves;

use crate::cover::{is_quoted, Cover, Name};
use crate::rng::Rng;
use crate::table::*;
use oracle::{Unit, SAMPLE_LIMIT};

/// A session, what the independent program answers, and where each line ends
/// in both.
#[derive(Default)]
pub struct Session {
    pub input: Vec<u8>,
    pub output: Vec<u8>,
    pub ends: Vec<(usize, usize)>,
}

pub struct Generator<'a> {
    rng: Rng,
    raw: bool,
    unit: Unit,
    cover: &'a mut Cover,
    made: Session,
    lines: usize,
    /// Bytes of the raw form that are still to be sent.
    pending: Vec<u8>,
}

/// Moves and how often each is made; a session has its own bent besides.
const MOVES: [usize; 26] =
    [60, 40, 40, 25, 50, 16, 12, 45, 16, 12, 10, 20, 40, 40, 40, 25, 25, 30, 20, 25, 20, 20, 10, 10, 40, 15];

/// One session of so many lines.
pub fn session(rng: Rng, lines: usize, raw: bool, cover: &mut Cover) -> Session {
    cover.new_session();
    let (unit, made) = (Unit::new(), Session::default());
    let mut g = Generator { rng, raw, unit, cover, made, lines, pending: Vec::new() };
    g.run();
    g.made
}

impl Generator<'_> {
    fn run(&mut self) {
        let mut weights = MOVES;
        for _ in 0..3 {
            let bent = self.rng.below(MOVES.len());
            weights[bent] *= 4;
        }
        while !self.full() {
            let which = self.rng.weighted(&weights);
            self.settle();
            self.make(which);
            self.look();
        }
        if !self.raw && self.rng.one_in(4) && !self.made.input.ends_with(b"\n\n") {
            // an empty last line without LF would be no line at all
            self.made.input.pop();
            if let Some(last) = self.made.ends.last_mut() {
                last.0 -= 1;
            }
            self.cover.name(Name::LastWithoutLf);
        }
    }

    fn make(&mut self, which: usize) {
        match which {
            0 => self.some_sample(),
            1 => self.query(),
            2 => self.good_setting(),
            3 => self.bad_setting(),
            4 => self.odd_shape(),
            5 => self.long_line(),
            6 => self.open_quote(),
            7 => self.odd_bytes(),
            8 => self.bad_form(),
            9 => self.several(),
            10 => self.restart(),
            11 => self.lock(),
            12 => self.display(),
            13 => self.tracking(),
            14 => self.first_zeroing(),
            15 => self.zero(),
            16 => self.tare(),
            17 => self.curve(),
            18 => self.trade(),
            19 => self.saving(),
            20 => self.resets(),
            21 => self.halves(),
            22 => self.two_bytes(),
            23 => self.statuses(),
            24 => self.lacking(),
            _ => self.no_reading(),
        }
    }

    // ---- lines out ----

    fn full(&self) -> bool {
        self.made.ends.len() >= self.lines
    }

    /// One line of the session, served by the independent program.
    fn line(&mut self, line: &[u8]) {
        if self.full() {
            return;
        }
        let before = self.unit;
        if self.raw {
            oracle::raw_line(&mut self.unit, line, &mut self.made.output);
            self.cover.raw_line(&before, line, &self.unit, None);
        } else {
            oracle::bench_line(&mut self.unit, line, &mut self.made.output);
            self.cover.bench_line(&before, line, &self.unit);
        }
        self.written(line);
    }

    fn written(&mut self, line: &[u8]) {
        self.made.input.extend_from_slice(line);
        self.made.input.push(b'\n');
        self.made.ends.push((self.made.input.len(), self.made.output.len()));
    }

    /// A command: a `c` line, or its bytes in blocks.
    fn command(&mut self, bytes: &[u8]) {
        if !self.raw {
            return self.line(&[b"c ", bytes].concat());
        }
        self.pending.extend_from_slice(bytes);
        let mark: &[u8] = self.rng.of(&[b";", b";", b";", b"\n", b"\r\n"]);
        self.pending.extend_from_slice(mark);
        if self.rng.one_in(12) {
            self.pending.extend_from_slice(b";; \n");
        }
        // now and then several commands go in one block
        if !self.rng.one_in(6) {
            self.send();
        }
    }

    /// Sends what is pending, in blocks of odd lengths into odd rooms.
    fn send(&mut self) {
        while !self.pending.is_empty() && !self.full() {
            let whole = self.pending.len().min(120);
            let n = match self.rng.below(8) {
                0 => self.rng.below(whole + 1),
                1 => self.rng.below(whole.min(4) + 1),
                _ => whole,
            };
            let room = match self.rng.below(4) {
                0 => self.rng.below(61),
                1 => 17 + self.rng.below(10),
                _ => 17 + self.rng.below(44),
            };
            let block: Vec<u8> = self.pending[..n].to_vec();
            let taken = self.block(&block, room);
            let sent = taken == n || !self.rng.one_in(25);
            if taken < n {
                self.cover.rest(sent);
            }
            self.pending.drain(..if sent { taken } else { n });
            if self.rng.one_in(40) {
                return;
            }
        }
    }

    fn block(&mut self, bytes: &[u8], room: usize) -> usize {
        if self.full() {
            return bytes.len();
        }
        let mut line = format!("b {room} ").into_bytes();
        let upper = self.rng.one_in(10);
        for b in bytes {
            let hex = if upper { format!("{b:02X}") } else { format!("{b:02x}") };
            line.extend_from_slice(hex.as_bytes());
        }
        let before = self.unit;
        let mut probe = before;
        let (taken, _, _) = oracle::take(&mut probe, bytes, room);
        oracle::raw_line(&mut self.unit, &line, &mut self.made.output);
        self.cover.raw_line(&before, &line, &self.unit, Some((bytes, room)));
        self.written(&line);
        taken
    }

    /// A command as text, now and then in other cases and with bytes that the
    /// unit drops.
    fn say(&mut self, text: &str) {
        let bytes = self.dressed(text.as_bytes());
        self.command(&bytes);
    }

    fn dressed(&mut self, text: &[u8]) -> Vec<u8> {
        if !self.rng.one_in(6) {
            return text.to_vec();
        }
        let (cases, drops) = (self.rng.below(3), self.rng.below(3));
        let mut out = Vec::new();
        let mut quoted = false;
        for &b in text {
            if !quoted && drops == 0 && self.rng.one_in(3) {
                out.push(self.dropped());
            }
            quoted ^= b == b'"';
            let lower = cases == 0 || cases == 1 && self.rng.one_in(2);
            out.push(if lower && !quoted { b.to_ascii_lowercase() } else { b });
        }
        out
    }

    /// A byte that counts for nothing outside quotes.
    fn dropped(&mut self) -> u8 {
        loop {
            let b = self.rng.of(&[b' ', b'\t', b'\r', 0, 0x10, 0x12, 0x14, 0x1f]);
            let b = if self.rng.one_in(2) { b } else { self.rng.below(0x21) as u8 };
            if !matches!(b, 0x0a | 0x11 | 0x13) {
                return b;
            }
        }
    }

    /// The digits of a number, now and then with zeros, a plus or a minus.
    fn number(&mut self, n: i64) -> String {
        let mut digits = n.abs().to_string();
        if self.rng.one_in(8) && digits.len() < 10 {
            let width = self.rng.between(digits.len() as i64, 10) as usize;
            digits = format!("{}{digits}", "0".repeat(width - digits.len()));
        }
        let sign = match n {
            n if n < 0 => "-",
            0 => self.rng.of(&["", "", "", "+", "-"]),
            _ => self.rng.of(&["", "", "", "", "", "+"]),
        };
        format!("{sign}{digits}")
    }

    fn set(&mut self, name: &str, n: i64) {
        let number = self.number(n);
        self.say(&format!("{name}{number}"));
    }

    /// Mostly closes an open quote, so that the next move is understood.
    fn settle(&mut self) {
        if self.raw {
            if !self.rng.one_in(30) {
                self.send();
            }
            if self.unit.line != oracle::Line::empty() && !self.rng.one_in(4) {
                self.pending.push(b'\n');
                self.send();
            }
        } else if is_quoted(&self.unit) && !self.rng.one_in(4) {
            self.command(b"\"");
        }
    }

    /// Shows some of the state that the last move left.
    fn look(&mut self) {
        if self.rng.one_in(2) {
            self.say("MSV?");
        }
        if self.rng.one_in(4) {
            self.query();
        }
        if self.rng.one_in(6) {
            self.say("ESR?");
        }
        if self.rng.one_in(40) {
            for c in COMMANDS.iter().filter(|c| c.takes[QUERY]) {
                self.say(&format!("{}?", c.name));
            }
        }
    }

    fn query(&mut self) {
        loop {
            let c = &COMMANDS[self.rng.below(COMMANDS.len())];
            if c.takes[QUERY] {
                return self.say(&format!("{}?", c.name));
            }
        }
    }

    // ---- the lock and the seal ----

    fn password(&self) -> String {
        String::from_utf8_lossy(self.unit.password.text()).into_owned()
    }

    fn open(&mut self) {
        if !self.unit.open || self.rng.one_in(20) {
            let text = format!("SPW\"{}\"", self.password());
            self.say(&text);
        }
    }

    fn unseal(&mut self) {
        self.open();
        if self.unit.set.lft > 0 {
            self.set("LFT", 0);
        }
    }

    fn seal(&mut self) -> i64 {
        self.open();
        let lft = self.rng.between(0, 4);
        self.set("LFT", lft);
        lft
    }

    /// A text of 0 to most bytes, ";" and blanks among them.
    fn any_text(&mut self, most: usize) -> String {
        let len = self.rng.below(most + 1);
        let piece = |r: &mut Rng| match r.below(6) {
            0 => ';',
            1 => ' ',
            2 => r.of(&['~', '!', '?', '#', 'a', 'Z']),
            _ => loop {
                let b = 0x20 + r.below(0x5f) as u8;
                if b != b'"' {
                    break b as char;
                }
            },
        };
        (0..len).map(|_| piece(&mut self.rng)).collect()
    }

    // ---- settings ----

    /// A number that the setting takes.
    fn good(&mut self, name: &str) -> i64 {
        let s = &self.unit.set;
        let (nov, lft) = (s.nov, s.lft);
        let r = &mut self.rng;
        let liked: &[i64] = match name {
            "GCA" | "GDE" => &[970_000, 975_000, 980_000, 981_040, 985_000, 990_000],
            "CWT" => &[200_000, 300_000, 500_000, 1_000_000, 1_200_000],
            "NOV" => &[100, 101, 120, 125, 250, 1000, 3000, 3001, 5000, 6000, 10_000, 33_000, 40_000, 60_000, 100_000],
            "RSN" => &RSN,
            "COF" => &COF,
            "LDW" => &[-1_599_999, -20_000, -7, 0, 0, 0, 500, 100_000, 1_599_999],
            "LWT" => &[-1_589_999, 10_000, 250_000, 500_000, 1_000_000, 1_000_000, 1_599_999],
            "TAV" if r.one_in(2) => return r.of(&[nov, 0, 1, nov - 1, if lft == 0 { -nov } else { 0 }]),
            "TAV" => return if lft == 0 { r.between(-nov, nov) } else { r.between(0, nov) },
            _ => &[],
        };
        if !liked.is_empty() && (matches!(name, "RSN" | "COF") || !r.one_in(3)) {
            return r.of(liked);
        }
        let (_, low, high) = RANGES.iter().find(|e| e.0 == name).expect("a range");
        r.between(*low, *high)
    }

    /// A number that it does not take, mostly just outside.
    fn bad(&mut self, name: &str) -> i64 {
        let s = &self.unit.set;
        let (nov, lft) = (s.nov, s.lft);
        let r = &mut self.rng;
        if r.one_in(6) {
            return r.of(&[
                9_999_999_999,
                -9_999_999_999,
                4_294_967_296,
                2_147_483_648,
                1_600_000,
                4_294_967_297,
                65_536,
                256,
            ]);
        }
        match name {
            "RSN" => r.of(&[0, 3, 4, 6, 9, 11, 15, 21, 25, 51, 100, -1, 257]),
            "COF" => r.of(&[1, 4, 8, 10, -2, -9, 12, 258]),
            "TAV" => r.of(&[nov + 1, if lft == 0 { -nov - 1 } else { -1 }]),
            "LWT" => r.of(&[-1_600_000, 1_600_000]),
            _ => {
                let (_, low, high) = RANGES.iter().find(|e| e.0 == name).expect("a range");
                r.of(&[low - 1, high + 1])
            }
        }
    }

    fn setting_name(&mut self) -> &'static str {
        self.rng.of(&[
            "GCA", "GDE", "CWT", "NOV", "RSN", "ENU", "DPT", "ZSE", "ZTR", "LFT", "COF", "TAS", "TAV", "LDW", "LWT",
        ])
    }

    fn good_setting(&mut self) {
        let name = self.setting_name();
        if self.rng.one_in(2) {
            self.unseal();
        }
        let n = self.good(name);
        self.set(name, n);
    }

    fn bad_setting(&mut self) {
        if self.rng.one_in(2) {
            self.open();
        }
        if self.rng.one_in(2) {
            self.unseal();
        }
        let name = if self.rng.one_in(6) { "TDD" } else { self.setting_name() };
        let n = self.bad(name);
        self.set(name, n);
        if self.rng.one_in(3) {
            self.say("ESR?");
        }
    }

    fn restart(&mut self) {
        match self.rng.below(3) {
            0 => self.say("RES"),
            1 if self.raw => {
                // what is pending is cut here
                self.pending.truncate(self.rng.below(3));
                self.send();
                self.line(b"r");
            }
            _ => self.line(b"r"),
        }
    }

    // ---- samples ----

    fn sample(&mut self, x: i64, still: bool) {
        let x = x.clamp(i32::MIN.into(), i32::MAX.into());
        let zeros = if self.rng.one_in(60) { "0".repeat(self.rng.below(14)) } else { String::new() };
        let sign = if x < 0 || x == 0 && self.rng.one_in(20) { "-" } else { "" };
        self.line(format!("s {sign}{zeros}{} {}", x.abs(), u8::from(still)).as_bytes());
    }

    fn still(&mut self) -> bool {
        !self.rng.one_in(6)
    }

    /// The least x whose v is at least this.
    fn x_for(&self, v: i64) -> i64 {
        let (mut low, mut high) = (-SAMPLE_LIMIT, SAMPLE_LIMIT);
        while low < high {
            let middle = (low + high).div_euclid(2);
            if self.unit.v_of(middle) >= v {
                high = middle;
            } else {
                low = middle + 1;
            }
        }
        low
    }

    fn x_for_g(&self, g: i64) -> i64 {
        self.x_for(g + self.unit.z0 + self.unit.z1)
    }

    /// An x whose v lies between these.
    fn x_near(&mut self, low: i64, high: i64) -> i64 {
        let v = self.rng.between(low, high);
        self.x_for(v)
    }

    fn x_near_g(&mut self, low: i64, high: i64) -> i64 {
        let g = self.rng.between(low, high);
        self.x_for_g(g)
    }

    /// An x for this gross: in its middle or at the last tenth that makes it.
    fn x_for_gross(&mut self, gross: i64) -> i64 {
        let half = 5 * self.unit.set.rsn;
        let off = self.rng.of(&[0, 0, 0, -half, half - 1, half, -half - 1]);
        self.x_for_g(10 * gross + off)
    }

    /// A gross at or next to a limit of the display range.
    fn display_limit(&mut self) -> i64 {
        let s = &self.unit.set;
        let (top, bottom) = match s.lft {
            0 => (160 * s.nov / 100, -160 * s.nov / 100),
            1 | 2 => (s.nov + 9 * s.rsn, -20 * s.rsn),
            _ => (105 * s.nov / 100, -2 * s.nov / 100),
        };
        let rsn = s.rsn;
        let end = if self.rng.one_in(2) { top } else { bottom };
        end.div_euclid(rsn) * rsn + rsn * self.rng.between(-1, 2)
    }

    fn aimed(&mut self) -> i64 {
        let s = self.unit.set;
        let (z0, nov, rsn) = (self.unit.z0, s.nov, s.rsn);
        match self.rng.below(12) {
            0 => {
                let gross = self.display_limit();
                self.x_for_gross(gross)
            }
            1 => self.tracked(),
            2 => {
                let k = self.rng.between(-nov / rsn, nov / rsn);
                self.x_for_g(10 * rsn * k + 5 * rsn)
            }
            3 => {
                let end = if s.lft == 0 { 2 * nov } else { nov / 5 };
                let v = self.rng.of(&[end, -end, end + 1, -end - 1]) + z0;
                self.x_for(v)
            }
            4 => {
                let gross = self.rng.of(&[nov, nov + rsn, 0, -rsn, -nov, -nov - rsn, nov - rsn]);
                self.x_for_gross(gross)
            }
            5 => {
                let value =
                    self.rng.of(&[32_766, 32_767, 32_768, -32_767, -32_768, -32_769, 0x0d0a, 10, 13, 0x0a0d, 2560]);
                self.x_for_g(10 * (value + if s.tas == 0 { s.tav } else { 0 }))
            }
            6 => s.ldw + self.rng.between(-20, 20),
            7 => s.lwt + self.rng.between(-20, 20),
            8 => {
                let end = ZSE_PERCENT[s.zse as usize] * nov / 10;
                let v = self.rng.of(&[end, -end, end + 1, -end - 1]);
                self.x_for(v)
            }
            9 => self.rng.between(-2000, 2000),
            10 => self.x_near_g(10 * s.tav - 60, 10 * s.tav + 60),
            _ => self.rng.between(-SAMPLE_LIMIT, SAMPLE_LIMIT),
        }
    }

    /// An x whose shown value is small enough to be tracked, or just not.
    fn tracked(&mut self) -> i64 {
        let s = self.unit.set;
        let limit = 5 * s.rsn;
        let small = self.rng.between(-limit, limit);
        let shown = self.rng.of(&[limit, -limit, limit - 1, 1 - limit, 0, 1, -1, small]);
        self.x_for_g(shown + if s.tas == 0 { 10 * s.tav } else { 0 })
    }

    fn some_sample(&mut self) {
        for _ in 0..1 + self.rng.below(3) {
            let x = match self.rng.below(10) {
                0 => self.rng.of(&[
                    SAMPLE_LIMIT,
                    -SAMPLE_LIMIT,
                    SAMPLE_LIMIT + 1,
                    -SAMPLE_LIMIT - 1,
                    i32::MAX.into(),
                    i32::MIN.into(),
                    0,
                    1,
                    -1,
                    5_000_000,
                    -5_000_000,
                ]),
                1 => self.rng.between(i32::MIN.into(), i32::MAX.into()),
                2 | 3 => self.rng.between(-SAMPLE_LIMIT, SAMPLE_LIMIT),
                _ => self.aimed(),
            };
            let still = self.still();
            self.sample(x, still);
            if self.rng.one_in(3) {
                self.say("MSV?");
            }
        }
    }
}
