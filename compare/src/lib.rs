//! Independent reference for the weighing terminal of document 01 (scope and
//! rules). Plain std Rust, exact integers, written to be compared with other
//! readings of the same document and not to be fast or proved.
//! Places where the document can be read in two ways: see AMBIGUITIES.md; the
//! tags [A1], [A2] ... below point there.

/// Samples beyond this are over or under.
pub const SAMPLE_LIMIT: i64 = 1_599_999;
/// A line holds at most this many kept bytes.
pub const LINE_LIMIT: usize = 40;
/// Free room needed before every byte taken.
pub const ROOM_LIMIT: usize = 17;
/// The trade counter stands here.
pub const COUNTER_LIMIT: u32 = 9_999_999;

// Numbers of the reasons for "?".
pub const UNKNOWN: u8 = 1;
pub const SHAPE: u8 = 2;
pub const VALUE: u8 = 3;
pub const LOCKED: u8 = 4;
pub const SEALED: u8 = 5;
pub const NO_READING: u8 = 6;
pub const OUT_OF_RANGE: u8 = 7;
pub const NO_POINT: u8 = 8;
pub const COUNTER_STANDS: u8 = 9;
pub const TOO_LONG: u8 = 10;
pub const WRONG_TEXT: u8 = 11;

/// The settings that are saved: the table's rows from GCA to TAV, CWT twice.
#[derive(Clone, Copy, Debug, PartialEq, Eq)]
pub struct Settings {
    pub gca: i64,
    pub gde: i64,
    pub cwt_waiting: i64,
    pub cwt_used: i64,
    pub ldw: i64,
    pub lwt: i64,
    pub nov: i64,
    pub rsn: i64,
    pub enu: i64,
    pub dpt: i64,
    pub zse: i64,
    pub ztr: i64,
    pub lft: i64,
    pub cof: i64,
    pub tas: i64,
    pub tav: i64,
}

impl Settings {
    pub fn factory() -> Settings {
        Settings {
            gca: 981_040,
            gde: 981_040,
            cwt_waiting: 1_000_000,
            cwt_used: 1_000_000,
            ldw: 0,
            lwt: 1_000_000,
            nov: 3000,
            rsn: 1,
            enu: 0,
            dpt: 0,
            zse: 0,
            ztr: 0,
            lft: 0,
            cof: 3,
            tas: 1,
            tav: 0,
        }
    }
}

/// What the unit last saw since its restart.
#[derive(Clone, Copy, Debug, PartialEq, Eq)]
pub enum Seen {
    Nothing,
    Over,
    Under,
    Number { x: i64, still: bool },
}

/// How a weight reads.
#[derive(Clone, Copy, Debug, PartialEq, Eq)]
pub enum Reads {
    Over,
    Under,
    In,
}

/// The line being gathered.
#[derive(Clone, Copy, Debug, PartialEq, Eq)]
pub struct Line {
    kept: [u8; LINE_LIMIT],
    len: usize,
    long: bool,
    quoted: bool,
}

impl Line {
    pub fn empty() -> Line {
        Line { kept: [0; LINE_LIMIT], len: 0, long: false, quoted: false }
    }
    pub fn bytes(&self) -> &[u8] {
        &self.kept[..self.len]
    }
}

#[derive(Clone, Copy, Debug, PartialEq, Eq)]
pub struct Password {
    bytes: [u8; 7],
    len: usize,
}

impl Password {
    fn new(text: &[u8]) -> Password {
        let mut p = Password { bytes: [0; 7], len: text.len() };
        p.bytes[..text.len()].copy_from_slice(text);
        p
    }
    pub fn text(&self) -> &[u8] {
        &self.bytes[..self.len]
    }
}

#[derive(Clone, Copy, Debug, PartialEq, Eq)]
pub struct Unit {
    pub set: Settings,
    pub saved: Settings,
    pub password: Password,
    pub counter: u32,
    pub open: bool,
    pub reason: u8,
    pub point: Option<i64>,
    pub z0: i64,
    pub z1: i64,
    pub seen: Seen,
    pub first_waiting: bool,
    pub line: Line,
}

/// A reply without its closing CR LF: at most 15 bytes.
#[derive(Clone, Copy, Debug, PartialEq, Eq)]
pub struct Reply {
    buf: [u8; 15],
    len: usize,
}

impl Reply {
    fn new() -> Reply {
        Reply { buf: [0; 15], len: 0 }
    }
    fn of(bytes: &[u8]) -> Reply {
        let mut r = Reply::new();
        r.add(bytes);
        r
    }
    fn add(&mut self, bytes: &[u8]) {
        self.buf[self.len..self.len + bytes.len()].copy_from_slice(bytes);
        self.len += bytes.len();
    }
    /// Zero-filled digits.
    fn digits(&mut self, n: i64, width: usize) {
        assert!(n >= 0, "digits of a negative number");
        let mut n = n;
        for i in (0..width).rev() {
            self.buf[self.len + i] = b'0' + (n % 10) as u8;
            n /= 10;
        }
        assert!(n == 0, "number wider than its field");
        self.len += width;
    }
    /// Blank or "-", then 7 digits; zero takes a blank.
    fn signed7(&mut self, n: i64) {
        self.add(if n < 0 { b"-" } else { b" " });
        self.digits(n.abs(), 7);
    }
    pub fn body(&self) -> &[u8] {
        &self.buf[..self.len]
    }
}

/// Nearest, half away from zero; d > 0.
pub fn round_div(n: i128, d: i128) -> i128 {
    assert!(d > 0);
    let q = (2 * n.abs() + d) / (2 * d);
    if n < 0 {
        -q
    } else {
        q
    }
}

/// |part| is at most percent % of whole, compared exactly.
fn within(part: i64, percent: i64, whole: i64) -> bool {
    (part.abs() as i128) * 100 <= (percent as i128) * (whole as i128)
}

/// The parsed rest of a line after its three letters.
#[derive(Clone, Copy, Debug, PartialEq, Eq)]
enum Param<'a> {
    Nothing,
    Query,
    Number(i64),
    Text(&'a [u8]),
}

/// Three folded letters and a parameter, or malformed.
fn shape(line: &[u8]) -> Option<([u8; 3], Param<'_>)> {
    if line.len() < 3 || !line[..3].iter().all(|b| b.is_ascii_alphabetic()) {
        return None;
    }
    let name = [
        line[0].to_ascii_uppercase(),
        line[1].to_ascii_uppercase(),
        line[2].to_ascii_uppercase(),
    ];
    let rest = &line[3..];
    let param = match rest {
        [] => Param::Nothing,
        b"?" => Param::Query,
        [b'"', ..] => {
            if rest.len() < 2 || rest[rest.len() - 1] != b'"' {
                return None;
            }
            let text = &rest[1..rest.len() - 1];
            if !text.iter().all(|b| (0x20..=0x7e).contains(b) && *b != b'"') {
                return None;
            }
            Param::Text(text)
        }
        _ => {
            // [A2] the optional sign is "+" or "-".
            let (negative, digits) = match rest[0] {
                b'-' => (true, &rest[1..]),
                b'+' => (false, &rest[1..]),
                _ => (false, rest),
            };
            if digits.is_empty() || digits.len() > 10 || !digits.iter().all(u8::is_ascii_digit) {
                return None;
            }
            let n = digits.iter().fold(0i64, |n, d| n * 10 + (d - b'0') as i64);
            Param::Number(if negative { -n } else { n })
        }
    };
    Some((name, param))
}

/// What a done command answers: bytes, or nothing at all (RES).
type Outcome = Result<Option<Reply>, u8>;

fn done() -> Outcome {
    Ok(Some(Reply::of(b"0")))
}

fn digits(n: i64, width: usize) -> Outcome {
    let mut r = Reply::new();
    r.digits(n, width);
    Ok(Some(r))
}

fn signed7(n: i64) -> Outcome {
    let mut r = Reply::new();
    r.signed7(n);
    Ok(Some(r))
}

fn allow(ok: bool, reason: u8) -> Result<(), u8> {
    if ok {
        Ok(())
    } else {
        Err(reason)
    }
}

impl Default for Unit {
    fn default() -> Self {
        Unit::new()
    }
}

impl Unit {
    /// A unit from the factory: as if just restarted with factory settings.
    pub fn new() -> Unit {
        Unit {
            set: Settings::factory(),
            saved: Settings::factory(),
            password: Password::new(b"AED"),
            counter: 0,
            open: false,
            reason: 0,
            point: None,
            z0: 0,
            z1: 0,
            seen: Seen::Nothing,
            first_waiting: false,
            line: Line::empty(),
        }
    }

    /// RES and power restart.
    pub fn restart(&mut self) {
        self.set = self.saved;
        self.line = Line::empty();
        self.seen = Seen::Nothing;
        self.reason = 0;
        self.point = None;
        self.open = false;
        self.z0 = 0;
        self.z1 = 0;
        self.first_waiting = self.set.zse > 0;
    }

    // ---- weight ----

    pub fn u_of(&self, x: i64) -> i64 {
        let s = &self.set;
        round_div((x - s.ldw) as i128 * s.gca as i128, s.gde as i128) as i64
    }

    /// In tenths.
    pub fn v_of(&self, x: i64) -> i64 {
        let s = &self.set;
        let n = self.u_of(x) as i128 * 10 * s.nov as i128 * s.cwt_used as i128;
        round_div(n, (s.lwt - s.ldw) as i128 * 1_000_000) as i64
    }

    /// In tenths.
    pub fn g_of(&self, x: i64) -> i64 {
        self.v_of(x) - self.z0 - self.z1
    }

    /// In digits.
    pub fn gross_of_g(&self, g: i64) -> i64 {
        let rsn = self.set.rsn;
        rsn * round_div(g as i128, 10 * rsn as i128) as i64
    }

    pub fn gross_of(&self, x: i64) -> i64 {
        self.gross_of_g(self.g_of(x))
    }

    /// Where gross stands to the display range.
    pub fn display(&self, gross: i64) -> Reads {
        let s = &self.set;
        let (above, below) = match s.lft {
            0 => (100 * gross > 160 * s.nov, 100 * gross < -160 * s.nov),
            1 | 2 => (gross > s.nov + 9 * s.rsn, gross < -20 * s.rsn),
            _ => (100 * gross > 105 * s.nov, 100 * gross < -2 * s.nov),
        };
        if above {
            Reads::Over
        } else if below {
            Reads::Under
        } else {
            Reads::In
        }
    }

    fn in_tare_range(&self, n: i64) -> bool {
        let s = &self.set;
        if s.lft == 0 {
            -s.nov <= n && n <= s.nov
        } else {
            0 <= n && n <= s.nov
        }
    }

    /// The x of a steady reading.
    fn steady(&self) -> Option<i64> {
        match self.seen {
            Seen::Number { x, still: true } => Some(x),
            _ => None,
        }
    }

    /// One sample.
    pub fn sample(&mut self, x: i32, still: bool) {
        let x = x as i64;
        self.seen = if x > SAMPLE_LIMIT {
            Seen::Over
        } else if x < -SAMPLE_LIMIT {
            Seen::Under
        } else {
            Seen::Number { x, still }
        };
        let Some(x) = self.steady() else { return };
        let ten_nov = 10 * self.set.nov;
        if self.first_waiting {
            // The one try.
            self.first_waiting = false;
            let percent = match self.set.zse {
                1 => 2,
                2 => 5,
                3 => 10,
                4 => 20,
                _ => unreachable!("waiting for the first zeroing with ZSE 0"),
            };
            let v = self.v_of(x);
            if within(v, percent, ten_nov) {
                self.z0 = v;
            }
        } else if self.set.ztr == 1 {
            let g = self.g_of(x);
            let shown = if self.set.tas == 0 { g - 10 * self.set.tav } else { g };
            if shown != 0 && shown.abs() < 5 * self.set.rsn {
                // [A4] z1 is judged before the move and after it.
                let moved = self.z1 + shown.signum();
                if within(self.z1, 2, ten_nov) && within(moved, 2, ten_nov) {
                    self.z1 = moved;
                }
            }
        }
    }

    fn msv(&self) -> Outcome {
        let s = &self.set;
        let (reads, value, still) = match self.seen {
            Seen::Nothing => return Err(NO_READING),
            Seen::Over => (Reads::Over, 0, false),
            Seen::Under => (Reads::Under, 0, false),
            Seen::Number { x, still } => {
                let gross = self.gross_of(x);
                let value = if s.tas == 0 { gross - s.tav } else { gross };
                (self.display(gross), value, still)
            }
        };
        let mut r = Reply::new();
        match s.cof {
            0 => {
                let n: i32 = match reads {
                    Reads::Over => i32::MAX,
                    Reads::Under => i32::MIN,
                    Reads::In => i32::try_from(value).expect("weight fits 32 bits"),
                };
                r.add(&n.to_be_bytes());
            }
            2 => {
                let n: i16 = match reads {
                    Reads::Over => i16::MAX,
                    Reads::Under => i16::MIN,
                    // [A9] these two limits are for the value given.
                    Reads::In if value > 32766 => i16::MAX,
                    Reads::In if value < -32767 => i16::MIN,
                    Reads::In => value as i16,
                };
                r.add(&n.to_be_bytes());
            }
            _ => {
                r.signed7(match reads {
                    Reads::Over => 9_999_999,
                    Reads::Under => -9_999_999,
                    Reads::In => value,
                });
                if s.cof == 9 {
                    let mut status = 0;
                    if s.tas == 0 {
                        status += 1;
                    }
                    if still {
                        status += 2;
                    }
                    if reads == Reads::Over {
                        status += 4;
                    }
                    if reads == Reads::Under {
                        status += 8;
                    }
                    if self.first_waiting {
                        status += 16;
                    }
                    if s.lft > 0 {
                        status += 32;
                    }
                    r.add(b",31,");
                    r.digits(status, 3);
                }
            }
        }
        Ok(Some(r))
    }

    // ---- commands ----

    /// What an accepted setting does to zeros, tare, view and first zeroing.
    fn resets(&mut self) {
        self.z0 = 0;
        self.z1 = 0;
        self.set.tav = 0;
        self.set.tas = 1;
        self.first_waiting = false;
    }

    fn need_open(&self) -> Result<(), u8> {
        allow(self.open, LOCKED)
    }

    fn need_unsealed(&self) -> Result<(), u8> {
        allow(self.set.lft == 0, SEALED)
    }

    fn need_steady(&self) -> Result<i64, u8> {
        self.steady().ok_or(NO_READING)
    }

    /// A setting marked P S that makes the resets when accepted.
    fn sealed_setting(
        &mut self,
        n: i64,
        allowed: bool,
        put: fn(&mut Settings, i64),
    ) -> Outcome {
        self.need_open()?;
        self.need_unsealed()?;
        allow(allowed, VALUE)?;
        put(&mut self.set, n);
        self.resets();
        done()
    }

    fn execute(&mut self, name: &[u8; 3], param: Param) -> Outcome {
        use Param::*;
        match (name, param) {
            (b"GCA", Query) | (b"GDE", Query) => {
                let mut r = Reply::of(b" ");
                r.digits(if name == b"GCA" { self.set.gca } else { self.set.gde }, 6);
                Ok(Some(r))
            }
            (b"GCA", Number(n)) => {
                self.sealed_setting(n, (970_000..=990_000).contains(&n), |s, n| s.gca = n)
            }
            (b"GDE", Number(n)) => {
                self.sealed_setting(n, (970_000..=990_000).contains(&n), |s, n| s.gde = n)
            }

            (b"CWT", Query) => {
                let mut r = Reply::new();
                r.digits(self.set.cwt_waiting, 7);
                r.add(b",");
                r.digits(self.set.cwt_used, 7);
                Ok(Some(r))
            }
            (b"CWT", Number(n)) => {
                self.need_open()?;
                self.need_unsealed()?;
                allow((200_000..=1_200_000).contains(&n), VALUE)?;
                self.set.cwt_waiting = n;
                done()
            }

            (b"LDW", Query) => signed7(self.set.ldw),
            (b"LDW", Number(_)) | (b"LDW", Nothing) => {
                self.need_open()?;
                self.need_unsealed()?;
                let at = match param {
                    Number(n) => {
                        allow((-SAMPLE_LIMIT..=SAMPLE_LIMIT).contains(&n), VALUE)?;
                        n
                    }
                    _ => self.need_steady()?,
                };
                self.point = Some(at);
                done()
            }

            (b"LWT", Query) => signed7(self.set.lwt),
            (b"LWT", Number(_)) | (b"LWT", Nothing) => {
                self.need_open()?;
                self.need_unsealed()?;
                let w = match param {
                    Number(n) => {
                        allow((-SAMPLE_LIMIT..=SAMPLE_LIMIT).contains(&n), VALUE)?;
                        n
                    }
                    _ => self.need_steady()?,
                };
                let l = self.point.ok_or(NO_POINT)?;
                // the span comes last
                allow(w - l >= 10_000, VALUE)?;
                self.set.ldw = l;
                self.set.lwt = w;
                self.set.cwt_used = self.set.cwt_waiting;
                self.point = None;
                if param == Nothing {
                    self.set.gca = self.set.gde;
                }
                self.resets();
                done()
            }

            (b"NOV", Query) => signed7(self.set.nov),
            (b"NOV", Number(n)) => {
                self.sealed_setting(n, (100..=100_000).contains(&n), |s, n| s.nov = n)
            }

            (b"RSN", Query) => digits(self.set.rsn, 2),
            (b"RSN", Number(n)) => {
                self.sealed_setting(n, [1, 2, 5, 10, 20, 50].contains(&n), |s, n| s.rsn = n)
            }

            (b"ENU", Query) => digits(self.set.enu, 1),
            (b"ENU", Number(n)) => {
                self.sealed_setting(n, (0..=4).contains(&n), |s, n| s.enu = n)
            }
            (b"DPT", Query) => digits(self.set.dpt, 1),
            (b"DPT", Number(n)) => {
                self.sealed_setting(n, (0..=4).contains(&n), |s, n| s.dpt = n)
            }
            (b"ZSE", Query) => digits(self.set.zse, 1),
            (b"ZSE", Number(n)) => {
                self.sealed_setting(n, (0..=4).contains(&n), |s, n| s.zse = n)
            }
            (b"ZTR", Query) => digits(self.set.ztr, 1),
            (b"ZTR", Number(n)) => {
                self.sealed_setting(n, (0..=1).contains(&n), |s, n| s.ztr = n)
            }

            (b"LFT", Query) => digits(self.set.lft, 1),
            (b"LFT", Number(n)) => {
                self.need_open()?;
                allow((0..=4).contains(&n), VALUE)?;
                if n == self.set.lft {
                    return done();
                }
                allow(n == 0 || self.counter < COUNTER_LIMIT, COUNTER_STANDS)?;
                self.set.lft = n;
                if self.counter < COUNTER_LIMIT {
                    self.counter += 1;
                }
                self.point = None;
                self.resets();
                self.saved = self.set;
                done()
            }

            (b"COF", Query) => digits(self.set.cof, 2),
            (b"COF", Number(n)) => {
                allow([0, 2, 3, 9].contains(&n), VALUE)?;
                self.set.cof = n;
                done()
            }

            (b"TAS", Query) => digits(self.set.tas, 1),
            (b"TAS", Number(n)) => {
                allow((0..=1).contains(&n), VALUE)?;
                self.set.tas = n;
                done()
            }

            (b"TAV", Query) => signed7(self.set.tav),
            (b"TAV", Number(n)) => {
                allow(self.in_tare_range(n), VALUE)?;
                self.set.tav = n;
                done()
            }

            (b"TAR", Nothing) => {
                let x = self.need_steady()?;
                let gross = self.gross_of(x);
                let fits = self.display(gross) == Reads::In && self.in_tare_range(gross);
                allow(fits, OUT_OF_RANGE)?;
                self.set.tav = gross;
                self.set.tas = 0;
                done()
            }

            (b"CDL", Nothing) => {
                let x = self.need_steady()?;
                // [A3] the band is one for the new z1.
                let z1 = self.v_of(x) - self.z0;
                let percent = if self.set.lft == 0 { 20 } else { 2 };
                allow(within(z1, percent, 10 * self.set.nov), OUT_OF_RANGE)?;
                self.z1 = z1;
                done()
            }

            (b"RES", Nothing) => {
                self.restart();
                Ok(None)
            }

            (b"TDD", Number(n)) => {
                allow((0..=2).contains(&n), VALUE)?;
                match n {
                    0 => {
                        self.need_open()?;
                        self.need_unsealed()?;
                        self.set = Settings::factory();
                    }
                    1 => {
                        self.saved = self.set;
                        return done();
                    }
                    _ => self.set = self.saved,
                }
                self.z0 = 0;
                self.z1 = 0;
                self.point = None;
                self.first_waiting = false;
                done()
            }

            (b"SPW", Text(t)) => {
                self.open = t == self.password.text();
                allow(self.open, WRONG_TEXT)?;
                done()
            }
            (b"DPW", Text(t)) => {
                allow((1..=7).contains(&t.len()), VALUE)?;
                self.password = Password::new(t);
                done()
            }

            (b"MSV", Query) => self.msv(),
            (b"TCR", Query) => digits(self.counter as i64, 7),
            (b"ESR", Query) => {
                let r = digits(self.reason as i64, 2);
                self.reason = 0;
                r
            }

            // a form this command lacks
            (
                b"GCA" | b"GDE" | b"CWT" | b"LDW" | b"LWT" | b"NOV" | b"RSN" | b"ENU" | b"DPT"
                | b"ZSE" | b"ZTR" | b"LFT" | b"COF" | b"TAS" | b"TAV" | b"TAR" | b"CDL" | b"RES"
                | b"TDD" | b"SPW" | b"DPW" | b"MSV" | b"TCR" | b"ESR",
                _,
            ) => Err(SHAPE),

            _ => Err(UNKNOWN),
        }
    }

    /// A line has met its end mark.
    fn answer(&mut self) -> Option<Reply> {
        let line = self.line;
        self.line = Line::empty();
        let outcome = if line.long {
            Err(TOO_LONG)
        } else if line.len == 0 {
            return None;
        } else {
            match shape(line.bytes()) {
                None => Err(SHAPE),
                Some((name, param)) => self.execute(&name, param),
            }
        };
        match outcome {
            Ok(reply) => reply,
            Err(reason) => {
                self.reason = reason;
                Some(Reply::of(b"?"))
            }
        }
    }

    /// Takes one byte of a line.
    pub fn byte(&mut self, b: u8) -> Option<Reply> {
        let line = &mut self.line;
        if b == b'\n' || (b == b';' && !line.quoted) {
            return self.answer();
        }
        // [A1] 11 and 13 hex are kept, like bytes above 20.
        if !line.quoted && b <= 0x20 && b != 0x11 && b != 0x13 {
            return None;
        }
        if b == b'"' {
            line.quoted = !line.quoted;
        }
        if line.len == LINE_LIMIT {
            line.long = true;
        } else {
            line.kept[line.len] = b;
            line.len += 1;
        }
        None
    }
}

/// Takes a block into lent room: the number taken and the number written.
pub fn take_into(unit: &mut Unit, bytes: &[u8], room: &mut [u8]) -> (usize, usize) {
    let mut taken = 0;
    let mut written = 0;
    while taken < bytes.len() && room.len() - written >= ROOM_LIMIT {
        let reply = unit.byte(bytes[taken]);
        taken += 1;
        if let Some(reply) = reply {
            let body = reply.body();
            room[written..written + body.len()].copy_from_slice(body);
            written += body.len();
            room[written..written + 2].copy_from_slice(b"\r\n");
            written += 2;
        }
    }
    (taken, written)
}

/// The same with room of its own; `out` is the whole room, filled with AA hex
/// beforehand, so that untouched room shows.
pub fn take(unit: &mut Unit, bytes: &[u8], room_len: usize) -> (usize, usize, Vec<u8>) {
    let mut room = vec![0xaa; room_len];
    let (taken, written) = take_into(unit, bytes, &mut room);
    (taken, written, room)
}

/// `s` blank x blank 0 or 1.
fn sample_line(line: &[u8]) -> Option<(i32, bool)> {
    let rest = line.strip_prefix(b"s ")?;
    let (rest, still) = match rest {
        [rest @ .., b' ', b'0'] => (rest, false),
        [rest @ .., b' ', b'1'] => (rest, true),
        _ => return None,
    };
    let (negative, digits) = match rest {
        [b'-', d @ ..] => (true, d),
        d => (false, d),
    };
    if digits.is_empty() || !digits.iter().all(u8::is_ascii_digit) {
        return None;
    }
    let mut n: i64 = 0;
    for d in digits {
        n = n * 10 + (d - b'0') as i64;
        if n > 1 << 31 {
            return None;
        }
    }
    i32::try_from(if negative { -n } else { n }).ok().map(|x| (x, still))
}

/// One line of the bench program, without its LF.
pub fn bench_line(unit: &mut Unit, line: &[u8], out: &mut Vec<u8>) {
    if let Some(command) = line.strip_prefix(b"c ") {
        for &b in command.iter().chain(b";") {
            if let Some(reply) = unit.byte(b) {
                out.extend_from_slice(reply.body());
                out.push(b'\n');
            }
        }
    } else if line == b"r" {
        unit.restart();
    } else if let Some((x, still)) = sample_line(line) {
        unit.sample(x, still);
    } else {
        out.extend_from_slice(b"!\n");
    }
}

fn block_line(line: &[u8]) -> Option<(usize, Vec<u8>)> {
    let text = std::str::from_utf8(line.strip_prefix(b"b ")?).ok()?;
    let (room, hex) = text.split_once(' ')?;
    let room: usize = room.parse().ok()?;
    if room > 1 << 20 || hex.len() % 2 != 0 || !hex.bytes().all(|b| b.is_ascii_hexdigit()) {
        return None;
    }
    let bytes = (0..hex.len())
        .step_by(2)
        .map(|i| u8::from_str_radix(&hex[i..i + 2], 16).unwrap())
        .collect();
    Some((room, bytes))
}

/// One line of the raw mode: `b` blank room length blank bytes in hex gives one
/// block to `take` and prints taken, written and the written bytes in hex;
/// `s` and `r` as on the bench; all else prints `!`.
pub fn raw_line(unit: &mut Unit, line: &[u8], out: &mut Vec<u8>) {
    if let Some((room_len, bytes)) = block_line(line) {
        let (taken, written, room) = take(unit, &bytes, room_len);
        assert!(room[written..].iter().all(|b| *b == 0xaa));
        out.extend_from_slice(format!("{taken} {written} ").as_bytes());
        for b in &room[..written] {
            out.extend_from_slice(format!("{b:02x}").as_bytes());
        }
        out.push(b'\n');
    } else if line.starts_with(b"c ") {
        out.extend_from_slice(b"!\n");
    } else {
        bench_line(unit, line, out);
    }
}

/// A whole session, line by line. A last line without LF counts when it holds
/// anything.
pub fn session(unit: &mut Unit, input: &[u8], raw: bool) -> Vec<u8> {
    let mut out = Vec::new();
    let serve = if raw { raw_line } else { bench_line };
    let mut rest = input;
    while !rest.is_empty() {
        match rest.iter().position(|b| *b == b'\n') {
            Some(at) => {
                serve(unit, &rest[..at], &mut out);
                rest = &rest[at + 1..];
            }
            None => {
                serve(unit, rest, &mut out);
                rest = &[];
            }
        }
    }
    out
}
