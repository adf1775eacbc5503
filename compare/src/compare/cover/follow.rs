//! Follows a session beside the run and counts what it reaches, by the state
//! before and after each line.

use super::*;
use oracle::{Line, Reads, Reply, Seen, Unit, LINE_LIMIT, ROOM_LIMIT, SAMPLE_LIMIT};

/// Quotes and bytes of the line being followed.
#[derive(Clone, Copy)]
struct Follow {
    quoted: bool,
    kept: usize,
    all: usize,
}

impl Follow {
    fn of(unit: &Unit) -> Follow {
        let kept = unit.line.bytes().len() + usize::from(is_long(unit));
        Follow { quoted: is_quoted(unit), kept, all: kept }
    }
}

const START: Follow = Follow { quoted: false, kept: 0, all: 0 };

/// Inside quotes: a ";" does not end the line then.
pub fn is_quoted(unit: &Unit) -> bool {
    let mut probe = *unit;
    probe.byte(b';');
    probe.line != Line::empty()
}

/// The line has been found too long.
pub fn is_long(unit: &Unit) -> bool {
    let mut probe = *unit;
    probe.reason = 0;
    probe.byte(b'\n');
    probe.reason == oracle::TOO_LONG
}

/// A well-formed line: its name, its form, its number and its text.
struct Shape<'a> {
    name: [u8; 3],
    form: usize,
    number: i64,
    digits: &'a [u8],
    text: &'a [u8],
}

fn shape(line: &[u8]) -> Option<Shape<'_>> {
    if line.len() < 3 || !line[..3].iter().all(u8::is_ascii_alphabetic) {
        return None;
    }
    let mut name = [line[0], line[1], line[2]];
    name.make_ascii_uppercase();
    let rest = &line[3..];
    let none: &[u8] = &[];
    let plain = |form| Some(Shape { name, form, number: 0, digits: none, text: none });
    match rest {
        [] => plain(NOTHING),
        b"?" => plain(QUERY),
        [b'"', text @ .., b'"'] => {
            let fits = text.iter().all(|b| (0x20..=0x7e).contains(b) && *b != b'"');
            fits.then_some(Shape { name, form: TEXT, number: 0, digits: none, text })
        }
        _ => {
            let digits = rest.strip_prefix(b"-").or(rest.strip_prefix(b"+")).unwrap_or(rest);
            if !(1..=10).contains(&digits.len()) || !digits.iter().all(u8::is_ascii_digit) {
                return None;
            }
            let size: i64 = std::str::from_utf8(digits).ok()?.parse().ok()?;
            let number = if rest[0] == b'-' { -size } else { size };
            Some(Shape { name, form: NUMBER, number, digits: rest, text: none })
        }
    }
}

/// A quotient exactly between two whole numbers.
fn half(n: i128, d: i128) -> bool {
    (2 * n) % (2 * d) != 0 && (2 * n) % d == 0
}

fn seen_kind(unit: &Unit) -> usize {
    match unit.seen {
        Seen::Nothing => 0,
        Seen::Number { .. } => 1,
        Seen::Over => 2,
        Seen::Under => 3,
    }
}

fn steady(unit: &Unit) -> Option<i64> {
    match unit.seen {
        Seen::Number { x, still: true } => Some(x),
        _ => None,
    }
}

/// How v stands to percent of 10 NOV: size in tenths less the band's end, as a
/// comparison and whether one tenth less would be within.
fn band(v: i64, percent: i64, nov: i64) -> (std::cmp::Ordering, bool) {
    let end = percent * 10 * nov;
    ((v.abs() * 100).cmp(&end), (v.abs() - 1) * 100 <= end)
}

impl Cover {
    // ---- lines ----

    /// One bench line, with the unit as it was before and as it is after.
    pub fn bench_line(&mut self, before: &Unit, line: &[u8], after: &Unit) {
        self.name_if(line.len() > 4000, Name::BenchLong);
        if let Some(command) = line.strip_prefix(b"c ") {
            self.command_line(before, command, after);
        } else {
            self.event(before, after, line);
        }
    }

    /// A sample, a restart or a line of no form.
    fn event(&mut self, before: &Unit, after: &Unit, line: &[u8]) {
        if line == b"r" {
            self.restart(before, after);
        } else if line.starts_with(b"s ") {
            self.sample(before, after, line);
        }
    }

    fn command_line(&mut self, before: &Unit, command: &[u8], after: &Unit) {
        let mut unit = *before;
        let mut follow = Follow::of(&unit);
        let was_quoted = follow.quoted;
        let (mut replies, mut res) = (0, false);
        for (i, &b) in command.iter().chain(b";").enumerate() {
            let begun = follow.kept > 0;
            let reply = self.byte(&mut unit, &mut follow, b);
            replies += usize::from(reply.is_some());
            if begun && follow.kept == 0 && reply.is_none() && i < command.len() {
                res = true;
            } else if res && reply.is_some() {
                self.name(Name::ResFollowed);
                res = false;
            }
        }
        if unit != *after {
            self.strange(format!("followed otherwise: {}", command.escape_ascii()));
        }
        self.name_if(follow.quoted, Name::OpenAtEnd);
        self.name_if(was_quoted && !follow.quoted && replies > 0, Name::ClosedLater);
        self.name_if(replies == 0, Name::NoReply);
        self.name_if(replies == 2, Name::Two);
        self.name_if(replies >= 5, Name::Many);
    }

    fn byte(&mut self, unit: &mut Unit, follow: &mut Follow, b: u8) -> Option<Reply> {
        if b == b'\n' || (b == b';' && !follow.quoted) {
            let before = *unit;
            let reply = unit.byte(b);
            self.raw_name(b == b'\n', RawName::Lf);
            self.raw_name(b == b'\n' && follow.quoted, RawName::LfQuoted);
            self.raw_name(b == b'\n' && follow.kept > LINE_LIMIT, RawName::LfLong);
            self.ended(&before, unit, &reply, *follow);
            *follow = START;
            return reply;
        }
        let dropped = !follow.quoted && b <= 0x20 && b != 0x11 && b != 0x13;
        self.hit(if follow.quoted { Group::Inside } else { Group::Outside }, b as usize);
        self.name_if(b == b';', Name::SemicolonKept);
        self.name_if(b == b';' && follow.kept > LINE_LIMIT, Name::LongSemicolon);
        self.name_if(b == b'"' && follow.kept == LINE_LIMIT, Name::LongQuote);
        self.name_if(dropped && follow.kept > 0, Name::DroppedInside);
        follow.all += 1;
        follow.kept += usize::from(!dropped);
        follow.quoted ^= b == b'"';
        unit.byte(b)
    }

    /// A line has met its end mark.
    fn ended(&mut self, before: &Unit, after: &Unit, reply: &Option<Reply>, follow: Follow) {
        if follow.kept == 0 {
            self.name_if(follow.all == 0, Name::EmptyLine);
            self.name_if(follow.all > 0, Name::EmptyAfterDropped);
            return;
        }
        self.hit(Group::Kept, follow.kept.min(43));
        let refused = reply.filter(|r| r.body() == b"?").map(|_| after.reason);
        if follow.kept > LINE_LIMIT {
            if refused != Some(10) {
                self.strange("a long line without 10".into());
            }
            return;
        }
        self.name_if(follow.all > 120 && refused.is_none(), Name::LongDone);
        let line = before.line.bytes();
        let Some(shape) = shape(line) else {
            self.malformed(before, line, refused);
            return;
        };
        let Some(command) = place(&shape.name) else {
            self.hit(Group::Unknown, shape.form);
            if refused != Some(1) {
                self.strange(format!("unknown name without 01: {}", line.escape_ascii()));
            }
            return;
        };
        self.writing(line, &shape);
        match refused {
            Some(reason) => self.refused(before, command, &shape, reason),
            None => self.done(before, after, command, &shape, reply),
        }
    }

    fn malformed(&mut self, before: &Unit, line: &[u8], refused: Option<u8>) {
        let name = line.get(..3).map(|n| n.to_ascii_uppercase());
        let known = name.and_then(|n| place(&n));
        self.hit(Group::Malformed, known.unwrap_or(24));
        self.name_if(known == Some(at("SPW")) && before.open, Name::SpwShapeOpen);
        let tail = line.get(3..).unwrap_or(&[]);
        let digits = tail.strip_prefix(b"-").unwrap_or(tail);
        self.name_if(digits.len() == 11 && digits.iter().all(u8::is_ascii_digit), Name::ElevenDigits);
        if refused != Some(2) {
            self.strange(format!("malformed without 02: {}", line.escape_ascii()));
        }
    }

    fn writing(&mut self, line: &[u8], shape: &Shape) {
        self.name_if(line[..3].iter().all(u8::is_ascii_lowercase), Name::LowerCase);
        if shape.form != NUMBER {
            return;
        }
        let digits = shape.digits.strip_prefix(b"-").unwrap_or(shape.digits);
        self.name_if(digits.len() > 1 && digits[0] == b'0', Name::Leading);
        self.name_if(digits[0] == b'+', Name::Plus);
        self.name_if(shape.digits[0] == b'-' && shape.number == 0, Name::MinusZero);
        self.name_if(shape.number.abs() >= 1 << 32, Name::TenDigits);
    }

    // ---- refusals ----

    fn refused(&mut self, before: &Unit, command: usize, shape: &Shape, reason: u8) {
        self.hit(Group::Refused, (command * 4 + shape.form) * 12 + reason as usize);
        let name = COMMANDS[command].name;
        if reason == 6 {
            if let Some(i) = STEADY.iter().position(|n| *n == name) {
                self.hit(Group::Unsteady, i * 4 + seen_kind(before));
            }
        }
        let n = shape.number;
        match (name, reason) {
            ("TAV", 3) => self.tare_end(before, n),
            ("LWT", 3) => self.span(before, shape),
            ("TDD", 3) => self.name_if(!before.open, Name::TddValueLocked),
            ("TDD", 4) => self.name(Name::Tdd0Locked),
            ("TDD", 5) => self.name(Name::Tdd0Sealed),
            ("SPW", 11) => self.wrong_text(before, shape.text),
            ("SPW", 2) => self.name_if(before.open, Name::SpwShapeOpen),
            ("DPW", 3) => self.hit(Group::Length, if shape.text.is_empty() { 0 } else { 8 }),
            ("CDL", 7) => self.zero_beyond(before),
            ("TAR", 7) => self.tare_beyond(before),
            _ => {}
        }
        if reason == 3 {
            self.range_end(name, n, false);
        }
    }

    fn range_end(&mut self, name: &str, n: i64, done: bool) {
        let Some(i) = RANGES.iter().position(|r| r.0 == name) else { return };
        let (_, low, high) = RANGES[i];
        let below = if name == "LWT" { -SAMPLE_LIMIT - 1 } else { low - 1 };
        match done {
            true if n == low => self.hit(Group::Range, i * 4),
            true if n == high => self.hit(Group::Range, i * 4 + 1),
            false if n == below => self.hit(Group::Range, i * 4 + 2),
            false if n == high + 1 => self.hit(Group::Range, i * 4 + 3),
            _ => {}
        }
    }

    fn tare_end(&mut self, before: &Unit, n: i64) {
        let sealed = usize::from(before.set.lft > 0);
        let nov = before.set.nov;
        let low = if sealed == 1 { 0 } else { -nov };
        for (i, end) in [low, nov, low - 1, nov + 1].into_iter().enumerate() {
            if n == end {
                self.hit(Group::Tare, sealed * 4 + i);
            }
        }
    }

    fn span(&mut self, before: &Unit, shape: &Shape) {
        let w = if shape.form == NUMBER { shape.number } else { steady(before).unwrap_or(0) };
        if w.abs() > SAMPLE_LIMIT {
            return;
        }
        let Some(l) = before.point else {
            self.strange("a short span without a point".into());
            return;
        };
        self.name(Name::PointSpan);
        self.name_if(w - l == 9_999, Name::LwtSpanShort);
    }

    fn wrong_text(&mut self, before: &Unit, text: &[u8]) {
        let password = before.password.text();
        self.name(if before.open { Name::SpwLocks } else { Name::SpwWrong });
        self.name_if(text.eq_ignore_ascii_case(password), Name::SpwCase);
        self.name_if(text.is_empty(), Name::SpwEmpty);
        self.name_if(text.len() > password.len() && text.starts_with(password), Name::SpwLonger);
        self.name_if(text.len() >= 8, Name::SpwEight);
    }

    fn zero_beyond(&mut self, before: &Unit) {
        let Some(x) = steady(before) else { return };
        let z1 = before.v_of(x) - before.z0;
        let sealed = before.set.lft > 0;
        let (_, near) = band(z1, if sealed { 2 } else { 20 }, before.set.nov);
        let names = match sealed {
            false => [Name::CdlOverUp, Name::CdlOverDown],
            true => [Name::CdlOverUpSealed, Name::CdlOverDownSealed],
        };
        self.name_if(near, names[usize::from(z1 < 0)]);
    }

    fn tare_beyond(&mut self, before: &Unit) {
        let Some(x) = steady(before) else { return };
        let (gross, nov, rsn) = (before.gross_of(x), before.set.nov, before.set.rsn);
        let sealed = before.set.lft > 0;
        self.name_if(gross > nov && gross - rsn <= nov, Name::TarAbove);
        self.name_if(!sealed && gross < -nov && gross + rsn >= -nov, Name::TarBelow);
        self.name_if(sealed && gross == -rsn, Name::TarBelowSealed);
        let fits = gross.abs() <= nov && (gross >= 0 || !sealed);
        self.name_if(fits, Name::TarDisplay);
    }

    // ---- done ----

    fn done(&mut self, before: &Unit, after: &Unit, command: usize, shape: &Shape, reply: &Option<Reply>) {
        self.hit(Group::Done, command * 4 + shape.form);
        let name = COMMANDS[command].name;
        let n = shape.number;
        if shape.form == NUMBER {
            self.range_end(name, n, true);
            self.number_done(before, after, name, n);
        }
        match (name, shape.form) {
            ("LWT", NUMBER | NOTHING) => self.curve(before, after, shape),
            ("LDW", NUMBER | NOTHING) => self.pointed = before.point.is_some_and(|p| Some(p) != after.point),
            ("CDL", _) => self.zero(before, after),
            ("TAR", _) => self.tare(before),
            ("RES", _) => self.res(before),
            ("SPW", _) => self.opened(before),
            ("DPW", _) => {
                self.hit(Group::Length, shape.text.len());
                self.name(if before.open { Name::DpwOpen } else { Name::DpwLocked });
                self.changed_password = true;
                self.restarted = false;
            }
            ("MSV", _) => self.weight(before, reply),
            ("ESR", _) => self.hit(Group::Error, before.reason as usize),
            _ => {}
        }
        let setting = shape.form == NUMBER || name == "LWT" && shape.form == NOTHING;
        if setting && (name != "LFT" || after.set.lft != before.set.lft) {
            self.resets(before, after, name);
        }
    }

    fn number_done(&mut self, before: &Unit, after: &Unit, name: &str, n: i64) {
        let keeps = matches!(name, "COF" | "TAS" | "TAV" | "CWT" | "LDW") || name == "TDD" && n == 1;
        self.name_if(keeps && before.first_waiting, Name::WaitKept);
        match name {
            "RSN" => self.hit(Group::Member, RSN.iter().position(|r| *r == n).expect("RSN")),
            "COF" => self.hit(Group::Member, 6 + COF.iter().position(|r| *r == n).expect("COF")),
            "TAV" => self.tare_end(before, n),
            "LFT" => self.change(before, after),
            "TDD" => self.saving(before, n),
            _ => {}
        }
    }

    fn resets(&mut self, before: &Unit, after: &Unit, name: &str) {
        let Some(i) = RESETTING.iter().position(|r| *r == name) else { return };
        let s = &before.set;
        let had = [before.z0 != 0, before.z1 != 0, s.tav != 0, s.tas == 0, before.first_waiting];
        for (j, _) in had.iter().enumerate().filter(|h| *h.1) {
            self.hit(Group::Reset, i * 5 + j);
        }
        self.name_if(before.point.is_some() && after.point.is_some(), Name::PointKept);
        if let Seen::Number { x, .. } = before.seen {
            self.name_if(before.gross_of(x) != after.gross_of(x), Name::HeldChanged);
        }
    }

    fn change(&mut self, before: &Unit, after: &Unit) {
        let (from, to) = (before.set.lft, after.set.lft);
        self.hit(Group::Change, (from * 5 + to) as usize);
        let s = before.set;
        if from == to {
            let standing = before.point.is_some() || before.z1 != 0 || s.tav != 0;
            self.name_if(standing, Name::LftSameKept);
            self.name_if(s != before.saved, Name::LftSameUnsaved);
            return;
        }
        self.name_if(s.nov != before.saved.nov || s.lwt != before.saved.lwt, Name::LftSaves);
        self.name_if(before.point.is_some(), Name::PointLft);
        self.name_if(from > 0 && to > 0, Name::LftSealedChange);
        self.name_if(after.counter >= 10, Name::CounterTen);
        self.name_if(before.counter == oracle::COUNTER_LIMIT, Name::CounterEndZero);
    }

    fn saving(&mut self, before: &Unit, n: i64) {
        let differs = before.set != before.saved;
        if n == 1 {
            self.name_if(differs, Name::Tdd1Differs);
            self.name_if(differs && before.set.lft > 0 && !before.open, Name::Tdd1Sealed);
            return;
        }
        self.name_if(before.z0 != 0, Name::TddZ0);
        self.name_if(before.z1 != 0, Name::TddZ1);
        let zero = n == 0;
        self.name_if(before.point.is_some(), if zero { Name::PointTdd0 } else { Name::PointTdd2 });
        self.name_if(before.first_waiting, if zero { Name::WaitTdd0 } else { Name::WaitTdd2 });
        self.name_if(zero && before.set != oracle::Settings::factory(), Name::Tdd0Differs);
        self.name_if(!zero && differs, Name::Tdd2Differs);
        self.name_if(!zero && before.saved.tav != before.set.tav && before.saved.tav != 0, Name::Tdd2Tare);
        self.name_if(!zero && differs && before.set.lft > 0, Name::Tdd2Sealed);
    }

    fn curve(&mut self, before: &Unit, after: &Unit, shape: &Shape) {
        let s = &before.set;
        let span = after.set.lwt - after.set.ldw;
        self.name_if(span == 10_000, Name::LwtSpan);
        self.name_if(span > 3_000_000, Name::LwtSpanWide);
        let measured = shape.form == NOTHING;
        self.name_if(measured && s.gca != s.gde, Name::LwtMeasuredGca);
        self.name_if(!measured && s.gca != s.gde, Name::LwtNumberGca);
        self.name_if(s.cwt_waiting != s.cwt_used, Name::LwtCwt);
        self.name_if(self.pointed, Name::LwtOther);
    }

    fn zero(&mut self, before: &Unit, after: &Unit) {
        let Some(x) = steady(before) else { return };
        let sealed = before.set.lft > 0;
        let percent = if sealed { 2 } else { 20 };
        let (order, _) = band(after.z1, percent, before.set.nov);
        let names = match sealed {
            false => [Name::CdlEdgeUp, Name::CdlEdgeDown],
            true => [Name::CdlEdgeUpSealed, Name::CdlEdgeDownSealed],
        };
        self.name_if(order.is_eq(), names[usize::from(after.z1 < 0)]);
        self.name_if(before.z0 != 0, Name::CdlZ0);
        self.name_if(before.z1 != 0 && before.z1 != after.z1, Name::CdlAgain);
        let (all, _) = band(before.v_of(x), percent, before.set.nov);
        self.name_if(all.is_gt(), Name::CdlSumBeyond);
        self.name_if(before.display(before.gross_of(x)) != Reads::In, Name::CdlDisplay);
    }

    fn tare(&mut self, before: &Unit) {
        let Some(x) = steady(before) else { return };
        let gross = before.gross_of(x);
        let s = &before.set;
        self.name_if(gross == s.nov, Name::TarTop);
        self.name_if(gross == -s.nov, Name::TarBottom);
        self.name_if(gross == 0 && s.lft > 0, Name::TarZero);
        self.name_if(s.tas == 0 && s.tav != 0, Name::TarAgain);
        self.name_if(half(before.g_of(x).into(), (10 * s.rsn).into()), Name::TarTie);
    }

    fn opened(&mut self, before: &Unit) {
        self.name(if before.open { Name::SpwAgain } else { Name::SpwOpens });
        let changed = self.changed_password && before.password.text() != b"AED";
        self.name_if(changed, Name::DpwChanged);
        self.name_if(changed && self.restarted, Name::DpwRestart);
    }

    // ---- weights ----

    fn weight(&mut self, unit: &Unit, reply: &Option<Reply>) {
        let body = reply.as_ref().map_or(&[][..], |r| r.body());
        self.name_if(body.contains(&b'\n'), Name::ReplyLf);
        self.name_if(body.ends_with(b"\r\n"), Name::ReplyCrLf);
        let s = &unit.set;
        let kind = match unit.seen {
            Seen::Over => 3,
            Seen::Under => 4,
            Seen::Nothing => return self.strange("MSV? done without a sample".into()),
            Seen::Number { x, .. } => {
                self.rounding(unit, x);
                self.limits(unit, x);
                match unit.display(unit.gross_of(x)) {
                    Reads::In => 0,
                    Reads::Over => 1,
                    Reads::Under => 2,
                }
            }
        };
        let cof = COF.iter().position(|c| *c == s.cof).expect("COF");
        self.hit(Group::Weight, (cof * 5 + s.lft as usize) * 5 + kind);
        if s.cof == 9 {
            let status = body[body.len() - 3..].iter().fold(0, |n, d| n * 10 + (d - b'0') as usize);
            self.hit(Group::Status, status);
            for bit in 0..6 {
                self.hit(Group::Bit, bit * 2 + (status >> bit & 1));
            }
        }
    }

    fn rounding(&mut self, unit: &Unit, x: i64) {
        let s = &unit.set;
        let sign = |n: i128, up, down| if n > 0 { up } else { down };
        let (un, ud) = ((x - s.ldw) as i128 * s.gca as i128, s.gde as i128);
        let (factor, span) = (10 * s.nov as i128 * s.cwt_used as i128, (s.lwt - s.ldw) as i128 * 1_000_000);
        let vn = unit.u_of(x) as i128 * factor;
        let (gn, gd) = (unit.g_of(x) as i128, 10 * s.rsn as i128);
        self.name_if(half(un, ud), sign(un, Name::TieUUp, Name::TieUDown));
        self.name_if(half(vn, span), sign(vn, Name::TieVUp, Name::TieVDown));
        self.name_if(half(gn, gd), sign(gn, Name::TieGrossUp, Name::TieGrossDown));
        self.name_if(half(gn, gd) && s.tas == 0 && s.tav != 0, Name::NetTie);
        // the gross from one rounding of the whole quotient, less the zeros
        let zeros = (unit.z0 + unit.z1) as i128 * ud * span;
        let once = oracle::round_div(un * factor - zeros, ud * span * gd) * s.rsn as i128;
        self.name_if(once != unit.gross_of(x) as i128, Name::TwiceRounded);
    }

    fn limits(&mut self, unit: &Unit, x: i64) {
        let s = &unit.set;
        let gross = unit.gross_of(x);
        let value = if s.tas == 0 { gross - s.tav } else { gross };
        let reads = unit.display(gross);
        let (up, down) = (unit.display(gross + s.rsn), unit.display(gross - s.rsn));
        let lft = s.lft as usize;
        let (top, bottom) = match s.lft {
            0 => (160 * s.nov, -160 * s.nov),
            1 | 2 => (100 * (s.nov + 9 * s.rsn), -2000 * s.rsn),
            _ => (105 * s.nov, -2 * s.nov),
        };
        let edges = [
            reads == Reads::In && up == Reads::Over,
            100 * gross == top,
            reads == Reads::Over && down == Reads::In,
            reads == Reads::In && down == Reads::Under,
            100 * gross == bottom,
            reads == Reads::Under && up == Reads::In,
        ];
        for (i, _) in edges.iter().enumerate().filter(|e| *e.1) {
            self.hit(Group::Edge, lft * 6 + i);
        }
        let inside = reads == Reads::In;
        if s.tas == 0 {
            self.name_if(inside && unit.display(value) != Reads::In, Name::NetBeyond);
            self.name_if(!inside && unit.display(value) == Reads::In, Name::GrossBeyond);
        }
        self.name_if(s.cof == 9 && inside && value.abs() > 33_000, Name::Cof9Wide);
        if s.cof == 2 && inside {
            self.name_if(value == 32_766, Name::Cof2Top);
            self.name_if(value > 32_766, Name::Cof2Over);
            self.name_if(value == -32_767, Name::Cof2Bottom);
            self.name_if(value < -32_767, Name::Cof2Under);
        }
    }

    // ---- samples and restarts ----

    fn sample(&mut self, before: &Unit, after: &Unit, line: &[u8]) {
        let text = std::str::from_utf8(&line[2..]).ok();
        let Some((x, flag)) = text.and_then(|t| t.split_once(' ')) else { return };
        let Ok(x) = x.parse::<i64>() else { return };
        if i32::try_from(x).is_err() || !matches!(flag, "0" | "1") || line[2] == b'+' {
            return;
        }
        let still = flag == "1";
        self.name_if(before.line != Line::empty(), Name::SampleMidLine);
        self.raw_name(before.line != Line::empty(), RawName::RawSample);
        self.name_if(x > SAMPLE_LIMIT && still, Name::SampleOverSteady);
        self.name_if(x < -SAMPLE_LIMIT && still, Name::SampleUnderSteady);
        self.extremes(x);
        let outside = x.abs() > SAMPLE_LIMIT;
        if before.first_waiting {
            self.name_if(!still, Name::WaitUnsteady);
            self.name_if(still && outside, Name::WaitOver);
            if still && !outside {
                self.first(before, after, x);
            }
            return;
        }
        self.name_if(self.missed && still && !outside, Name::Spent);
        if before.set.ztr == 1 {
            self.name_if(!still && !outside, Name::TrackUnsteady);
            self.name_if(still && outside, Name::TrackOver);
            if still && !outside {
                self.track(before, after, x);
            }
        }
    }

    fn extremes(&mut self, x: i64) {
        for (n, name) in [
            (SAMPLE_LIMIT, Name::SampleTop),
            (SAMPLE_LIMIT + 1, Name::SampleBeyond),
            (-SAMPLE_LIMIT, Name::SampleBottom),
            (-SAMPLE_LIMIT - 1, Name::SampleBelow),
            (i32::MAX.into(), Name::SampleMax),
            (i32::MIN.into(), Name::SampleMin),
        ] {
            self.name_if(x == n, name);
        }
    }

    fn first(&mut self, before: &Unit, after: &Unit, x: i64) {
        let s = &before.set;
        let v = before.v_of(x);
        let (order, near) = band(v, ZSE_PERCENT[s.zse as usize], s.nov);
        let hit = order.is_le();
        if hit != (after.z0 == v) && v != 0 {
            self.strange("first zeroing followed otherwise".into());
        }
        let base = ((s.zse as usize - 1) * 2 + usize::from(v < 0)) * 4;
        self.hit(Group::First, base + if hit { 0 } else { 2 });
        if order.is_eq() {
            self.hit(Group::First, base + 1);
        }
        if !hit && near {
            self.hit(Group::First, base + 3);
        }
        self.missed = !hit;
        self.tried = true;
        let shown = if s.tas == 0 { v - 10 * s.tav } else { v };
        let small = s.ztr == 1 && shown != 0 && shown.abs() < 5 * s.rsn;
        self.name_if(!hit && small, Name::MissedTracked);
        self.name_if(hit && s.ztr == 1, Name::HitTracked);
    }

    fn track(&mut self, before: &Unit, after: &Unit, x: i64) {
        let s = &before.set;
        let g = before.g_of(x);
        let net = s.tas == 0;
        let shown = if net { g - 10 * s.tav } else { g };
        let size = shown.abs();
        self.name_if(shown == 0, Name::TrackNothing);
        self.name_if(size == 5 * s.rsn, Name::TrackLimit);
        if shown == 0 || size >= 5 * s.rsn {
            return;
        }
        if after.z1 == before.z1 {
            let (now, _) = band(before.z1, 2, s.nov);
            let outward = (before.z1 > 0) == (shown > 0);
            self.name_if(now.is_gt() && !outward, Name::TrackOutside);
            self.name_if(shown > 0, Name::TrackBandUp);
            self.name_if(shown < 0, Name::TrackBandDown);
            self.name_if(net, Name::TrackNetBlocked);
            return;
        }
        let rsn = RSN.iter().position(|r| *r == s.rsn).expect("RSN");
        self.hit(Group::Track, (rsn * 2 + usize::from(shown < 0)) * 2 + usize::from(net));
        self.name_if(size == 5 * s.rsn - 1, Name::TrackBelow);
        self.name_if(band(after.z1, 2, s.nov).0.is_eq(), Name::TrackToBand);
        self.name_if(s.lft > 0, Name::TrackSealed);
        self.name_if(before.display(before.gross_of(x)) != Reads::In, Name::TrackDisplay);
    }

    fn restart(&mut self, before: &Unit, after: &Unit) {
        let begun = before.line != Line::empty();
        let long = is_long(before);
        self.name_if(!begun, Name::RestartEmpty);
        self.name_if(begun, Name::RestartMidLine);
        self.raw_name(begun, RawName::RawRestart);
        self.name_if(is_quoted(before) && !long, Name::RestartMidQuote);
        self.name_if(long, Name::RestartMidLong);
        self.name_if(before.reason != 0, Name::RestartWithReason);
        self.name_if(before.open, Name::RestartOpen);
        self.name_if(before.set != before.saved, Name::RestartSaved);
        self.name_if(before.z0 != 0, Name::RestartZ0);
        self.name_if(before.z1 != 0, Name::RestartZ1);
        self.name_if(before.point.is_some(), Name::RestartPoint);
        self.name_if(after.first_waiting && self.tried, Name::RestartSpent);
        self.name_if(after.first_waiting && after.set.lft > 0, Name::RestartSealed);
        self.after_restart();
    }

    fn res(&mut self, before: &Unit) {
        self.name_if(before.reason != 0, Name::ResWithReason);
        self.name_if(before.open, Name::ResOpen);
        self.name_if(before.set != before.saved, Name::ResSaved);
        self.name_if(before.point.is_some(), Name::ResPoint);
        self.name_if(before.z0 != 0 || before.z1 != 0, Name::ResZero);
        self.after_restart();
    }

    fn after_restart(&mut self) {
        self.missed = false;
        self.pointed = false;
        self.restarted = true;
    }

    // ---- blocks ----

    /// One raw line; `block` is the block and its room where it is one.
    pub fn raw_line(&mut self, before: &Unit, line: &[u8], after: &Unit, block: Option<(&[u8], usize)>) {
        match block {
            Some((bytes, room)) => self.block(before, bytes, room, after),
            None => self.event(before, after, line),
        }
    }

    fn block(&mut self, before: &Unit, bytes: &[u8], room: usize, after: &Unit) {
        let mut unit = *before;
        let mut follow = Follow::of(&unit);
        let (mut taken, mut written, mut replies, mut exact) = (0, 0, 0, false);
        let begun = follow.kept > 0;
        while taken < bytes.len() && room - written >= ROOM_LIMIT {
            exact |= room - written == ROOM_LIMIT && written > 0;
            let had = follow.kept > 0;
            let cr = taken > 0 && bytes[taken - 1] == b'\r' && !follow.quoted;
            self.raw_name(bytes[taken] == b'\n' && cr && had, RawName::CrLf);
            let binary = matches!(unit.set.cof, 0 | 2) && unit.line.bytes().eq_ignore_ascii_case(b"MSV?");
            let reply = self.byte(&mut unit, &mut follow, bytes[taken]);
            taken += 1;
            let silent = reply.is_none() && had && follow.kept == 0;
            self.raw_name(silent && taken < bytes.len(), RawName::ResInside);
            if let Some(reply) = reply {
                replies += 1;
                written += reply.body().len() + 2;
                self.raw_name(reply.body().len() == 15, RawName::RawLongest);
                self.raw_name(binary && reply.body() != b"?", RawName::RawBinary);
            }
        }
        if unit != *after {
            self.strange("a block followed otherwise".into());
        }
        self.hit(Group::Room, room.min(60));
        let ended = taken < bytes.len();
        self.raw_name(bytes.is_empty(), RawName::BlockEmpty);
        self.raw_name(!bytes.is_empty() && !ended && written == 0, RawName::BlockWhole);
        self.raw_name(replies >= 2, RawName::BlockReplies);
        self.raw_name(!ended && follow.kept > 0, RawName::BlockMidLine);
        self.raw_name(begun && taken > 0, RawName::BlockFromMidLine);
        self.raw_name(room < ROOM_LIMIT && !bytes.is_empty(), RawName::RoomShort);
        self.raw_name(ended && written > 0, RawName::RoomEnds);
        self.raw_name(exact, RawName::RoomExact);
        self.raw_name(ended && room - written == ROOM_LIMIT - 1, RawName::RoomSixteen);
        self.raw_name(written > 0 && room == written, RawName::RoomFilled);
        self.raw_name(ended && bytes[taken] != b';' && bytes[taken] != b'\n', RawName::RoomSilent);
    }

    /// What became of the rest of a block that was not taken whole.
    pub fn rest(&mut self, sent: bool) {
        self.raw_name(sent, RawName::RestSent);
        self.raw_name(!sent, RawName::RestDropped);
    }
}
