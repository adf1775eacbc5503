//! What a run has reached. Every line is gone through again beside the run,
//! byte by byte, and counted by the state before and after.

mod follow;

use crate::table::*;

pub use follow::is_quoted;

/// Groups of counts with their sizes; `named` holds all that needs no grid.
macro_rules! groups {
    ($($id:ident $size:expr, $title:literal;)*) => {
        #[derive(Clone, Copy, PartialEq)]
        pub enum Group { $($id),* }
        const SIZES: &[usize] = &[$($size),*];
        const TITLES: &[&str] = &[$($title),*];
    };
}

groups! {
    Done 24 * 4, "done, by command and form";
    Refused 24 * 4 * 12, "refused, by command, form and reason";
    Malformed 25, "malformed (02) after this name";
    Unknown 4, "unknown name (01) in this form";
    Unsteady 4 * 4, "no steady reading (06), by command and what was last seen";
    Range 13 * 4, "numbers at the ends of their range";
    Tare 2 * 4, "TAV at the ends of its range";
    Member 10, "listed numbers done";
    Change 5 * 5, "LFT done, from and to";
    Weight 4 * 5 * 5, "MSV?, by COF, LFT and how it reads";
    Edge 5 * 6, "MSV? at the display limits, by LFT";
    Status 64, "COF9 status, sum";
    Bit 6 * 2, "COF9 status, each bit";
    First 4 * 2 * 4, "first zeroing, by ZSE and sign";
    Track 6 * 2 * 2, "tracking moves, by RSN";
    Reset 10 * 5, "resets that had something to reset";
    Outside 256, "bytes outside quotes (hex)";
    Inside 256, "bytes inside quotes (hex)";
    Kept 44, "lines by bytes kept";
    Error 12, "ESR? replies";
    Length 9, "DPW texts by length";
    Bad BAD_FORMS.len(), "bench lines of no form";
    Named NAMES.len(), "single items";
    Room 61, "room lent";
    BadRaw BAD_RAW.len(), "raw lines of no form";
    RawNamed RAW_NAMES.len(), "blocks and rooms";
}

/// Bench lines of no form; the generator prints the line, with random digits
/// for `#`.
pub const BAD_FORMS: &[&str] = &[
    "",
    " ",
    "c",
    "C MSV?",
    "cMSV?",
    " c MSV?",
    "r ",
    " r",
    "R",
    "rr",
    "r\r",
    "s",
    "s ",
    "s 1",
    "s #",
    "s # 2",
    "s # 1 ",
    "s  # 1",
    "s #  1",
    "s +# 1",
    "s - 1",
    "s --# 1",
    "s 2147483648 1",
    "s -2147483649 0",
    "s 9999999999999999999999# 1",
    "s 1e3 0",
    "s #.0 0",
    "s # 01",
    "s # -1",
    "s\t# 1",
    "s # 1\r",
    "S # 1",
    "x",
    "b 17 00",
    "#",
    "\"",
    "s 4294967296 1",
    "s -4294967297 1",
    "s 18446744073709551616 1",
    "s 0x1 1",
    "s # ",
    "s  1",
    "? MSV?",
    "c;MSV?",
    "s 1 # 1",
    "s # 1 1",
];

/// Raw lines of no form.
pub const BAD_RAW: &[&str] = &[
    "", "c TAS?", "c ", "b", "b ", "b 17", "b x 00", "b 17 0", "b 17 0g", "b  17 00", "b 17  00", "B 17 00", "s # 2",
    "r ",
];

/// Single items, and why no session reaches them where none does.
macro_rules! names {
    ($kind:ident $list:ident: $($id:ident $text:literal $(never $why:literal)?;)*) => {
        #[derive(Clone, Copy)]
        pub enum $kind { $($id),* }
        const $list: &[(&str, Option<&str>)] = &[$(($text, names!(@ $($why)?))),*];
    };
    (@) => { None };
    (@ $why:literal) => { Some($why) };
}

names! { Name NAMES:
    EmptyLine "a line that kept nothing";
    EmptyAfterDropped "dropped bytes alone";
    DroppedInside "dropped bytes inside a command";
    LongDone "a line over 120 bytes that is done (all but its command dropped)";
    LongQuote "too long, with a quote as byte 41";
    LongSemicolon "too long, with ; inside quotes after byte 40";
    BenchLong "a bench line over 4,000 bytes";
    LastWithoutLf "last bench line without LF";
    SemicolonKept "; kept inside quotes";
    OpenAtEnd "quote open at the end of a c line";
    ClosedLater "quote closed by a later c line";
    SampleMidLine "sample in mid-line";
    RestartEmpty "restart between lines";
    RestartMidLine "restart in mid-line";
    RestartMidQuote "restart inside an open quote";
    RestartMidLong "restart in a line that is too long";
    RestartWithReason "restart with a reason standing";
    RestartOpen "restart with the lock open";
    RestartSaved "restart brings other settings back";
    RestartZ0 "restart clears z0";
    RestartZ1 "restart clears z1";
    RestartPoint "restart drops a waiting point";
    RestartSpent "restart waits again after a try";
    RestartSealed "restart waits while sealed";
    ResFollowed "RES and more commands in one c line";
    ResWithReason "RES with a reason standing";
    ResOpen "RES with the lock open";
    ResSaved "RES brings other settings back";
    ResPoint "RES drops a waiting point";
    ResZero "RES clears z0 or z1";
    Two "two replies to one c line";
    Many "five or more replies to one c line";
    NoReply "c line without a reply";
    ReplyLf "MSV? reply with the byte LF in it";
    ReplyCrLf "MSV? reply ending CR LF before its CR LF";
    SampleOverSteady "over sample with still flag";
    SampleUnderSteady "under sample with still flag";
    SampleTop "x 1599999";
    SampleBeyond "x 1600000";
    SampleBottom "x -1599999";
    SampleBelow "x -1600000";
    SampleMax "x 2147483647";
    SampleMin "x -2147483648";
    WaitUnsteady "unsteady sample while the first zeroing waits";
    WaitOver "over or under still sample while the first zeroing waits";
    Spent "steady sample after a missed try";
    WaitTdd0 "TDD0 ends waiting";
    WaitTdd2 "TDD2 ends waiting";
    WaitKept "COF, TAS, TAV, TDD1, CWT, LDW done while waiting";
    MissedTracked "missed try with a value that would be tracked";
    HitTracked "hit try with ZTR 1";
    TrackNothing "tracking: value 0";
    TrackLimit "tracking: value 5 RSN tenths in size, no move";
    TrackBelow "tracking: value 5 RSN - 1 tenths in size, moved";
    TrackToBand "tracking: move onto 2 % of NOV exactly";
    TrackBandUp "tracking: blocked by the band, up";
    TrackBandDown "tracking: blocked by the band, down";
    TrackOutside "tracking: z1 beyond the band, inward move not made";
    TrackUnsteady "tracking: unsteady sample";
    TrackOver "tracking: over or under still sample";
    TrackNetBlocked "tracking: net shown, blocked by the band";
    TrackSealed "tracking while sealed";
    TrackDisplay "tracking with gross outside the display range";
    CdlEdgeUp "CDL at +20 % exactly";
    CdlEdgeDown "CDL at -20 % exactly";
    CdlEdgeUpSealed "CDL at +2 % exactly, sealed";
    CdlEdgeDownSealed "CDL at -2 % exactly, sealed";
    CdlOverUp "CDL one tenth beyond +20 %";
    CdlOverDown "CDL one tenth beyond -20 %";
    CdlOverUpSealed "CDL one tenth beyond +2 %, sealed";
    CdlOverDownSealed "CDL one tenth beyond -2 %, sealed";
    CdlZ0 "CDL with z0 in force";
    CdlAgain "CDL with another z1 in force";
    CdlSumBeyond "CDL done with v beyond the band and v - z0 within";
    CdlDisplay "CDL done with gross outside the display range";
    TarTop "TAR at NOV exactly";
    TarBottom "TAR at -NOV exactly";
    TarZero "TAR at 0, sealed";
    TarAbove "TAR one step above NOV (07)";
    TarBelow "TAR one step below -NOV (07)";
    TarBelowSealed "TAR one step below 0, sealed (07)";
    TarAgain "TAR with net shown and a tare in force";
    TarTie "TAR with gross at a half";
    TarDisplay "TAR refused by the display range alone" never "the tare range lies inside the display range at every LFT";
    NetTie "net shown with gross at a half and a tare";
    NetBeyond "net outside the display range, gross within";
    GrossBeyond "gross outside the display range, net within";
    TieUUp "half in u, positive";
    TieUDown "half in u, negative";
    TieVUp "half in v, positive";
    TieVDown "half in v, negative";
    TieGrossUp "half in gross, positive";
    TieGrossDown "half in gross, negative";
    TwiceRounded "weight that rounding once would change";
    HeldChanged "weight of a held sample changed by a setting";
    Cof2Top "COF2 value 32766";
    Cof2Over "COF2 value above 32766, in display range";
    Cof2Bottom "COF2 value -32767";
    Cof2Under "COF2 value below -32767, in display range";
    Cof9Wide "COF9 in display range with a value that COF2 cannot give";
    LwtSpan "LWT with a span of 10,000";
    LwtSpanShort "LWT with a span of 9,999 (03)";
    LwtSpanWide "LWT with a span above 3,000,000";
    LwtMeasuredGca "measured LWT with GCA other than GDE";
    LwtNumberGca "LWT by number with GCA other than GDE";
    LwtCwt "LWT with another waiting CWT";
    LwtOther "LWT after LDW was given twice";
    PointKept "waiting point kept by an accepted setting";
    PointTdd0 "TDD0 drops a waiting point";
    PointTdd2 "TDD2 drops a waiting point";
    PointLft "LFT change drops a waiting point";
    PointSpan "waiting point kept by a refused LWT";
    TddZ0 "TDD0 or TDD2 clears z0";
    TddZ1 "TDD0 or TDD2 clears z1";
    Tdd0Differs "TDD0 with other settings in use";
    Tdd0Locked "TDD0 locked";
    Tdd0Sealed "TDD0 sealed";
    Tdd1Differs "TDD1 with other settings saved";
    Tdd1Sealed "TDD1 while sealed and locked";
    Tdd2Differs "TDD2 brings other settings back";
    Tdd2Tare "TDD2 brings a saved tare back";
    Tdd2Sealed "TDD2 while sealed brings others back";
    TddValueLocked "TDD value (03) while locked";
    LftSaves "LFT change saves other settings";
    LftSameKept "LFT with its value, with a point, zero or tare standing";
    LftSameUnsaved "LFT with its value and settings unsaved";
    LftSealedChange "LFT change from one sealed mode to another";
    SpwOpens "SPW opens";
    SpwAgain "SPW right while open";
    SpwLocks "SPW wrong while open";
    SpwWrong "SPW wrong while locked";
    SpwCase "SPW with the password in the other case";
    SpwEmpty "SPW with the empty text";
    SpwLonger "SPW with the password and more";
    SpwEight "SPW with 8 bytes and more";
    SpwShapeOpen "SPW malformed or in a lacking form while open";
    DpwOpen "DPW while open";
    DpwLocked "DPW while locked";
    DpwChanged "SPW opens with a changed password";
    DpwRestart "SPW opens after a restart with a changed password";
    Leading "number with leading zeros";
    TenDigits "number of 10 digits beyond 32 bits";
    ElevenDigits "number of 11 digits";
    Plus "number with a plus";
    MinusZero "-0";
    LowerCase "name in lower case";
    CounterEndZero "LFT0 made at the counter's end" never "9,999,999 LFT changes are needed: shown by proof, run by `compare counter`";
    CounterTen "counter of 10 and more";
}

names! { RawName RAW_NAMES:
    BlockEmpty "empty block";
    BlockWhole "block taken whole, nothing written";
    BlockReplies "block with two replies and more";
    BlockMidLine "block that ends in mid-line";
    BlockFromMidLine "block that begins in mid-line";
    RoomShort "room under 17: nothing taken";
    RoomEnds "room ends before the block";
    RoomExact "exactly 17 free bytes before a byte taken, after a reply";
    RoomSixteen "16 free bytes left before a byte not taken";
    RoomFilled "room filled to its last byte";
    RoomSilent "a byte without a reply not taken for want of room";
    RestSent "the rest sent on in the next block";
    RestDropped "the rest not sent on";
    Lf "LF ends a line";
    LfQuoted "LF ends a line inside quotes";
    LfLong "LF ends a line that is too long";
    CrLf "CR LF ends a line";
    ResInside "RES with more bytes after it in the block";
    RawRestart "restart in mid-line";
    RawSample "sample in mid-line";
    RawBinary "COF0 or COF2 reply in a block";
    RawLongest "the reply of 17 bytes";
}

/// Where each group begins in the flat row of counts.
const BASES: [usize; SIZES.len() + 1] = {
    let mut bases = [0; SIZES.len() + 1];
    let mut i = 0;
    while i < SIZES.len() {
        bases[i + 1] = bases[i] + SIZES[i];
        i += 1;
    }
    bases
};

const KINDS: [&str; 5] = ["in", "over", "under", "over sample", "under sample"];
const EDGES: [&str; 6] = ["at top", "top exactly", "over by a step", "at bottom", "bottom exactly", "under by a step"];
const ENDS: [&str; 4] = ["lowest", "highest", "below (03)", "above (03)"];
const TRIES: [&str; 4] = ["hit", "hit at the band's end", "missed", "missed by a tenth"];
const STEADY: [&str; 4] = ["LDW", "LWT", "TAR", "CDL"];
const SEEN: [&str; 4] = ["nothing", "unsteady", "over", "under"];
const RESETS: [&str; 5] = ["z0", "z1", "tare", "net", "waiting"];
const BITS: [&str; 6] = ["1 net", "2 still", "4 over", "8 under", "16 waiting", "32 sealed"];
const LENGTHS: [&str; 9] = ["0 (03)", "1", "2", "3", "4", "5", "6", "7", "8 and more (03)"];

pub struct Cover {
    count: Vec<u64>,
    /// A lacking reading of the coverage itself: named, and a failure.
    strange: Option<String>,
    /// Whether a missed try has been followed since the restart.
    missed: bool,
    tried: bool,
    pointed: bool,
    changed_password: bool,
    restarted: bool,
}

/// One item of the report.
pub struct Item {
    pub label: String,
    pub count: u64,
    /// None: to be reached. Some: cannot be, with the reason.
    pub never: Option<&'static str>,
}

impl Cover {
    pub fn new() -> Cover {
        Cover {
            count: vec![0; BASES[SIZES.len()]],
            strange: None,
            missed: false,
            tried: false,
            pointed: false,
            changed_password: false,
            restarted: false,
        }
    }

    /// Before the next session: what is followed along a session begins anew.
    pub fn new_session(&mut self) {
        (self.missed, self.tried, self.pointed) = (false, false, false);
        (self.changed_password, self.restarted) = (false, false);
    }

    pub fn add(&mut self, other: &Cover) {
        for (a, b) in self.count.iter_mut().zip(&other.count) {
            *a += b;
        }
        if self.strange.is_none() {
            self.strange = other.strange.clone();
        }
    }

    pub fn hit(&mut self, group: Group, at: usize) {
        assert!(at < SIZES[group as usize]);
        self.count[BASES[group as usize] + at] += 1;
    }

    pub fn name(&mut self, name: Name) {
        self.hit(Group::Named, name as usize);
    }

    fn name_if(&mut self, is: bool, name: Name) {
        if is {
            self.name(name);
        }
    }

    fn raw_name(&mut self, is: bool, name: RawName) {
        if is {
            self.hit(Group::RawNamed, name as usize);
        }
    }

    fn strange(&mut self, what: String) {
        self.strange.get_or_insert(what);
    }
}

/// The items of a group, in order: the label and why it cannot be reached;
/// None where the item is not one at all.
type Label = Option<(String, Option<&'static str>)>;

/// What the counter's end needs.
const COUNTER: &str = "9,999,999 LFT changes are needed: shown by proof, run by `compare counter`";

fn label(group: Group, i: usize, raw: bool) -> Label {
    match group {
        Group::Done => {
            let c = &COMMANDS[i / 4];
            c.takes[i % 4].then(|| (format!("{} {}", c.name, FORMS[i % 4]), None))
        }
        Group::Refused => {
            let (c, form, reason) = (i / 48, i / 12 % 4, i % 12);
            let text = format!("{} {} {reason:02}", COMMANDS[c].name, FORMS[form]);
            can_give(c, form, reason as u8).then_some((text, (reason == 9).then_some(COUNTER)))
        }
        Group::Status => status(i),
        Group::Outside | Group::Inside => byte_label(group, i, raw),
        Group::Kept if i == 0 => None,
        Group::Error => Some((format!("{i:02}"), (i == 9).then_some(COUNTER))),
        Group::Named => Some((NAMES[i].0.into(), NAMES[i].1)),
        Group::RawNamed => Some((RAW_NAMES[i].0.into(), RAW_NAMES[i].1)),
        _ => Some((plain_label(group, i), None)),
    }
}

/// The labels of groups in which every item can be reached.
fn plain_label(group: Group, i: usize) -> String {
    match group {
        Group::Malformed => COMMANDS.get(i).map_or("no name of the table", |c| c.name).into(),
        Group::Unknown => FORMS[i].into(),
        Group::Unsteady => format!("{} {}", STEADY[i / 4], SEEN[i % 4]),
        Group::Range => format!("{} {}", RANGES[i / 4].0, ENDS[i % 4]),
        Group::Tare => format!("{} {}", ["LFT 0", "sealed"][i / 4], ENDS[i % 4]),
        Group::Member if i < 6 => format!("RSN{}", RSN[i]),
        Group::Member => format!("COF{}", COF[i - 6]),
        Group::Change => format!("{}>{}", i / 5, i % 5),
        Group::Weight => format!("COF{} LFT{} {}", COF[i / 25], i / 5 % 5, KINDS[i % 5]),
        Group::Edge => format!("LFT{} {}", i / 6, EDGES[i % 6]),
        Group::Bit => format!("{} {}", BITS[i / 2], ["unset", "set"][i % 2]),
        Group::First => format!("ZSE{} {} {}", i / 8 + 1, ["+", "-"][i / 4 % 2], TRIES[i % 4]),
        Group::Track => {
            format!("RSN{} {} {}", RSN[i / 4], ["up", "down"][i / 2 % 2], ["gross", "net"][i % 2])
        }
        Group::Reset => format!("{} {}", RESETTING[i / 5], RESETS[i % 5]),
        Group::Kept if i == 43 => "43 and more".into(),
        Group::Length => LENGTHS[i].into(),
        Group::Bad => format!("{:?}", BAD_FORMS[i]),
        Group::BadRaw => format!("{:?}", BAD_RAW[i]),
        _ => i.to_string(),
    }
}

/// Over and under exclude each other, and the sample that is still ends the
/// waiting.
fn status(i: usize) -> Label {
    let text = format!("{i:03}");
    if i & 12 == 12 {
        return Some((text, Some("a weight does not read over and under at once")));
    }
    if i & 18 == 18 {
        return Some((text, Some("the first still sample in range ends the waiting for the first zeroing")));
    }
    Some((text, None))
}

fn byte_label(group: Group, i: usize, raw: bool) -> Label {
    let text = format!("{i:02x}");
    match (group, i) {
        (Group::Outside, 0x3b) => None,
        (_, 0x0a) if !raw => Some((text, Some("LF ends a bench line; blocks hold it"))),
        (_, 0x0a) => None,
        _ => Some((text, None)),
    }
}

const ALL: [Group; 26] = [
    Group::Done,
    Group::Refused,
    Group::Malformed,
    Group::Unknown,
    Group::Unsteady,
    Group::Range,
    Group::Tare,
    Group::Member,
    Group::Change,
    Group::Weight,
    Group::Edge,
    Group::Status,
    Group::Bit,
    Group::First,
    Group::Track,
    Group::Reset,
    Group::Outside,
    Group::Inside,
    Group::Kept,
    Group::Error,
    Group::Length,
    Group::Bad,
    Group::Named,
    Group::Room,
    Group::BadRaw,
    Group::RawNamed,
];

/// A verdict and the text that gives it.
pub struct Report {
    pub fails: bool,
    pub summary: String,
    pub text: String,
}

impl Cover {
    fn items(&self, group: Group, raw: bool) -> Vec<Item> {
        let base = BASES[group as usize];
        (0..SIZES[group as usize])
            .filter_map(|i| {
                let (label, never) = label(group, i, raw)?;
                Some(Item { label, count: self.count[base + i], never })
            })
            .collect()
    }

    /// Refusals that document 01 does not know.
    fn unexpected(&self) -> Vec<String> {
        let base = BASES[Group::Refused as usize];
        (0..SIZES[Group::Refused as usize])
            .filter(|i| self.count[base + i] > 0 && !can_give(i / 48, i / 12 % 4, (i % 12) as u8))
            .map(|i| format!("{} {} {:02}", COMMANDS[i / 48].name, FORMS[i / 12 % 4], i % 12))
            .collect()
    }

    pub fn report(&self, raw: bool) -> Report {
        let raw_group = |g: Group| matches!(g, Group::Room | Group::BadRaw | Group::RawNamed);
        let bench_only = |g: Group| matches!(g, Group::Bad | Group::Named);
        let mut text = String::new();
        let (mut reached, mut missing, mut never, mut wrong) = (0, Vec::new(), Vec::new(), Vec::new());
        for group in ALL {
            if if raw { bench_only(group) } else { raw_group(group) } {
                continue;
            }
            let title = TITLES[group as usize];
            let items = self.items(group, raw);
            text.push_str(&format!("\n{title}:\n{}", wrap(&items)));
            for item in items {
                let name = format!("{title}: {}", item.label);
                match item.never {
                    Some(why) if item.count == 0 => never.push(format!("{name}: {why}")),
                    Some(_) => wrong.push(format!("reached although held unreachable: {name}")),
                    None if item.count == 0 => missing.push(name),
                    None => reached += 1,
                }
            }
        }
        wrong.extend(self.unexpected().into_iter().map(|u| format!("unexpected refusal: {u}")));
        wrong.extend(self.strange.iter().map(|s| format!("coverage: {s}")));
        text.push_str("\nnot reachable from a session:\n");
        never.iter().for_each(|n| text.push_str(&format!("  {n}\n")));
        missing.iter().for_each(|n| text.push_str(&format!("NOT REACHED  {n}\n")));
        wrong.iter().for_each(|n| text.push_str(&format!("WRONG  {n}\n")));
        let all = reached + missing.len();
        let summary = format!(
            "coverage: {reached} of {all} items reached, {} cannot be reached, {} wrong",
            never.len(),
            wrong.len()
        );
        Report { fails: !missing.is_empty() || !wrong.is_empty(), summary, text }
    }
}

/// Labels and counts, several on a line.
fn wrap(items: &[Item]) -> String {
    let mut text = String::new();
    let mut width = 0;
    for item in items.iter().filter(|i| i.never.is_none()) {
        let piece = format!("  {}: {}", item.label, item.count);
        if width + piece.len() > 110 && width > 0 {
            text.push('\n');
            width = 0;
        }
        text.push_str(&piece);
        text.push(',');
        width += piece.len() + 1;
    }
    text.pop();
    text.push('\n');
    text
}
