//! Document 01's table of commands and its reasons, as the generator aims by
//! them and the coverage counts by them. Not used for any reply.

/// The forms of a parameter.
pub const NOTHING: usize = 0;
pub const QUERY: usize = 1;
pub const NUMBER: usize = 2;
pub const TEXT: usize = 3;
pub const FORMS: [&str; 4] = ["nothing", "query", "number", "text"];

pub struct Command {
    pub name: &'static str,
    /// Forms taken: nothing, query, number, text.
    pub takes: [bool; 4],
    /// Marked P.
    pub locked: bool,
    /// Marked S.
    pub sealed: bool,
}

const fn command(name: &'static str, takes: [u8; 4], locked: bool, sealed: bool) -> Command {
    let takes = [takes[0] == 1, takes[1] == 1, takes[2] == 1, takes[3] == 1];
    Command { name, takes, locked, sealed }
}

pub const COMMANDS: [Command; 24] = [
    command("GCA", [0, 1, 1, 0], true, true),
    command("GDE", [0, 1, 1, 0], true, true),
    command("CWT", [0, 1, 1, 0], true, true),
    command("LDW", [1, 1, 1, 0], true, true),
    command("LWT", [1, 1, 1, 0], true, true),
    command("NOV", [0, 1, 1, 0], true, true),
    command("RSN", [0, 1, 1, 0], true, true),
    command("ENU", [0, 1, 1, 0], true, true),
    command("DPT", [0, 1, 1, 0], true, true),
    command("ZSE", [0, 1, 1, 0], true, true),
    command("ZTR", [0, 1, 1, 0], true, true),
    command("LFT", [0, 1, 1, 0], true, false),
    command("COF", [0, 1, 1, 0], false, false),
    command("TAS", [0, 1, 1, 0], false, false),
    command("TAV", [0, 1, 1, 0], false, false),
    command("TAR", [1, 0, 0, 0], false, false),
    command("CDL", [1, 0, 0, 0], false, false),
    command("RES", [1, 0, 0, 0], false, false),
    // TDD0 alone is marked P S.
    command("TDD", [0, 0, 1, 0], true, true),
    command("SPW", [0, 0, 0, 1], false, false),
    command("DPW", [0, 0, 0, 1], false, false),
    command("MSV", [0, 1, 0, 0], false, false),
    command("TCR", [0, 1, 0, 0], false, false),
    command("ESR", [0, 1, 0, 0], false, false),
];

/// The place of a folded name in the table.
pub fn place(name: &[u8]) -> Option<usize> {
    COMMANDS.iter().position(|c| c.name.as_bytes() == name)
}

/// The place of a name that stands in the table.
pub fn at(name: &str) -> usize {
    place(name.as_bytes()).expect("a name of the table")
}

/// Whether document 01 lets this command in this form be refused for this
/// reason. 09 is among them although no session reaches it.
pub fn can_give(command: usize, form: usize, reason: u8) -> bool {
    let c = &COMMANDS[command];
    if !c.takes[form] {
        return reason == 2;
    }
    if form == QUERY {
        return c.name == "MSV" && reason == 6;
    }
    match reason {
        3 => form == NUMBER || matches!((c.name, form), ("LWT", NOTHING) | ("DPW", TEXT)),
        4 => c.locked,
        5 => c.sealed,
        6 => form == NOTHING && matches!(c.name, "LDW" | "LWT" | "TAR" | "CDL"),
        7 => matches!(c.name, "TAR" | "CDL"),
        8 => c.name == "LWT",
        9 => c.name == "LFT",
        11 => c.name == "SPW",
        _ => false,
    }
}

/// Numbers that a setting takes from lowest to highest, where they do not
/// depend on the state. No LWT below -1589999 keeps the span of 10,000.
pub const RANGES: [(&str, i64, i64); 13] = [
    ("GCA", 970_000, 990_000),
    ("GDE", 970_000, 990_000),
    ("CWT", 200_000, 1_200_000),
    ("LDW", -1_599_999, 1_599_999),
    ("LWT", -1_589_999, 1_599_999),
    ("NOV", 100, 100_000),
    ("ENU", 0, 4),
    ("DPT", 0, 4),
    ("ZSE", 0, 4),
    ("ZTR", 0, 1),
    ("LFT", 0, 4),
    ("TAS", 0, 1),
    ("TDD", 0, 2),
];

pub const RSN: [i64; 6] = [1, 2, 5, 10, 20, 50];
pub const COF: [i64; 4] = [0, 2, 3, 9];

/// Commands whose acceptance (LFT: change) makes the resets.
pub const RESETTING: [&str; 10] = ["GCA", "GDE", "LWT", "NOV", "RSN", "ENU", "DPT", "ZSE", "ZTR", "LFT"];

/// Percent of NOV for the codes of ZSE.
pub const ZSE_PERCENT: [i64; 5] = [0, 2, 5, 10, 20];
