//! Moves about lines: shapes, bytes, quotes, lengths, forms and the lock.

use super::Generator;
use crate::cover::{Group, BAD_FORMS, BAD_RAW};
use crate::table::*;

impl Generator<'_> {
    pub(super) fn lock(&mut self) {
        if self.rng.one_in(3) {
            let text = self.any_text(9);
            self.say(&format!("DPW\"{text}\""));
        }
        if self.rng.one_in(8) {
            self.restart();
        }
        let password = self.password();
        let other: String = password
            .chars()
            .map(|c| if c.is_uppercase() { c.to_ascii_lowercase() } else { c.to_ascii_uppercase() })
            .collect();
        for _ in 0..1 + self.rng.below(3) {
            match self.rng.below(11) {
                0 | 1 | 2 => self.say(&format!("SPW\"{password}\"")),
                3 => self.say(&format!("SPW\"{other}\"")),
                4 => self.say("SPW\"\""),
                5 => self.say(&format!("SPW\"{password}x\"")),
                6 => self.say(&format!("SPW\"{}\"", &password[..password.len() - 1])),
                7 => {
                    let text = self.any_text(33);
                    self.say(&format!("SPW\"{text}\""));
                }
                8 => {
                    let tail = self.rng.of(&["", "?", "5", "\"\u{7f}\"", "\"A\"B", "AED", "\"\"\"\""]);
                    self.say(&format!("SPW{tail}"));
                }
                9 => self.say("SPW\"AED\""),
                _ => self.say(&format!("spw \"{password}\" ")),
            }
        }
        let probe = self.rng.of(&["ENU1", "DPT2", "LFT0", "CWT900000", "LDW5", "TDD0"]);
        if self.rng.one_in(2) {
            self.say(probe);
        }
    }

    pub(super) fn odd_shape(&mut self) {
        let c = &COMMANDS[self.rng.below(COMMANDS.len())];
        let name = if self.rng.one_in(3) { self.unknown() } else { c.name.to_string() };
        let tail = self.odd_tail();
        let line = match self.rng.below(12) {
            0 => name[..2].to_string() + &tail,
            1 => format!("{}1{tail}", &name[..2]),
            2 => format!("{name}{name}"),
            3 => self.rng.of(&["T", "TA", "1", "?", "+", "\"\"", "12", "[AS?", "T@S?", "TA{?", "`AS?"]).into(),
            _ => name + &tail,
        };
        self.say(&line);
        if self.rng.one_in(3) {
            self.say("ESR?");
        }
    }

    /// A parameter of any shape, well-formed or not.
    fn odd_tail(&mut self) -> String {
        const ODD: [&str; 32] = [
            "??", "?1", "1?", "-", "+", "--1", "+-1", "1-", "1+", "-+0", "1,1", "1.0", "1E0", "1e2", "0x1", ".5", "1.",
            "%", "A", "\"A\"B", "\"\"\"\"", "\"A\"5", "5\"A\"", "\u{7f}", "~", "|", ":", "/", "@", "[", "`", "{",
        ];
        let digits = self.rng.between(0, 9_999_999_999);
        match self.rng.below(22) {
            0 | 1 => String::new(),
            2 | 3 => "?".into(),
            4..=6 => self.number(digits % 100),
            7..=9 => {
                let text = self.any_text(8);
                format!("\"{text}\"")
            }
            10..=14 => self.rng.of(&ODD).into(),
            15 => format!("{digits}1111111111"),
            16 | 17 => format!("{:011}", digits % 100),
            18 => format!("-{digits:010}"),
            19 => format!("+{digits:010}"),
            20 => format!("-{:011}", digits % 100),
            _ => "\"\"".into(),
        }
    }

    /// A known name in a form that it lacks.
    pub(super) fn lacking(&mut self) {
        let c = &COMMANDS[self.rng.below(COMMANDS.len())];
        let form = self.rng.below(4);
        let tail = match form {
            NOTHING => String::new(),
            QUERY => "?".into(),
            NUMBER => {
                let n = self.rng.between(-1, 3);
                self.number(n)
            }
            _ => {
                let text = self.any_text(8);
                format!("\"{text}\"")
            }
        };
        if !c.takes[form] {
            self.say(&format!("{}{tail}", c.name));
        }
    }

    /// Three letters that name nothing, often near a name.
    pub(super) fn unknown(&mut self) -> String {
        loop {
            let mut name: Vec<u8> = COMMANDS[self.rng.below(COMMANDS.len())].name.bytes().collect();
            let at = self.rng.below(3);
            name[at] = b'A' + self.rng.below(26) as u8;
            if place(&name).is_none() {
                return String::from_utf8(name).expect("letters");
            }
        }
    }

    /// Lines of 37 to 44 kept bytes and far more, of all kinds.
    pub(super) fn long_line(&mut self) {
        let n = if self.rng.one_in(8) { 45 + self.rng.below(200) } else { 37 + self.rng.below(8) };
        let n = match self.rng.below(6) {
            0 => 5 + self.rng.below(34),
            1..=3 => 39 + self.rng.below(4),
            _ => n,
        };
        let fill = |n: usize, b: &str| b.repeat(n);
        let text = match self.rng.below(9) {
            0 => format!("SPW\"{}\"", fill(n - 5, "x")),
            1 => format!("DPW\"{}\"", fill(n - 5, ";")),
            2 => fill(n, "1"),
            3 => fill(n, "x"),
            4 => format!("XYZ{}", fill(n - 3, "0")),
            // a quote as byte 40, 41 or 42, closed or left open
            5 => format!("{}\";TAS?;\"", fill(39 + self.rng.below(3), "x")),
            6 => format!("{}\"", fill(39 + self.rng.below(3), "x")),
            // mostly dropped bytes: the command is short
            7 => format!("TAS{}?", fill(self.rng.below(300), " ")),
            _ => format!("{}TCR?", fill(130, "\r ")),
        };
        if self.rng.one_in(2) {
            self.say(&text);
        } else {
            self.command(text.as_bytes());
        }
        if self.rng.one_in(50) {
            let blanks = if self.rng.one_in(8) { 70_000 } else { 4100 };
            self.command(format!("TAS{}?", fill(if self.raw { 50 } else { blanks }, " ")).as_bytes());
        }
        if self.rng.one_in(3) {
            self.restart();
        } else if self.rng.one_in(2) {
            self.say("ESR?");
        }
    }

    /// A text cut in two or three by the lines of the session.
    pub(super) fn open_quote(&mut self) {
        let text = self.any_text(5);
        let name = self.rng.of(&["DPW", "SPW", "XYZ", "TAV", ""]);
        self.command(format!("{name}\"{text}").as_bytes());
        match self.rng.below(6) {
            0 => self.restart(),
            1 => self.some_sample(),
            2 => self.command(b"TAS?"),
            _ => {}
        }
        if !self.rng.one_in(5) {
            let more = self.any_text(2);
            self.command(format!("{more}\"").as_bytes());
        }
        if self.rng.one_in(4) {
            let text = format!("SPW\"{}\"", self.password());
            self.say(&text);
        }
    }

    /// A command with bytes of any value put in or in place of others.
    pub(super) fn odd_bytes(&mut self) {
        let text = match self.rng.below(6) {
            0 => "TAS?".to_string(),
            1 => "TCR?".to_string(),
            2 => format!("SPW\"{}\"", self.password()),
            3 => "DPW\"abc\"".to_string(),
            4 => "TAV5".to_string(),
            _ => String::new(),
        };
        let mut bytes = text.into_bytes();
        for _ in 0..1 + self.rng.below(3) {
            let b = self.any_byte();
            let at = self.rng.below(bytes.len() + 1);
            if self.rng.one_in(4) && at < bytes.len() {
                bytes[at] = b;
            } else {
                bytes.insert(at, b);
            }
        }
        match self.rng.below(8) {
            0 => bytes = (0..self.rng.below(60)).map(|_| self.any_byte()).collect(),
            1 | 2 => {
                let inner: Vec<u8> = (0..1 + self.rng.below(32)).map(|_| self.any_byte()).collect();
                let name = self.rng.of(&["SPW", "DPW", "XYZ"]);
                bytes = [name.as_bytes(), b"\"", &inner, b"\""].concat();
            }
            _ => {}
        }
        self.command(&bytes);
    }

    /// Any byte but LF, which only blocks can hold.
    pub(super) fn any_byte(&mut self) -> u8 {
        loop {
            let b = if self.rng.one_in(6) {
                self.rng.of(b"\x11\x13\x20\x21\x7e\x7f;\"")
            } else {
                self.rng.below(256) as u8
            };
            if b != b'\n' || self.raw {
                return b;
            }
        }
    }

    pub(super) fn bad_form(&mut self) {
        let forms = if self.raw { BAD_RAW } else { BAD_FORMS };
        let at = self.rng.below(forms.len());
        let line = forms[at].replace('#', &self.rng.below(2_000_000).to_string());
        if !self.full() {
            self.cover.hit(if self.raw { Group::BadRaw } else { Group::Bad }, at);
        }
        self.line(line.as_bytes());
    }

    /// Two to seven commands in one line.
    pub(super) fn several(&mut self) {
        let mut line: Vec<u8> = Vec::new();
        for _ in 0..2 + self.rng.below(6) {
            let text = match self.rng.below(14) {
                0..=2 => "MSV?".to_string(),
                3 => "ESR?".to_string(),
                4 => "RES".to_string(),
                5 => format!("SPW\"{}\"", self.password()),
                6 => "TAR".to_string(),
                7 => "CDL".to_string(),
                8 => "TDD2".to_string(),
                9 => String::new(),
                10 => self.unknown(),
                11 => "CWT?".to_string(),
                _ => {
                    let name = self.setting_name();
                    let n = self.good(name);
                    format!("{name}{}", self.number(n))
                }
            };
            line.extend(self.dressed(text.as_bytes()));
            line.push(b';');
        }
        if self.rng.one_in(2) {
            line.pop();
        }
        self.command(&line);
    }
}
