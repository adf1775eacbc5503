//! Longer moves: states that take several commands and samples to reach.

use super::Generator;
use crate::table::*;
use oracle::SAMPLE_LIMIT;

impl Generator<'_> {
    /// A curve that lets samples reach 160 % of NOV.
    pub(super) fn steep(&mut self) {
        self.unseal();
        let cwt = self.rng.of(&[1_200_000, 1_000_000, 1_100_000]);
        self.set("CWT", cwt);
        self.set("LDW", 0);
        let w = self.rng.of(&[500_000, 250_000, 900_000, 200_000]);
        self.set("LWT", w);
    }

    /// Weights at the display limits, in every mode and output.
    pub(super) fn display(&mut self) {
        if self.rng.one_in(3) {
            self.steep();
        }
        if self.rng.one_in(3) {
            self.unseal();
            let name = self.rng.of(&["NOV", "RSN"]);
            let n = self.good(name);
            self.set(name, n);
        }
        if self.rng.one_in(2) {
            self.seal();
        }
        if self.rng.one_in(2) {
            let tare = self.good("TAV");
            self.set("TAV", tare);
            let shown = self.rng.between(0, 1);
            self.set("TAS", shown);
        }
        for _ in 0..2 + self.rng.below(4) {
            let cof = self.rng.of(&[0, 2, 3, 9, 9]);
            self.set("COF", cof);
            let x = match self.rng.below(8) {
                0 => self.rng.of(&[SAMPLE_LIMIT + 1, -SAMPLE_LIMIT - 1, 2_000_000, -2_000_000]),
                1 => self.aimed(),
                _ => {
                    let gross = self.display_limit();
                    self.x_for_gross(gross)
                }
            };
            let still = self.rng.one_in(2);
            self.sample(x, still);
            self.say("MSV?");
        }
    }

    pub(super) fn tracking(&mut self) {
        if self.rng.one_in(2) {
            self.unseal();
            if self.rng.one_in(2) {
                let nov = self.rng.of(&[100, 101, 120, 105, 250, 1000, 3000]);
                self.set("NOV", nov);
            }
            if self.rng.one_in(2) {
                let rsn = self.rng.of(&RSN);
                self.set("RSN", rsn);
            }
        }
        if self.unit.set.ztr == 0 {
            self.unseal();
            self.set("ZTR", 1);
        }
        if self.rng.one_in(3) {
            self.seal();
        }
        self.track_start();
        for _ in 0..2 + self.rng.below(12) {
            let x = match self.rng.below(16) {
                0 => self.aimed(),
                1 => self.rng.of(&[SAMPLE_LIMIT + 1, -SAMPLE_LIMIT - 1]),
                _ => self.tracked(),
            };
            let still = !self.rng.one_in(10);
            self.sample(x, still);
            if self.rng.one_in(6) {
                self.say("MSV?");
            }
        }
        // the moved zero shows at a half digit
        let half = 5 * self.unit.set.rsn;
        let k = self.rng.between(-1, 1);
        let x = self.x_near_g(2 * half * k + half - 1, 2 * half * k + half);
        self.sample(x, false);
        self.say("MSV?");
    }

    /// Where the tracking begins: z1 at or past the band's end, or a tare.
    pub(super) fn track_start(&mut self) {
        let s = self.unit.set;
        match self.rng.below(4) {
            0 => {
                let end = s.nov / 5;
                let v = self.rng.of(&[end, -end, end - 1, 1 - end, end + 1, -end - 1, end + 3, -end - 3]);
                let x = self.x_for(v + self.unit.z0);
                self.sample(x, true);
                self.say("CDL");
            }
            1 => {
                let tare = match self.rng.below(3) {
                    0 => s.nov,
                    _ => self.good("TAV"),
                };
                self.set("TAV", tare);
                self.set("TAS", 0);
            }
            2 if self.rng.one_in(3) => {
                self.unseal();
                let nov = self.rng.between(100, 130);
                self.set("NOV", nov);
                self.set("RSN", 50);
                let lft = self.rng.of(&[3, 4]);
                self.set("LFT", lft);
                self.set("TAV", nov);
                self.set("TAS", 0);
                let x = self.x_near_g(1300, 1320);
                self.sample(x, true);
            }
            _ => {}
        }
    }

    pub(super) fn first_zeroing(&mut self) {
        if self.unit.saved.zse == 0 || self.rng.one_in(2) {
            self.save_for_zeroing();
        }
        self.restart();
        if self.rng.one_in(2) {
            self.waiting();
        }
        self.try_zero();
        self.say("MSV?");
        match self.rng.below(5) {
            0 => {
                // a second sample within: the try is spent
                let x = self.x_near(-20, 20);
                self.sample(x, true);
                self.say("MSV?");
            }
            1 => {
                let end = if self.unit.set.lft == 0 { 2 * self.unit.set.nov } else { self.unit.set.nov / 5 };
                let v = self.unit.z0 + self.rng.of(&[end, -end, end + 1, -end - 1]);
                let x = self.x_for(v);
                self.sample(x, true);
                self.say("CDL");
            }
            2 => self.restart(),
            _ => {}
        }
    }

    /// A saved ZSE, and by chance tracking, seal, tare and status beside it.
    pub(super) fn save_for_zeroing(&mut self) {
        self.unseal();
        let zse = self.rng.between(1, 4);
        self.set("ZSE", zse);
        if self.rng.one_in(2) {
            self.set("ZTR", 1);
        }
        if self.rng.one_in(3) {
            self.seal();
        }
        if self.rng.one_in(3) {
            let tare = self.rng.between(self.unit.set.nov / 2, self.unit.set.nov);
            self.set("TAV", tare);
            self.set("TAS", 0);
        }
        if self.rng.one_in(2) {
            self.set("COF", 9);
        }
        self.say("TDD1");
    }

    /// Before the try: samples that do not spend it, commands that do not end it
    /// and some that do.
    pub(super) fn waiting(&mut self) {
        for _ in 0..1 + self.rng.below(3) {
            match self.rng.below(10) {
                0 | 1 => {
                    let limit = self.display_limit();
                    let x = if self.rng.one_in(2) { self.aimed() } else { self.x_for_gross(limit) };
                    self.sample(x, false);
                    self.say("MSV?");
                }
                2 => {
                    let x = self.rng.of(&[SAMPLE_LIMIT + 1, -SAMPLE_LIMIT - 1]);
                    self.sample(x, true);
                }
                3 => self.say("MSV?"),
                4 => self.set("COF", 9),
                5 => {
                    let (name, n) = self.rng.of(&[("TAV", 5), ("TAS", 0), ("TAS", 1), ("TDD", 1)]);
                    self.set(name, n);
                }
                6 => {
                    self.open();
                    let (name, n) = self.rng.of(&[("CWT", 900_000), ("LDW", 5), ("LFT", 0)]);
                    self.set(name, n);
                }
                7 => {
                    let n = self.rng.of(&[0, 2]);
                    if n == 0 {
                        self.unseal();
                    }
                    self.set("TDD", n);
                }
                _ => {
                    let x = self.rng.between(-SAMPLE_LIMIT, SAMPLE_LIMIT);
                    self.sample(x, false);
                }
            }
        }
    }

    pub(super) fn try_zero(&mut self) {
        let s = self.unit.set;
        let end = ZSE_PERCENT[s.zse as usize] * s.nov / 10;
        let x = match self.rng.below(8) {
            0 => self.x_near(-end - 2, end + 2),
            1 if s.tas == 0 => self.x_near(10 * s.tav - 3, 10 * s.tav + 3),
            2 => self.aimed(),
            _ => {
                let v = self.rng.of(&[end, -end, end + 1, -end - 1, end - 1, end + 2]);
                self.x_for(v)
            }
        };
        self.sample(x, true);
    }

    /// Commands that need a steady reading, without one.
    pub(super) fn no_reading(&mut self) {
        match self.rng.below(4) {
            0 => self.restart(),
            1 => self.sample(SAMPLE_LIMIT + 1, true),
            2 => self.sample(-SAMPLE_LIMIT - 1, true),
            _ => {
                let x = self.aimed();
                self.sample(x, false);
            }
        }
        self.unseal();
        for _ in 0..1 + self.rng.below(3) {
            let name = self.rng.of(&["LDW", "LWT", "TAR", "CDL", "MSV?", "LWT1000000"]);
            self.say(name);
        }
    }

    pub(super) fn zero(&mut self) {
        if self.rng.one_in(4) {
            self.seal();
        }
        for _ in 0..1 + self.rng.below(3) {
            let s = self.unit.set;
            let end = if s.lft == 0 { 2 * s.nov } else { s.nov / 5 };
            let at = match self.rng.below(6) {
                0 => self.rng.between(-end, end),
                1 => 10 * s.nov / 4,
                _ => self.rng.of(&[end, -end, end + 1, -end - 1]),
            };
            let x = self.x_for(at + self.unit.z0);
            let still = !self.rng.one_in(8);
            self.sample(x, still);
            if self.rng.one_in(4) {
                self.say("MSV?");
            }
            self.say("CDL");
            self.say("MSV?");
        }
    }

    pub(super) fn tare(&mut self) {
        if self.rng.one_in(4) {
            self.seal();
        }
        let (nov, rsn) = (self.unit.set.nov, self.unit.set.rsn);
        for _ in 0..1 + self.rng.below(2) {
            match self.rng.below(4) {
                0 => {
                    let tare = if self.rng.one_in(3) { self.bad("TAV") } else { self.good("TAV") };
                    self.set("TAV", tare);
                    let shown = self.rng.between(0, 1);
                    self.set("TAS", shown);
                }
                1 => {
                    // at a half, where net rounded by itself would part
                    let k = self.rng.between(-nov / rsn, nov / rsn);
                    let x = self.x_for_g(10 * rsn * k + 5 * rsn);
                    self.sample(x, true);
                    self.say("TAR");
                }
                _ => {
                    let gross = self.rng.of(&[nov, nov + rsn, 0, -rsn, rsn, -nov, -nov - rsn, nov / 2]);
                    let x = self.x_for_gross(gross.div_euclid(rsn) * rsn);
                    let still = !self.rng.one_in(10);
                    self.sample(x, still);
                    self.say("TAR");
                }
            }
            self.say("MSV?");
            let query = self.rng.of(&["TAV?", "TAS?"]);
            self.say(query);
            let x = self.aimed();
            let still = self.still();
            self.sample(x, still);
            self.say("MSV?");
        }
    }

    pub(super) fn curve(&mut self) {
        if !self.rng.one_in(6) {
            self.unseal();
        }
        if self.rng.one_in(3) {
            let cwt = self.good("CWT");
            self.set("CWT", cwt);
        }
        if self.rng.one_in(3) {
            let name = self.rng.of(&["GCA", "GDE"]);
            let n = self.good(name);
            self.set(name, n);
        }
        for _ in 0..1 + self.rng.below(2) {
            self.point();
        }
        if self.rng.one_in(15) {
            self.set("LDW", -SAMPLE_LIMIT);
            self.set("LWT", 10_000 - SAMPLE_LIMIT);
        }
        self.between_points();
        self.span();
        let query = self.rng.of(&["LDW?", "LWT?", "CWT?", "GCA?"]);
        self.say(query);
        let x = self.aimed();
        self.sample(x, true);
        self.say("MSV?");
    }

    /// What may drop the waiting point, and what may not.
    pub(super) fn between_points(&mut self) {
        match self.rng.below(12) {
            0 => self.say("TDD2"),
            1 => self.say("TDD0"),
            2 => {
                self.seal();
                self.unseal();
            }
            3 => {
                self.restart();
                self.open();
            }
            4 => self.good_setting(),
            5 => self.say("LFT0"),
            6 => self.say("LDW?"),
            _ => {}
        }
    }

    /// LDW, by number or measured.
    pub(super) fn point(&mut self) {
        if self.rng.one_in(3) {
            let x = match self.rng.below(3) {
                0 => 0,
                1 => self.rng.between(-SAMPLE_LIMIT, SAMPLE_LIMIT),
                _ => self.rng.between(-20_000, 20_000),
            };
            let still = self.still();
            self.sample(x, still);
            self.say("LDW");
        } else {
            let l = self.good("LDW");
            self.set("LDW", l);
        }
    }

    /// LWT, by number or measured, often at the least span.
    pub(super) fn span(&mut self) {
        let l = self.unit.point.unwrap_or(0);
        let w = match self.rng.below(8) {
            0 => l + 10_000,
            1 => l + 9_999,
            2 => l + self.rng.between(-20_000, 20_000),
            3 => SAMPLE_LIMIT,
            4 => l + 1_000_000,
            _ => l + self.rng.between(10_000, 1_000_000),
        };
        if self.rng.one_in(2) {
            let still = self.still();
            self.sample(w, still);
            self.say("LWT");
            if self.rng.one_in(12) {
                let x = self.rng.of(&[SAMPLE_LIMIT + 1, -SAMPLE_LIMIT - 1]);
                self.sample(x, true);
                let name = self.rng.of(&["LDW", "LWT", "TAR", "CDL"]);
                self.say(name);
            }
        } else {
            self.set("LWT", w);
        }
        if self.rng.one_in(8) {
            self.say("LWT1000000");
        }
    }

    pub(super) fn trade(&mut self) {
        if self.rng.one_in(2) {
            self.good_setting();
        }
        if self.rng.one_in(4) {
            self.set("TAV", 5);
        }
        self.open();
        for _ in 0..1 + self.rng.below(3) {
            let lft = if self.rng.one_in(3) { self.unit.set.lft } else { self.rng.between(0, 4) };
            self.set("LFT", lft);
            self.say("TCR?");
        }
        match self.rng.below(4) {
            0 => self.restart(),
            1 => self.say("TDD2"),
            2 => {
                let name = self.setting_name();
                let n = self.good(name);
                self.set(name, n);
            }
            _ => {}
        }
        self.query();
        self.query();
    }

    pub(super) fn saving(&mut self) {
        for _ in 0..2 + self.rng.below(4) {
            match self.rng.below(9) {
                0 | 1 => self.good_setting(),
                2 => self.say("TDD1"),
                3 => self.say("TDD2"),
                4 => {
                    if !self.rng.one_in(4) {
                        self.unseal();
                    }
                    self.say("TDD0");
                }
                5 => self.restart(),
                6 => self.some_sample(),
                7 => {
                    let tare = self.good("TAV");
                    self.set("TAV", tare);
                    self.set("TAS", 0);
                }
                _ => {
                    let n = self.good("COF");
                    self.set("COF", n);
                }
            }
        }
        for _ in 0..3 {
            self.query();
        }
    }

    /// Zeros, tare, view and waiting all standing, then a command that clears
    /// them.
    pub(super) fn resets(&mut self) {
        self.all_standing();
        let name = self.rng.of(&RESETTING);
        match name {
            "LWT" => {
                self.set("LDW", 0);
                self.set("LWT", 1_000_000);
            }
            "LFT" => {
                let lft = self.rng.between(1, 4);
                self.set("LFT", lft);
            }
            _ => {
                let n = self.good(name);
                self.set(name, n);
            }
        }
        if self.rng.one_in(6) {
            let n = self.rng.of(&[0, 2]);
            self.set("TDD", n);
        }
        for query in ["MSV?", "TAV?", "TAS?"] {
            self.say(query);
        }
        // a try that should be over would show here
        let x = self.x_near(1, self.unit.set.nov / 5);
        self.sample(x, true);
        self.say("MSV?");
    }

    pub(super) fn all_standing(&mut self) {
        self.unseal();
        let zse = self.rng.between(1, 4);
        self.set("ZSE", zse);
        if self.rng.one_in(2) {
            let nov = self.good("NOV");
            self.set("NOV", nov);
        }
        let tare = self.rng.between(1, 90);
        self.set("TAV", tare);
        self.set("TAS", 0);
        self.say("TDD1");
        self.restart();
        self.open();
        if self.rng.one_in(2) {
            let x = self.x_near(1, self.unit.set.nov / 5);
            self.sample(x, true);
            let x = self.x_near(self.unit.z0 + 1, self.unit.z0 + self.unit.set.nov / 5);
            self.sample(x, true);
            self.say("CDL");
        } else if self.rng.one_in(2) {
            let x = self.aimed();
            self.sample(x, false);
        }
    }

    /// Every part of COF9's status, the waiting first zeroing among them.
    pub(super) fn statuses(&mut self) {
        self.unseal();
        if self.unit.set.zse == 0 || self.rng.one_in(4) {
            let zse = self.rng.between(1, 4);
            self.set("ZSE", zse);
        }
        self.seal();
        let shown = self.rng.between(0, 1);
        self.set("TAS", shown);
        self.set("COF", 9);
        self.say("TDD1");
        self.line(b"r");
        for still in [false, false, false, true, true, false] {
            let x = match self.rng.below(4) {
                0 => self.rng.of(&[SAMPLE_LIMIT + 1, -SAMPLE_LIMIT - 1]),
                1 => self.x_near_g(-5, 5),
                _ => {
                    let gross = self.display_limit();
                    self.x_for_gross(gross)
                }
            };
            self.sample(x, still);
            self.say("MSV?");
        }
    }

    /// Weights about what two bytes can hold.
    pub(super) fn two_bytes(&mut self) {
        if self.unit.set.nov < 33_000 {
            self.unseal();
            let nov = self.rng.of(&[33_000, 40_000, 60_000, 100_000]);
            self.set("NOV", nov);
            self.set("RSN", 1);
        }
        if self.rng.one_in(3) {
            let tare = self.good("TAV");
            self.set("TAV", tare);
            self.set("TAS", 0);
        }
        let cof = self.rng.of(&[2, 2, 2, 0, 9]);
        self.set("COF", cof);
        for _ in 0..2 + self.rng.below(3) {
            let s = self.unit.set;
            let value = self.rng.of(&[32_766, 32_767, 32_768, -32_767, -32_768, -32_769, 0x0d0a]);
            let x = self.x_for_g(10 * (value + if s.tas == 0 { s.tav } else { 0 }));
            let still = self.still();
            self.sample(x, still);
            self.say("MSV?");
        }
    }

    /// Settings and samples for which u and v fall on a half.
    pub(super) fn halves(&mut self) {
        if self.rng.one_in(2) {
            self.unseal();
            let (gca, gde) = self.rng.of(&[
                (970_000, 980_000),
                (975_000, 990_000),
                (985_000, 980_000),
                (990_000, 970_000),
                (981_040, 981_040),
            ]);
            self.set("GCA", gca);
            self.set("GDE", gde);
        }
        for _ in 0..1 + self.rng.below(4) {
            let s = self.unit.set;
            let common = gcd(s.gca, s.gde);
            let d = s.gde / common;
            let (factor, span) = (10 * s.nov * s.cwt_used, (s.lwt - s.ldw) * 1_000_000);
            let step = span / gcd(factor, span);
            let most = SAMPLE_LIMIT / d.max(1);
            let x = if self.rng.one_in(2) {
                s.ldw + d / 2 + d * self.rng.between(-most, most)
            } else {
                let most = (SAMPLE_LIMIT / step.max(1)).max(1);
                s.ldw + step / 2 + step * self.rng.between(-most, most)
            };
            let still = self.still();
            self.sample(x.clamp(-SAMPLE_LIMIT, SAMPLE_LIMIT), still);
            self.say("MSV?");
        }
    }
}

fn gcd(a: i64, b: i64) -> i64 {
    if b == 0 {
        a
    } else {
        gcd(b, a % b)
    }
}
