//! Fields for generated lines: good ones, and now and then a bad one.

use random::Random;

pub const HEADERS: &[&str] = &[
    "[JUNCTIONS]", "[RESERVOIRS]", "[TANKS]", "[PIPES]", "[PUMPS]", "[VALVES]", "[CURVES]", "[PATTERNS]", "[DEMANDS]",
    "[EMITTERS]", "[COORDINATES]", "[TIMES]", "[RULES]", "[TITLE]", "[OPTIONS]", "[STATUS]", "[CONTROLS]",
    "[VERTICES]", "[END]", "[pipes]", "[JUNCTIONS] ;x", "[RULES", "[", "[]", "[ RULES]", "[TAGS]",
];

/// The place of its header.
pub const RULES: usize = 12;

const NUMBERS: &[&str] = &[
    "0", "1", "2", "10.5", "-3", ".5", "5.", "+7", "1e3", "1E-3", "100", "200", "0.1", "nan", "NaN", "inf", "-inf",
    "Infinity", "+INF", "-0", "-0.0", "0e99", "0e-99999999999999999999", "00012.50", "1e22", "1e-22", "10e22",
    "9007199254740992", "9007199254740992e22", "123456789.125", "0.3", "1.9", "-nan", "2.5e+1", "3.E2", ".1e-21",
];

const MALFORMED: &[&str] =
    &["x", ".", "1,5", "12,5", "1e", "--1", "0x1", "1_0", "+", "-", "e5", "1.2.3", "infin", "nanx", "1e+", "*", "1:2"];

const BEYOND: &[&str] = &[
    "1e23", "9007199254740993", "1e-23", "123456789012345678901", "0.00000000000000000000001",
    "1e99999999999999999999", "-1e400", "1.00000000000000000", "9007199254740992e23", "+1e-400",
];

const TIMES: &[&str] = &[
    "24", "1:30", "0:00", "12:00", "24:00:00", "1.5", "3600", "1:75", "+1:+2", "0", "inf", "nan", "-3", "1e9",
    "1000000000:1000000000", "7:00:xx", "2:0:", "12", "13", "9007199254740992", "0.1", "1e22",
    "1:00000000000000000001",
];

const BAD_TIMES: &[&str] = &[
    ":30", "1:", ":", "x:1", "1:x", "-1:00", "1:-1", "1.5:00", "1000000001:00", "0:1000000001", "1000000001:x",
    "x:1000000001", "18446744073709551616:0", "1e23", "x", "1e", "18446744073709551615:1", "9007199254740993",
];

const UNITS: &[&str] = &[
    "", "", "", "HOURS", "HOUR", "hours", "MIN", "MINUTES", "minute", "SEC", "SECONDS", "secs", "DAY", "Days", "AM",
    "PM", "am", "Pm", "AMS", "PMS",
];

const BAD_UNITS: &[&str] = &["S", "HOURSS", "XX", ";", ";x", "SS", "MINSS", "A", "H", "5"];

pub struct Words<'r> {
    pub r: &'r mut Random,
    /// One field in so many is bad; 0 for none.
    pub damage: usize,
}

impl Words<'_> {
    pub fn bad(&mut self) -> bool {
        self.damage > 0 && self.r.one_in(self.damage)
    }

    pub fn number(&mut self) -> String {
        if self.bad() {
            let from = if self.r.one_in(4) { BEYOND } else { MALFORMED };
            return self.r.pick(from).into();
        }
        match self.r.below(4) {
            0 => self.r.pick(NUMBERS).into(),
            1 => self.decimal(),
            _ => self.r.below(1000).to_string(),
        }
    }

    fn decimal(&mut self) -> String {
        let n = 1 + self.r.below(15);
        let mut digits = self.r.digits(n);
        digits.insert(self.r.below(n + 1), '.');
        let sign = self.r.pick(&["", "", "", "-", "+"]);
        let power = if self.r.one_in(3) { format!("e{}", self.r.below(14) as i32 - 6) } else { String::new() };
        format!("{sign}{digits}{power}")
    }

    /// A time and its unit.
    pub fn time(&mut self) -> String {
        let value = if self.bad() { self.r.pick(BAD_TIMES) } else { self.r.pick(TIMES) };
        let value = if self.r.one_in(6) { self.number() } else { value.into() };
        let unit = if self.bad() { self.r.pick(BAD_UNITS) } else { self.r.pick(UNITS) };
        format!("{value} {unit}")
    }

    pub fn flag(&mut self) -> &'static str {
        if self.bad() { self.r.pick(&["TRUE", "FALSE", "True", "1", "yes"]) } else { self.r.pick(&["true", "false"]) }
    }

    pub fn status(&mut self) -> &'static str {
        if self.bad() {
            self.r.pick(&["Open", "SHUT", "CLOSE", "closed", "1"])
        } else {
            self.r.pick(&["OPEN", "CLOSED"])
        }
    }

    /// Any one of the words, or another word.
    pub fn word(&mut self, words: &[&'static str]) -> String {
        let word = self.r.pick(words);
        if self.bad() {
            let other =
                self.r.pick(&["X", "RULE", "IF", "*", "true", "FALSE", "0", "RULEX", "SYSTEM", "IS", "==", "!="]);
            if self.r.one_in(2) { self.r.recased(word) } else { other.into() }
        } else {
            word.into()
        }
    }
}
