//! The texts: all short ones over an alphabet, and random ones.

use random::Random;

/// All texts of up to `longest` letters.
pub fn short(alphabet: &str, longest: usize) -> impl Iterator<Item = String> {
    let letters: Vec<char> = alphabet.chars().collect();
    (0..=longest).flat_map(move |length| {
        let letters = letters.clone();
        let all = letters.len().pow(length as u32);
        (0..all).map(move |mut n| {
            let mut letter = |_| {
                let c = letters[n % letters.len()];
                n /= letters.len();
                c
            };
            (0..length).map(&mut letter).collect()
        })
    })
}

pub const UNITS: &[&str] = &[
    "", "AM", "PM", "AMS", "PMS", "HOUR", "HOURS", "HOURSS", "MINUTE", "MINUTES", "MIN", "MINS", "SECOND", "SECONDS",
    "SEC", "SECS", "SECSS", "DAY", "DAYS", "S", "SS", "H", "M", "D", ";", "am", "Pm", "hours", "Hours", "houRS",
    "minutes", "sec", "dayS", "AM;", "A", "HOU", "HOURZ",
];

const WHOLE_EDGES: &[&str] = &[
    "9007199254740992", "9007199254740993", "9007199254740991", "9007199254740990", "4503599627370497",
    "18446744073709551615", "18446744073709551616", "18446744073709551614", "1000000000", "1000000001", "999999999",
    "0", "1", "5124095576030432", "2562047788015216", "86400", "3600",
];

fn whole(r: &mut Random) -> String {
    let zeros = if r.one_in(8) { r.below(30) } else { 0 };
    let digits = match r.below(4) {
        0 => r.pick(WHOLE_EDGES).to_string(),
        1 => {
            let n = 13 + r.below(6);
            r.digits(n)
        }
        2 => {
            let n = r.below(25);
            r.digits(n)
        }
        _ => {
            let n = 1 + r.below(6);
            r.digits(n)
        }
    };
    "0".repeat(zeros) + &digits
}

fn sign(r: &mut Random) -> &'static str {
    r.pick(&["", "", "", "-", "+"])
}

fn damaged(r: &mut Random, text: String) -> String {
    let mut bytes = text.into_bytes();
    let odd = b"0123456789+-.eEinfatyN: \t\x0b\x0c\r,;_xX\x00\x7f";
    for _ in 0..1 + r.below(2) {
        let at = r.below(bytes.len() + 1);
        let byte = odd[r.below(odd.len())];
        match r.below(3) {
            0 => bytes.insert(at, byte),
            _ if at == bytes.len() => {}
            1 => bytes[at] = byte,
            _ => drop(bytes.remove(at)),
        }
    }
    String::from_utf8(bytes).unwrap()
}

fn mostly(r: &mut Random, text: String) -> String {
    if r.one_in(5) { damaged(r, text) } else { text }
}

pub fn number(r: &mut Random) -> String {
    let word = r.pick(&["inf", "infinity", "nan"]);
    if r.one_in(20) {
        let text = sign(r).to_string() + &r.recased(word);
        return mostly(r, text);
    }
    let mut digits = whole(r);
    if r.one_in(30) {
        digits = "0".repeat(1 + r.below(40));
    }
    if !r.one_in(3) {
        digits.insert(r.below(digits.len() + 1), '.');
    }
    let power = match r.below(6) {
        0 | 1 => String::new(),
        2 => (20 + r.below(5)).to_string(),
        3 => r.below(30).to_string(),
        4 => "0".repeat(r.below(3)) + &r.below(400).to_string(),
        _ => {
            let n = r.below(25);
            r.digits(n)
        }
    };
    let power = if power.is_empty() { power } else { r.pick(&["e", "E"]).to_string() + sign(r) + &power };
    let text = sign(r).to_string() + &digits + &power;
    mostly(r, text)
}

pub fn count(r: &mut Random) -> String {
    let text = r.pick(&["", "", "+", "-"]).to_string() + &whole(r);
    mostly(r, text)
}

/// A time and its unit.
pub fn time(r: &mut Random) -> (String, String) {
    let text = if r.one_in(2) {
        number(r)
    } else {
        let later = r.pick(&["", "", ":", ":00", ":x", "::"]);
        let text = count(r) + ":" + &count(r) + later;
        mostly(r, text)
    };
    let unit = r.pick(UNITS);
    let unit = r.recased(unit);
    let unit = if r.one_in(10) { damaged(r, unit) } else { unit };
    (text, unit.replace(|c: char| c.is_ascii_whitespace() || c == '\x0b', ""))
}
