//! `leaves [COUNT]` holds the proved readers of numbers, counts and times against the Rust: every short text over
//! telling alphabets, then COUNT random texts of each kind.

mod ours;
mod texts;
mod wanted;

use random::Random;
use std::collections::BTreeMap;
use std::process::exit;
use wanted::Answer;

const COUNT: usize = 10_000_000;

/// The bits of an answer, so that answers compare as a whole; every NaN is one.
fn bits(answer: Answer<f64>) -> Answer<u64> {
    answer.map(|x| if x.is_nan() { f64::NAN.to_bits() } else { x.to_bits() })
}

fn number(answer: Answer<u64>) -> u64 {
    answer.err().unwrap_or(0)
}

fn shown(answer: Answer<u64>) -> String {
    answer.map_or_else(|number| number.to_string(), |value| format!("0 and {value:#x}"))
}

/// Ours and the wanted answer to a text, which for a time is the time and the unit with a bar between them.
fn answers(kind: &'static str, text: &str) -> (Answer<u64>, Answer<u64>) {
    match kind {
        "numbers" => (bits(ours::number(text)), bits(wanted::number(text))),
        "counts" => (ours::count(text), wanted::count(text)),
        _ => {
            let (time, unit) = text.split_once('|').unwrap_or((text, ""));
            (ours::time(time, unit), wanted::time(time, unit))
        }
    }
}

#[derive(Default)]
struct Tally {
    compared: BTreeMap<&'static str, BTreeMap<u64, u64>>,
    /// By kind, answer and wanted answer: how many, and the smallest text.
    differences: BTreeMap<(&'static str, u64, u64), (u64, String)>,
}

impl Tally {
    fn compare(&mut self, kind: &'static str, text: String) {
        let (ours, wanted) = answers(kind, &text);
        *self.compared.entry(kind).or_default().entry(number(wanted)).or_default() += 1;
        if ours != wanted {
            let smallest = smallest(kind, text);
            let entry = self.differences.entry((kind, number(ours), number(wanted)));
            let (count, kept) = entry.or_insert((0, smallest.clone()));
            *count += 1;
            if (smallest.len(), &smallest) < (kept.len(), kept) {
                *kept = smallest;
            }
        }
    }

    fn report(&self) -> bool {
        for ((kind, _, _), (count, text)) in &self.differences {
            let (ours, wanted) = answers(kind, text);
            let (ours, wanted) = (shown(ours), shown(wanted));
            println!("difference in {kind}, {count} times, such as {text:?}: ours {ours}, wanted {wanted}");
        }
        let counts = |(kind, counts): (&&str, &BTreeMap<u64, u64>)| {
            let answers: Vec<_> = counts.iter().map(|(answer, count)| format!("{answer}: {count}")).collect();
            format!("{kind} {} ({})", counts.values().sum::<u64>(), answers.join(", "))
        };
        let compared: Vec<_> = self.compared.iter().map(counts).collect();
        let differences: u64 = self.differences.values().map(|(count, _)| count).sum();
        println!("leaves: {}; differences {differences}", compared.join("; "));
        differences == 0
    }
}

/// Letters taken away while the answers still differ, and have the same numbers.
fn smallest(kind: &'static str, mut text: String) -> String {
    let numbers = |(ours, wanted)| (number(ours), number(wanted));
    let before = numbers(answers(kind, &text));
    let mut at = 0;
    while at < text.len() {
        let shorter = [&text[..at], &text[at + 1..]].concat();
        let (ours, wanted) = answers(kind, &shorter);
        if ours != wanted && numbers((ours, wanted)) == before {
            text = shorter;
            at = 0;
        } else {
            at += 1;
        }
    }
    text
}

fn main() {
    let count = std::env::args().nth(1).map_or(COUNT, |n| n.parse().expect("usage: leaves [COUNT]"));
    let mut tally = Tally::default();
    for (alphabet, longest) in [("019+-.eEinfatyN \t\r:", 5), ("01+-.e", 8), ("infty-", 9), ("NaAn+-", 6)] {
        texts::short(alphabet, longest).for_each(|text| tally.compare("numbers", text));
    }
    texts::short("0189+-.e \nx", 6).for_each(|text| tally.compare("counts", text));
    for time in texts::short("0159:+-.eE ", 5) {
        tally.compare("times", time);
    }
    for time in texts::short("0159:+-.e", 4) {
        texts::UNITS.iter().for_each(|unit| tally.compare("times", format!("{time}|{unit}")));
    }
    for unit in texts::short("AMPSHOURDYINECamps", 4) {
        ["1", "13", "1:30", "12:00", "inf", "x"]
            .iter()
            .for_each(|time| tally.compare("times", format!("{time}|{unit}")));
    }
    let mut random = Random(1);
    for _ in 0..count {
        tally.compare("numbers", texts::number(&mut random));
        tally.compare("counts", texts::count(&mut random));
        let (time, unit) = texts::time(&mut random);
        tally.compare("times", format!("{time}|{unit}"));
    }
    if !tally.report() {
        exit(1);
    }
}
