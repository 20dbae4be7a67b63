//! `readings [COUNT]` reads the texts at the edges and COUNT generated ones with the Rust, with the model of document 01
//! and with the proved library, and holds the answers against each other.
//! `readings COUNT COMMAND ..` holds the proved program `records`, which the command starts, against the model: it must
//! print the model's dump of each text, strict and survey.

use model::Refusal;
use readings::library::Library;
use readings::{check, edges, generate, program};
use std::collections::BTreeMap;
use std::process::exit;
use std::time::Instant;

const COUNT: u64 = 100_000;
const MOST_SHOWN: u64 = 20;
/// Texts between two lines about how far it has come.
const STEP: u64 = 50_000;

/// By answer: texts, and readings of a text and of what is left of it as its refused pieces are struck.
type Answers = BTreeMap<Refusal, [u64; 2]>;

fn main() {
    let mut arguments = std::env::args().skip(1);
    let count = arguments.next().map_or(COUNT, |n| n.parse().expect("usage: readings [COUNT [COMMAND ..]]"));
    let command: Vec<String> = arguments.collect();
    let mut library = Library::default();
    let differences = compare(count, |text| match command[..] {
        [] => check::check(text, &mut library),
        _ => program::check(&command, text),
    });
    if differences > 0 {
        exit(1);
    }
}

fn compare(count: u64, mut check: impl FnMut(&[u8]) -> Result<Vec<Refusal>, String>) -> u64 {
    let (mut answers, mut differences, start) = (Answers::new(), 0, Instant::now());
    for (at, text) in (1..).zip(texts(count)) {
        match check(&text) {
            Ok(readings) => {
                answers.entry(readings[0]).or_default()[0] += 1;
                readings.iter().for_each(|answer| answers.entry(*answer).or_default()[1] += 1);
            }
            Err(_) if differences >= MOST_SHOWN => differences += 1,
            Err(_) => {
                differences += 1;
                let smallest = check::smallest(text, |text| check(text).is_err());
                println!("difference in\n{}\n{}\n", smallest.escape_ascii(), check(&smallest).unwrap_err());
            }
        }
        if at % STEP == 0 {
            println!("{at} texts, {differences} differences, {:.0} s", start.elapsed().as_secs_f64());
        }
    }
    report(&answers, count, differences, start);
    differences
}

fn texts(count: u64) -> impl Iterator<Item = Vec<u8>> {
    let rooms = edges::rooms().map(|(name, text, answer)| {
        assert_eq!(model::reading::strict(&text).answer, answer, "{name}");
        text
    });
    rooms.chain(edges::odd()).chain((0..count).map(generate::text))
}

/// The last line is the sentence of docs/DIFFERENCES.md: which crates were compared (as bindings/sources names them), and how much.
fn report(answers: &Answers, count: u64, differences: u64, start: Instant) {
    println!("answer texts readings");
    answers.iter().for_each(|(answer, [texts, readings])| println!("{answer:6} {texts} {readings}"));
    let total = |column: usize| answers.values().map(|counts| counts[column]).sum::<u64>();
    let speed = total(0) as f64 / start.elapsed().as_secs_f64();
    println!("{speed:.0} texts a second");
    let crates = std::env::var("CRATES").unwrap_or("as they are".into());
    println!(
        "Crates {crates}: {} texts (seeds 0 to {}, and {} at the edges), {} readings, {} differences.",
        grouped(total(0)),
        grouped(count.saturating_sub(1)),
        grouped(total(0) + differences - count),
        grouped(total(1)),
        grouped(differences)
    );
}

fn grouped(n: u64) -> String {
    let digits = n.to_string();
    let parts: Vec<&str> = digits.as_bytes().rchunks(3).rev().map(|part| std::str::from_utf8(part).unwrap()).collect();
    parts.join(",")
}
