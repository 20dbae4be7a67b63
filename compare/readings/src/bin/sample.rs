//! `sample FOLDER` writes generated texts and the Rust's answers to them as cases for the proved program `cases`, whose
//! folder it is: there the proved code replays them where no Rust is at hand. They stand at the end of its stdin and
//! stdout; what was written there before is replaced.

use model::network::{Clause, Value};
use model::reading::{Strict, strict};
use model::{NO_ACTION, NO_CONDITION, NO_ID, Refusal, ours};
use readings::generate;
use std::collections::BTreeMap;
use std::path::Path;

/// Of each answer that the Rust knows: 0, and 1 to 10.
const EACH: usize = 28;
/// Longer ones are not looked at, and of the others the part that is read may be so long.
const LONG: usize = 2_000;
const LONGEST: usize = 500;
/// What the program `cases` reads at most.
const BUFFER: usize = 262_144;
const TITLE: &str = "# generated, with the Rust's answers (compare/readings/src/bin/sample.rs)\n";

fn main() {
    let folder = std::env::args().nth(1).expect("usage: sample FOLDER");
    let (mut input, mut output) = (TITLE.as_bytes().to_vec(), TITLE.to_string() + &by_rust(b""));
    for (seed, text) in chosen() {
        let title = format!("# seed {seed}\n");
        input.extend([title.as_bytes(), &text].concat());
        output += &(title + &by_rust(&text));
    }
    let length = replace_end(&Path::new(&folder).join("stdin"), &input);
    assert!(length < BUFFER, "the cases are longer than the program's buffer: {length}");
    replace_end(&Path::new(&folder).join("stdout"), output.as_bytes());
}

/// Seeds and texts, as many of each answer.
fn chosen() -> Vec<(u64, Vec<u8>)> {
    let mut left: BTreeMap<Refusal, usize> = (0..=NO_ID).map(|answer| (answer, EACH)).collect();
    let mut texts = Vec::new();
    for seed in 0.. {
        let text = generate::text(seed);
        if text.len() > LONG {
            continue;
        }
        let text = read_part(&text);
        let reading = strict(&text);
        if !fit(&text) || ours(reading.answer) || !telling(&reading) {
            continue;
        }
        if let Some(left) = left.get_mut(&reading.answer)
            && *left > 0
        {
            *left -= 1;
            texts.push((seed, text));
        }
        if left.values().all(|&left| left == 0) {
            break;
        }
    }
    texts
}

/// The first lines of a refused text, up to where strict reading stops.
fn read_part(text: &[u8]) -> Vec<u8> {
    let whole = strict(text);
    let mut ends = text.iter().enumerate().filter(|(_, b)| **b == b'\n').map(|(at, _)| at + 1);
    let stops = |end: &usize| whole.answer != 0 && strict(&text[..*end]).answer != 0;
    let end = ends.find(stops).unwrap_or(text.len());
    text[..end].to_vec()
}

/// Whether it can stand among other cases, each of which begins with a line of its own, in a file that people read.
fn fit(text: &[u8]) -> bool {
    let title = |line: &[u8]| line.starts_with(b"#");
    let readable = text.iter().all(|b| matches!(b, 9..=13 | 32..=126));
    text.len() <= LONGEST && readable && text.ends_with(b"\n") && !text.split(|&b| b == b'\n').any(title)
}

/// An accepted text is worth replaying only if it stores a rule.
fn telling(reading: &Strict) -> bool {
    reading.answer != 0 || !reading.network.rules.is_empty()
}

/// What `cases` must print of the text. The Rust's answer and records, and its line where it gives one; the model only
/// says which of 8 and 9 it is, and gives the other lines. All of it must be the model's too.
fn by_rust(text: &[u8]) -> String {
    let (rust, reading) = (oracle::read(text), strict(text));
    let answer = match (rust.answer, reading.answer) {
        (NO_CONDITION, NO_ACTION) => NO_ACTION,
        (answer, _) => answer,
    };
    let line = rust.line.unwrap_or(reading.line);
    let printed = format!("answer {answer} line {line}\n{}", records(&rust.records));
    assert_eq!(printed, by_model(&reading), "the Rust and the model differ in {}", text.escape_ascii());
    printed
}

/// Counts and actions, out of a dump.
fn records(dump: &str) -> String {
    let count = |beginning: &str| dump.lines().filter(|line| line.starts_with(beginning)).count();
    let kinds = ["node ", "link ", "curve ", "pattern ", "rule ", "  if ", "  do "];
    let mut out = "records".to_string();
    kinds.iter().for_each(|kind| out += &format!(" {}", count(kind)));
    out += "\n";
    let links: Vec<&str> =
        dump.lines().filter(|line| line.starts_with("link ")).filter_map(|l| l.split(' ').nth(2)).collect();
    for line in dump.lines().filter_map(|line| line.strip_prefix("  do ")) {
        let fields: Vec<&str> = line.split(' ').collect();
        let place = links.iter().position(|link| *link == fields[0]).expect("an action's link is in the dump");
        let status = ["OPEN", "CLOSED"].iter().position(|word| *word == fields[2]).map_or(0, |at| at + 1);
        out += &format!("do {} {place} {status}\n", u8::from(fields[3] == "ELSE"));
    }
    out
}

/// The same from the model's records.
fn by_model(reading: &Strict) -> String {
    let n = &reading.network;
    let (conditions, clauses) = (n.conditions(), n.clauses.len());
    let counts = [n.nodes.len(), n.links.len(), n.curves.len(), n.patterns.len(), n.rules.len(), conditions];
    let mut out = format!("answer {} line {}\nrecords", reading.answer, reading.line);
    counts.iter().chain([&(clauses - conditions)]).for_each(|count| out += &format!(" {count}"));
    out += "\n";
    for clause in &n.clauses {
        if let Clause::Action(action) = clause {
            let status = match action.value {
                Value::Status("OPEN") => 1,
                Value::Status(_) => 2,
                Value::Number(_) => 0,
            };
            out += &format!("do {} {} {status}\n", u8::from(action.otherwise), action.place);
        }
    }
    out
}

/// Writes what is generated in the place of what was before, and says how long the file is then.
fn replace_end(file: &Path, end: &[u8]) -> usize {
    let fault = |error| panic!("{}: {error}", file.display());
    let mut all = std::fs::read(file).unwrap_or_else(fault);
    let before = all.windows(TITLE.len()).position(|part| part == TITLE.as_bytes());
    all.truncate(before.unwrap_or(all.len()));
    all.extend(end);
    std::fs::write(file, &all).unwrap_or_else(|error| panic!("{}: {error}", file.display()));
    all.len()
}
