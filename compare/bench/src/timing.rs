//! How long each side reads each text. In every round each side reads each text once, so that whatever else the
//! machine does falls on all alike.

use crate::sides::{SIDES, Side, Tables};
use crate::texts::{SIZES, Text, name};
use std::time::Instant;

/// Of one side and one text, in microseconds.
#[derive(Default)]
struct Times(Vec<f64>);

impl Times {
    /// The time that the given share of the repetitions do not pass.
    fn at(&self, share: f64) -> f64 {
        self.0[((self.0.len() - 1) as f64 * share) as usize]
    }

    fn best(&self) -> f64 {
        self.at(0.0)
    }

    fn median(&self) -> f64 {
        self.at(0.5)
    }

    /// How far the middle eight of ten repetitions lie apart, in hundredths of the median.
    fn spread(&self) -> f64 {
        (self.at(0.9) - self.at(0.1)) / self.median() * 100.0
    }
}

/// The times of one text, by the place of the side.
type Row = [Times; SIDES.len()];

pub fn report(texts: &[Text], rounds: usize) {
    let rows = measured(texts, rounds);
    println!("Microseconds a reading: best and median of {rounds}, and spread (the middle 80 %, in % of the median)");
    let (three, two) = ("    best   median spread", "  best median");
    println!(
        "{:29} | {:^24} | {:^24} | {:^24} | {:^13} | {:^13}",
        "", "strict", "survey", "Rust", "Rust/strict", "survey/strict"
    );
    println!("{:16} {:>6} {:>5} | {three:24} | {three:24} | {three:24} | {two} | {two}", "text", "bytes", "lines");
    texts.iter().zip(&rows).for_each(|(text, row)| print_row(text, row));
    print_growth(texts, &rows);
}

fn measured(texts: &[Text], rounds: usize) -> Vec<Row> {
    let mut tables = Tables::new();
    let mut rows: Vec<Row> = texts.iter().map(|_| Row::default()).collect();
    for _ in 0..rounds {
        for (text, row) in texts.iter().zip(&mut rows) {
            for (side, times) in SIDES.into_iter().zip(row) {
                // the first reading only fills the caches, which the side before has left with its own
                once(&mut tables, side, text);
                times.0.push(once(&mut tables, side, text));
            }
        }
    }
    rows.iter_mut().flatten().for_each(|times| times.0.sort_by(f64::total_cmp));
    rows
}

fn once(tables: &mut Tables, side: Side, text: &Text) -> f64 {
    tables.reading(side, &text.bytes, |read| {
        let start = Instant::now();
        std::hint::black_box(read());
        start.elapsed().as_secs_f64() * 1e6
    })
}

fn print_row(text: &Text, row: &Row) {
    let lines = text.bytes.split_inclusive(|&b| b == b'\n').count();
    print!("{:16} {:6} {lines:5}", text.name, text.bytes.len());
    row.iter().for_each(|t| print!(" | {:8.1} {:8.1} {:5.1}%", t.best(), t.median(), t.spread()));
    let [strict, survey, rust] = row;
    for over in [rust, survey] {
        print!(" | {:6.2} {:6.2}", over.best() / strict.best(), over.median() / strict.median());
    }
    println!();
}

/// Four times the text: 4.0 is growth in line with it.
fn print_growth(texts: &[Text], rows: &[Row]) {
    println!("\nGrowth of the best time, text four times as long");
    for many in [true, false] {
        let row = |size| &rows[texts.iter().position(|text| text.name == name(size, many)).expect("a generated text")];
        for sizes in SIZES.windows(2) {
            let [small, large] = [row(sizes[0]), row(sizes[1])];
            print!("{:16} -> {:16}", name(sizes[0], many), name(sizes[1], many));
            for (at, side) in SIDES.into_iter().enumerate() {
                print!("  {} {:.2}", side.name(), large[at].best() / small[at].best());
            }
            println!();
        }
    }
}
