//! The proved library on a text, against the model: its answers, and every place of every table, first as the library
//! leaves them and then as the crate `inp` hands them on.

use crate::decoded;
use inp::{Reader, Refused, ffi, layout};
use model::network::{Network, TEXT_ROOM};
use model::reading::{Strict, Survey};
use model::tables;
use std::fmt::Debug;

/// Places lent beyond the room, where nothing may be written.
const BEYOND: usize = 5;
/// What is there before a reading, and what no reading writes.
const NOISE: u64 = 0xdead_beef_dead_beef;
const NOISE_BYTE: u8 = 0xdb;
/// The answer where a table is smaller than its room.
const SMALL: u64 = 28;
const ROOMS: [usize; 5] =
    [layout::WORDS_ROOM, layout::NUMBERS_ROOM, layout::CLASSES_ROOM, layout::REASONS_ROOM, layout::COUNTS_ROOM];

pub struct Library {
    lent: Tables,
    reader: Reader,
}

/// What a reading is lent.
struct Tables {
    words: Vec<u64>,
    numbers: Vec<f64>,
    classes: Vec<u8>,
    reasons: Vec<u8>,
    counts: Vec<u64>,
}

/// What the words and numbers must hold after it.
struct Held {
    words: Vec<u64>,
    numbers: Vec<f64>,
}

impl Default for Library {
    fn default() -> Library {
        Library { lent: Tables::noise(ROOMS.map(|room| room + BEYOND)), reader: Reader::new() }
    }
}

impl Library {
    /// Strict reading: number, line, every place of the tables; then the crate's records.
    pub fn strict(&mut self, text: &[u8], wanted: &Strict) -> Result<(), String> {
        let held = Held::by(text, &wanted.network);
        let Tables { words, numbers, .. } = self.soiled(text);
        let mut line = NOISE;
        let number = ffi::read_strict(text, words, numbers, &mut line);
        let answer = (wanted.answer.into(), wanted.line as u64);
        same("strict: answer and line", (number, line), answer)?;
        held.same("strict", words, numbers)?;

        let reading = self.reader.read_strict(text);
        same("strict, the crate: answer and line", answer_of(reading.refused), answer)?;
        let crated = Held::by(text, &decoded::network(reading.network));
        held.same_room("strict, the crate", &crated.words, &crated.numbers)
    }

    /// A survey: number, counts, every place of every table; then the crate's lines and records.
    pub fn survey(&mut self, text: &[u8], wanted: &Survey) -> Result<(), String> {
        let held = Held::by(text, &wanted.network);
        let counts = counts_of(&wanted.classes);
        let Tables { words, numbers, classes, reasons, counts: counted } = self.soiled(text);
        let number = ffi::read_survey(text, words, numbers, classes, reasons, counted);
        same("survey: answer", number, wanted.answer.into())?;
        held.same("survey", words, numbers)?;
        same_places("survey", "classes", classes, &padded(&wanted.classes), NOISE_BYTE)?;
        same_places("survey", "reasons", reasons, &padded(&wanted.reasons), NOISE_BYTE)?;
        same_places("survey", "counts", counted, &counts, NOISE)?;

        let survey = self.reader.read_survey(text);
        same("survey, the crate: answer", answer_of(survey.refused), (wanted.answer.into(), 0))?;
        same("survey, the crate: counts", crate_counts(survey.counts), counts)?;
        let lines = survey.lines().map(|line| (line.class.number(), line.reason.map_or(0, |reason| reason.number())));
        let wanted = wanted.classes.iter().zip(&wanted.reasons).map(|(&class, &reason)| (class, u64::from(reason)));
        same("survey, the crate: lines", lines.collect::<Vec<_>>(), wanted.collect())?;
        let crated = Held::by(text, &decoded::network(survey.network));
        held.same_room("survey, the crate", &crated.words, &crated.numbers)
    }

    /// Now and then, and always where a text is too long: with one table too small the answer is 28 before any other,
    /// and nothing is written.
    pub fn small(&mut self, text: &[u8]) -> Result<(), String> {
        let chosen = sum(text);
        if text.len() <= TEXT_ROOM && !chosen.is_multiple_of(8) {
            return Ok(());
        }
        let table = chosen as usize / 8 % ROOMS.len();
        let mut lengths = ROOMS;
        lengths[table] = if chosen.is_multiple_of(3) { 0 } else { ROOMS[table] - 1 };
        let mut lent = Tables::noise(lengths);
        let Tables { words, numbers, classes, reasons, counts } = &mut lent;
        if table < 2 {
            let mut line = NOISE;
            let number = ffi::read_strict(text, words, numbers, &mut line);
            same("strict, a table too small: answer and line", (number, line), (SMALL, 0))?;
        }
        let number = ffi::read_survey(text, words, numbers, classes, reasons, counts);
        same("survey, a table too small: answer", number, SMALL)?;
        lent.all_noise()
    }

    /// The tables as the reading before left them, or now and then full of noise: a reading empties them itself.
    fn soiled(&mut self, text: &[u8]) -> &mut Tables {
        if sum(text).is_multiple_of(16) {
            self.lent = Tables::noise(ROOMS.map(|room| room + BEYOND));
        }
        &mut self.lent
    }
}

impl Tables {
    fn noise(lengths: [usize; 5]) -> Tables {
        let [words, numbers, classes, reasons, counts] = lengths;
        Tables {
            words: vec![NOISE; words],
            numbers: vec![f64::from_bits(NOISE); numbers],
            classes: vec![NOISE_BYTE; classes],
            reasons: vec![NOISE_BYTE; reasons],
            counts: vec![NOISE; counts],
        }
    }

    fn all_noise(&self) -> Result<(), String> {
        let what = "a table too small";
        same_places(what, "words", &self.words, &[], NOISE)?;
        same_places(what, "numbers", &bits(&self.numbers), &[], NOISE)?;
        same_places(what, "classes", &self.classes, &[], NOISE_BYTE)?;
        same_places(what, "reasons", &self.reasons, &[], NOISE_BYTE)?;
        same_places(what, "counts", &self.counts, &[], NOISE)
    }
}

impl Held {
    fn by(text: &[u8], network: &Network) -> Held {
        Held { words: tables::words(text, network), numbers: tables::numbers(network) }
    }

    fn same(&self, what: &str, words: &[u64], numbers: &[f64]) -> Result<(), String> {
        same_places(what, "words", words, &self.words, NOISE)?;
        same_places(what, "numbers", &bits(numbers), &bits(&self.numbers), NOISE)
    }

    /// Tables of just the room.
    fn same_room(&self, what: &str, words: &[u64], numbers: &[f64]) -> Result<(), String> {
        same("length of the tables", (words.len(), numbers.len()), (self.words.len(), self.numbers.len()))?;
        self.same(what, words, numbers)
    }
}

/// The places hold what is wanted, and noise beyond it.
fn same_places<T>(what: &str, table: &str, held: &[T], wanted: &[T], noise: T) -> Result<(), String>
where
    T: Copy + PartialEq + Debug,
{
    let (room, beyond) = held.split_at(wanted.len());
    if room == wanted && beyond.iter().all(|&place| place == noise) {
        return Ok(());
    }
    let wanted = wanted.iter().copied().chain(std::iter::repeat(noise));
    let differing = held.iter().zip(wanted).enumerate().find(|(_, (held, wanted))| **held != *wanted);
    let (at, (held, wanted)) = differing.expect("some place differs");
    Err(format!("{what}: {table}[{at}]: the library has {held:?} and document 01 {wanted:?}"))
}

fn same<T: PartialEq + Debug>(what: &str, library: T, wanted: T) -> Result<(), String> {
    if library == wanted {
        return Ok(());
    }
    Err(format!("{what}: the library has\n{library:?}\nand document 01\n{wanted:?}"))
}

/// NaN is equal to NaN.
fn bits(numbers: &[f64]) -> Vec<u64> {
    numbers.iter().map(|x| if x.is_nan() { f64::NAN.to_bits() } else { x.to_bits() }).collect()
}

fn answer_of(refused: Option<Refused>) -> (u64, u64) {
    refused.map_or((0, 0), |refused| (refused.refusal.number(), refused.line as u64))
}

/// One entry for each line, then zeros.
fn padded(lines: &[u8]) -> Vec<u8> {
    let mut places = lines.to_vec();
    places.resize(layout::CLASSES_ROOM, 0);
    places
}

/// The lines, and those of each class.
fn counts_of(classes: &[u8]) -> [u64; layout::COUNTS_ROOM] {
    let mut counts = [0; layout::COUNTS_ROOM];
    counts[0] = classes.len() as u64;
    classes.iter().for_each(|&class| counts[usize::from(class)] += 1);
    counts
}

fn crate_counts(c: inp::Counts) -> [u64; layout::COUNTS_ROOM] {
    let counts = [c.lines, c.blank, c.header, c.passed, c.taken, c.refused, c.rule_taken, c.rule_refused, c.open];
    counts.map(|count| count as u64)
}

/// A number of the text by which it is chosen for something, so that the same text is always chosen for the same.
fn sum(text: &[u8]) -> u64 {
    text.iter().fold(0xcbf2_9ce4_8422_2325, |sum, &b| (sum ^ u64::from(b)).wrapping_mul(0x100_0000_01b3)) >> 16
}
