//! The reader, and what its two readings give.

use crate::ffi;
use crate::layout;
use crate::network::Network;
use crate::refusal::{Refusal, Refused};

/// Owns the tables, about 300 kB. One reader reads any number of texts, one after another.
pub struct Reader {
    words: Box<[u64]>,
    numbers: Box<[f64]>,
    classes: Box<[u8]>,
    reasons: Box<[u8]>,
}

impl Reader {
    pub fn new() -> Reader {
        Reader {
            words: vec![0; layout::WORDS_ROOM].into(),
            numbers: vec![0.0; layout::NUMBERS_ROOM].into(),
            classes: vec![0; layout::CLASSES_ROOM].into(),
            reasons: vec![0; layout::REASONS_ROOM].into(),
        }
    }

    /// Reads up to the first refused piece.
    pub fn read_strict<'t>(&mut self, text: &'t [u8]) -> Strict<'_, 't> {
        let mut line = 0;
        let number = ffi::read_strict(text, &mut self.words, &mut self.numbers, &mut line);
        let refused = refusal(number).map(|refusal| Refused { refusal, line: line as usize });
        Strict { refused, network: Network::new(text, &self.words, &self.numbers) }
    }

    /// Reads to the end, past what is refused, and says of each line what became of it.
    pub fn read_survey<'t>(&mut self, text: &'t [u8]) -> Survey<'_, 't> {
        let mut counts = [0; layout::COUNTS_ROOM];
        let number = ffi::read_survey(
            text, &mut self.words, &mut self.numbers, &mut self.classes, &mut self.reasons, &mut counts,
        );
        let lines = counts[0] as usize;
        Survey {
            refused: refusal(number).map(|refusal| Refused { refusal, line: 0 }),
            network: Network::new(text, &self.words, &self.numbers),
            counts: Counts::new(counts),
            classes: &self.classes[..lines],
            reasons: &self.reasons[..lines],
        }
    }
}

impl Default for Reader {
    fn default() -> Reader {
        Reader::new()
    }
}

/// What strict reading gives.
#[derive(Clone, Copy)]
pub struct Strict<'r, 't> {
    /// None where the text is accepted.
    pub refused: Option<Refused>,
    /// The records; after a refusal those stored before it.
    pub network: Network<'r, 't>,
}

/// What a survey gives.
#[derive(Clone, Copy)]
pub struct Survey<'r, 't> {
    /// Why the text is refused whole, if it is: then there are no records and no lines.
    pub refused: Option<Refused>,
    /// The records of all pieces that were not refused.
    pub network: Network<'r, 't>,
    pub counts: Counts,
    classes: &'r [u8],
    reasons: &'r [u8],
}

impl<'r> Survey<'r, '_> {
    /// The lines of the text, in order.
    pub fn lines(&self) -> impl ExactSizeIterator<Item = Line> + use<'r> {
        let both = self.classes.iter().zip(self.reasons);
        both.enumerate().map(|(i, (&class, &reason))| Line {
            number: i + 1,
            class: Class::new(class),
            reason: refusal(reason.into()),
        })
    }

    /// The refused lines and rule groups, by rising line.
    pub fn refusals(&self) -> impl Iterator<Item = Refused> + use<'r> {
        self.lines().filter_map(|line| line.reason.map(|refusal| Refused { refusal, line: line.number }))
    }
}

/// What became of a line.
#[derive(Clone, Copy, Debug, PartialEq, Eq, Hash)]
pub struct Line {
    /// Counted from 1.
    pub number: usize,
    pub class: Class,
    /// Why it is refused: at a refused line, and at the first line of a refused rule group.
    pub reason: Option<Refusal>,
}

/// The eight classes of lines, with document 01's numbers.
#[derive(Clone, Copy, Debug, PartialEq, Eq, Hash, PartialOrd, Ord)]
pub enum Class {
    Blank = 1,
    Header = 2,
    /// Of a section that is not read.
    Passed = 3,
    Taken = 4,
    Refused = 5,
    RuleTaken = 6,
    RuleRefused = 7,
    /// Of a rule group still open at the end, which is discarded.
    Open = 8,
}

impl Class {
    fn new(number: u8) -> Class {
        use Class::*;
        let all = [Blank, Header, Passed, Taken, Refused, RuleTaken, RuleRefused, Open];
        all[usize::from(number) - 1]
    }

    /// Document 01's number.
    pub fn number(self) -> u8 {
        self as u8
    }
}

/// How many lines there are, and how many of each class.
#[derive(Clone, Copy, Debug, Default, PartialEq, Eq, Hash)]
pub struct Counts {
    pub lines: usize,
    pub blank: usize,
    pub header: usize,
    pub passed: usize,
    pub taken: usize,
    pub refused: usize,
    pub rule_taken: usize,
    pub rule_refused: usize,
    pub open: usize,
}

impl Counts {
    fn new(counts: [u64; layout::COUNTS_ROOM]) -> Counts {
        let [lines, blank, header, passed, taken, refused, rule_taken, rule_refused, open] = counts.map(|n| n as usize);
        Counts { lines, blank, header, passed, taken, refused, rule_taken, rule_refused, open }
    }
}

/// None for 0.
fn refusal(number: u64) -> Option<Refusal> {
    let refusal = Refusal::from_number(number);
    assert!(refusal.is_some() || number == 0, "document 01 has no answer {number}");
    refusal
}
