//! The readings that are held against each other: ours, strict and survey, and the Rust's. Each reads from memory.

use epanet::model::network::Network;
use inp::{ffi, layout};

#[derive(Clone, Copy, PartialEq)]
pub enum Side {
    Strict,
    Survey,
    Rust,
}

pub const SIDES: [Side; 3] = [Side::Strict, Side::Survey, Side::Rust];

impl Side {
    pub fn name(self) -> &'static str {
        match self {
            Side::Strict => "strict",
            Side::Survey => "survey",
            Side::Rust => "rust",
        }
    }

    pub fn named(name: &str) -> Option<Side> {
        SIDES.into_iter().find(|side| side.name() == name)
    }
}

/// The tables that our readings are lent. A reading empties them itself, and that is part of its time.
pub struct Tables {
    words: Vec<u64>,
    numbers: Vec<f64>,
    classes: Vec<u8>,
    reasons: Vec<u8>,
    counts: Vec<u64>,
}

impl Tables {
    pub fn new() -> Tables {
        Tables {
            words: vec![0; layout::WORDS_ROOM],
            numbers: vec![0.0; layout::NUMBERS_ROOM],
            classes: vec![0; layout::CLASSES_ROOM],
            reasons: vec![0; layout::REASONS_ROOM],
            counts: vec![0; layout::COUNTS_ROOM],
        }
    }

    /// Hands `run` the reading and nothing else: the Rust's network is made before and dropped after. What the
    /// reading answers is not looked at here; every text is tried beforehand.
    pub fn reading<R>(&mut self, side: Side, text: &[u8], run: impl FnOnce(&mut dyn FnMut() -> bool) -> R) -> R {
        let Tables { words, numbers, classes, reasons, counts } = self;
        match side {
            Side::Strict => run(&mut || ffi::read_strict(text, words, numbers, &mut 0) == 0),
            Side::Survey => run(&mut || ffi::read_survey(text, words, numbers, classes, reasons, counts) == 0),
            Side::Rust => {
                let mut network = Network::default();
                run(&mut || network.read_inp_from(text).is_ok())
            }
        }
    }
}
