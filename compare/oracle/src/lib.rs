//! The Rust of docs/src, with document 01's cuts, read from memory and written out as a dump.

mod dump;
mod numbers;

pub use epanet::utils::time::parse_time_str;
pub use numbers::number;

use epanet::error::InputError;
use epanet::model::network::Network;

pub struct Reading {
    /// Document 01's number; 8 stands for 8 and 9, which the Rust does not tell apart.
    pub answer: u8,
    /// The line of a refusal, where the Rust gives one.
    pub line: Option<usize>,
    /// The dump without its first line.
    pub records: String,
}

pub fn read(text: &[u8]) -> Reading {
    let mut network = Network::default();
    let result = network.read_inp_from(text);
    let line = match &result {
        Ok(()) => Some(0),
        Err(InputError::Parse { line, .. }) => *line,
        Err(_) => None,
    };
    let answer = result.err().map_or(0, |error| number(&error));
    Reading { answer, line, records: dump::records(&network) }
}

/// The dump; the line is `-` where the Rust gives none.
pub fn dump(text: &[u8]) -> String {
    let Reading { answer, line, records } = read(text);
    let line = line.map_or("-".into(), |line| line.to_string());
    format!("answer {answer} line {line}\n{records}")
}
