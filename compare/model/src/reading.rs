//! "Lines and groups": strict reading, survey reading, and striking.

use crate::fields::trim;
use crate::network::{Network, TEXT_ROOM};
use crate::rules::rule;
use crate::sections::{Section, read_line, section};
use crate::{NOT_ASCII, Refusal, TOO_LONG};

pub type Class = u8;
pub const BLANK: Class = 1;
pub const HEADER: Class = 2;
pub const PASSED: Class = 3;
pub const TAKEN: Class = 4;
pub const REFUSED: Class = 5;
pub const RULE_TAKEN: Class = 6;
pub const RULE_REFUSED: Class = 7;
pub const OPEN: Class = 8;

pub struct Strict<'t> {
    pub answer: Refusal,
    pub line: usize,
    pub network: Network<'t>,
}

/// Nothing is read of a text refused whole: such a survey has no lines.
pub struct Survey<'t> {
    pub answer: Refusal,
    pub network: Network<'t>,
    pub classes: Vec<Class>,
    pub reasons: Vec<Refusal>,
    /// The lines of each refused piece, in the order in which the pieces ended.
    pub refused: Vec<Vec<usize>>,
}

/// A line, or a group with the RULE line that closed it, and 0 or why it was refused. Lines count from 1.
struct Piece {
    lines: Vec<usize>,
    group: bool,
    refusal: Refusal,
}

struct State<'t> {
    network: Network<'t>,
    section: Section,
    group: Vec<(usize, &'t [u8])>,
}

pub fn lines(text: &[u8]) -> impl Iterator<Item = &[u8]> {
    text.split_inclusive(|&b| b == b'\n')
}

fn whole_refusal(text: &[u8]) -> Refusal {
    if text.len() > TEXT_ROOM {
        TOO_LONG
    } else if !text.is_ascii() {
        NOT_ASCII
    } else {
        0
    }
}

pub fn strict(text: &[u8]) -> Strict<'_> {
    let mut state = State::new();
    let answer = whole_refusal(text);
    if answer != 0 {
        return Strict { answer, line: 0, network: state.network };
    }
    for (at, line) in lines(text).enumerate() {
        if let (_, Some(piece)) = state.step(at + 1, trim(line))
            && piece.refusal != 0
        {
            return Strict { answer: piece.refusal, line: piece.lines[0], network: state.network };
        }
    }
    state.network.resolve_pattern_indices();
    Strict { answer: 0, line: 0, network: state.network }
}

pub fn survey(text: &[u8]) -> Survey<'_> {
    let mut state = State::new();
    let answer = whole_refusal(text);
    let read = if answer == 0 { text } else { b"" };
    let mut classes = vec![0; lines(read).count()];
    let mut reasons = classes.clone();
    let mut refused = Vec::new();
    for (at, line) in lines(read).enumerate() {
        let (class, piece) = state.step(at + 1, trim(line));
        classes[at] = class;
        if let Some(piece) = piece {
            let class = match (piece.group, piece.refusal) {
                (false, 0) => TAKEN,
                (false, _) => REFUSED,
                (true, 0) => RULE_TAKEN,
                (true, _) => RULE_REFUSED,
            };
            piece.lines.iter().for_each(|line| classes[line - 1] = class);
            reasons[piece.lines[0] - 1] = piece.refusal;
            refused.extend((piece.refusal != 0).then_some(piece.lines));
        }
    }
    state.network.resolve_pattern_indices();
    Survey { answer, network: state.network, classes, reasons, refused }
}

impl<'t> State<'t> {
    fn new() -> Self {
        State { network: Network::default(), section: Section::Passed, group: Vec::new() }
    }

    /// The class of a trimmed line as far as it is known, and the piece that it ends. A rule line is open until its
    /// group is closed.
    fn step(&mut self, number: usize, line: &'t [u8]) -> (Class, Option<Piece>) {
        if line.is_empty() || line.starts_with(b";") {
            (BLANK, self.close())
        } else if line.starts_with(b"[") {
            self.section = section(line);
            (HEADER, None)
        } else if self.section == Section::Passed {
            (PASSED, None)
        } else if self.section != Section::Rules {
            let refusal = read_line(&mut self.network, self.section, line).err().unwrap_or(0);
            (TAKEN, Some(Piece { lines: vec![number], group: false, refusal }))
        } else if line.starts_with(b"RULE") && !self.group.is_empty() {
            let mut piece = self.close();
            piece.iter_mut().for_each(|piece| piece.lines.push(number));
            (OPEN, piece)
        } else {
            self.group.push((number, line));
            (OPEN, None)
        }
    }

    fn close(&mut self) -> Option<Piece> {
        if self.group.is_empty() {
            return None;
        }
        let (numbers, lines): (Vec<_>, Vec<_>) = std::mem::take(&mut self.group).into_iter().unzip();
        let answer = rule(&mut self.network, &lines);
        Some(Piece { lines: numbers, group: true, refusal: answer.err().unwrap_or(0) })
    }
}

/// The text without the lines that a survey refused.
pub fn struck(text: &[u8], survey: &Survey) -> Vec<u8> {
    let kept = |&(_, class): &(&[u8], &Class)| !matches!(*class, REFUSED | RULE_REFUSED);
    lines(text).zip(&survey.classes).filter(kept).flat_map(|(line, _)| line.to_vec()).collect()
}
