//! Why a text, a line or a rule group is refused.

use std::fmt;

/// Document 01's "Numbers of the answers".
#[derive(Clone, Copy, Debug, PartialEq, Eq, Hash, PartialOrd, Ord)]
pub enum Refusal {
    /// A required field is missing.
    Missing = 1,
    /// A number, count, condition value or true/false is malformed.
    Malformed = 2,
    /// A node, link or rule id is already used.
    Used = 3,
    /// A named node or link is not found.
    NotFound = 4,
    /// The node is not a junction, or the action's link is not of the kind named.
    WrongKind = 5,
    /// A curve's x is less than its last x.
    XFalls = 6,
    /// An unknown word.
    UnknownWord = 7,
    /// A rule group has no condition.
    NoCondition = 8,
    /// A rule group has no action.
    NoAction = 9,
    /// A rule group has no id.
    NoId = 10,
    /// The text is longer than 65,536 bytes.
    TooLong = 20,
    /// A byte of the text is above 127.
    HighByte = 21,
    /// A number is well formed but beyond reach.
    BeyondReach = 22,
    /// The record or the clauses do not fit.
    NoRoom = 23,
    /// A table lent to be written is smaller than its room. A [`Reader`](crate::Reader)'s never is.
    SmallTable = 28,
}

use Refusal::*;

const ALL: [Refusal; 15] = [
    Missing, Malformed, Used, NotFound, WrongKind, XFalls, UnknownWord, NoCondition, NoAction, NoId, TooLong, HighByte,
    BeyondReach, NoRoom, SmallTable,
];

impl Refusal {
    /// The refusal with this number of document 01; none for 0, which is no refusal, and for numbers it does not give.
    pub fn from_number(number: u64) -> Option<Refusal> {
        ALL.into_iter().find(|refusal| refusal.number() == number)
    }

    /// Document 01's number.
    pub fn number(self) -> u64 {
        self as u64
    }

    fn sentence(self) -> &'static str {
        match self {
            Missing => "a required field is missing",
            Malformed => "a number, count, condition value or true/false is malformed",
            Used => "the id is already used",
            NotFound => "a named node or link is not found",
            WrongKind => "the node is not a junction, or the link is not of the kind named",
            XFalls => "the curve's x is less than its last x",
            UnknownWord => "unknown word",
            NoCondition => "the rule has no condition",
            NoAction => "the rule has no action",
            NoId => "the rule has no id",
            TooLong => "the text is longer than 65,536 bytes",
            HighByte => "a byte is above 127",
            BeyondReach => "a number is beyond reach",
            NoRoom => "there is no room for it",
            SmallTable => "a table is smaller than its room",
        }
    }
}

impl fmt::Display for Refusal {
    fn fmt(&self, f: &mut fmt::Formatter) -> fmt::Result {
        write!(f, "{} ({})", self.sentence(), self.number())
    }
}

/// A refusal and where it stands.
#[derive(Clone, Copy, Debug, PartialEq, Eq, Hash)]
pub struct Refused {
    pub refusal: Refusal,
    /// The refused line, or the first line of the refused rule group, counted from 1; 0 where the whole text is refused.
    pub line: usize,
}

impl fmt::Display for Refused {
    fn fmt(&self, f: &mut fmt::Formatter) -> fmt::Result {
        match self.line {
            0 => self.refusal.fmt(f),
            line => write!(f, "line {line}: {}", self.refusal),
        }
    }
}

impl std::error::Error for Refused {}
