//! Where the records stand in the tables: docs/LAYOUT.md as constants, by the names of include/inp.h. `bindings/layout`
//! holds them against the layout of the library.

mod places;

use crate::Class;
pub use places::*;

/// Room of a survey's counts: all lines, then those of each class.
pub const COUNTS_ROOM: usize = Class::Open as usize + 1;

/// A part of a table: `most` rows of `width` places each, from the place `at` on, one after another.
#[derive(Clone, Copy, Debug, PartialEq, Eq)]
pub struct Region {
    pub at: usize,
    pub most: usize,
    pub width: usize,
}

impl Region {
    const fn new(at: usize, most: usize, width: usize) -> Region {
        Region { at, most, width }
    }

    /// The places of record `i`.
    pub fn row<T>(self, table: &[T], i: usize) -> &[T] {
        assert!(i < self.most, "there is no record {i}");
        &table[self.at + i * self.width..][..self.width]
    }
}

/// The regions of the table of whole numbers. Between the clauses and the counts stand slots, by which only the library
/// looks names up.
pub mod words {
    use super::*;
    pub const NODES: Region = Region::new(NODES_AT, NODES_MOST, NODES_WIDTH);
    pub const LINKS: Region = Region::new(LINKS_AT, LINKS_MOST, LINKS_WIDTH);
    pub const CURVES: Region = Region::new(CURVES_AT, CURVES_MOST, CURVES_WIDTH);
    pub const POINTS: Region = Region::new(POINTS_AT, POINTS_MOST, POINTS_WIDTH);
    pub const PATTERNS: Region = Region::new(PATTERNS_AT, PATTERNS_MOST, PATTERNS_WIDTH);
    pub const MULTIPLIERS: Region = Region::new(MULTIPLIERS_AT, MULTIPLIERS_MOST, MULTIPLIERS_WIDTH);
    pub const DEMANDS: Region = Region::new(DEMANDS_AT, DEMANDS_MOST, DEMANDS_WIDTH);
    pub const TIMES: Region = Region::new(TIMES_AT, TIMES_MOST, TIMES_WIDTH);
    pub const RULES: Region = Region::new(RULES_AT, RULES_MOST, RULES_WIDTH);
    pub const CLAUSES: Region = Region::new(CLAUSES_AT, CLAUSES_MOST, CLAUSES_WIDTH);
    /// One row: how many records there are of each kind, the times apart.
    pub const COUNTS: Region = Region::new(COUNTS_AT, 1, COUNTS_WIDTH);
}

/// The regions of the table of doubles.
pub mod numbers {
    use super::*;
    pub const NODES: Region = Region::new(NODE_NUMBERS_AT, NODES_MOST, NODE_NUMBERS_WIDTH);
    pub const LINKS: Region = Region::new(LINK_NUMBERS_AT, LINKS_MOST, LINK_NUMBERS_WIDTH);
    pub const POINTS: Region = Region::new(POINT_NUMBERS_AT, POINTS_MOST, POINT_NUMBERS_WIDTH);
    pub const MULTIPLIERS: Region = Region::new(MULTIPLIER_NUMBERS_AT, MULTIPLIERS_MOST, MULTIPLIER_NUMBERS_WIDTH);
    pub const DEMANDS: Region = Region::new(DEMAND_NUMBERS_AT, DEMANDS_MOST, DEMAND_NUMBERS_WIDTH);
    pub const CLAUSES: Region = Region::new(CLAUSE_NUMBERS_AT, CLAUSES_MOST, CLAUSE_NUMBERS_WIDTH);
}
