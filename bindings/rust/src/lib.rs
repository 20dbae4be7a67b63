//! A reader of EPANET network files (`.inp`) that loses nothing and invents nothing: Rust values over the proved
//! library. What it reads and refuses is document 01 (docs/01-scope.md); what its tables hold is docs/LAYOUT.md.
//!
//! A [`Reader`] owns the tables and can be used again and again; each reading first empties them.
//!
//! ```
//! let text = b"[JUNCTIONS]\nJ1 10.5\n[TANKS]\nT1 50\n[PIPES]\nP1 J1 T1 100 200 0.1\n";
//! let mut reader = inp::Reader::new();
//! let reading = reader.read_strict(text);
//! assert_eq!(reading.refused, None);
//! for link in reading.network.links() {
//!     let start = reading.network.node(link.start);
//!     println!("{} starts at {}", link.id.escape_ascii(), start.id.escape_ascii());
//! }
//! ```
//!
//! **Strict** reading ([`Reader::read_strict`]) stops at the first refused piece, a line or a group of rule lines, and
//! says which and why in `refused`. The network then holds the records stored before it: look at `refused` before you
//! trust them. Pattern indexes are worked out only when the text is read to its end.
//!
//! A **survey** ([`Reader::read_survey`]) goes on after a refused piece. It gives each line's [`Class`], a [`Refusal`]
//! for each refused piece, and counts that add up to the lines. Its `refused` is for the whole text only (too long, or a
//! byte above 127); [`Survey::refusals`] gives those of the pieces.
//!
//! Names are parts of the text that was read, not copies. Records stand in file order, and where a record names another
//! by its place (a link its nodes, an action its link, a demand its junction), that is its place in that order, counted
//! from 0. Not everything in a file becomes a record: see the first table of docs/DIFFERENCES.md.
//!
//! The library, libinp.a, is made by `bindings/library inp`. It is linked from the folder that the environment variable
//! `INP_LIB_DIR` names (in full) when the crate is built, or from the repository's target/native. All unsafe code is in
//! [`ffi`]. examples/dump.rs prints every record of a reading.

pub mod ffi;
pub mod layout;
mod network;
mod reader;
mod records;
mod refusal;

pub use network::Network;
pub use reader::{Class, Counts, Line, Reader, Strict, Survey};
pub use records::{
    Action, Clause, Comparison, Condition, Curve, Demand, Link, LinkAttribute, LinkKind, LinkStatus, Multiplier, Node,
    NodeAttribute, NodeKind, Operator, Pattern, PipeStatus, Point, Rule, SystemAttribute, TankAttribute, Target, Times,
    Value, ValveType,
};
pub use refusal::{Refusal, Refused};
