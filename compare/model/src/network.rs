//! The records and the room for them.

use crate::{NO_ROOM, Refusal, USED};

/// The part of the text that it is.
pub type Name<'t> = &'t [u8];

pub const TEXT_ROOM: usize = 65_536;
pub const NODES_MOST: usize = 256;
pub const LINKS_MOST: usize = 256;
pub const CURVES_MOST: usize = 64;
pub const POINTS_MOST: usize = 1_024;
pub const PATTERNS_MOST: usize = 64;
pub const MULTIPLIERS_MOST: usize = 2_048;
pub const DEMANDS_MOST: usize = 512;
pub const RULES_MOST: usize = 64;
pub const CLAUSES_MOST: usize = 512;

pub struct Demand<'t> {
    /// The place of its node.
    pub junction: usize,
    /// Still the junction line's, not one of DEMANDS.
    pub own: bool,
    pub base: f64,
    pub pattern: Option<Name<'t>>,
    pub index: Option<usize>,
}

pub enum NodeKind<'t> {
    Junction {
        disabled: bool,
        emitter: f64,
    },
    Reservoir {
        pattern: Option<Name<'t>>,
        index: Option<usize>,
    },
    /// Initial, minimum and maximum level, diameter, minimum volume.
    Tank {
        numbers: [f64; 5],
        curve: Option<Name<'t>>,
        overflow: bool,
    },
}

pub struct Node<'t> {
    pub id: Name<'t>,
    pub elevation: f64,
    pub at: Option<(f64, f64)>,
    pub kind: NodeKind<'t>,
}

#[derive(Clone, Copy, PartialEq)]
pub enum PipeStatus {
    Open,
    Closed,
    CheckValve,
}

pub const VALVES: [&str; 7] = ["GPV", "TCV", "FCV", "PRV", "PSV", "PBV", "PCV"];

pub enum LinkKind<'t> {
    Pipe { length: f64, diameter: f64, roughness: f64, minor_loss: f64, status: PipeStatus },
    Pump { speed: f64, curve: Option<Name<'t>>, power: f64 },
    Valve { diameter: f64, kind: &'static str, setting: f64, minor_loss: f64, curve: Option<Name<'t>> },
}

pub struct Link<'t> {
    pub id: Name<'t>,
    pub start: usize,
    pub end: usize,
    pub kind: LinkKind<'t>,
}

/// A point of the curve at that place.
pub struct Point {
    pub curve: usize,
    pub x: f64,
    pub y: f64,
}

/// A multiplier of the pattern at that place.
pub struct Multiplier {
    pub pattern: usize,
    pub value: f64,
}

pub const STATUSES: [&str; 3] = ["OPEN", "CLOSED", "ACTIVE"];

pub enum Value {
    Number(f64),
    Status(&'static str),
}

pub const SYSTEM: [&str; 3] = ["DEMAND", "TIME", "CLOCKTIME"];
pub const NODE: [&str; 3] = ["DEMAND", "HEAD", "PRESSURE"];
pub const TANK: [&str; 3] = ["LEVEL", "FILLTIME", "DRAINTIME"];
pub const LINK: [&str; 3] = ["FLOW", "STATUS", "SETTING"];
/// What a condition may look at, and the attributes of each.
pub const TARGETS: [(&str, [&str; 3]); 4] = [("SYSTEM", SYSTEM), ("NODE", NODE), ("TANK", TANK), ("LINK", LINK)];

pub const COMPARISONS: [&str; 6] = ["=", "<>", ">", "<", ">=", "<="];

pub struct Condition<'t> {
    pub or: bool,
    pub target: &'static str,
    pub name: Option<Name<'t>>,
    pub attribute: &'static str,
    pub comparison: &'static str,
    pub value: Value,
}

pub struct Action<'t> {
    pub link: Name<'t>,
    /// The place of the link.
    pub place: usize,
    pub value: Value,
    pub otherwise: bool,
}

pub enum Clause<'t> {
    Condition(Condition<'t>),
    Action(Action<'t>),
}

pub struct Rule<'t> {
    pub id: Name<'t>,
    pub priority: Option<u64>,
    /// The places of its clauses, in the order of its lines.
    pub clauses: std::ops::Range<usize>,
}

/// Duration, hydraulic, pattern and report timestep, pattern start, start clocktime.
pub const TIME_OPTIONS: [&[u8]; 6] =
    [b"DURATION", b"HYDRAULIC TIMESTEP", b"PATTERN TIMESTEP", b"REPORT TIMESTEP", b"PATTERN START", b"START CLOCKTIME"];
pub const TIME_DEFAULTS: [u64; 6] = [0, 3600, 3600, 3600, 0, 0];

/// All in file order.
#[derive(Default)]
pub struct Network<'t> {
    pub nodes: Vec<Node<'t>>,
    pub links: Vec<Link<'t>>,
    pub curves: Vec<Name<'t>>,
    pub points: Vec<Point>,
    pub patterns: Vec<Name<'t>>,
    pub multipliers: Vec<Multiplier>,
    pub demands: Vec<Demand<'t>>,
    pub times: [Option<u64>; 6],
    pub rules: Vec<Rule<'t>>,
    pub clauses: Vec<Clause<'t>>,
}

impl<'t> Network<'t> {
    pub fn node(&self, id: &[u8]) -> Option<usize> {
        self.nodes.iter().position(|node| node.id == id)
    }

    pub fn link(&self, id: &[u8]) -> Option<usize> {
        self.links.iter().position(|link| link.id == id)
    }

    pub fn conditions(&self) -> usize {
        self.clauses.iter().filter(|clause| matches!(clause, Clause::Condition(_))).count()
    }

    pub fn add_node(&mut self, node: Node<'t>) -> Result<(), Refusal> {
        if self.node(node.id).is_some() {
            return Err(USED);
        }
        fits(self.nodes.len(), 1, NODES_MOST)?;
        self.nodes.push(node);
        Ok(())
    }

    /// A junction and the demand of its own line, or neither.
    pub fn add_junction(&mut self, node: Node<'t>, base: f64, pattern: Option<Name<'t>>) -> Result<(), Refusal> {
        if self.node(node.id).is_none() {
            fits(self.demands.len(), 1, DEMANDS_MOST)?;
        }
        self.add_node(node)?;
        self.demands.push(Demand { junction: self.nodes.len() - 1, own: true, base, pattern, index: None });
        Ok(())
    }

    pub fn add_link(&mut self, link: Link<'t>) -> Result<(), Refusal> {
        if self.link(link.id).is_some() {
            return Err(USED);
        }
        fits(self.links.len(), 1, LINKS_MOST)?;
        self.links.push(link);
        Ok(())
    }

    pub fn add_rule(&mut self, id: Name<'t>, clauses: Vec<Clause<'t>>, priority: Option<u64>) -> Result<(), Refusal> {
        if self.rules.iter().any(|other| other.id == id) {
            return Err(USED);
        }
        fits(self.rules.len(), 1, RULES_MOST)?;
        fits(self.clauses.len(), clauses.len(), CLAUSES_MOST)?;
        let first = self.clauses.len();
        self.rules.push(Rule { id, priority, clauses: first..first + clauses.len() });
        self.clauses.extend(clauses);
        Ok(())
    }

    /// Once the text is read to its end.
    pub fn resolve_pattern_indices(&mut self) {
        let patterns = &self.patterns;
        let place = |name: Option<Name>| patterns.iter().position(|&pattern| Some(pattern) == name);
        self.demands.iter_mut().for_each(|demand| demand.index = place(demand.pattern));
        for node in &mut self.nodes {
            if let NodeKind::Reservoir { pattern, index } = &mut node.kind {
                *index = place(*pattern);
            }
        }
    }
}

/// Whether `more` fit beside `held`. What needs no place fits a full table too.
pub fn fits(held: usize, more: usize, room: usize) -> Result<(), Refusal> {
    if held + more <= room { Ok(()) } else { Err(NO_ROOM) }
}
