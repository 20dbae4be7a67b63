//! The records of a network, as Rust values. Names are parts of the text.

use std::ops::Range;

#[derive(Clone, Copy, Debug, PartialEq)]
pub struct Node<'t> {
    pub id: &'t [u8],
    pub elevation: f64,
    /// Its coordinates, x and y.
    pub at: Option<(f64, f64)>,
    pub kind: NodeKind<'t>,
}

#[derive(Clone, Copy, Debug, PartialEq)]
pub enum NodeKind<'t> {
    /// [`Network::demands_of`](crate::Network::demands_of) gives its demands.
    Junction { disabled: bool, emitter: f64 },
    Reservoir {
        pattern: Option<&'t [u8]>,
        /// The place of that pattern; none where there is no such pattern or the text was not read to its end.
        pattern_index: Option<usize>,
    },
    Tank {
        initial_level: f64,
        minimum_level: f64,
        maximum_level: f64,
        diameter: f64,
        minimum_volume: f64,
        curve: Option<&'t [u8]>,
        overflow: bool,
    },
}

#[derive(Clone, Copy, Debug, PartialEq)]
pub struct Link<'t> {
    pub id: &'t [u8],
    /// The places of its nodes.
    pub start: usize,
    pub end: usize,
    pub kind: LinkKind<'t>,
}

#[derive(Clone, Copy, Debug, PartialEq)]
pub enum LinkKind<'t> {
    Pipe { length: f64, diameter: f64, roughness: f64, minor_loss: f64, status: PipeStatus },
    Pump { speed: f64, power: f64, head_curve: Option<&'t [u8]> },
    Valve { valve_type: ValveType, diameter: f64, setting: f64, minor_loss: f64, curve: Option<&'t [u8]> },
}

#[derive(Clone, Copy, Debug, PartialEq, Eq, Hash)]
pub enum PipeStatus {
    Open,
    Closed,
    /// Open, and water passes one way only.
    CheckValve,
}

#[derive(Clone, Copy, Debug, PartialEq, Eq, Hash)]
pub enum ValveType {
    Gpv,
    Tcv,
    Fcv,
    Prv,
    Psv,
    Pbv,
    Pcv,
}

/// [`Network::points_of`](crate::Network::points_of) gives its points.
#[derive(Clone, Copy, Debug, PartialEq, Eq, Hash)]
pub struct Curve<'t> {
    pub id: &'t [u8],
}

/// A point of the curve at that place.
#[derive(Clone, Copy, Debug, PartialEq)]
pub struct Point {
    pub curve: usize,
    pub x: f64,
    pub y: f64,
}

/// [`Network::multipliers_of`](crate::Network::multipliers_of) gives its multipliers.
#[derive(Clone, Copy, Debug, PartialEq, Eq, Hash)]
pub struct Pattern<'t> {
    pub id: &'t [u8],
}

/// A multiplier of the pattern at that place.
#[derive(Clone, Copy, Debug, PartialEq)]
pub struct Multiplier {
    pub pattern: usize,
    pub value: f64,
}

#[derive(Clone, Copy, Debug, PartialEq)]
pub struct Demand<'t> {
    /// The place of its junction among the nodes.
    pub node: usize,
    /// Whether it is the demand of the junction's own line, which the first line of DEMANDS for it replaces.
    pub own: bool,
    pub base: f64,
    pub pattern: Option<&'t [u8]>,
    /// The place of that pattern; none where there is no such pattern or the text was not read to its end.
    pub pattern_index: Option<usize>,
}

/// In seconds; none where the option was not set.
#[derive(Clone, Copy, Debug, Default, PartialEq, Eq, Hash)]
pub struct Times {
    pub duration: Option<u64>,
    pub hydraulic_timestep: Option<u64>,
    pub pattern_timestep: Option<u64>,
    pub report_timestep: Option<u64>,
    pub pattern_start: Option<u64>,
    pub start_clocktime: Option<u64>,
}

#[derive(Clone, Debug, PartialEq, Eq, Hash)]
pub struct Rule<'t> {
    pub id: &'t [u8],
    pub priority: Option<u64>,
    /// The places of its conditions and actions among the clauses, in the order of its lines.
    pub clauses: Range<usize>,
}

#[derive(Clone, Copy, Debug, PartialEq)]
pub enum Clause<'t> {
    Condition(Condition<'t>),
    Action(Action<'t>),
}

#[derive(Clone, Copy, Debug, PartialEq)]
pub struct Condition<'t> {
    pub operator: Operator,
    pub target: Target<'t>,
    pub comparison: Comparison,
    /// A system TIME or CLOCKTIME in seconds.
    pub value: Value,
}

#[derive(Clone, Copy, Debug, PartialEq)]
pub struct Action<'t> {
    /// Whether it is done where the rule's conditions do not hold.
    pub otherwise: bool,
    /// The place of the link.
    pub link: usize,
    /// The link's id, as the action's line has it.
    pub link_id: &'t [u8],
    /// A status, or a number: the link's new setting.
    pub value: Value,
}

/// How a condition joins those before it; that of IF is `And`.
#[derive(Clone, Copy, Debug, PartialEq, Eq, Hash)]
pub enum Operator {
    And,
    Or,
}

/// What a condition looks at. The ids are as written: they are not looked up.
#[derive(Clone, Copy, Debug, PartialEq, Eq, Hash)]
pub enum Target<'t> {
    System { attribute: SystemAttribute },
    Node { id: &'t [u8], attribute: NodeAttribute },
    Tank { id: &'t [u8], attribute: TankAttribute },
    Link { id: &'t [u8], attribute: LinkAttribute },
}

#[derive(Clone, Copy, Debug, PartialEq, Eq, Hash)]
pub enum SystemAttribute {
    Demand,
    Time,
    Clocktime,
}

#[derive(Clone, Copy, Debug, PartialEq, Eq, Hash)]
pub enum NodeAttribute {
    Demand,
    Head,
    Pressure,
}

#[derive(Clone, Copy, Debug, PartialEq, Eq, Hash)]
pub enum TankAttribute {
    Level,
    Filltime,
    Draintime,
}

#[derive(Clone, Copy, Debug, PartialEq, Eq, Hash)]
pub enum LinkAttribute {
    Flow,
    Status,
    Setting,
}

#[derive(Clone, Copy, Debug, PartialEq, Eq, Hash)]
pub enum Comparison {
    Equal,
    NotEqual,
    Above,
    Below,
    AtLeast,
    AtMost,
}

#[derive(Clone, Copy, Debug, PartialEq)]
pub enum Value {
    Number(f64),
    Status(LinkStatus),
}

#[derive(Clone, Copy, Debug, PartialEq, Eq, Hash)]
pub enum LinkStatus {
    Open,
    Closed,
    Active,
}
