//! What the crate `inp` makes of the library's tables, as the model's records.

use inp::{Comparison, LinkAttribute, LinkStatus, NodeAttribute, Operator, SystemAttribute, TankAttribute, Target};
use model::network::*;

pub fn network<'t>(n: inp::Network<'_, 't>) -> Network<'t> {
    let times = n.times();
    Network {
        nodes: n.nodes().map(node).collect(),
        links: n.links().map(link).collect(),
        curves: n.curves().map(|curve| curve.id).collect(),
        points: n.points().map(|inp::Point { curve, x, y }| Point { curve, x, y }).collect(),
        patterns: n.patterns().map(|pattern| pattern.id).collect(),
        multipliers: n.multipliers().map(|inp::Multiplier { pattern, value }| Multiplier { pattern, value }).collect(),
        demands: n.demands().map(demand).collect(),
        times: [
            times.duration, times.hydraulic_timestep, times.pattern_timestep, times.report_timestep,
            times.pattern_start, times.start_clocktime,
        ],
        rules: n.rules().map(|inp::Rule { id, priority, clauses }| Rule { id, priority, clauses }).collect(),
        clauses: n.clauses().map(clause).collect(),
    }
}

fn node(node: inp::Node) -> Node {
    let kind = match node.kind {
        inp::NodeKind::Junction { disabled, emitter } => NodeKind::Junction { disabled, emitter },
        inp::NodeKind::Reservoir { pattern, pattern_index: index } => NodeKind::Reservoir { pattern, index },
        inp::NodeKind::Tank {
            initial_level,
            minimum_level,
            maximum_level,
            diameter,
            minimum_volume,
            curve,
            overflow,
        } => {
            let numbers = [initial_level, minimum_level, maximum_level, diameter, minimum_volume];
            NodeKind::Tank { numbers, curve, overflow }
        }
    };
    Node { id: node.id, elevation: node.elevation, at: node.at, kind }
}

fn link(link: inp::Link) -> Link {
    let kind = match link.kind {
        inp::LinkKind::Pipe { length, diameter, roughness, minor_loss, status } => {
            let status = match status {
                inp::PipeStatus::Open => PipeStatus::Open,
                inp::PipeStatus::Closed => PipeStatus::Closed,
                inp::PipeStatus::CheckValve => PipeStatus::CheckValve,
            };
            LinkKind::Pipe { length, diameter, roughness, minor_loss, status }
        }
        inp::LinkKind::Pump { speed, power, head_curve: curve } => LinkKind::Pump { speed, curve, power },
        inp::LinkKind::Valve { valve_type, diameter, setting, minor_loss, curve } => {
            LinkKind::Valve { diameter, kind: valve_kind(valve_type), setting, minor_loss, curve }
        }
    };
    Link { id: link.id, start: link.start, end: link.end, kind }
}

fn valve_kind(valve_type: inp::ValveType) -> &'static str {
    use inp::ValveType::*;
    match valve_type {
        Gpv => "GPV",
        Tcv => "TCV",
        Fcv => "FCV",
        Prv => "PRV",
        Psv => "PSV",
        Pbv => "PBV",
        Pcv => "PCV",
    }
}

fn demand(demand: inp::Demand) -> Demand {
    let inp::Demand { node: junction, own, base, pattern, pattern_index: index } = demand;
    Demand { junction, own, base, pattern, index }
}

fn clause(clause: inp::Clause) -> Clause {
    match clause {
        inp::Clause::Condition(c) => {
            let (target, name, attribute) = target(c.target);
            let (or, comparison) = (c.operator == Operator::Or, comparison(c.comparison));
            Clause::Condition(Condition { or, target, name, attribute, comparison, value: value(c.value) })
        }
        inp::Clause::Action(a) => {
            Clause::Action(Action { link: a.link_id, place: a.link, value: value(a.value), otherwise: a.otherwise })
        }
    }
}

fn target(target: Target) -> (&'static str, Option<Name>, &'static str) {
    match target {
        Target::System { attribute: SystemAttribute::Demand } => ("SYSTEM", None, "DEMAND"),
        Target::System { attribute: SystemAttribute::Time } => ("SYSTEM", None, "TIME"),
        Target::System { attribute: SystemAttribute::Clocktime } => ("SYSTEM", None, "CLOCKTIME"),
        Target::Node { id, attribute: NodeAttribute::Demand } => ("NODE", Some(id), "DEMAND"),
        Target::Node { id, attribute: NodeAttribute::Head } => ("NODE", Some(id), "HEAD"),
        Target::Node { id, attribute: NodeAttribute::Pressure } => ("NODE", Some(id), "PRESSURE"),
        Target::Tank { id, attribute: TankAttribute::Level } => ("TANK", Some(id), "LEVEL"),
        Target::Tank { id, attribute: TankAttribute::Filltime } => ("TANK", Some(id), "FILLTIME"),
        Target::Tank { id, attribute: TankAttribute::Draintime } => ("TANK", Some(id), "DRAINTIME"),
        Target::Link { id, attribute: LinkAttribute::Flow } => ("LINK", Some(id), "FLOW"),
        Target::Link { id, attribute: LinkAttribute::Status } => ("LINK", Some(id), "STATUS"),
        Target::Link { id, attribute: LinkAttribute::Setting } => ("LINK", Some(id), "SETTING"),
    }
}

fn comparison(comparison: Comparison) -> &'static str {
    match comparison {
        Comparison::Equal => "=",
        Comparison::NotEqual => "<>",
        Comparison::Above => ">",
        Comparison::Below => "<",
        Comparison::AtLeast => ">=",
        Comparison::AtMost => "<=",
    }
}

fn value(value: inp::Value) -> Value {
    match value {
        inp::Value::Number(x) => Value::Number(x),
        inp::Value::Status(LinkStatus::Open) => Value::Status("OPEN"),
        inp::Value::Status(LinkStatus::Closed) => Value::Status("CLOSED"),
        inp::Value::Status(LinkStatus::Active) => Value::Status("ACTIVE"),
    }
}
