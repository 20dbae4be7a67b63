//! The records of the Rust's network, as the dump writes them.

use epanet::model::link::{Link, LinkStatus, LinkType};
use epanet::model::network::Network;
use epanet::model::node::{Node, NodeType};
use epanet::model::rule::*;
use std::fmt::{Result, Write};

pub fn records(network: &Network) -> String {
    let mut out = String::new();
    write_network(&mut out, network).unwrap();
    out
}

fn write_network(out: &mut String, network: &Network) -> Result {
    for node in &network.nodes {
        write_node(out, node)?;
    }
    for link in &network.links {
        write_link(out, link)?;
    }
    for curve in &network.curves {
        write!(out, "curve {} {}", name(&curve.id), curve.x.len())?;
        for (x, y) in curve.x.iter().zip(&curve.y) {
            write!(out, " {},{}", number(*x), number(*y))?;
        }
        writeln!(out)?;
    }
    for pattern in &network.patterns {
        write!(out, "pattern {} {}", name(&pattern.id), pattern.multipliers.len())?;
        for multiplier in &pattern.multipliers {
            write!(out, " {}", number(*multiplier))?;
        }
        writeln!(out)?;
    }
    let t = &network.options.time_options;
    write!(out, "times {} {} {}", t.duration, t.hydraulic_timestep, t.pattern_timestep)?;
    writeln!(out, " {} {} {}", t.report_timestep, t.pattern_start, t.start_clocktime)?;
    for rule in &network.rules {
        write_rule(out, rule)?;
    }
    Ok(())
}

fn write_node(out: &mut String, node: &Node) -> Result {
    let letter = match node.node_type {
        NodeType::Junction(_) => "J",
        NodeType::Reservoir(_) => "R",
        NodeType::Tank(_) => "T",
    };
    let at = match node.coordinates {
        Some((x, y)) => format!("{},{}", number(x), number(y)),
        None => "-".into(),
    };
    write!(out, "node {letter} {} {} {at} {}", name(&node.id), number(node.elevation), flag(node.disabled))?;
    match &node.node_type {
        NodeType::Junction(junction) => {
            writeln!(out, " {} {}", number(junction.emitter_coefficient), junction.demands.len())?;
            for demand in &junction.demands {
                let (pattern, place) = (optional(&demand.pattern), index(demand.pattern_index));
                writeln!(out, "  demand {} {pattern} {place}", number(demand.basedemand))?;
            }
            Ok(())
        }
        NodeType::Reservoir(r) => writeln!(out, " {} {}", optional(&r.head_pattern), index(r.head_pattern_index)),
        NodeType::Tank(t) => {
            for x in [t.elevation, t.initial_level, t.min_level, t.max_level, t.diameter, t.min_volume] {
                write!(out, " {}", number(x))?;
            }
            writeln!(out, " {} {}", optional(&t.volume_curve_id), flag(t.overflow))
        }
    }
}

fn write_link(out: &mut String, link: &Link) -> Result {
    let kind = match link.link_type {
        LinkType::Pipe(_) => "PIPE",
        LinkType::Pump(_) => "PUMP",
        LinkType::Valve(_) => "VALVE",
    };
    let status = status(link.initial_status);
    write!(out, "link {kind} {} {} {} {status}", name(&link.id), link.start_node, link.end_node)?;
    match &link.link_type {
        LinkType::Pipe(p) => {
            for x in [p.length, p.diameter, p.roughness, p.minor_loss] {
                write!(out, " {}", number(x))?;
            }
            writeln!(out, " {}", flag(p.check_valve))
        }
        LinkType::Pump(p) => {
            writeln!(out, " {} {} {}", number(p.speed), optional(&p.head_curve_id), number(p.power))
        }
        LinkType::Valve(v) => {
            write!(out, " {} {} {}", number(v.diameter), v.valve_type, number(v.setting))?;
            writeln!(out, " {} {}", number(v.minor_loss), optional(&v.curve_id))
        }
    }
}

fn write_rule(out: &mut String, rule: &Rule) -> Result {
    let (conditions, actions) = (rule.conditions.len(), rule.actions.len());
    writeln!(out, "rule {} {conditions} {actions} {}", name(&rule.id), index(rule.priority))?;
    for condition in &rule.conditions {
        let operator = match condition.operator {
            RuleConditionOperator::And => "AND",
            RuleConditionOperator::Or => "OR",
        };
        // the attributes' names are the words of the text in another case
        let (target, attribute) = match &condition.target {
            RuleConditionTarget::System { attribute } => ("SYSTEM -".into(), format!("{attribute:?}")),
            RuleConditionTarget::Node { id, attribute } => (format!("NODE {}", name(id)), format!("{attribute:?}")),
            RuleConditionTarget::Tank { id, attribute } => (format!("TANK {}", name(id)), format!("{attribute:?}")),
            RuleConditionTarget::Link { id, attribute } => (format!("LINK {}", name(id)), format!("{attribute:?}")),
        };
        let comparison = match condition.comparison {
            ComparisonOperator::Eq => "=",
            ComparisonOperator::Ne => "<>",
            ComparisonOperator::Gt => ">",
            ComparisonOperator::Lt => "<",
            ComparisonOperator::Ge => ">=",
            ComparisonOperator::Le => "<=",
        };
        let value = match condition.value {
            ConditionValue::Number(x) => number(x),
            ConditionValue::Status(word) => status(word).into(),
            ConditionValue::Time(seconds) => panic!("reading makes no such value: {seconds}"),
        };
        writeln!(out, "  if {operator} {target} {} {comparison} {value}", attribute.to_uppercase())?;
    }
    for action in &rule.actions {
        let value = match (action.status, action.setting) {
            (Some(word), None) => format!("STATUS {}", status(word)),
            (None, Some(x)) => format!("SETTING {}", number(x)),
            both => panic!("reading makes no such action: {both:?}"),
        };
        let branch = if action.default_active { "ELSE" } else { "THEN" };
        writeln!(out, "  do {} {value} {branch}", name(&action.link_id))?;
    }
    Ok(())
}

fn status(status: LinkStatus) -> &'static str {
    match status {
        LinkStatus::Open => "OPEN",
        LinkStatus::Closed => "CLOSED",
        LinkStatus::Active => "ACTIVE",
        other => panic!("reading gives no such status: {other}"),
    }
}

fn number(x: f64) -> String {
    let bits = if x.is_nan() { 0x7ff8_0000_0000_0000 } else { x.to_bits() };
    format!("{bits:016x}")
}

fn flag(set: bool) -> &'static str {
    if set { "1" } else { "0" }
}

fn index(index: Option<usize>) -> String {
    index.map_or("-".into(), |i| i.to_string())
}

fn optional(id: &Option<Box<str>>) -> String {
    id.as_deref().map_or("-".into(), name)
}

fn name(id: &str) -> String {
    let mut out = String::from("=");
    for b in id.bytes() {
        if b == b'\\' || b < 33 || b > 126 {
            out += &format!("\\x{b:02x}");
        } else {
            out.push(b as char);
        }
    }
    out
}
