//! The dump: how a reading is written out to be compared.

use crate::network::*;
use crate::reading::{Strict, Survey};
use std::fmt::Write;

pub fn strict(reading: &Strict) -> String {
    let mut out = format!("answer {} line {}\n", reading.answer, reading.line);
    network(&mut out, &reading.network).unwrap();
    out
}

pub fn survey(survey: &Survey) -> String {
    let mut out = format!("answer {} line 0\n", survey.answer);
    network(&mut out, &survey.network).unwrap();
    out += "set";
    survey.network.times.iter().for_each(|time| out += if time.is_some() { " 1" } else { " 0" });
    out += "\n";
    for (at, (class, reason)) in survey.classes.iter().zip(&survey.reasons).enumerate() {
        writeln!(out, "line {} class {class} reason {reason}", at + 1).unwrap();
    }
    out
}

/// What the program `tally` prints.
pub fn tally(survey: &Survey) -> String {
    if survey.answer != 0 {
        return format!("refused 0 {}\n", survey.answer);
    }
    let n = &survey.network;
    let mut out = format!(
        "records {} {} {} {} {}\nclauses {} {}\nlines {}",
        n.nodes.len(),
        n.links.len(),
        n.curves.len(),
        n.patterns.len(),
        n.rules.len(),
        n.conditions(),
        n.clauses.len() - n.conditions(),
        survey.classes.len()
    );
    for class in 1..=8 {
        write!(out, " {}", survey.classes.iter().filter(|&&c| c == class).count()).unwrap();
    }
    out += "\n";
    for (at, reason) in survey.reasons.iter().enumerate().filter(|(_, reason)| **reason != 0) {
        writeln!(out, "refused {} {reason}", at + 1).unwrap();
    }
    out
}

fn network(out: &mut String, n: &Network) -> std::fmt::Result {
    n.nodes.iter().enumerate().try_for_each(|(at, node)| self::node(out, n, at, node))?;
    n.links.iter().try_for_each(|link| self::link(out, link))?;
    for (at, id) in n.curves.iter().enumerate() {
        let points: Vec<_> = n.points.iter().filter(|point| point.curve == at).collect();
        write!(out, "curve {} {}", name(id), points.len())?;
        points.iter().try_for_each(|point| write!(out, " {}", pair(Some((point.x, point.y)))))?;
        writeln!(out)?;
    }
    for (at, id) in n.patterns.iter().enumerate() {
        let multipliers: Vec<_> = n.multipliers.iter().filter(|multiplier| multiplier.pattern == at).collect();
        write!(out, "pattern {} {}", name(id), multipliers.len())?;
        multipliers.iter().try_for_each(|multiplier| write!(out, " {}", number(multiplier.value)))?;
        writeln!(out)?;
    }
    write!(out, "times")?;
    n.times.iter().zip(TIME_DEFAULTS).try_for_each(|(time, default)| write!(out, " {}", time.unwrap_or(default)))?;
    writeln!(out)?;
    n.rules.iter().try_for_each(|rule| self::rule(out, rule, &n.clauses[rule.clauses.clone()]))
}

fn node(out: &mut String, n: &Network, at: usize, node: &Node) -> std::fmt::Result {
    let (letter, disabled) = match node.kind {
        NodeKind::Junction { disabled, .. } => ('J', disabled),
        NodeKind::Reservoir { .. } => ('R', false),
        NodeKind::Tank { .. } => ('T', false),
    };
    let elevation = number(node.elevation);
    write!(out, "node {letter} {} {elevation} {} {}", name(node.id), pair(node.at), u8::from(disabled))?;
    match &node.kind {
        NodeKind::Junction { emitter, .. } => {
            let demands: Vec<_> = n.demands.iter().filter(|demand| demand.junction == at).collect();
            writeln!(out, " {} {}", number(*emitter), demands.len())?;
            for d in demands {
                writeln!(out, "  demand {} {} {}", number(d.base), optional(d.pattern), index(d.index))?;
            }
            Ok(())
        }
        NodeKind::Reservoir { pattern, index } => writeln!(out, " {} {}", optional(*pattern), self::index(*index)),
        NodeKind::Tank { numbers, curve, overflow } => {
            write!(out, " {elevation}")?;
            numbers.iter().try_for_each(|&x| write!(out, " {}", number(x)))?;
            writeln!(out, " {} {}", optional(*curve), u8::from(*overflow))
        }
    }
}

fn link(out: &mut String, link: &Link) -> std::fmt::Result {
    let (kind, status) = match link.kind {
        LinkKind::Pipe { status: PipeStatus::Closed, .. } => ("PIPE", "CLOSED"),
        LinkKind::Pipe { .. } => ("PIPE", "OPEN"),
        LinkKind::Pump { .. } => ("PUMP", "OPEN"),
        LinkKind::Valve { .. } => ("VALVE", "ACTIVE"),
    };
    write!(out, "link {kind} {} {} {} {status} ", name(link.id), link.start, link.end)?;
    match &link.kind {
        LinkKind::Pipe { length, diameter, roughness, minor_loss, status } => {
            let numbers = [length, diameter, roughness, minor_loss].map(|x| number(*x)).join(" ");
            writeln!(out, "{numbers} {}", u8::from(*status == PipeStatus::CheckValve))
        }
        LinkKind::Pump { speed, curve, power } => {
            writeln!(out, "{} {} {}", number(*speed), optional(*curve), number(*power))
        }
        LinkKind::Valve { diameter, kind, setting, minor_loss, curve } => {
            let (setting, minor_loss) = (number(*setting), number(*minor_loss));
            writeln!(out, "{} {kind} {setting} {minor_loss} {}", number(*diameter), optional(*curve))
        }
    }
}

/// Conditions before actions.
fn rule(out: &mut String, rule: &Rule, clauses: &[Clause]) -> std::fmt::Result {
    let (mut conditions, mut actions) = (Vec::new(), Vec::new());
    for clause in clauses {
        match clause {
            Clause::Condition(condition) => conditions.push(condition),
            Clause::Action(action) => actions.push(action),
        }
    }
    let priority = rule.priority.map_or("-".into(), |p| p.to_string());
    writeln!(out, "rule {} {} {} {priority}", name(rule.id), conditions.len(), actions.len())?;
    for c in conditions {
        let (_, value) = value(&c.value);
        let operator = if c.or { "OR" } else { "AND" };
        let (name, attribute, comparison) = (optional(c.name), c.attribute, c.comparison);
        writeln!(out, "  if {operator} {} {name} {attribute} {comparison} {value}", c.target)?;
    }
    for a in actions {
        let (what, value) = value(&a.value);
        let branch = if a.otherwise { "ELSE" } else { "THEN" };
        writeln!(out, "  do {} {what} {value} {branch}", name(a.link))?;
    }
    Ok(())
}

fn value(value: &Value) -> (&'static str, String) {
    match value {
        Value::Number(x) => ("SETTING", number(*x)),
        Value::Status(word) => ("STATUS", word.to_string()),
    }
}

fn number(x: f64) -> String {
    if x.is_nan() { "7ff8000000000000".into() } else { format!("{:016x}", x.to_bits()) }
}

fn pair(point: Option<(f64, f64)>) -> String {
    point.map_or("-".into(), |(x, y)| format!("{},{}", number(x), number(y)))
}

fn index(index: Option<usize>) -> String {
    index.map_or("-".into(), |i| i.to_string())
}

fn optional(id: Option<Name>) -> String {
    id.map_or("-".into(), name)
}

fn name(id: &[u8]) -> String {
    let letter = |&b: &u8| match b {
        b'\\' | 0..33 | 127.. => format!("\\x{b:02x}"),
        _ => (b as char).to_string(),
    };
    std::iter::once("=".to_string()).chain(id.iter().map(letter)).collect()
}
