//! `dump strict|survey [FILE]` prints a reading in the form of docs/DUMP.md; without FILE it reads standard input.

use inp::*;
use std::fmt::Write;
use std::io::Read;
use std::process::ExitCode;

/// The Rust's times where an option is not set.
const TIME_DEFAULTS: [u64; 6] = [0, 3600, 3600, 3600, 0, 0];

fn main() -> ExitCode {
    let arguments: Vec<String> = std::env::args().skip(1).collect();
    let arguments: Vec<&str> = arguments.iter().map(String::as_str).collect();
    let (dump, file): (fn(&[u8]) -> String, _) = match arguments[..] {
        ["strict"] => (strict, None),
        ["strict", file] => (strict, Some(file)),
        ["survey"] => (survey, None),
        ["survey", file] => (survey, Some(file)),
        _ => return complain("usage: dump strict|survey [FILE]"),
    };
    match text(file) {
        Ok(text) => print!("{}", dump(&text)),
        Err(error) => return complain(&format!("dump: {} cannot be read: {error}", file.unwrap_or("standard input"))),
    }
    ExitCode::SUCCESS
}

fn complain(sentence: &str) -> ExitCode {
    eprintln!("{sentence}");
    ExitCode::FAILURE
}

fn text(file: Option<&str>) -> std::io::Result<Vec<u8>> {
    let Some(file) = file else {
        let mut text = Vec::new();
        std::io::stdin().read_to_end(&mut text)?;
        return Ok(text);
    };
    std::fs::read(file)
}

fn strict(text: &[u8]) -> String {
    let mut reader = Reader::new();
    let reading = reader.read_strict(text);
    answer(reading.refused) + &records(reading.network)
}

fn survey(text: &[u8]) -> String {
    let mut reader = Reader::new();
    let survey = reader.read_survey(text);
    let mut out = answer(survey.refused) + &records(survey.network) + "set";
    for time in times(survey.network) {
        out += if time.is_some() { " 1" } else { " 0" };
    }
    out += "\n";
    for line in survey.lines() {
        let reason = line.reason.map_or(0, Refusal::number);
        writeln!(out, "line {} class {} reason {reason}", line.number, line.class.number()).unwrap();
    }
    out
}

fn answer(refused: Option<Refused>) -> String {
    let (number, line) = refused.map_or((0, 0), |refused| (refused.refusal.number(), refused.line));
    format!("answer {number} line {line}\n")
}

fn records(network: Network) -> String {
    let mut out = String::new();
    for (i, node) in network.nodes().enumerate() {
        out += &self::node(network, i, &node);
    }
    for link in network.links() {
        out += &self::link(&link);
    }
    for (i, curve) in network.curves().enumerate() {
        let points: Vec<String> = network.points_of(i).map(|point| pair(point.x, point.y)).collect();
        out += &series("curve", curve.id, &points);
    }
    for (i, pattern) in network.patterns().enumerate() {
        let multipliers: Vec<String> = network.multipliers_of(i).map(number).collect();
        out += &series("pattern", pattern.id, &multipliers);
    }
    out += "times";
    for (time, default) in times(network).into_iter().zip(TIME_DEFAULTS) {
        write!(out, " {}", time.unwrap_or(default)).unwrap();
    }
    out += "\n";
    for rule in network.rules() {
        out += &self::rule(network, &rule);
    }
    out
}

fn node(network: Network, i: usize, node: &Node) -> String {
    let id = name(node.id);
    let elevation = number(node.elevation);
    let at = node.at.map_or("-".into(), |(x, y)| pair(x, y));
    match node.kind {
        NodeKind::Junction { disabled, emitter } => {
            let demands: Vec<String> = network.demands_of(i).map(|demand| self::demand(&demand)).collect();
            let (disabled, emitter, count) = (flag(disabled), number(emitter), demands.len());
            format!("node J {id} {elevation} {at} {disabled} {emitter} {count}\n{}", demands.concat())
        }
        NodeKind::Reservoir { pattern, pattern_index } => {
            format!("node R {id} {elevation} {at} 0 {} {}\n", optional(pattern), index(pattern_index))
        }
        NodeKind::Tank { initial_level, minimum_level, maximum_level, diameter, minimum_volume, curve, overflow } => {
            let levels = [initial_level, minimum_level, maximum_level, diameter, minimum_volume].map(number).join(" ");
            let (curve, overflow) = (optional(curve), flag(overflow));
            format!("node T {id} {elevation} {at} 0 {elevation} {levels} {curve} {overflow}\n")
        }
    }
}

fn demand(demand: &Demand) -> String {
    format!("  demand {} {} {}\n", number(demand.base), optional(demand.pattern), index(demand.pattern_index))
}

fn link(link: &Link) -> String {
    let ends = format!("{} {} {}", name(link.id), link.start, link.end);
    match link.kind {
        LinkKind::Pipe { length, diameter, roughness, minor_loss, status } => {
            let word = if status == PipeStatus::Closed { "CLOSED" } else { "OPEN" };
            let numbers = [length, diameter, roughness, minor_loss].map(number).join(" ");
            format!("link PIPE {ends} {word} {numbers} {}\n", flag(status == PipeStatus::CheckValve))
        }
        LinkKind::Pump { speed, power, head_curve } => {
            format!("link PUMP {ends} OPEN {} {} {}\n", number(speed), optional(head_curve), number(power))
        }
        LinkKind::Valve { valve_type, diameter, setting, minor_loss, curve } => {
            let (diameter, valve_type) = (number(diameter), capitals(valve_type));
            let numbers = [setting, minor_loss].map(number).join(" ");
            format!("link VALVE {ends} ACTIVE {diameter} {valve_type} {numbers} {}\n", optional(curve))
        }
    }
}

/// A curve or a pattern: its name, how many parts it has, and those.
fn series(kind: &str, id: &[u8], parts: &[String]) -> String {
    let mut out = format!("{kind} {} {}", name(id), parts.len());
    for part in parts {
        write!(out, " {part}").unwrap();
    }
    out + "\n"
}

fn times(network: Network) -> [Option<u64>; 6] {
    let t = network.times();
    [t.duration, t.hydraulic_timestep, t.pattern_timestep, t.report_timestep, t.pattern_start, t.start_clocktime]
}

fn rule(network: Network, rule: &Rule) -> String {
    let conditions: Vec<String> = network.conditions_of(rule).map(|condition| self::condition(&condition)).collect();
    let actions: Vec<String> = network.actions_of(rule).map(|action| self::action(&action)).collect();
    let priority = rule.priority.map_or("-".into(), |priority| priority.to_string());
    let counts = format!("{} {}", conditions.len(), actions.len());
    format!("rule {} {counts} {priority}\n{}{}", name(rule.id), conditions.concat(), actions.concat())
}

fn condition(condition: &Condition) -> String {
    let operator = match condition.operator {
        Operator::And => "AND",
        Operator::Or => "OR",
    };
    let value = match condition.value {
        Value::Number(x) => number(x),
        Value::Status(status) => capitals(status),
    };
    format!("  if {operator} {} {} {value}\n", target(condition.target), comparison(condition.comparison))
}

fn action(action: &Action) -> String {
    let value = match action.value {
        Value::Number(x) => format!("SETTING {}", number(x)),
        Value::Status(status) => format!("STATUS {}", capitals(status)),
    };
    let branch = if action.otherwise { "ELSE" } else { "THEN" };
    format!("  do {} {value} {branch}\n", name(action.link_id))
}

fn target(target: Target) -> String {
    match target {
        Target::System { attribute } => format!("SYSTEM - {}", capitals(attribute)),
        Target::Node { id, attribute } => format!("NODE {} {}", name(id), capitals(attribute)),
        Target::Tank { id, attribute } => format!("TANK {} {}", name(id), capitals(attribute)),
        Target::Link { id, attribute } => format!("LINK {} {}", name(id), capitals(attribute)),
    }
}

/// The cases of the crate's choices are named as their words are written, capitals apart.
fn capitals(word: impl std::fmt::Debug) -> String {
    format!("{word:?}").to_uppercase()
}

fn comparison(comparison: Comparison) -> &'static str {
    match comparison {
        Comparison::Equal => "=",
        Comparison::NotEqual => "<>",
        Comparison::Above => ">",
        Comparison::Below => "<",
        Comparison::AtLeast => ">=",
        Comparison::AtMost => "<=",
    }
}

fn number(x: f64) -> String {
    if x.is_nan() { "7ff8000000000000".into() } else { format!("{:016x}", x.to_bits()) }
}

fn pair(x: f64, y: f64) -> String {
    format!("{},{}", number(x), number(y))
}

fn flag(flag: bool) -> u8 {
    flag.into()
}

fn index(index: Option<usize>) -> String {
    index.map_or("-".into(), |i| i.to_string())
}

fn optional(name: Option<&[u8]>) -> String {
    name.map_or("-".into(), self::name)
}

fn name(name: &[u8]) -> String {
    let letter = |&byte: &u8| match byte {
        b'\\' | 0..33 | 127.. => format!("\\x{byte:02x}"),
        _ => char::from(byte).to_string(),
    };
    std::iter::once("=".into()).chain(name.iter().map(letter)).collect()
}
