//! "Records by section": what one line outside RULES does to the network.

use crate::fields::{Fields, swallowed, uncommented};
use crate::network::*;
use crate::numbers::{number, time};
use crate::{MALFORMED, NOT_FOUND, Refusal, UNKNOWN_WORD, WRONG_KIND, X_FALLS};

#[derive(Clone, Copy, PartialEq)]
pub enum Section {
    Junctions,
    Reservoirs,
    Tanks,
    Pipes,
    Pumps,
    Valves,
    Curves,
    Patterns,
    Demands,
    Emitters,
    Coordinates,
    Times,
    Rules,
    /// TITLE and the like, an unknown header, or no header yet.
    Passed,
}

pub fn section(header: &[u8]) -> Section {
    match header {
        b"[JUNCTIONS]" => Section::Junctions,
        b"[RESERVOIRS]" => Section::Reservoirs,
        b"[TANKS]" => Section::Tanks,
        b"[PIPES]" => Section::Pipes,
        b"[PUMPS]" => Section::Pumps,
        b"[VALVES]" => Section::Valves,
        b"[CURVES]" => Section::Curves,
        b"[PATTERNS]" => Section::Patterns,
        b"[DEMANDS]" => Section::Demands,
        b"[EMITTERS]" => Section::Emitters,
        b"[COORDINATES]" => Section::Coordinates,
        b"[TIMES]" => Section::Times,
        b"[RULES]" => Section::Rules,
        _ => Section::Passed,
    }
}

pub fn read_line<'t>(network: &mut Network<'t>, section: Section, line: &'t [u8]) -> Result<(), Refusal> {
    let fields = Fields::of(uncommented(line));
    match section {
        Section::Junctions => junction(network, fields),
        Section::Reservoirs => network.add_node(reservoir(fields)?),
        Section::Tanks => network.add_node(tank(fields)?),
        Section::Pipes => network.add_link(pipe(network, fields)?),
        Section::Pumps => network.add_link(pump(network, fields)?),
        Section::Valves => network.add_link(valve(network, fields)?),
        Section::Curves => curve(network, fields),
        Section::Patterns => pattern(network, fields),
        Section::Demands => demand(network, fields),
        Section::Emitters => emitter(network, fields),
        Section::Coordinates => coordinates(network, fields),
        Section::Times => times(network, fields),
        Section::Rules | Section::Passed => Ok(()),
    }
}

fn junction<'t>(network: &mut Network<'t>, mut fields: Fields<'t>) -> Result<(), Refusal> {
    let id = fields.required()?;
    let elevation = number(fields.optional().unwrap_or(b"0"))?;
    let base = fields.number_or(0.0)?;
    let pattern = fields.optional();
    let disabled = match fields.optional() {
        None | Some(b"false") => false,
        Some(b"true") => true,
        Some(_) => return Err(MALFORMED),
    };
    let node = Node { id, elevation, at: None, kind: NodeKind::Junction { disabled, emitter: 0.0 } };
    network.add_junction(node, base, pattern)
}

fn reservoir(mut fields: Fields) -> Result<Node, Refusal> {
    let id = fields.required()?;
    let elevation = fields.number()?;
    let pattern = fields.optional();
    Ok(Node { id, elevation, at: None, kind: NodeKind::Reservoir { pattern, index: None } })
}

fn tank(mut fields: Fields) -> Result<Node, Refusal> {
    let id = fields.required()?;
    let elevation = fields.number()?;
    let kind = match fields.optional() {
        None => NodeKind::Reservoir { pattern: None, index: None },
        Some(initial) => {
            let initial = number(initial)?;
            let (minimum, maximum, diameter) = (fields.number()?, fields.number()?, fields.number()?);
            let volume = fields.optional().map_or(Ok(0.0), number)?;
            let curve = fields.optional().filter(|name| name != b"*");
            let overflow = fields.optional().is_some_and(|field| field.eq_ignore_ascii_case(b"YES"));
            NodeKind::Tank { numbers: [initial, minimum, maximum, diameter, volume], curve, overflow }
        }
    };
    Ok(Node { id, elevation, at: None, kind })
}

fn found(network: &Network, node: &[u8]) -> Result<usize, Refusal> {
    network.node(node).ok_or(NOT_FOUND)
}

fn pipe<'t>(network: &Network, mut fields: Fields<'t>) -> Result<Link<'t>, Refusal> {
    let (id, start, end) = (fields.required()?, fields.required()?, fields.required()?);
    let (length, diameter, roughness) = (fields.number()?, fields.number()?, fields.number()?);
    let minor_loss = fields.number_or(0.0)?;
    let status = match fields.optional().unwrap_or_default().to_ascii_uppercase().as_slice() {
        b"CLOSED" => PipeStatus::Closed,
        b"CV" => PipeStatus::CheckValve,
        _ => PipeStatus::Open,
    };
    let (start, end) = (found(network, start)?, found(network, end)?);
    Ok(Link { id, start, end, kind: LinkKind::Pipe { length, diameter, roughness, minor_loss, status } })
}

fn pump<'t>(network: &Network, mut fields: Fields<'t>) -> Result<Link<'t>, Refusal> {
    let (id, start, end) = (fields.required()?, fields.required()?, fields.required()?);
    let (start, end) = (found(network, start)?, found(network, end)?);
    let (mut speed, mut curve, mut power) = (1.0, None, 0.0);
    while let (Some(word), Some(value)) = (fields.optional(), fields.optional()) {
        match word {
            b"SPEED" => speed = swallowed(value, 1.0)?,
            b"HEAD" => curve = Some(value),
            b"POWER" => power = swallowed(value, 0.0)?,
            _ => {}
        }
    }
    Ok(Link { id, start, end, kind: LinkKind::Pump { speed, curve, power } })
}

fn valve<'t>(network: &Network, mut fields: Fields<'t>) -> Result<Link<'t>, Refusal> {
    let (id, start, end) = (fields.required()?, fields.required()?, fields.required()?);
    let diameter = fields.number()?;
    let word = fields.required()?.to_ascii_uppercase();
    let kind = VALVES.into_iter().find(|kind| kind.as_bytes() == word).ok_or(UNKNOWN_WORD)?;
    let (setting, own) = if kind == "GPV" { (0.0, fields.optional()) } else { (fields.number_or(0.0)?, None) };
    let minor_loss = fields.number_or(0.0)?;
    let curve = fields.optional().or(own);
    let (start, end) = (found(network, start)?, found(network, end)?);
    Ok(Link { id, start, end, kind: LinkKind::Valve { diameter, kind, setting, minor_loss, curve } })
}

fn curve<'t>(network: &mut Network<'t>, mut fields: Fields<'t>) -> Result<(), Refusal> {
    let (id, x, y) = (fields.required()?, fields.number()?, fields.number()?);
    let known = network.curves.iter().position(|&curve| curve == id);
    let last = network.points.iter().rfind(|point| Some(point.curve) == known);
    if last.is_some_and(|last| x < last.x) {
        return Err(X_FALLS);
    }
    fits(network.points.len(), 1, POINTS_MOST)?;
    let curve = place(&mut network.curves, known, id, CURVES_MOST)?;
    network.points.push(Point { curve, x, y });
    Ok(())
}

fn pattern<'t>(network: &mut Network<'t>, mut fields: Fields<'t>) -> Result<(), Refusal> {
    let id = fields.required()?;
    let mut values = Vec::new();
    while let Some(field) = fields.optional() {
        values.push(number(field)?);
    }
    fits(network.multipliers.len(), values.len(), MULTIPLIERS_MOST)?;
    let known = network.patterns.iter().position(|&pattern| pattern == id);
    let pattern = place(&mut network.patterns, known, id, PATTERNS_MOST)?;
    network.multipliers.extend(values.into_iter().map(|value| Multiplier { pattern, value }));
    Ok(())
}

/// The place of a curve or pattern, which a new one gets at the end if there is room.
fn place<'t>(names: &mut Vec<Name<'t>>, known: Option<usize>, id: Name<'t>, room: usize) -> Result<usize, Refusal> {
    if let Some(place) = known {
        return Ok(place);
    }
    fits(names.len(), 1, room)?;
    names.push(id);
    Ok(names.len() - 1)
}

fn demand<'t>(network: &mut Network<'t>, mut fields: Fields<'t>) -> Result<(), Refusal> {
    let (id, base, pattern) = (fields.required()?, fields.number()?, fields.optional());
    let junction = found(network, id)?;
    let NodeKind::Junction { .. } = network.nodes[junction].kind else {
        return Err(WRONG_KIND);
    };
    let demand = Demand { junction, own: false, base, pattern, index: None };
    match network.demands.iter_mut().find(|other| other.own && other.junction == junction) {
        Some(own) => *own = demand,
        None => {
            fits(network.demands.len(), 1, DEMANDS_MOST)?;
            network.demands.push(demand);
        }
    }
    Ok(())
}

fn emitter(network: &mut Network, mut fields: Fields) -> Result<(), Refusal> {
    let (id, coefficient) = (fields.required()?, fields.number()?);
    let place = found(network, id)?;
    let NodeKind::Junction { emitter, .. } = &mut network.nodes[place].kind else {
        return Err(WRONG_KIND);
    };
    *emitter = coefficient;
    Ok(())
}

fn coordinates(network: &mut Network, mut fields: Fields) -> Result<(), Refusal> {
    let (id, x, y) = (fields.required()?, fields.number()?, fields.number()?);
    let place = found(network, id)?;
    network.nodes[place].at = Some((x, y));
    Ok(())
}

fn times(network: &mut Network, mut fields: Fields) -> Result<(), Refusal> {
    let mut option = fields.required()?.to_ascii_uppercase();
    if option == b"STATISTIC" {
        return Ok(());
    }
    let mut value = fields.required()?;
    if number(value) == Err(MALFORMED) && !value.contains(&b':') {
        option = [&option, b" ".as_slice(), &value.to_ascii_uppercase()].concat();
        value = fields.required()?;
    }
    let seconds = time(value, fields.optional())?;
    if let Some(place) = TIME_OPTIONS.iter().position(|known| **known == *option) {
        network.times[place] = Some(seconds);
    }
    Ok(())
}
