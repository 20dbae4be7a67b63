//! "Records by section", rules: what a closed group gives.

use crate::fields::Fields;
use crate::network::*;
use crate::numbers::{WHOLE_REACH, count, number, time};
use crate::{BEYOND_REACH, MISSING, NO_ACTION, NO_CONDITION, NO_ID, NOT_FOUND, Refusal, UNKNOWN_WORD, WRONG_KIND};

/// Adds the rule of a closed group.
pub fn rule<'t>(network: &mut Network<'t>, lines: &[&'t [u8]]) -> Result<(), Refusal> {
    let (mut id, mut priority, mut clauses) = (None, None, Vec::new());
    let (mut then_read, mut else_read) = (false, false);
    for line in lines {
        let mut fields = Fields::of(line);
        match fields.required()? {
            b"RULE" => id = Some(fields.required()?),
            b"IF" => clauses.push(condition(fields, false)?),
            b"OR" => clauses.push(condition(fields, true)?),
            b"AND" if !then_read => clauses.push(condition(fields, false)?),
            b"AND" => clauses.push(action(network, fields, else_read)?),
            b"THEN" => {
                then_read = true;
                clauses.push(action(network, fields, false)?);
            }
            b"ELSE" => {
                else_read = true;
                clauses.push(action(network, fields, true)?);
            }
            b"PRIORITY" => priority = Some(count(fields.required()?)?),
            _ => return Err(UNKNOWN_WORD),
        }
    }
    if !clauses.iter().any(|clause| matches!(clause, Clause::Condition(_))) {
        return Err(NO_CONDITION);
    }
    if !clauses.iter().any(|clause| matches!(clause, Clause::Action(_))) {
        return Err(NO_ACTION);
    }
    network.add_rule(id.ok_or(NO_ID)?, clauses, priority)
}

fn condition(mut fields: Fields, or: bool) -> Result<Clause, Refusal> {
    let (target, attributes) = match fields.required()? {
        b"SYSTEM" => ("SYSTEM", SYSTEM),
        b"NODE" => ("NODE", NODE),
        b"TANK" => ("TANK", TANK),
        b"LINK" | b"PIPE" | b"PUMP" | b"VALVE" => ("LINK", LINK),
        _ => return Err(UNKNOWN_WORD),
    };
    let name = if target == "SYSTEM" { None } else { Some(fields.required()?) };
    let attribute = one_of(fields.required()?, &attributes)?;
    let comparison = match fields.required()? {
        b"IS" => "=",
        b"NOT" => "<>",
        b"ABOVE" => ">",
        b"BELOW" => "<",
        sign => one_of(sign, &COMPARISONS)?,
    };
    let field = fields.required()?;
    let timed = target == "SYSTEM" && attribute != "DEMAND";
    let value = match one_of(field, &STATUSES) {
        Ok(status) => Value::Status(status),
        Err(_) if timed => Value::Number(seconds(time(field, fields.optional())?)?),
        Err(_) => Value::Number(number(field)?),
    };
    Ok(Clause::Condition(Condition { or, target, name, attribute, comparison, value }))
}

fn seconds(count: u64) -> Result<f64, Refusal> {
    if count > WHOLE_REACH { Err(BEYOND_REACH) } else { Ok(count as f64) }
}

fn action<'t>(network: &Network, mut fields: Fields<'t>, otherwise: bool) -> Result<Clause<'t>, Refusal> {
    let word = fields.required()?;
    let link = fields.required()?;
    let place = network.link(link).ok_or(NOT_FOUND)?;
    let kind = &network.links[place].kind;
    let fitting = match word {
        b"LINK" => true,
        b"PIPE" => matches!(kind, LinkKind::Pipe { .. }),
        b"PUMP" => matches!(kind, LinkKind::Pump { .. }),
        b"VALVE" => matches!(kind, LinkKind::Valve { .. }),
        _ => return Err(UNKNOWN_WORD),
    };
    if !fitting {
        return Err(WRONG_KIND);
    }
    let what = fields.required()?;
    if fields.required()? != b"IS" {
        return Err(UNKNOWN_WORD);
    }
    let field = fields.optional().ok_or(MISSING)?;
    let value = match what {
        b"STATUS" => Value::Status(one_of(field, &["OPEN", "CLOSED"])?),
        b"SETTING" => Value::Number(number(field)?),
        _ => return Err(UNKNOWN_WORD),
    };
    Ok(Clause::Action(Action { link, place, value, otherwise }))
}

fn one_of(field: &[u8], words: &[&'static str]) -> Result<&'static str, Refusal> {
    words.iter().copied().find(|word| word.as_bytes() == field).ok_or(UNKNOWN_WORD)
}
