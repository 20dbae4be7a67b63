//! The Rust's errors as document 01's numbers.

use epanet::error::InputError;

/// How a message begins, and its number. The first that fits counts.
const MESSAGES: &[(&str, u8)] = &[
    ("Missing required field: Rule ID missing", 10),
    ("Missing required field: ", 1),
    // malformed fields
    ("Invalid elevation: ", 2),
    ("Invalid disabled: ", 2),
    ("Invalid initial level: ", 2),
    ("Invalid min level: ", 2),
    ("Invalid max level: ", 2),
    ("Invalid diameter: ", 2),
    ("Invalid min volume: ", 2),
    ("Invalid length: ", 2),
    ("Invalid roughness: ", 2),
    ("Invalid x value: ", 2),
    ("Invalid y value: ", 2),
    ("Invalid multiplier: ", 2),
    ("Invalid coefficient: ", 2),
    ("Invalid demand: ", 2),
    ("Invalid x coordinate: ", 2),
    ("Invalid y coordinate: ", 2),
    ("Invalid invalid priority: ", 2),
    ("Invalid Rule value: ", 2),
    ("Invalid rule condition value ", 2),
    ("Invalid hours value in time: ", 2),
    ("Invalid minutes value in time: ", 2),
    ("Invalid time value: ", 2),
    ("Rule with id ", 3),
    // '..' not found for ..
    ("Start node '", 4),
    ("End node '", 4),
    ("Node '", 4),
    ("Link '", 4),
    ("Demand can only be set for junctions", 5),
    ("Emitter can only be set for junctions", 5),
    ("Rule action target id '", 5),
    ("X values must be in ascending order", 6),
    // unknown words
    ("Invalid valve type: ", 7),
    ("Invalid time unit: ", 7),
    ("Invalid RULE line: ", 7),
    ("Invalid rule condition target", 7),
    ("Invalid rule condition comparison ", 7),
    ("Invalid rule condition", 7),
    ("Invalid link type '", 7),
    ("Invalid action clause, missing IS", 7),
    ("Invalid action status value ", 7),
    ("Invalid action, STATUS/SETTING expected", 7),
    // the same words where there is no action
    ("Rule has no conditions", 8),
];

pub fn number(error: &InputError) -> u8 {
    match error {
        InputError::NodeExists { .. } | InputError::LinkExists { .. } => 3,
        InputError::Parse { message, .. } => {
            let known = MESSAGES.iter().find(|(beginning, _)| message.starts_with(beginning));
            known.unwrap_or_else(|| panic!("a message without a number: {message}")).1
        }
        other => panic!("an error without a number: {other}"),
    }
}
