//! What must hold of a text: the Rust, the model of document 01 and the proved library agree.

use crate::library::Library;
use model::reading::{Strict, Survey, lines, strict, struck, survey};
use model::{NO_ACTION, NO_CONDITION, Refusal, dump, ours};

/// Striking refused pieces one by one reads the text once for each.
const MOST_STRUCK: usize = 60;
/// Of making a text that shows a difference smaller.
const MOST_TRIES: usize = 1_000;

/// The answers of strict reading to the text, and to what is left as its refused pieces are struck one by one.
pub fn check(text: &[u8], library: &mut Library) -> Result<Vec<Refusal>, String> {
    let survey = survey(text);
    library.survey(text, &survey)?;
    library.small(text)?;
    if survey.answer != 0 {
        library.strict(text, &strict(text))?;
        return Ok(vec![survey.answer]);
    }
    classes_add_up(text, &survey)?;
    what_is_left(text, &survey, library)?;
    strike_one_by_one(text, &survey, library)
}

fn records(dump: &str) -> &str {
    dump.split_once('\n').map_or("", |(_, rest)| rest)
}

fn same<T: PartialEq + std::fmt::Display>(what: &str, rust: T, model: T) -> Result<(), String> {
    if rust == model { Ok(()) } else { Err(format!("{what}: the Rust has\n{rust}\nand document 01\n{model}")) }
}

/// Inside the domain of equality: acceptance, number, the line where the Rust gives one, and every record.
fn same_as_rust(text: &[u8], reading: &Strict) -> Result<(), String> {
    if ours(reading.answer) {
        return Ok(());
    }
    let rust = oracle::read(text);
    // the Rust has one message for both
    let joined = if reading.answer == NO_ACTION { NO_CONDITION } else { reading.answer };
    same("answer", rust.answer, joined)?;
    same("line", rust.line.unwrap_or(reading.line), reading.line)?;
    same("records", rust.records.as_str(), records(&dump::strict(reading)))
}

fn classes_add_up(text: &[u8], survey: &Survey) -> Result<(), String> {
    let classed = survey.classes.iter().filter(|class| (1..=8).contains(*class)).count();
    same("classed lines", lines(text).count(), classed)
}

/// Demand 3, first sentence: what is left when the refused lines are struck is accepted and gives the survey's records,
/// by the Rust, the model and the library. (The library's survey is the model's by now, its classes with it.)
fn what_is_left(text: &[u8], survey: &Survey, library: &mut Library) -> Result<(), String> {
    let left = struck(text, survey);
    let reading = strict(&left);
    same("model's answer to what the survey left", reading.answer, 0)?;
    same_as_rust(&left, &reading)?;
    library.strict(&left, &reading)?;
    let (survey, strict) = (dump::survey(survey), dump::strict(&reading));
    let surveyed = records(&survey).split("\nset ").next().unwrap_or("");
    same("records of the survey", records(&strict).trim_end(), surveyed)
}

/// Demand 3, second sentence: strict reading stops at each refused piece, in the order in which they end, once those
/// before it are struck; and at nothing else. The Rust and the library read along.
fn strike_one_by_one(text: &[u8], survey: &Survey, library: &mut Library) -> Result<Vec<Refusal>, String> {
    let mut left: Vec<(usize, &[u8])> = lines(text).enumerate().map(|(at, line)| (at + 1, line)).collect();
    let mut answers = Vec::new();
    let accepted = (vec![0], 0);
    let refusals = survey.refused.iter().map(|piece| (piece.clone(), survey.reasons[piece[0] - 1]));
    for (piece, reason) in refusals.chain([accepted]).take(MOST_STRUCK) {
        let text: Vec<u8> = left.iter().flat_map(|(_, line)| line.to_vec()).collect();
        let reading = strict(&text);
        same_as_rust(&text, &reading)?;
        library.strict(&text, &reading)?;
        let stopped = if reading.line == 0 { 0 } else { left[reading.line - 1].0 };
        same("line of the next refusal (strict, survey)", stopped, piece[0])?;
        same("number of the next refusal (strict, survey)", reading.answer, reason)?;
        answers.push(reading.answer);
        left.retain(|(number, _)| !piece.contains(number));
    }
    Ok(answers)
}

/// Lines, then bytes, taken away while fault is still found, but not for ever: a long text may stay long.
pub fn smallest(text: Vec<u8>, mut faulty: impl FnMut(&[u8]) -> bool) -> Vec<u8> {
    let mut tries = MOST_TRIES;
    let parts: Vec<Vec<u8>> = lines(&text).map(<[u8]>::to_vec).collect();
    let fewer = fewest(parts, &mut tries, &mut faulty).concat();
    let parts = fewer.into_iter().map(|b| vec![b]).collect();
    fewest(parts, &mut tries, &mut faulty).concat()
}

fn fewest(mut parts: Vec<Vec<u8>>, tries: &mut usize, faulty: &mut impl FnMut(&[u8]) -> bool) -> Vec<Vec<u8>> {
    let mut step = parts.len().div_ceil(2).max(1);
    loop {
        let mut at = 0;
        let mut found = false;
        while at < parts.len() && *tries > 0 {
            *tries -= 1;
            let end = (at + step).min(parts.len());
            let rest = [&parts[..at], &parts[end..]].concat();
            if faulty(&rest.concat()) {
                parts = rest;
                found = true;
            } else {
                at = end;
            }
        }
        if *tries == 0 || step == 1 && !found {
            return parts;
        }
        step = (step / 2).max(1);
    }
}
