//! The proved program `records` on a text, against the model.

use model::{Refusal, dump, reading};
use std::io::Write;
use std::process::{Command, Stdio};

/// The command is the program, or what starts it and then the program.
pub fn check(command: &[String], text: &[u8]) -> Result<Vec<Refusal>, String> {
    let strict = reading::strict(text);
    same(command, "strict", text, dump::strict(&strict))?;
    same(command, "survey", text, dump::survey(&reading::survey(text)))?;
    Ok(vec![strict.answer])
}

fn same(command: &[String], mode: &str, text: &[u8], wanted: String) -> Result<(), String> {
    let printed = run(command, mode, text).map_err(|error| format!("{command:?} {mode}: {error}"))?;
    if printed == wanted.as_bytes() {
        return Ok(());
    }
    Err(format!("{mode}: the program printed\n{}\nand the model\n{wanted}", String::from_utf8_lossy(&printed)))
}

fn run(command: &[String], mode: &str, text: &[u8]) -> std::io::Result<Vec<u8>> {
    let mut child =
        Command::new(&command[0]).args(&command[1..]).arg(mode).stdin(Stdio::piped()).stdout(Stdio::piped()).spawn()?;
    let mut input = child.stdin.take().unwrap();
    let text = text.to_vec();
    // written beside, since the program may print before it has read all
    let writer = std::thread::spawn(move || input.write_all(&text));
    let output = child.wait_with_output()?;
    let _ = writer.join();
    Ok(output.stdout)
}
