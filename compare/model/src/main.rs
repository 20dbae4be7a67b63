//! `model strict|survey|tally [FILE]` prints what document 01 says of a text.

use model::{dump, reading};
use std::io::Read;

fn main() -> std::io::Result<()> {
    let arguments: Vec<String> = std::env::args().collect();
    let mut text = Vec::new();
    match arguments.get(2) {
        Some(file) => text = std::fs::read(file)?,
        None => std::io::stdin().read_to_end(&mut text).map(drop)?,
    }
    let out = match arguments.get(1).map(String::as_str) {
        Some("strict") => dump::strict(&reading::strict(&text)),
        Some("survey") => dump::survey(&reading::survey(&text)),
        Some("tally") => dump::tally(&reading::survey(&text)),
        _ => return Err(std::io::Error::other("usage: model strict|survey|tally [FILE]")),
    };
    print!("{out}");
    Ok(())
}
