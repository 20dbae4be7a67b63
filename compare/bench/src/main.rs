//! `bench time [ROUNDS]`: how long our readings and the Rust's take on the same texts, in one run.
//! `bench stack`: the deepest stack of each.
//! `bench texts FOLDER`: writes the texts there, and prints their names.
//! `bench one strict|survey|rust|nothing FILE`: reads the file twice, the second time inside `marked`, for callgrind.

mod district;
mod sides;
mod stack;
mod texts;
mod timing;

use sides::{SIDES, Side, Tables};
use std::path::Path;
use texts::Text;

const ROUNDS: usize = 500;
const USAGE: &str = "usage: bench time [ROUNDS] | stack | texts FOLDER | one strict|survey|rust|nothing FILE";

fn main() {
    let arguments: Vec<String> = std::env::args().skip(1).collect();
    let arguments: Vec<&str> = arguments.iter().map(String::as_str).collect();
    match arguments[..] {
        ["time"] => timing::report(&accepted(), ROUNDS),
        ["time", rounds] => timing::report(&accepted(), rounds.parse().expect(USAGE)),
        ["stack"] => stack::report(&accepted(), &texts::cases()),
        ["texts", folder] => write(Path::new(folder)),
        ["one", "nothing", _] => marked(&mut || true),
        ["one", side, file] => one(Side::named(side).expect(USAGE), &std::fs::read(file).expect(file)),
        _ => panic!("{USAGE}"),
    }
}

/// All texts; each side must accept each of them, else the times would not be of the same work.
fn accepted() -> Vec<Text> {
    let texts = texts::all();
    for text in &texts {
        for side in SIDES {
            let read = Tables::new().reading(side, &text.bytes, |read| read());
            assert!(read, "{} is refused by {}", text.name, side.name());
        }
    }
    texts
}

fn write(folder: &Path) {
    for text in accepted() {
        std::fs::write(folder.join(&text.name).with_extension("inp"), &text.bytes).expect("the texts can be written");
        println!("{}", text.name);
    }
}

fn one(side: Side, text: &[u8]) {
    let mut tables = Tables::new();
    tables.reading(side, text, |read| read());
    tables.reading(side, text, |read| marked(read));
}

/// Callgrind counts from the start of this function. It would count on after its end, since on some processors it
/// does not see where a function ends; so the program ends here, before anything is dropped.
#[inline(never)]
#[unsafe(no_mangle)]
fn marked(read: &mut dyn FnMut() -> bool) {
    let accepted = read();
    std::process::exit(if accepted { 0 } else { 1 })
}
