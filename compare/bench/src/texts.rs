//! The texts that are read: the two districts of samples/, and generated ones.

use crate::district::{self, FEW_RULES, MANY_RULES};
use std::path::Path;

pub struct Text {
    pub name: String,
    pub bytes: Vec<u8>,
}

pub const SIZES: [usize; 3] = [4, 16, 64];

pub fn all() -> Vec<Text> {
    let samples = ["district-a", "district-full"].map(sample);
    let generated = SIZES.into_iter().flat_map(|size| [true, false].map(|many| generated(size, many)));
    samples.into_iter().chain(generated).collect()
}

pub fn name(kilobytes: usize, many: bool) -> String {
    format!("{kilobytes}KB-{}-rules", if many { "many" } else { "few" })
}

/// The texts of the program `cases`, refused ones of every kind among them: each follows a line that begins with #.
pub fn cases() -> Vec<Text> {
    let mut cases: Vec<Text> = Vec::new();
    for line in read("crates/cases/stdin").split_inclusive(|&b| b == b'\n') {
        match cases.last_mut() {
            _ if line.starts_with(b"#") => {
                cases.push(Text { name: String::from_utf8_lossy(line).trim().into(), bytes: Vec::new() });
            }
            Some(case) => case.bytes.extend(line),
            None => {}
        }
    }
    cases
}

fn sample(name: &str) -> Text {
    Text { name: name.into(), bytes: read(&format!("samples/{name}.inp")) }
}

/// A file of the repository.
fn read(file: &str) -> Vec<u8> {
    let path = Path::new(env!("CARGO_MANIFEST_DIR")).join("../..").join(file);
    std::fs::read(path).unwrap_or_else(|error| panic!("{file}: {error}"))
}

fn generated(kilobytes: usize, many: bool) -> Text {
    let parts = if many { &MANY_RULES } else { &FEW_RULES };
    Text { name: name(kilobytes, many), bytes: district::text(kilobytes * 1024, parts, kilobytes as u64) }
}
