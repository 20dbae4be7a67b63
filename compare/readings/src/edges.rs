//! Texts that fill a room exactly, or ask for one place more.

use model::{NO_ROOM, Refusal, TOO_LONG};
use random::Random;
use std::fmt::Write;

/// A name, and the text that asks for so many places.
const ROOMS: &[(&str, usize, fn(usize) -> String)] = &[
    ("junctions", 256, |n| lines("[JUNCTIONS]", n, |i| format!("J{i} 1"))),
    ("reservoirs", 256, |n| lines("[RESERVOIRS]", n, |i| format!("R{i} 1"))),
    ("tanks", 256, |n| lines("[TANKS]", n, |i| format!("T{i} 1 2 3 4 5"))),
    ("pipes", 256, |n| two_nodes() + &lines("[PIPES]", n, |i| format!("P{i} A B 1 2 3"))),
    ("pumps", 256, |n| two_nodes() + &lines("[PUMPS]", n, |i| format!("U{i} A B POWER 1"))),
    ("valves", 256, |n| two_nodes() + &lines("[VALVES]", n, |i| format!("V{i} A B 1 PRV 2"))),
    ("curves", 64, |n| lines("[CURVES]", n, |i| format!("C{i} 1 2"))),
    ("points of one curve", 1024, |n| lines("[CURVES]", n, |i| format!("C {i} 2"))),
    ("points of curves", 1024, |n| lines("[CURVES]", n, |i| format!("C{} {i} 2", i % 64))),
    ("patterns", 64, |n| lines("[PATTERNS]", n, |i| format!("A{i} 1"))),
    ("patterns without multipliers", 64, |n| lines("[PATTERNS]", n, |i| format!("A{i}"))),
    ("multipliers", 2048, |n| lines("[PATTERNS]", n, |i| format!("A{} {i}", i % 60))),
    ("multipliers of one line", 2048, |n| format!("[PATTERNS]\nA{}\n", " 1".repeat(n))),
    ("demands of one junction", 512, |n| two_nodes() + &lines("[DEMANDS]", n, |i| format!("A {i}"))),
    ("demands of junctions", 512, |n| {
        let junctions = lines("[JUNCTIONS]", 200, |i| format!("J{i} 1"));
        junctions + &lines("[DEMANDS]", n, |i| format!("J{} 1", i % 200))
    }),
    ("rules", 64, |n| two_nodes() + PIPE + &lines("[RULES]", n, |i| format!("RULE R{i}\n{CLAUSES}\n"))),
    ("clauses of one rule", 512, |n| {
        let actions = "THEN PIPE P STATUS IS OPEN\n".repeat(n - 1);
        two_nodes() + PIPE + &format!("[RULES]\nRULE R\nIF SYSTEM TIME = 1\n{actions}\n")
    }),
    ("clauses of rules", 512, |n| {
        let rules = lines("[RULES]", 50, |i| format!("RULE R{i}\n{}\n", "OR NODE A HEAD > 1\n".repeat(9) + THEN));
        two_nodes() + PIPE + &rules + &format!("RULE L\n{CLAUSES}{}\n\n", "\nELSE LINK P SETTING IS 1".repeat(n - 502))
    }),
    ("bytes", 65_536, |n| "[JUNCTIONS]\nJ 1 ".to_string() + &";".repeat(n - 16)),
    ("bytes in lines", 65_536, |n| "\n".repeat(n)),
    ("bytes of one field", 65_536, |n| "[JUNCTIONS]\n".to_string() + &"J".repeat(n - 12)),
];

const PIPE: &str = "[PIPES]\nP A B 1 2 3\n";
const THEN: &str = "THEN PIPE P STATUS IS OPEN";
const CLAUSES: &str = "IF SYSTEM TIME = 1\nTHEN PIPE P STATUS IS OPEN";

fn two_nodes() -> String {
    "[JUNCTIONS]\nA 1\n[RESERVOIRS]\nB 1\n".into()
}

fn lines(header: &str, n: usize, line: impl Fn(usize) -> String) -> String {
    let mut out = format!("{header}\n");
    (0..n).for_each(|i| writeln!(out, "{}", line(i)).unwrap());
    out
}

/// Each room one short, exactly full and one over, with document 01's answers.
pub fn rooms() -> impl Iterator<Item = (&'static str, Vec<u8>, Refusal)> {
    ROOMS.iter().flat_map(|(name, room, text)| {
        let over = if name.starts_with("bytes") { TOO_LONG } else { NO_ROOM };
        [(room - 1, 0), (*room, 0), (room + 1, over)].map(|(n, answer)| (*name, text(n).into_bytes(), answer))
    })
}

/// Small odd texts.
pub fn odd() -> Vec<Vec<u8>> {
    let odd = ["", " ", "\n", "\r\n", "\t\x0b\x0c\r ", "\n\n", ";", "[", "[RULES]", "[RULES]\nRULE", "x", "\x7f", "\0"];
    let bytes = [vec![127], vec![128], vec![255], [vec![b'\n'; 65_536], vec![200]].concat()];
    odd.map(|text| text.as_bytes().to_vec()).into_iter().chain(bytes).collect()
}

/// A room nearly or just full, then more lines of any section.
pub fn random(r: &mut Random) -> Vec<u8> {
    const MORE: &[&str] = &[
        "[JUNCTIONS]\nA 1\n",
        "[JUNCTIONS]\nJ0 1\n",
        "[JUNCTIONS]\nN1 1\n",
        "[JUNCTIONS]\nN2 x\n",
        "[TANKS]\nN3 1\n",
        "[RESERVOIRS]\nN4 1 A1\n",
        "[PIPES]\nP A B 1 2 3\n",
        "[PIPES]\nP9 A B 1 2 3\n",
        "[PUMPS]\nU0 A B\n",
        "[VALVES]\nV9 A A 1 GPV\n",
        "[CURVES]\nC 9999 1\n",
        "[CURVES]\nC0 0 1\n",
        "[CURVES]\nC99 0 1\n",
        "[PATTERNS]\nA99 1\n",
        "[PATTERNS]\nA1\n",
        "[PATTERNS]\nA1 1 2\n",
        "[PATTERNS]\nA99\n",
        "[DEMANDS]\nA 1\n",
        "[DEMANDS]\nJ0 2\n",
        "[DEMANDS]\nJ199 3 A1\n",
        "[RULES]\nRULE R9\nIF SYSTEM TIME = 1\nTHEN LINK P STATUS IS OPEN\n\n",
        "[RULES]\nRULE NEW\nIF SYSTEM TIME = 1\nTHEN LINK P0 STATUS IS OPEN\n;\n",
        "[EMITTERS]\nA 1\n",
    ];
    let (_, room, text) = ROOMS[r.below(ROOMS.len() - 3)];
    let mut out = text(room - r.below(3));
    (0..r.below(12)).for_each(|_| out += r.pick(MORE));
    out.into_bytes()
}
