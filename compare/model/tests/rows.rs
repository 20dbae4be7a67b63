//! Document 01's checked rows, its sample, and the smallest text of each trap.

use model::numbers::{number, time};
use model::reading::{strict, survey};
use model::{Refusal, dump};

#[test]
fn times() {
    let rows: [(&[u8], Option<&[u8]>, Result<u64, Refusal>); 10] = [
        (b"12:00", Some(b"AM"), Ok(0)),
        (b"12:00", Some(b"PM"), Ok(43200)),
        (b"1:75", None, Ok(8100)),
        (b"1.5", None, Ok(5400)),
        (b"1.9", Some(b"SEC"), Ok(1)),
        (b"-3", None, Ok(0)),
        (b"inf", Some(b"AM"), Ok(10800)),
        (b"2", Some(b"HOURSS"), Ok(7200)),
        (b"5", Some(b"S"), Err(7)),
        (b":30", None, Err(2)),
    ];
    rows.into_iter().for_each(|(text, unit, answer)| assert_eq!(time(text, unit), answer));
}

#[test]
fn numbers() {
    assert_eq!([number(b".5"), number(b"5."), number(b"10e22")], [Ok(0.5), Ok(5.0), Ok(1e23)]);
    assert_eq!([number(b"."), number(b"1e23"), number(b"9007199254740993")], [Err(2), Err(22), Err(22)]);
}

const SAMPLE: &str = "[JUNCTIONS]\nJ1 10.5\nJ1 12\n[TANKS]\nT1 50\n[PIPES]\nP1 J1 T1 100 200 0.1\n[RULES]\nRULE A\n\
    IF TANK T1 LEVEL BELOW 3\nTHEN PIPE P1 STATUS IS CLOSED\nELSE PIPE P1 STATUS IS OPEN\n\nRULE B\n\
    THEN PIPE P1 STATUS IS OPEN\n;\nRULE C\nIF SYSTEM TIME ABOVE 6\n";

#[test]
fn sample() {
    let printed = "records 2 1 0 0 1\nclauses 1 2\nlines 18 2 4 0 3 1 4 2 2\nrefused 3 3\nrefused 14 8\n";
    assert_eq!(dump::tally(&survey(SAMPLE.as_bytes())), printed);
}

/// A junction, a pipe and a pump, then the lines; the answer of strict reading, and a part of its dump.
#[test]
fn traps() {
    let rows: &[(&str, Refusal, &str)] = &[
        ("[PUMPS]\nW J J SPEED 2 SPEED x", 0, "link PUMP =W 0 0 OPEN 3ff0000000000000 - 0000000000000000"),
        ("[PIPES]\nQ J J 1 2 3 CV", 0, "4008000000000000 0000000000000000 0\n"),
        ("[TANKS]\nT 1 2 3 4 5 x", 2, ""),
        ("[CURVES]\nC nan 0\nC -9 0", 0, "curve =C 2 "),
        ("[CURVES]\nC 1 0\nC 1 0", 0, "curve =C 2 "),
        ("[CURVES]\nC 1 0\nC .5 0", 6, "curve =C 1 "),
        ("[TIMES]\nPATTERN START", 1, ""),
        ("[TIMES]\nX 1e23", 22, ""),
        ("[TIMES]\nDURATION 1e23 XX", 22, ""),
        ("[TIMES]\nDURATION 1 PMS", 0, "times 46800 "),
        ("[PIPES]\nQ X J 1 2 3 1e23", 22, ""),
        ("[PUMPS]\nW X J SPEED 1e23", 4, ""),
        ("[RULES]\nX\nRULEX", 7, ""),
        ("[RULES]\nIF SYSTEM TIME = 6 ; note\n\n", 7, ""),
        ("[RULES]\nIF SYSTEM TIME = 6:00 ; note\n\n", 9, ""),
        ("[RULES]\nIF SYSTEM TIME = 9007199254740992 SEC\n\n", 9, ""),
        ("[RULES]\nIF SYSTEM TIME = 2501999792983\n\n", 9, ""),
        ("[RULES]\nIF SYSTEM CLOCKTIME = 2501999792984\n\n", 22, ""),
        ("[RULES]\nIF SYSTEM DEMAND = 2501999792984\n\n", 9, ""),
        ("[TIMES]\nDURATION 2501999792984", 0, "times 9007199254742400 "),
        ("[TIMES]\nDURATION 1000000000:1000000000", 0, "times 3660000000000 "),
        ("[TIMES]\nDURATION 1000000001:x", 22, ""),
        ("[TIMES]\nDURATION x:1000000001", 2, ""),
        ("[RULES]\nTHEN PIPE P SPEED IS\n\n", 1, ""),
        ("[RULES]\nTHEN NODE NONE x\n\n", 4, ""),
        ("[RULES]\nTHEN NODE P x\n\n", 7, ""),
        ("[RULES]\nTHEN PIPE U x\n\n", 5, ""),
        ("[RULES]\nRULE\nIF SYSTEM TIME = 6\nTHEN PIPE P STATUS IS OPEN\n\n", 1, ""),
        ("[RULES]\nIF SYSTEM TIME = 6\nTHEN PIPE P STATUS IS OPEN\n\n", 10, ""),
        (
            "[RULES]\nRULE A\nIF SYSTEM TIME = 6\nELSE PIPE P STATUS IS OPEN\nAND PIPE P STATUS IS OPEN\n\n",
            0,
            "rule =A 2 1 -",
        ),
        ("[RULES]\nRULE A\nPRIORITY 5;\n\n", 2, ""),
        (
            "[RULES]\nRULE A\nIF SYSTEM TIME = 6\nTHEN PIPE Q STATUS IS OPEN\n[PIPES]\nQ J J 1 2 3\n\n",
            0,
            "rule =A 1 1 -",
        ),
        ("[RULES]\nX\n[PIPES]\nQ J X 1 2 3\n\n", 4, ""),
        ("[JUNCTIONS] ;x\nK x", 0, ""),
        ("[pipes]\nQ", 0, ""),
    ];
    for (lines, answer, part) in rows {
        let text = format!("[JUNCTIONS]\nJ\n[PIPES]\nP J J 1 2 3\n[PUMPS]\nU J J\n{lines}");
        let reading = strict(text.as_bytes());
        assert_eq!(reading.answer, *answer, "{lines}");
        assert!(dump::strict(&reading).contains(part), "{lines}");
    }
}
