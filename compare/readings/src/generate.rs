//! Random texts: whole networks in any order, more or less damaged.

use crate::edges;
use crate::words::{HEADERS, RULES, Words};
use random::Random;

/// The text of one seed.
pub fn text(seed: u64) -> Vec<u8> {
    let mut r = Random(seed);
    let mut text = match r.below(400) {
        0..2 => edges::random(&mut r),
        2..12 => junk(&mut r),
        _ => network(&mut r),
    };
    if r.one_in(5) {
        spoil_bytes(&mut r, &mut text);
    }
    match r.below(8) {
        0 => text = replaced(&text, b'\n', b"\r\n"),
        1 => text = replaced(&text, b' ', b" \t"),
        2 => text = replaced(&text, b' ', b"\x0b\x0c"),
        _ => {}
    }
    if r.one_in(4) && text.last() == Some(&b'\n') {
        text.pop();
    }
    text
}

fn replaced(text: &[u8], old: u8, new: &[u8]) -> Vec<u8> {
    text.iter().flat_map(|&b| if b == old { new.to_vec() } else { vec![b] }).collect()
}

fn spoil_bytes(r: &mut Random, text: &mut Vec<u8>) {
    const ODD: &[u8] = b"\n\n\n;; \t\r\x0b\x0c[]:.-+eE0159JPRT*\x00\x1c\x7f\\";
    for _ in 0..1 + r.below(4) {
        let at = r.below(text.len() + 1);
        let byte = if r.one_in(400) { 128 + r.below(128) as u8 } else { ODD[r.below(ODD.len())] };
        match r.below(3) {
            0 => text.insert(at, byte),
            _ if at == text.len() => {}
            1 => text[at] = byte,
            _ => drop(text.remove(at)),
        }
    }
}

/// Few known pieces in any order.
fn junk(r: &mut Random) -> Vec<u8> {
    const PIECES: &[&str] = &[
        "\n", "\n", "\n", " ", "\t", ";", "[RULES]\n", "RULE", "RULE A\n", "IF", "THEN", "ELSE", "AND", "J", "P", "1",
        "[JUNCTIONS]\n", "[PIPES]\n", "[TIMES]\n", "[", "]", "\r\n", "\x0b", "\x0c", "J 1\n", "SYSTEM TIME = 1\n",
        "PIPE P STATUS IS OPEN\n", "P J J 1 2 3\n", "DURATION 1\n", "START CLOCKTIME 1 PM\n",
    ];
    let n = r.below(30);
    (0..n).map(|_| r.pick(PIECES)).collect::<String>().into_bytes()
}

struct Generator<'r> {
    words: Words<'r>,
    out: String,
    nodes: Vec<String>,
    junctions: Vec<String>,
    links: Vec<String>,
}

fn network(r: &mut Random) -> Vec<u8> {
    let damage = [0, 300, 80, 25, 8][r.below(5)];
    let words = Words { r, damage };
    let mut g = Generator { words, out: String::new(), nodes: Vec::new(), junctions: Vec::new(), links: Vec::new() };
    g.blocks();
    g.out.into_bytes()
}

impl Generator<'_> {
    fn blocks(&mut self) {
        let damage = std::mem::take(&mut self.words.damage);
        let calm = self.words.r.below(16);
        let ordered = !self.words.r.one_in(8);
        for at in 0..6 + self.words.r.below(10) {
            if at == calm {
                self.words.damage = damage;
            }
            let header = match at {
                0..6 if ordered => at,
                _ if self.words.bad() => self.words.r.below(HEADERS.len()),
                _ if self.words.r.one_in(3) => RULES,
                _ => self.words.r.below(14),
            };
            self.block(header);
        }
    }

    fn block(&mut self, header: usize) {
        self.out += HEADERS[header];
        self.out += "\n";
        for _ in 0..self.words.r.below(5) {
            if header == RULES {
                self.group();
            } else if self.has_what_it_names(header) || self.words.bad() {
                self.line(header);
            }
        }
        if self.words.r.one_in(3) {
            self.out += "\n";
        }
    }

    fn has_what_it_names(&self, header: usize) -> bool {
        match header {
            3..=5 | 10 => !self.nodes.is_empty(),
            8 | 9 => !self.junctions.is_empty(),
            _ => true,
        }
    }

    fn line(&mut self, header: usize) {
        let line = match header {
            0 => self.junction(),
            1 => self.reservoir(),
            2 => self.tank(),
            3 => self.pipe(),
            4 => self.pump(),
            5 => self.valve(),
            6 => format!("{} {} {}", self.word(&["C1", "C2"]), self.rising(), self.words.number()),
            7 => self.pattern(),
            8 => format!("{} {} {}", self.some_junction(), self.words.number(), self.word(&["", "A", "B"])),
            9 => format!("{} {}", self.some_junction(), self.words.number()),
            10 => format!("{} {} {}", self.node(), self.words.number(), self.words.number()),
            11 => self.times(),
            _ => self.word(&["any words", "P1 OPEN", "LINK P1 OPEN IF NODE J1 ABOVE 3", "1 2 3"]),
        };
        self.put(line);
    }

    /// Adds the line, with a comment or spoilt now and then.
    fn put(&mut self, mut line: String) {
        if self.words.bad() {
            line = self.spoilt(&line);
        }
        // a rule line is not cut there
        let rule = ["RULE ", "IF ", "AND ", "OR ", "THEN ", "ELSE ", "PRIORITY "].iter().any(|w| line.starts_with(w));
        if if rule { self.words.bad() } else { self.words.r.one_in(12) } {
            line += self.words.r.pick(&[" ;", ";", " ; note", "\t;a;b"]);
        }
        if self.words.r.one_in(12) {
            line.insert_str(0, self.words.r.pick(&[" ", "\t ", "\x0c"]));
        }
        self.out += &line;
        self.out += "\n";
        if !rule && self.words.r.one_in(25) {
            self.out += self.words.r.pick(&["\n", ";\n", "; note\n", " \t\n"]);
        } else if self.words.bad() {
            self.out += self.words.r.pick(&["\n", "; note\n", "[RULES]\n", "[X]\n", "[PIPES]\n"]);
        }
    }

    fn spoilt(&mut self, line: &str) -> String {
        let mut fields: Vec<String> = line.split_whitespace().map(String::from).collect();
        let at = self.words.r.below(fields.len().max(1));
        match self.words.r.below(6) {
            _ if fields.is_empty() => {}
            0 => drop(fields.remove(at)),
            1 => fields.truncate(at),
            2 => fields[at] = self.words.number(),
            3 => fields[at] = self.words.r.recased(&fields[at]),
            4 => fields.insert(at, self.words.r.pick(&["x", ";", "0", "RULE", "true"]).into()),
            _ => fields.push(self.words.number()),
        }
        fields.join(" ")
    }

    fn word(&mut self, words: &[&'static str]) -> String {
        self.words.word(words)
    }

    fn number_or_none(&mut self) -> String {
        if self.words.r.one_in(5) { self.word(&["x", "12,5", "*", "CV"]) } else { self.words.number() }
    }

    fn fresh(&mut self, letter: char, known: usize) -> String {
        let used = self.words.bad();
        format!("{letter}{}", if used { self.words.r.below(known + 1) } else { known })
    }

    fn new_node(&mut self, kind: char) -> String {
        let id = self.fresh(kind, self.nodes.len());
        self.nodes.push(id.clone());
        id
    }

    fn new_link(&mut self, kind: char) -> String {
        let id = self.fresh(kind, self.links.len());
        self.links.push(id.clone());
        id
    }

    fn known(words: &mut Words, names: &[String]) -> String {
        if names.is_empty() || words.bad() {
            format!("{}{}", words.r.pick(&["J", "R", "T", "P", "j", "V", "U"]), words.r.below(9))
        } else {
            names[words.r.below(names.len())].clone()
        }
    }

    fn node(&mut self) -> String {
        Self::known(&mut self.words, &self.nodes)
    }

    fn some_junction(&mut self) -> String {
        if self.words.bad() { self.node() } else { Self::known(&mut self.words, &self.junctions) }
    }

    fn link(&mut self) -> String {
        Self::known(&mut self.words, &self.links)
    }

    fn junction(&mut self) -> String {
        let id = self.new_node('J');
        self.junctions.push(id.clone());
        let all = format!(
            "{} {} {} {}",
            self.words.number(),
            self.number_or_none(),
            self.word(&["A", "B", "Z"]),
            self.words.flag()
        );
        let fields: Vec<_> = all.split(' ').take(self.words.r.below(5)).collect();
        format!("{id} {}", fields.join(" "))
    }

    fn reservoir(&mut self) -> String {
        format!("{} {} {}", self.new_node('R'), self.words.number(), self.word(&["", "A", "B", "Z"]))
    }

    fn tank(&mut self) -> String {
        let id = self.new_node('T');
        let numbers: Vec<_> = (0..6).map(|_| self.words.number()).collect();
        match self.words.r.below(5) {
            0 => format!("{id} {}", numbers[0]),
            1 => format!("{id} {}", numbers[..5].join(" ")),
            2 => format!("{id} {}", numbers.join(" ")),
            _ => format!(
                "{id} {} {} {}",
                numbers.join(" "),
                self.word(&["*", "C1"]),
                self.word(&["YES", "yes", "NO", ""])
            ),
        }
    }

    fn pipe(&mut self) -> String {
        let ends = format!("{} {}", self.node(), self.node());
        let numbers = format!("{} {} {}", self.words.number(), self.words.number(), self.words.number());
        let rest = match self.words.r.below(3) {
            0 => String::new(),
            1 => self.number_or_none(),
            _ => format!("{} {}", self.number_or_none(), self.word(&["CV", "cv", "CLOSED", "Closed", "OPEN", "x"])),
        };
        format!("{} {ends} {numbers} {rest}", self.new_link('P'))
    }

    fn pump(&mut self) -> String {
        let mut line = format!("{} {} {}", self.new_link('U'), self.node(), self.node());
        for _ in 0..self.words.r.below(4) {
            line +=
                &format!(" {} {}", self.word(&["SPEED", "HEAD", "POWER", "PATTERN", "speed"]), self.number_or_none());
        }
        if self.words.r.one_in(5) {
            line += " SPEED";
        }
        line
    }

    fn valve(&mut self) -> String {
        let ends = format!("{} {} {}", self.node(), self.node(), self.words.number());
        let kind = self.word(&["GPV", "TCV", "FCV", "PRV", "PSV", "PBV", "PCV", "gpv", "Prv"]);
        let rest = [self.number_or_none(), self.number_or_none(), self.word(&["C1", "C2", "*"])];
        let rest = rest[..self.words.r.below(4)].join(" ");
        format!("{} {ends} {kind} {rest}", self.new_link('V'))
    }

    /// Mostly rising from line to line.
    fn rising(&mut self) -> String {
        if self.words.bad() || self.words.r.one_in(30) { self.words.number() } else { self.out.len().to_string() }
    }

    fn pattern(&mut self) -> String {
        let numbers: Vec<_> = (0..self.words.r.below(5)).map(|_| self.words.number()).collect();
        format!("{} {}", self.word(&["A", "B", "D"]), numbers.join(" "))
    }

    fn times(&mut self) -> String {
        const OPTIONS: &[&str] = &[
            "DURATION", "HYDRAULIC TIMESTEP", "PATTERN TIMESTEP", "REPORT TIMESTEP", "PATTERN START",
            "START CLOCKTIME", "Start ClockTime", "duration", "REPORT START", "QUALITY TIMESTEP", "RULE TIMESTEP",
            "STATISTIC", "X",
        ];
        format!("{} {}", self.word(OPTIONS), self.words.time())
    }

    fn condition(&mut self) -> String {
        let target = match self.words.r.below(4) {
            0 => format!("SYSTEM {}", self.word(&["DEMAND", "TIME", "CLOCKTIME"])),
            1 => format!("{} {} {}", self.word(&["NODE"]), self.node(), self.word(&["DEMAND", "HEAD", "PRESSURE"])),
            2 => format!("{} {} {}", self.word(&["TANK"]), self.node(), self.word(&["LEVEL", "FILLTIME", "DRAINTIME"])),
            _ => {
                let kind = self.word(&["LINK", "PIPE", "PUMP", "VALVE"]);
                format!("{kind} {} {}", self.link(), self.word(&["FLOW", "STATUS", "SETTING"]))
            }
        };
        let comparison = self.word(&["IS", "=", "NOT", "<>", "ABOVE", ">", "BELOW", "<", ">=", "<="]);
        let value = if target.contains("TIME") && target.starts_with('S') {
            self.words.time()
        } else if self.words.r.one_in(3) {
            self.word(&["OPEN", "CLOSED", "ACTIVE"])
        } else {
            self.words.number()
        };
        format!("{target} {comparison} {value}")
    }

    fn action(&mut self) -> String {
        let link = self.link();
        let kind = match link.as_bytes()[0] {
            _ if self.words.bad() => self.word(&["PIPE", "PUMP", "VALVE"]),
            b'P' => self.word(&["PIPE", "LINK"]),
            b'U' => self.word(&["PUMP", "LINK"]),
            _ => self.word(&["VALVE", "LINK"]),
        };
        if self.words.r.one_in(2) {
            format!("{kind} {link} {} {} {}", self.word(&["STATUS"]), self.word(&["IS"]), self.words.status())
        } else {
            format!("{kind} {link} {} {} {}", self.word(&["SETTING"]), self.word(&["IS"]), self.words.number())
        }
    }

    fn group(&mut self) {
        if self.links.is_empty() && !self.words.bad() {
            return;
        }
        let mut lines = vec![format!("{} {}", self.word(&["RULE"]), self.fresh_rule())];
        lines.push(format!("IF {}", self.condition()));
        for _ in 0..self.words.r.below(3) {
            lines.push(format!("{} {}", self.word(&["AND", "OR", "AND", "OR", "IF"]), self.condition()));
        }
        lines.push(format!("THEN {}", self.action()));
        for _ in 0..self.words.r.below(5) {
            lines.push(format!("{} {}", self.word(&["AND", "THEN", "ELSE"]), self.action()));
        }
        if self.words.r.one_in(2) {
            lines.push(format!("PRIORITY {}", self.word(&["0", "1", "5", "+7", "18446744073709551615"])));
        }
        if self.words.bad() {
            self.disordered(&mut lines);
        }
        for line in lines {
            self.put(line);
            if self.words.r.one_in(30) {
                self.interrupted();
            }
        }
        let end = self.words.r.pick(&["\n", "\n", "\n", ";\n", "RULE\n", "RULES closed\n", "  \t\n", ""]);
        self.out += end;
    }

    fn fresh_rule(&mut self) -> String {
        let known = self.out.matches("RULE ").count();
        self.fresh('R', known)
    }

    fn disordered(&mut self, lines: &mut Vec<String>) {
        let (a, b) = (self.words.r.below(lines.len()), self.words.r.below(lines.len()));
        match self.words.r.below(4) {
            0 => drop(lines.remove(a)),
            1 => lines.swap(a, b),
            2 => lines.insert(a, self.words.r.pick(&["PRIORITY 5;", "PRIORITY -1", "PRIORITY", "RULEX", "X"]).into()),
            _ => lines.truncate(a),
        }
    }

    /// Another section's lines inside a group.
    fn interrupted(&mut self) {
        let header = self.words.r.below(14);
        self.out += HEADERS[header];
        self.out += "\n";
        if header != RULES && self.words.r.one_in(2) {
            self.line(header);
        }
        if !self.words.r.one_in(4) {
            self.out += "[RULES]\n";
        }
    }
}
