//! Districts of any size as EPANET's editor saves them, filled from fixed seeds: what a reading is timed on. Every
//! part grows with the size, so that 16 KB and 64 KB are the same kind of text.

use random::Random;
use std::fmt::Write;

/// The size at which the parts have the counts below, and the most that a reading takes.
const FULL: usize = 65_536;

/// What headers and titles take in any size.
const HEADERS: usize = 512;

const REMARK: &str = "; checked against the as-built drawings and the meter book\n";

pub struct Parts {
    junctions: usize,
    sources: usize,
    pipes: usize,
    pumps: usize,
    demands: usize,
    patterns: usize,
    curves: usize,
    rules: usize,
    /// Conditions and actions of each rule.
    clauses: usize,
}

pub const MANY_RULES: Parts = Parts {
    junctions: 230,
    sources: 12,
    pipes: 230,
    pumps: 8,
    demands: 280,
    patterns: 56,
    curves: 16,
    rules: 64,
    clauses: 8,
};

pub const FEW_RULES: Parts = Parts {
    junctions: 230,
    sources: 12,
    pipes: 230,
    pumps: 8,
    demands: 440,
    patterns: 60,
    curves: 60,
    rules: 4,
    clauses: 5,
};

struct District {
    r: Random,
    out: String,
    nodes: Vec<String>,
    tanks: Vec<String>,
    links: Vec<(&'static str, String)>,
}

/// A text of exactly so many bytes.
pub fn text(bytes: usize, parts: &Parts, seed: u64) -> Vec<u8> {
    let some = |count: usize| (count * (bytes - HEADERS) / FULL).max(1);
    let (nodes, tanks, links) = (Vec::new(), Vec::new(), Vec::new());
    let mut d = District { r: Random(seed), out: String::new(), nodes, tanks, links };
    d.out += "[TITLE]\nA district written for benchmarks\n";
    d.nodes(some(parts.junctions), some(parts.sources));
    d.links(some(parts.pipes), some(parts.pumps));
    d.demands(some(parts.demands), some(parts.patterns));
    d.patterns(some(parts.patterns));
    d.curves(some(parts.curves));
    d.rules(some(parts.rules), parts.clauses);
    d.times();
    d.coordinates();
    d.remarks(bytes);
    d.out.into_bytes()
}

impl District {
    fn header(&mut self, name: &str, columns: &str) {
        write!(self.out, "\n[{name}]\n;{}\n", columns.replace(' ', "\t")).unwrap();
    }

    /// A number below `limit` with two places after the point.
    fn decimal(&mut self, limit: usize) -> String {
        format!("{}.{}", self.r.below(limit), self.r.digits(2))
    }

    fn node(&mut self) -> String {
        self.nodes[self.r.below(self.nodes.len())].clone()
    }

    fn tank(&mut self) -> String {
        self.tanks[self.r.below(self.tanks.len())].clone()
    }

    fn nodes(&mut self, junctions: usize, sources: usize) {
        self.header("JUNCTIONS", "ID Elev Demand Pattern");
        for i in 0..junctions {
            let (id, elevation, demand) = (format!("J-{}", 100 + i), self.decimal(40), self.decimal(9));
            let pattern = if self.r.one_in(2) { "PAT1" } else { "" };
            writeln!(self.out, " {id}\t{elevation}\t{demand}\t{pattern}\t;").unwrap();
            self.nodes.push(id);
        }
        self.header("RESERVOIRS", "ID Head Pattern");
        for i in 0..sources.div_ceil(3) {
            let (id, head) = (format!("RES{i}"), self.decimal(90));
            writeln!(self.out, " {id}\t{head}\tPAT1\t;").unwrap();
            self.nodes.push(id);
        }
        self.header("TANKS", "ID Elevation InitLevel MinLevel MaxLevel Diameter MinVol VolCurve");
        for i in 0..sources.div_ceil(2) {
            let (id, elevation, level) = (format!("TK{i}"), self.decimal(60), self.decimal(6));
            writeln!(self.out, " {id}\t{elevation}\t{level}\t0.5\t6.25\t{}\t0\t*\t;", 12 + i).unwrap();
            self.nodes.push(id.clone());
            self.tanks.push(id);
        }
    }

    fn links(&mut self, pipes: usize, pumps: usize) {
        self.header("PIPES", "ID Node1 Node2 Length Diameter Roughness MinorLoss Status");
        for i in 0..pipes {
            let (id, start, end, length) = (format!("P-{}", 1000 + i), self.node(), self.node(), self.decimal(900));
            let status = self.r.pick(&["Open", "Open", "Open", "Closed", "CV"]);
            writeln!(self.out, " {id}\t{start}\t{end}\t{length}\t300\t115\t0\t{status}\t;").unwrap();
            self.links.push(("PIPE", id));
        }
        self.header("PUMPS", "ID Node1 Node2 Parameters");
        for i in 0..pumps {
            let (id, start, end) = (format!("PMP{i}"), self.node(), self.node());
            writeln!(self.out, " {id}\t{start}\t{end}\tHEAD CRV0\tSPEED 1.05\t;").unwrap();
            self.links.push(("PUMP", id));
        }
        self.header("VALVES", "ID Node1 Node2 Diameter Type Setting MinorLoss");
        for i in 0..pumps {
            let (id, start, end, setting) = (format!("VLV{i}"), self.node(), self.node(), self.decimal(40));
            let kind = self.r.pick(&["PRV", "PSV", "TCV", "FCV"]);
            writeln!(self.out, " {id}\t{start}\t{end}\t150\t{kind}\t{setting}\t0.1\t;").unwrap();
            self.links.push(("VALVE", id));
        }
    }

    fn demands(&mut self, count: usize, patterns: usize) {
        self.header("DEMANDS", "Junction Demand Pattern Category");
        let junctions = self.nodes.iter().filter(|id| id.starts_with('J')).count();
        for i in 0..count {
            let (demand, pattern) = (self.decimal(5), self.r.below(patterns));
            // one after another, so that no more demands are live than lines stand here
            writeln!(self.out, " J-{}\t{demand}\tPAT{pattern}\t;domestic", 100 + i % junctions).unwrap();
        }
    }

    fn patterns(&mut self, count: usize) {
        self.header("PATTERNS", "ID Multipliers");
        for i in 0..count {
            for _ in 0..4 {
                write!(self.out, " PAT{i}").unwrap();
                for _ in 0..6 {
                    let multiplier = self.decimal(2);
                    write!(self.out, "\t{multiplier}").unwrap();
                }
                self.out += "\n";
            }
        }
    }

    fn curves(&mut self, count: usize) {
        self.header("CURVES", "ID X-Value Y-Value");
        for i in 0..count {
            writeln!(self.out, ";PUMP: curve {i}").unwrap();
            for x in 0..8 {
                let y = self.decimal(90);
                writeln!(self.out, " CRV{i}\t{}\t{y}", 25 * x).unwrap();
            }
        }
    }

    fn rules(&mut self, count: usize, clauses: usize) {
        self.out += "\n[RULES]\n";
        for i in 0..count {
            writeln!(self.out, "RULE R{i}").unwrap();
            let conditions = clauses / 2;
            for at in 0..conditions {
                let condition = self.condition();
                writeln!(self.out, "{} {condition}", if at == 0 { "IF" } else { "AND" }).unwrap();
            }
            for at in conditions..clauses {
                let action = self.action();
                let word = ["THEN", "AND", "ELSE"][(at - conditions).min(2)];
                writeln!(self.out, "{word} {action}").unwrap();
            }
            write!(self.out, "PRIORITY {}\n\n", 1 + i % 5).unwrap();
        }
    }

    fn condition(&mut self) -> String {
        match self.r.below(3) {
            0 => format!("TANK {} LEVEL BELOW {}", self.tank(), self.decimal(6)),
            1 => format!("NODE {} PRESSURE ABOVE {}", self.node(), self.decimal(30)),
            _ => format!("SYSTEM CLOCKTIME >= {}:00 PM", 1 + self.r.below(12)),
        }
    }

    fn action(&mut self) -> String {
        let (kind, id) = self.links[self.r.below(self.links.len())].clone();
        match kind {
            "VALVE" => format!("{kind} {id} SETTING IS {}", self.decimal(30)),
            _ => format!("{kind} {id} STATUS IS {}", self.r.pick(&["OPEN", "CLOSED"])),
        }
    }

    fn times(&mut self) {
        self.out += "\n[TIMES]\n Duration\t48:00\n Hydraulic Timestep\t0:15\n Quality Timestep\t0:05\n \
            Report Timestep\t30 min\n Start ClockTime\t6 am\n Statistic\tNone\n";
    }

    fn coordinates(&mut self) {
        self.header("COORDINATES", "Node X-Coord Y-Coord");
        for id in self.nodes.clone() {
            let (x, y) = (self.decimal(999_999), self.decimal(999_999));
            writeln!(self.out, " {id}\t{x}\t{y}").unwrap();
        }
    }

    /// Fills what is left.
    fn remarks(&mut self, bytes: usize) {
        self.out += "\n";
        let left = bytes.checked_sub(self.out.len()).expect("the parts fit the size");
        self.out += &REMARK.repeat(left / REMARK.len());
        let rest = left % REMARK.len();
        self.out += &";".repeat(rest.saturating_sub(1));
        self.out += if rest > 0 { "\n" } else { "" };
    }
}
