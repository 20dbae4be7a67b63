//! docs/LAYOUT.md: what the two lent tables hold after a reading, every place of them.

use crate::network::*;

const WORDS_ROOM: usize = 17_137;
const NUMBERS_ROOM: usize = 8_192;

/// How many words a record of each kind has.
const NODES_WIDTH: usize = 8;
const LINKS_WIDTH: usize = 9;
const CURVES_WIDTH: usize = 3;
const POINTS_WIDTH: usize = 1;
const PATTERNS_WIDTH: usize = 3;
const MULTIPLIERS_WIDTH: usize = 1;
const DEMANDS_WIDTH: usize = 5;
const TIMES_WIDTH: usize = 2;
const RULES_WIDTH: usize = 7;
const CLAUSES_WIDTH: usize = 7;

/// How many numbers.
const NODE_NUMBERS_WIDTH: usize = 8;
const LINK_NUMBERS_WIDTH: usize = 4;
const POINT_NUMBERS_WIDTH: usize = 2;
const MULTIPLIER_NUMBERS_WIDTH: usize = 1;
const DEMAND_NUMBERS_WIDTH: usize = 1;
const CLAUSE_NUMBERS_WIDTH: usize = 1;

/// How many times there are.
const TIMES_MOST: usize = 6;
/// How many slots the nodes have, and the links, the curves, the patterns.
const SLOTS_MOST: usize = 615;
/// How many slots the demands have.
const DEMAND_SLOTS_MOST: usize = 256;

/// The words that a reading of the text leaves.
pub fn words(text: &[u8], n: &Network) -> Vec<u64> {
    let place = |name: Name| (name.as_ptr() as usize - text.as_ptr() as usize) as u64;
    let id = |id: Name| vec![place(id), id.len() as u64, key(id)];
    let name = |name: Option<Name>| name.map_or([0, 0], |name| [place(name), name.len() as u64]);
    let counts = [
        n.nodes.len(),
        n.links.len(),
        n.curves.len(),
        n.points.len(),
        n.patterns.len(),
        n.multipliers.len(),
        n.demands.len(),
        n.rules.len(),
        n.clauses.len(),
    ];
    let regions = [
        region(NODES_MOST, NODES_WIDTH, n.nodes.iter().map(|node| [id(node.id), node_words(node, name)].concat())),
        region(LINKS_MOST, LINKS_WIDTH, n.links.iter().map(|link| [id(link.id), link_words(link, name)].concat())),
        region(CURVES_MOST, CURVES_WIDTH, n.curves.iter().map(|curve| id(curve))),
        region(POINTS_MOST, POINTS_WIDTH, n.points.iter().map(|point| vec![point.curve as u64])),
        region(PATTERNS_MOST, PATTERNS_WIDTH, n.patterns.iter().map(|pattern| id(pattern))),
        region(MULTIPLIERS_MOST, MULTIPLIERS_WIDTH, n.multipliers.iter().map(|m| vec![m.pattern as u64])),
        region(DEMANDS_MOST, DEMANDS_WIDTH, n.demands.iter().map(|demand| demand_words(demand, name))),
        region(TIMES_MOST, TIMES_WIDTH, n.times.iter().map(|time| count(*time).to_vec())),
        region(RULES_MOST, RULES_WIDTH, n.rules.iter().map(|rule| [id(rule.id), rule_words(rule)].concat())),
        region(CLAUSES_MOST, CLAUSES_WIDTH, n.clauses.iter().map(|clause| clause_words(clause, name))),
        slots(SLOTS_MOST, n.nodes.iter().map(|node| key(node.id))),
        slots(SLOTS_MOST, n.links.iter().map(|link| key(link.id))),
        slots(SLOTS_MOST, n.curves.iter().map(|curve| key(curve))),
        slots(SLOTS_MOST, n.patterns.iter().map(|pattern| key(pattern))),
        slots(DEMAND_SLOTS_MOST, n.demands.iter().map(|demand| demand.junction as u64)),
        counts.map(|count| count as u64).to_vec(),
    ];
    filled(WORDS_ROOM, regions.concat())
}

/// The doubles that a reading leaves.
pub fn numbers(n: &Network) -> Vec<f64> {
    let regions = [
        region(NODES_MOST, NODE_NUMBERS_WIDTH, n.nodes.iter().map(node_numbers)),
        region(LINKS_MOST, LINK_NUMBERS_WIDTH, n.links.iter().map(|link| link_numbers(link).to_vec())),
        region(POINTS_MOST, POINT_NUMBERS_WIDTH, n.points.iter().map(|point| vec![point.x, point.y])),
        region(MULTIPLIERS_MOST, MULTIPLIER_NUMBERS_WIDTH, n.multipliers.iter().map(|m| vec![m.value])),
        region(DEMANDS_MOST, DEMAND_NUMBERS_WIDTH, n.demands.iter().map(|demand| vec![demand.base])),
        region(CLAUSES_MOST, CLAUSE_NUMBERS_WIDTH, n.clauses.iter().map(|clause| vec![clause_number(clause)])),
    ];
    filled(NUMBERS_ROOM, regions.concat())
}

/// The regions fill the room.
fn filled<T>(room: usize, table: Vec<T>) -> Vec<T> {
    assert_eq!(table.len(), room, "the regions fill the room");
    table
}

/// The records one after another, each as wide as its kind, then zeros.
fn region<T: Default + Clone>(most: usize, width: usize, records: impl Iterator<Item = Vec<T>>) -> Vec<T> {
    let rows: Vec<Vec<T>> = records.collect();
    assert!(rows.len() <= most, "the records fit their room");
    assert!(rows.iter().all(|row| row.len() == width), "each record has its width");
    let mut region = rows.concat();
    region.resize(most * width, T::default());
    region
}

/// For each slot the place plus one of the first record whose number is in it, or 0.
fn slots(count: usize, numbers: impl Iterator<Item = u64>) -> Vec<u64> {
    let mut slots = vec![0; count];
    for (i, number) in numbers.enumerate() {
        let slot = &mut slots[(number % count as u64) as usize];
        if *slot == 0 {
            *slot = index(Some(i));
        }
    }
    slots
}

/// The first eight letters as one number, 256 to the place.
fn key(name: Name) -> u64 {
    name.iter().take(8).fold(0, |key, &letter| key * 256 + u64::from(letter))
}

fn index(index: Option<usize>) -> u64 {
    index.map_or(0, |index| index as u64 + 1)
}

fn count(count: Option<u64>) -> [u64; 2] {
    count.map_or([0, 0], |count| [1, count])
}

/// The place of a word in its list, counted from 1.
fn nth(words: &[&str], word: &str) -> u64 {
    words.iter().position(|&known| known == word).map_or_else(|| unreachable!("{word}"), |at| at as u64 + 1)
}

fn node_words(node: &Node, name: impl Fn(Option<Name>) -> [u64; 2]) -> Vec<u64> {
    let (kind, named, detail) = match node.kind {
        NodeKind::Junction { disabled, .. } => (1, None, disabled.into()),
        NodeKind::Reservoir { pattern, index } => (2, pattern, self::index(index)),
        NodeKind::Tank { curve, overflow, .. } => (3, curve, overflow.into()),
    };
    let [at, length] = name(named);
    vec![kind, at, length, detail, node.at.is_some().into()]
}

fn node_numbers(node: &Node) -> Vec<f64> {
    let rest = match node.kind {
        NodeKind::Junction { emitter, .. } => [emitter, 0.0, 0.0, 0.0, 0.0],
        NodeKind::Reservoir { .. } => [0.0; 5],
        NodeKind::Tank { numbers, .. } => numbers,
    };
    let (x, y) = node.at.unwrap_or_default();
    [&[node.elevation], rest.as_slice(), &[x, y]].concat()
}

fn link_words(link: &Link, name: impl Fn(Option<Name>) -> [u64; 2]) -> Vec<u64> {
    let (kind, detail, curve) = match link.kind {
        LinkKind::Pipe { status: PipeStatus::Open, .. } => (1, 1, None),
        LinkKind::Pipe { status: PipeStatus::Closed, .. } => (1, 2, None),
        LinkKind::Pipe { status: PipeStatus::CheckValve, .. } => (1, 3, None),
        LinkKind::Pump { curve, .. } => (2, 0, curve),
        LinkKind::Valve { kind, curve, .. } => (3, nth(&VALVES, kind), curve),
    };
    let [at, length] = name(curve);
    vec![link.start as u64, link.end as u64, kind, detail, at, length]
}

fn link_numbers(link: &Link) -> [f64; 4] {
    match link.kind {
        LinkKind::Pipe { length, diameter, roughness, minor_loss, .. } => [length, diameter, roughness, minor_loss],
        LinkKind::Pump { speed, power, .. } => [speed, power, 0.0, 0.0],
        LinkKind::Valve { setting, diameter, minor_loss, .. } => [setting, diameter, 0.0, minor_loss],
    }
}

fn demand_words(demand: &Demand, name: impl Fn(Option<Name>) -> [u64; 2]) -> Vec<u64> {
    let [at, length] = name(demand.pattern);
    vec![demand.junction as u64, demand.own.into(), at, length, index(demand.index)]
}

fn rule_words(rule: &Rule) -> Vec<u64> {
    let [set, priority] = count(rule.priority);
    vec![rule.clauses.start as u64, rule.clauses.len() as u64, set, priority]
}

fn clause_words(clause: &Clause, name: impl Fn(Option<Name>) -> [u64; 2]) -> Vec<u64> {
    match clause {
        Clause::Condition(c) => {
            let [at, length] = name(c.name);
            let operator = if c.or { 2 } else { 1 };
            vec![1, operator, target(c), nth(&COMPARISONS, c.comparison), status(&c.value), at, length]
        }
        Clause::Action(a) => {
            let [at, length] = name(Some(a.link));
            vec![2, a.otherwise.into(), a.place as u64, 0, status(&a.value), at, length]
        }
    }
}

/// Three attributes to each kind of target.
fn target(condition: &Condition) -> u64 {
    let kind = TARGETS.iter().position(|(target, _)| *target == condition.target).expect("a known target");
    kind as u64 * 3 + nth(&TARGETS[kind].1, condition.attribute)
}

fn status(value: &Value) -> u64 {
    match value {
        Value::Number(_) => 0,
        Value::Status(word) => nth(&STATUSES, word),
    }
}

fn clause_number(clause: &Clause) -> f64 {
    let (Clause::Condition(Condition { value, .. }) | Clause::Action(Action { value, .. })) = clause;
    match value {
        Value::Number(x) => *x,
        Value::Status(_) => 0.0,
    }
}
