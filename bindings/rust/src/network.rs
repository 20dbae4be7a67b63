//! The records of a reading, taken out of the tables.

use crate::layout::*;
use crate::records::*;

/// What a reading stored: the tables, and the text that its names are parts of. Cheap to copy.
#[derive(Clone, Copy)]
pub struct Network<'r, 't> {
    text: &'t [u8],
    words: &'r [u64],
    numbers: &'r [f64],
}

impl<'r, 't> Network<'r, 't> {
    pub(crate) fn new(text: &'t [u8], words: &'r [u64], numbers: &'r [f64]) -> Self {
        Network { text, words, numbers }
    }

    pub fn nodes(self) -> impl ExactSizeIterator<Item = Node<'t>> {
        (0..self.count(COUNT_NODES)).map(move |i| self.node(i))
    }

    pub fn links(self) -> impl ExactSizeIterator<Item = Link<'t>> {
        (0..self.count(COUNT_LINKS)).map(move |i| self.link(i))
    }

    pub fn curves(self) -> impl ExactSizeIterator<Item = Curve<'t>> {
        (0..self.count(COUNT_CURVES)).map(move |i| Curve { id: self.id(words::CURVES.row(self.words, i)) })
    }

    /// Those of all curves.
    pub fn points(self) -> impl ExactSizeIterator<Item = Point> {
        (0..self.count(COUNT_POINTS)).map(move |i| self.point(i))
    }

    /// Those of the curve at this place.
    pub fn points_of(self, curve: usize) -> impl Iterator<Item = Point> {
        self.points().filter(move |point| point.curve == curve)
    }

    pub fn patterns(self) -> impl ExactSizeIterator<Item = Pattern<'t>> {
        (0..self.count(COUNT_PATTERNS)).map(move |i| Pattern { id: self.id(words::PATTERNS.row(self.words, i)) })
    }

    /// Those of all patterns.
    pub fn multipliers(self) -> impl ExactSizeIterator<Item = Multiplier> {
        (0..self.count(COUNT_MULTIPLIERS)).map(move |i| self.multiplier(i))
    }

    /// Those of the pattern at this place.
    pub fn multipliers_of(self, pattern: usize) -> impl Iterator<Item = f64> {
        self.multipliers().filter(move |multiplier| multiplier.pattern == pattern).map(|multiplier| multiplier.value)
    }

    /// Those of all junctions.
    pub fn demands(self) -> impl ExactSizeIterator<Item = Demand<'t>> {
        (0..self.count(COUNT_DEMANDS)).map(move |i| self.demand(i))
    }

    /// Those of the junction at this place among the nodes.
    pub fn demands_of(self, node: usize) -> impl Iterator<Item = Demand<'t>> {
        self.demands().filter(move |demand| demand.node == node)
    }

    pub fn times(self) -> Times {
        Times {
            duration: self.time(0),
            hydraulic_timestep: self.time(1),
            pattern_timestep: self.time(2),
            report_timestep: self.time(3),
            pattern_start: self.time(4),
            start_clocktime: self.time(5),
        }
    }

    pub fn rules(self) -> impl ExactSizeIterator<Item = Rule<'t>> {
        (0..self.count(COUNT_RULES)).map(move |i| self.rule(i))
    }

    /// The conditions and actions of all rules.
    pub fn clauses(self) -> impl ExactSizeIterator<Item = Clause<'t>> {
        (0..self.count(COUNT_CLAUSES)).map(move |i| self.clause(i))
    }

    /// The conditions and actions of a rule of this network, in the order of its lines.
    pub fn clauses_of(self, rule: &Rule) -> impl ExactSizeIterator<Item = Clause<'t>> + use<'r, 't> {
        rule.clauses.clone().map(move |i| self.clause(i))
    }

    pub fn conditions_of(self, rule: &Rule) -> impl Iterator<Item = Condition<'t>> + use<'r, 't> {
        self.clauses_of(rule).filter_map(|clause| match clause {
            Clause::Condition(condition) => Some(condition),
            Clause::Action(_) => None,
        })
    }

    pub fn actions_of(self, rule: &Rule) -> impl Iterator<Item = Action<'t>> + use<'r, 't> {
        self.clauses_of(rule).filter_map(|clause| match clause {
            Clause::Condition(_) => None,
            Clause::Action(action) => Some(action),
        })
    }

    /// The node at this place.
    pub fn node(self, i: usize) -> Node<'t> {
        self.held(i, COUNT_NODES);
        let row = words::NODES.row(self.words, i);
        let numbers = numbers::NODES.row(self.numbers, i);
        let name = self.name(row[NODE_NAME_PLACE], row[NODE_NAME_LENGTH]);
        let detail = row[NODE_DETAIL];
        let kind = match row[NODE_KIND] {
            1 => NodeKind::Junction { disabled: flag(detail), emitter: numbers[JUNCTION_EMITTER] },
            2 => NodeKind::Reservoir { pattern: name, pattern_index: index(detail) },
            3 => NodeKind::Tank {
                initial_level: numbers[TANK_INITIAL_LEVEL],
                minimum_level: numbers[TANK_MINIMUM_LEVEL],
                maximum_level: numbers[TANK_MAXIMUM_LEVEL],
                diameter: numbers[TANK_DIAMETER],
                minimum_volume: numbers[TANK_MINIMUM_VOLUME],
                curve: name,
                overflow: flag(detail),
            },
            kind => unreachable!("no kind of node is {kind}"),
        };
        let at = flag(row[NODE_PLACED]).then_some((numbers[NODE_X], numbers[NODE_Y]));
        Node { id: self.id(row), elevation: numbers[NODE_ELEVATION], at, kind }
    }

    /// The link at this place.
    pub fn link(self, i: usize) -> Link<'t> {
        self.held(i, COUNT_LINKS);
        let row = words::LINKS.row(self.words, i);
        let numbers = numbers::LINKS.row(self.numbers, i);
        let name = self.name(row[LINK_NAME_PLACE], row[LINK_NAME_LENGTH]);
        let detail = row[LINK_DETAIL];
        let kind = match row[LINK_KIND] {
            1 => LinkKind::Pipe {
                length: numbers[PIPE_LENGTH],
                diameter: numbers[PIPE_DIAMETER],
                roughness: numbers[PIPE_ROUGHNESS],
                minor_loss: numbers[PIPE_MINOR_LOSS],
                status: pipe_status(detail),
            },
            2 => LinkKind::Pump { speed: numbers[PUMP_SPEED], power: numbers[PUMP_POWER], head_curve: name },
            3 => LinkKind::Valve {
                valve_type: valve_type(detail),
                diameter: numbers[VALVE_DIAMETER],
                setting: numbers[VALVE_SETTING],
                minor_loss: numbers[VALVE_MINOR_LOSS],
                curve: name,
            },
            kind => unreachable!("no kind of link is {kind}"),
        };
        Link { id: self.id(row), start: row[LINK_START] as usize, end: row[LINK_END] as usize, kind }
    }

    fn point(self, i: usize) -> Point {
        let numbers = numbers::POINTS.row(self.numbers, i);
        let curve = only(words::POINTS.row(self.words, i)) as usize;
        Point { curve, x: numbers[POINT_X], y: numbers[POINT_Y] }
    }

    fn multiplier(self, i: usize) -> Multiplier {
        let pattern = only(words::MULTIPLIERS.row(self.words, i)) as usize;
        Multiplier { pattern, value: only(numbers::MULTIPLIERS.row(self.numbers, i)) }
    }

    fn demand(self, i: usize) -> Demand<'t> {
        let row = words::DEMANDS.row(self.words, i);
        Demand {
            node: row[DEMAND_NODE] as usize,
            own: flag(row[DEMAND_OWN]),
            base: only(numbers::DEMANDS.row(self.numbers, i)),
            pattern: self.name(row[DEMAND_NAME_PLACE], row[DEMAND_NAME_LENGTH]),
            pattern_index: index(row[DEMAND_INDEX]),
        }
    }

    fn time(self, i: usize) -> Option<u64> {
        let row = words::TIMES.row(self.words, i);
        flag(row[TIME_SET]).then_some(row[TIME_SECONDS])
    }

    fn rule(self, i: usize) -> Rule<'t> {
        let row = words::RULES.row(self.words, i);
        let first = row[RULE_FIRST] as usize;
        let clauses = first..first + row[RULE_COUNT] as usize;
        Rule { id: self.id(row), priority: flag(row[RULE_PRIORITY_SET]).then_some(row[RULE_PRIORITY]), clauses }
    }

    fn clause(self, i: usize) -> Clause<'t> {
        let row = words::CLAUSES.row(self.words, i);
        let value = value(row[CLAUSE_STATUS], only(numbers::CLAUSES.row(self.numbers, i)));
        let id = self.letters(row[CLAUSE_NAME_PLACE], row[CLAUSE_NAME_LENGTH]);
        match row[CLAUSE_KIND] {
            1 => Clause::Condition(Condition {
                operator: nth(&[Operator::And, Operator::Or], row[CONDITION_OPERATOR]),
                target: target(row[CONDITION_TARGET], id),
                comparison: comparison(row[CONDITION_COMPARISON]),
                value,
            }),
            2 => Clause::Action(Action {
                otherwise: flag(row[ACTION_ELSE]),
                link: row[ACTION_LINK] as usize,
                link_id: id,
                value,
            }),
            kind => unreachable!("no kind of clause is {kind}"),
        }
    }

    fn count(self, kind: usize) -> usize {
        words::COUNTS.row(self.words, 0)[kind] as usize
    }

    /// A row that holds no record is all zeros: nothing must be made of it.
    fn held(self, i: usize, kind: usize) {
        let count = self.count(kind);
        assert!(i < count, "record {i} of {count}");
    }

    /// The id that a row begins with: place, length, and a key that only the library needs.
    fn id(self, row: &[u64]) -> &'t [u8] {
        self.letters(row[ID_PLACE], row[ID_LENGTH])
    }

    /// A name that may be none.
    fn name(self, at: u64, length: u64) -> Option<&'t [u8]> {
        (length != 0).then(|| self.letters(at, length))
    }

    fn letters(self, at: u64, length: u64) -> &'t [u8] {
        &self.text[at as usize..][..length as usize]
    }
}

/// The one place of a row of such records.
fn only<T: Copy>(row: &[T]) -> T {
    let &[place] = row else { unreachable!("a row of {}", row.len()) };
    place
}

fn flag(word: u64) -> bool {
    word == 1
}

/// A place plus one, or 0 for none.
fn index(word: u64) -> Option<usize> {
    (word as usize).checked_sub(1)
}

/// The layout counts the cases of a choice from 1.
fn nth<T: Copy>(cases: &[T], number: u64) -> T {
    cases[number as usize - 1]
}

fn pipe_status(number: u64) -> PipeStatus {
    use PipeStatus::*;
    nth(&[Open, Closed, CheckValve], number)
}

fn valve_type(number: u64) -> ValveType {
    use ValveType::*;
    nth(&[Gpv, Tcv, Fcv, Prv, Psv, Pbv, Pcv], number)
}

/// The system has no id.
fn target(number: u64, id: &[u8]) -> Target<'_> {
    match number {
        1..=3 => {
            use SystemAttribute::*;
            Target::System { attribute: nth(&[Demand, Time, Clocktime], number) }
        }
        4..=6 => {
            use NodeAttribute::*;
            Target::Node { id, attribute: nth(&[Demand, Head, Pressure], number - 3) }
        }
        7..=9 => {
            use TankAttribute::*;
            Target::Tank { id, attribute: nth(&[Level, Filltime, Draintime], number - 6) }
        }
        _ => {
            use LinkAttribute::*;
            Target::Link { id, attribute: nth(&[Flow, Status, Setting], number - 9) }
        }
    }
}

fn comparison(number: u64) -> Comparison {
    use Comparison::*;
    nth(&[Equal, NotEqual, Above, Below, AtLeast, AtMost], number)
}

/// A number where there is no status.
fn value(status: u64, number: f64) -> Value {
    match status {
        0 => Value::Number(number),
        _ => Value::Status(nth(&[LinkStatus::Open, LinkStatus::Closed, LinkStatus::Active], status)),
    }
}
