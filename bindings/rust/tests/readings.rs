//! What the crate hands out, by value.

use inp::*;

/// Document 01's sample for `tally`.
const SAMPLE: &[u8] = include_bytes!("../../../crates/tally/stdin");

/// The sample without the line that is refused and the rule that is refused.
fn good_sample() -> Vec<u8> {
    let lines: Vec<&[u8]> = SAMPLE.split_inclusive(|&byte| byte == b'\n').collect();
    [&lines[..2], &lines[3..13]].concat().concat()
}

fn pipe_p1(link: &Link) {
    assert_eq!((link.id, link.start, link.end), (&b"P1"[..], 0, 1));
    let status = PipeStatus::Open;
    assert_eq!(link.kind, LinkKind::Pipe { length: 100.0, diameter: 200.0, roughness: 0.1, minor_loss: 0.0, status });
}

fn rule_a(network: Network) {
    let rules: Vec<Rule> = network.rules().collect();
    let [rule] = &rules[..] else { panic!("{} rules", rules.len()) };
    assert_eq!((rule.id, rule.priority), (&b"A"[..], None));
    let level = Condition {
        operator: Operator::And,
        target: Target::Tank { id: b"T1", attribute: TankAttribute::Level },
        comparison: Comparison::Below,
        value: Value::Number(3.0),
    };
    let shut = Action { otherwise: false, link: 0, link_id: b"P1", value: Value::Status(LinkStatus::Closed) };
    let open = Action { otherwise: true, link: 0, link_id: b"P1", value: Value::Status(LinkStatus::Open) };
    let clauses = [Clause::Condition(level), Clause::Action(shut), Clause::Action(open)];
    assert!(network.clauses_of(rule).eq(clauses));
    assert!(network.conditions_of(rule).eq([level]));
    assert!(network.actions_of(rule).eq([shut, open]));
}

/// The records that both readings of the sample give.
fn sample_records(network: Network) {
    let junction = NodeKind::Junction { disabled: false, emitter: 0.0 };
    let reservoir = NodeKind::Reservoir { pattern: None, pattern_index: None };
    let nodes = [
        Node { id: b"J1", elevation: 10.5, at: None, kind: junction },
        Node { id: b"T1", elevation: 50.0, at: None, kind: reservoir },
    ];
    assert!(network.nodes().eq(nodes));
    assert_eq!(network.links().len(), 1);
    network.links().for_each(|link| pipe_p1(&link));
    let demand = Demand { node: 0, own: true, base: 0.0, pattern: None, pattern_index: None };
    assert!(network.demands().eq([demand]));
    assert!(network.demands_of(1).next().is_none());
    assert_eq!((network.curves().len(), network.patterns().len()), (0, 0));
    assert_eq!(network.times(), Times::default());
    rule_a(network);
}

#[test]
fn the_sample_is_surveyed() {
    let mut reader = Reader::new();
    let survey = reader.read_survey(SAMPLE);
    assert_eq!(survey.refused, None);
    sample_records(survey.network);
    let used = Refused { refusal: Refusal::Used, line: 3 };
    let bare = Refused { refusal: Refusal::NoCondition, line: 14 };
    assert!(survey.refusals().eq([used, bare]));
    let counts = Counts {
        lines: 18,
        blank: 2,
        header: 4,
        passed: 0,
        taken: 3,
        refused: 1,
        rule_taken: 4,
        rule_refused: 2,
        open: 2,
    };
    assert_eq!(survey.counts, counts);
}

#[test]
fn each_line_of_the_sample_has_its_class() {
    use Class::*;
    let mut reader = Reader::new();
    let classes = [
        [Header, Taken, Refused, Header, Taken, Header, Taken, Header, RuleTaken],
        [RuleTaken, RuleTaken, RuleTaken, Blank, RuleRefused, RuleRefused, Blank, Open, Open],
    ];
    let survey = reader.read_survey(SAMPLE);
    assert!(survey.lines().map(|line| line.class).eq(classes.concat()));
    assert!(survey.lines().map(|line| line.number).eq(1..=18));
}

#[test]
fn the_sample_without_its_faults_is_accepted() {
    let text = good_sample();
    let mut reader = Reader::new();
    let reading = reader.read_strict(&text);
    assert_eq!(reading.refused, None);
    sample_records(reading.network);
}

#[test]
fn a_refused_text_has_number_and_line_and_what_came_before() {
    let mut reader = Reader::new();
    let reading = reader.read_strict(SAMPLE);
    assert_eq!(reading.refused, Some(Refused { refusal: Refusal::Used, line: 3 }));
    assert!(reading.network.nodes().map(|node| node.id).eq([b"J1"]));
    assert_eq!(reading.network.links().len(), 0);
}

#[test]
fn records_of_every_kind_carry_their_fields() {
    let text = b"[JUNCTIONS]\nJ 1 2 P true\n[RESERVOIRS]\nR 3 P\n[TANKS]\nT 1 2 3 4 5 6 C yes\n\
        [PUMPS]\nU J R SPEED 2 HEAD C POWER 7\n[VALVES]\nV J T 8 prv 9 10 C\n[PIPES]\nW J T 1 2 3 4 cv\nX J T 1 2 3 4 Closed\n\
        [CURVES]\nC 1 2\nD 5 6\nC 3 4\n[PATTERNS]\nN\nP 1 2\nN 3\n[DEMANDS]\nJ 5 N\nJ 6\n[EMITTERS]\nJ 0.5\n\
        [COORDINATES]\nT -1 -2\n[TIMES]\nPATTERN START 2\n\
        [RULES]\nRULE Q\nIF SYSTEM CLOCKTIME >= 1 PM\nOR LINK V STATUS IS ACTIVE\nAND NODE J HEAD <> 1\n\
        THEN VALVE V SETTING IS 5\nPRIORITY 4\n\n";
    let mut reader = Reader::new();
    let reading = reader.read_strict(text);
    assert_eq!(reading.refused, None);
    let n = reading.network;

    let tank = NodeKind::Tank {
        initial_level: 2.0,
        minimum_level: 3.0,
        maximum_level: 4.0,
        diameter: 5.0,
        minimum_volume: 6.0,
        curve: Some(b"C"),
        overflow: true,
    };
    assert_eq!(n.node(0).kind, NodeKind::Junction { disabled: true, emitter: 0.5 });
    assert_eq!(n.node(1).kind, NodeKind::Reservoir { pattern: Some(b"P"), pattern_index: Some(1) });
    assert_eq!(n.node(2), Node { id: b"T", elevation: 1.0, at: Some((-1.0, -2.0)), kind: tank });

    let valve = LinkKind::Valve {
        valve_type: ValveType::Prv,
        diameter: 8.0,
        setting: 9.0,
        minor_loss: 10.0,
        curve: Some(b"C"),
    };
    let pipe = |status| LinkKind::Pipe { length: 1.0, diameter: 2.0, roughness: 3.0, minor_loss: 4.0, status };
    assert_eq!(n.link(0).kind, LinkKind::Pump { speed: 2.0, power: 7.0, head_curve: Some(b"C") });
    assert_eq!(n.link(1), Link { id: b"V", start: 0, end: 2, kind: valve });
    assert_eq!(n.link(2).kind, pipe(PipeStatus::CheckValve));
    assert_eq!(n.link(3).kind, pipe(PipeStatus::Closed));

    let first = Demand { node: 0, own: false, base: 5.0, pattern: Some(b"N"), pattern_index: Some(0) };
    let second = Demand { node: 0, own: false, base: 6.0, pattern: None, pattern_index: None };
    assert!(n.demands_of(0).eq([first, second]));

    assert!(n.curves().map(|curve| curve.id).eq([b"C", b"D"]));
    assert!(n.points().map(|point| point.curve).eq([0, 1, 0]));
    assert!(n.points_of(0).eq([Point { curve: 0, x: 1.0, y: 2.0 }, Point { curve: 0, x: 3.0, y: 4.0 }]));
    assert!(n.patterns().map(|pattern| pattern.id).eq([b"N", b"P"]));
    assert!(n.multipliers().map(|multiplier| multiplier.pattern).eq([1, 1, 0]));
    assert!(n.multipliers_of(1).eq([1.0, 2.0]));
    assert_eq!(n.times(), Times { pattern_start: Some(7200), ..Times::default() });

    let rule = n.rules().next().unwrap();
    assert_eq!((rule.id, rule.priority), (&b"Q"[..], Some(4)));
    let condition = |operator, target, comparison, value| Condition { operator, target, comparison, value };
    let clocktime = Target::System { attribute: SystemAttribute::Clocktime };
    let status = Target::Link { id: b"V", attribute: LinkAttribute::Status };
    let head = Target::Node { id: b"J", attribute: NodeAttribute::Head };
    assert!(n.conditions_of(&rule).eq([
        condition(Operator::And, clocktime, Comparison::AtLeast, Value::Number(46_800.0)),
        condition(Operator::Or, status, Comparison::Equal, Value::Status(LinkStatus::Active)),
        condition(Operator::And, head, Comparison::NotEqual, Value::Number(1.0)),
    ]));
    let setting = Action { otherwise: false, link: 1, link_id: b"V", value: Value::Number(5.0) };
    assert!(n.actions_of(&rule).eq([setting]));
}

/// Refused whole: no records and no lines in either reading.
fn refused_whole(text: &[u8], refusal: Refusal) {
    let mut reader = Reader::new();
    let reading = reader.read_strict(text);
    assert_eq!(reading.refused, Some(Refused { refusal, line: 0 }));
    assert_eq!(reading.network.nodes().len(), 0);
    let survey = reader.read_survey(text);
    assert_eq!(survey.refused, Some(Refused { refusal, line: 0 }));
    assert_eq!(survey.network.nodes().len(), 0);
    assert_eq!((survey.counts, survey.lines().len()), (Counts::default(), 0));
}

/// A junction, then blank lines up to this length.
fn long_text(length: usize) -> Vec<u8> {
    let mut text = b"[JUNCTIONS]\nJ 1\n".to_vec();
    text.resize(length, b'\n');
    text
}

#[test]
fn a_text_longer_than_its_room_is_refused_whole() {
    refused_whole(&long_text(65_537), Refusal::TooLong);
    let text = long_text(65_536);
    let mut reader = Reader::new();
    assert_eq!(reader.read_strict(&text).network.nodes().len(), 1);
    let survey = reader.read_survey(&text);
    assert_eq!((survey.refused, survey.counts.lines), (None, 65_536 - 14));
}

#[test]
fn as_many_lines_as_bytes() {
    let mut reader = Reader::new();
    let text = vec![b'\n'; 65_536];
    let survey = reader.read_survey(&text);
    assert_eq!((survey.counts.lines, survey.counts.blank), (65_536, 65_536));
    assert!(survey.lines().all(|line| line.class == Class::Blank && line.reason.is_none()));
}

#[test]
fn a_high_byte_anywhere_refuses_the_whole_text() {
    refused_whole(b"[JUNCTIONS]\nJ 1\n;\x80", Refusal::HighByte);
}

fn counts_add_up(text: &[u8]) {
    let mut reader = Reader::new();
    let survey = reader.read_survey(text);
    let of = |class| survey.lines().filter(|line| line.class == class).count();
    let Counts { lines, blank, header, passed, taken, refused, rule_taken, rule_refused, open } = survey.counts;
    assert_eq!(lines, text.split_inclusive(|&byte| byte == b'\n').count());
    assert_eq!(lines, blank + header + passed + taken + refused + rule_taken + rule_refused + open);
    assert_eq!([blank, header, passed, taken], [Class::Blank, Class::Header, Class::Passed, Class::Taken].map(of));
    let rules = [Class::RuleTaken, Class::RuleRefused, Class::Open].map(of);
    assert_eq!((refused, [rule_taken, rule_refused, open]), (of(Class::Refused), rules));
}

#[test]
fn a_surveys_counts_add_up_to_its_lines() {
    counts_add_up(b"");
    for end in 1..=SAMPLE.len() {
        counts_add_up(&SAMPLE[..end]);
    }
}

#[test]
fn a_second_reading_holds_nothing_of_the_first() {
    let mut reader = Reader::new();
    reader.read_survey(SAMPLE);
    let survey = reader.read_survey(b"[TITLE]\n");
    let n = survey.network;
    assert_eq!((n.nodes().len(), n.links().len(), n.demands().len(), n.rules().len()), (0, 0, 0, 0));
    assert_eq!(n.clauses().len(), 0);
    assert!(survey.lines().map(|line| line.class).eq([Class::Header]));

    let mut used = reader;
    let mut fresh = Reader::new();
    let text = good_sample();
    assert!(used.read_strict(&text).network.nodes().eq(fresh.read_strict(&text).network.nodes()));
}

#[test]
fn a_small_table_is_answered_28_and_nothing_is_written() {
    let mut words = vec![7; layout::WORDS_ROOM];
    let mut numbers = vec![7.0; layout::NUMBERS_ROOM - 1];
    let mut line = 7;
    assert_eq!(ffi::read_strict(SAMPLE, &mut words, &mut numbers, &mut line), Refusal::SmallTable.number());
    assert_eq!(line, 0);

    let mut lines = [vec![7; layout::CLASSES_ROOM], vec![7; layout::REASONS_ROOM]];
    let mut counts = [7; layout::COUNTS_ROOM];
    let [classes, reasons] = &mut lines;
    assert_eq!(ffi::read_survey(SAMPLE, &mut words, &mut numbers, classes, reasons, &mut counts), 28);
    assert!(words.iter().chain(&counts).all(|&word| word == 7));
    assert!(numbers.iter().all(|&number| number == 7.0));
    assert!(lines.concat().iter().all(|&byte| byte == 7));
}

#[test]
fn refusals_have_document_01s_numbers_and_sentences() {
    let numbers = (0..100).filter_map(Refusal::from_number).map(Refusal::number);
    assert!(numbers.eq([1, 2, 3, 4, 5, 6, 7, 8, 9, 10, 20, 21, 22, 23, 28]));
    let used = Refused { refusal: Refusal::Used, line: 3 };
    assert_eq!(used.to_string(), "line 3: the id is already used (3)");
}
