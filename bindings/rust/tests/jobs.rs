//! Each safe function once or more, on `examples/`.

use drum::{Paired, PanelName, PanelStep, Programme, Record, Refusal, Value};

const NOON: &[u8] = include_bytes!("../../../examples/noon.yaml");
const ROUNDS: &[u8] = include_bytes!("../../../examples/rounds.yaml");
const KINDS: &[u8] = include_bytes!("../../../examples/kinds.yaml");
const TWO_COMMANDS: &[u8] = include_bytes!("../../../examples/two-commands.yaml");

fn read(text: &[u8]) -> Programme {
    drum::read(text).expect("accepted")
}

fn refusal(number: u32, line: u32, step: u32) -> Refusal {
    Refusal { number, line, step }
}

#[test]
fn readings() {
    let mut work = [7; 500];
    assert_eq!(drum::read_tree(NOON, &mut work), Ok(435));
    assert_eq!(work[435..], [7; 65]);
    let (mut record, mut lines) = ([7; 400], [7; 4]);
    let read = drum::read_scenario(NOON, &mut work, &mut record, &mut lines).expect("accepted");
    assert_eq!((read.tree_bytes, read.record_bytes, read.line_bytes, read.steps), (435, 393, 12, 3));
    assert_eq!((lines, &record[393..]), ([8, 10, 11, 7], &[7; 7][..]));
    assert_eq!(drum::read_scenario(NOON, &mut work, &mut record[..392], &mut lines), Err(refusal(52, 0, 0)));
    assert_eq!((work[0], record[0], record[399], lines), (0, 0, 7, [0; 4]));
}

#[test]
fn refusals() {
    let refused = drum::read(TWO_COMMANDS).unwrap_err();
    assert_eq!(refused, refusal(34, 0, 2));
    assert_eq!(refused.to_string(), "34 a step has no command, or more than one (step 2)");
    assert_eq!(drum::read(b"a: 1\na: 2").unwrap_err().to_string(), "line 2: 18 a key stands twice in this mapping");
    assert_eq!(drum::read(&vec![b'#'; drum::TEXT_MAX + 1]).unwrap_err(), refusal(1, 0, 0));
    assert_eq!(drum::check_record(b"").unwrap_err(), refusal(40, 0, 0));
    assert_eq!(Record::new(&read(NOON).record[1..]).unwrap_err(), refusal(40, 0, 0));
}

#[test]
fn fields_and_steps() {
    let programme = read(NOON);
    let record = Record::new(&programme.record).expect("a record");
    assert_eq!((record.len(), record.is_empty(), record.name()), (3, false, "noon"));
    assert_eq!(record.fields().map(|field| field.kind).collect::<Vec<_>>(), [3, 3, 4, 3, 0, 17, 4, 18]);
    for (place, field) in (1..).zip(record.fields()) {
        assert_eq!(record.field(place), Ok(field));
    }
    assert_eq!(record.field(9), Err(refusal(53, 0, 0)));
    assert_eq!(record.steps().map(|step| (step.command, step.id)).collect::<Vec<_>>(), [("tune", "quarters"), ("delay", ""), ("strike", "hour")]);
    for (number, step) in (1..).zip(record.steps()) {
        assert_eq!(drum::step(record.bytes(), number).map(drum::Step::of), Ok(Some(step)));
    }
    assert_eq!(drum::step(record.bytes(), 4), Err(refusal(53, 0, 0)));
    assert_eq!(record.step_by_id("hour").map(|step| step.map(|step| step.name)), Ok(Some("the hour")));
    assert_eq!(record.step_by_id(""), Ok(None));
}

#[test]
fn shared_ids() {
    let text = b"schema: passportsim/scenario@1\nname: n\nsteps: [{repeat: {steps: [{id: a, x: 1}]}}, {id: ab, x: 2}, {id: a, x: 3}, {id: a, x: 4}]";
    let programme = read(text);
    let record = Record::new(&programme.record).expect("a record");
    assert_eq!(drum::step_by_id(record.bytes(), "a").map(|item| item.expect("a step")), drum::step(record.bytes(), 3));
    assert_eq!(drum::step_by_id(record.bytes(), "x"), Ok(None));
}

#[test]
fn values() {
    let programme = read(NOON);
    let record = Record::new(&programme.record).expect("a record");
    let value = |number, key| record.value_by_key(number, key).map(|item| item.and_then(drum::Item::value));
    assert!(matches!(value(3, "strokes"), Ok(Some(Value::Integer(12)))));
    assert!(matches!(value(3, "bell"), Ok(Some(Value::String("great")))));
    assert!(matches!(value(3, "tune"), Ok(None)));
    assert!(matches!(value(1, "strokes"), Ok(None)));
    assert!(matches!(value(4, "strokes"), Err(Refusal { number: 53, .. })));
    assert_eq!(record.times(3), Err(refusal(38, 0, 3)));

    let programme = read(KINDS);
    let record = Record::new(&programme.record).expect("a record");
    let Some(Value::Mapping(entries)) = record.field(5).expect("setup").value() else { panic!("a mapping") };
    let shown: Vec<String> = entries.map(|(key, item)| format!("{key} {:?}", item.value().map(|value| matches!(value, Value::Sequence(_))))).collect();
    assert_eq!(shown.len(), 9);
    assert_eq!(shown[6], "list Some(true)");
    let last = record.steps().last().expect("steps");
    assert_eq!((last.timeout, last.continue_on_error, last.expect.is_some()), (Some("10s"), true, true));
}

#[test]
fn commands() {
    let programme = read(ROUNDS);
    assert_eq!(drum::times(&programme.record, 2), Ok(3));
    assert_eq!(drum::check_steps(&programme.record, &programme.lines, &["row", "strike"]), Ok(3));
    assert_eq!(drum::check_steps(&programme.record, &programme.lines, &["strike"]), Err(refusal(36, 7, 1)));
    assert_eq!(drum::check_steps(&programme.record, &[], &[]), Err(refusal(36, 0, 1)));
}

#[test]
fn one_record_for_one_meaning() {
    let other = b"steps: [{a: -0}]\n# c\nname: 'n'\nschema: passportsim/scenario@1";
    assert_eq!(read(b"schema: passportsim/scenario@1\nname: n\nsteps:\n  - a: 0").record, read(other).record);
}

#[test]
fn zeros_in_front() {
    let programme = read(b"schema: passportsim/scenario@1\nname: n\nsteps: [{strike: {1: 1, 01: 01, +1: -0}}]");
    let record = Record::new(&programme.record).expect("a record");
    let value = |key| record.value_by_key(1, key).map(|item| item.and_then(drum::Item::value));
    assert!(matches!(value("1"), Ok(Some(Value::Integer(1)))));
    assert!(matches!(value("01"), Ok(Some(Value::String("01")))));
    assert!(matches!(value("+1"), Ok(Some(Value::Integer(0)))));
    assert!(matches!(value("001"), Ok(None)));
}

#[test]
fn panels_show_known_records() {
    for text in [NOON, ROUNDS, KINDS] {
        let programme = read(text);
        let record = Record::new(&programme.record).expect("a record");
        assert_eq!(drum::panel_name(record.bytes()), Ok(PanelName { name: record.name(), steps: record.len() }));
        for (number, step) in (1..).zip(record.steps()) {
            assert_eq!(drum::panel_step(record.bytes(), number), Ok(PanelStep { name: step.name, id: step.id }));
        }
        for number in [0, record.len() + 1, usize::MAX] {
            assert_eq!(drum::panel_step(record.bytes(), number), Err(refusal(53, 0, 0)));
        }
    }
    let programme = read(NOON);
    assert_eq!(drum::panel_step(&programme.record, 1), Ok(PanelStep { name: "", id: "quarters" }));
    assert_eq!(drum::panel_step(&programme.record, 3), Ok(PanelStep { name: "the hour", id: "hour" }));
}

/// A kind that is not known here.
const LATER: u16 = 0xffff;

fn item(kind: u16, content: &[u8]) -> Vec<u8> {
    [&(content.len() as u32).to_le_bytes()[..], &kind.to_le_bytes(), content].concat()
}

fn text(content: &[u8]) -> Vec<u8> {
    item(3, content)
}

/// Six items of which a panel knows nothing stand between the name and the steps.
fn record(name: &[u8], steps: &[u8]) -> Vec<u8> {
    item(16, &[name, &item(LATER, b"\xff").repeat(6), steps].concat())
}

fn with_step(step: &[u8]) -> Vec<u8> {
    record(&text(b"n"), &item(18, &[item(19, &[text(b"a"), text(b"b")].concat()), step.to_vec()].concat()))
}

#[test]
fn panels_show_unknown_kinds() {
    let parts = [text("\u{1f514}".as_bytes()), text(b""), item(LATER, b"no item"), item(16, b"\xff")].concat();
    let later = with_step(&item(LATER, &parts));
    assert_eq!(drum::check_record(&later), Err(refusal(40, 0, 0)));
    assert_eq!(drum::panel_name(&later), Ok(PanelName { name: "n", steps: 2 }));
    assert_eq!(drum::panel_step(&later, 1), Ok(PanelStep { name: "a", id: "b" }));
    assert_eq!(drum::panel_step(&later, 2), Ok(PanelStep { name: "\u{1f514}", id: "" }));
    assert_eq!(drum::panel_step(&later, 3), Err(refusal(53, 0, 0)));

    let empty = record(&text(b""), &item(LATER, b""));
    assert_eq!(drum::panel_name(&empty), Ok(PanelName { name: "", steps: 0 }));
    assert_eq!(drum::panel_step(&empty, 1), Err(refusal(53, 0, 0)));
    let ninth = item(16, &[&empty[6..], &item(LATER, b"\xff")].concat());
    assert_eq!(drum::panel_name(&ninth), Ok(PanelName { name: "", steps: 0 }));
    let large = item(16, &[&empty[6..], &item(LATER, &vec![0xff; drum::RECORD_MAX])].concat());
    assert_eq!(drum::panel_name(&large), Ok(PanelName { name: "", steps: 0 }));
}

#[test]
fn panels_refuse() {
    let whole = record(&text(b"n"), &item(18, b""));
    let labels = [text(b"a"), text(b"b")].concat();
    let bad = [
        vec![],
        whole[..whole.len() - 1].to_vec(),
        [&whole[..], b"\0"].concat(),
        item(17, &whole[6..]),
        item(16, &whole[6..whole.len() - 6]),
        item(16, &[&whole[6..], b"\0"].concat()),
        record(&text(b"\xff"), &item(18, b"")),
        record(&item(LATER, b"n"), &item(18, b"")),
        record(&text(b"n"), &item(18, b"\0")),
        with_step(&item(19, b"")),
        with_step(&item(19, &text(b"a"))),
        with_step(&item(19, &[&labels[..], b"\0"].concat())),
        with_step(&item(19, &[item(LATER, b"a"), text(b"b")].concat())),
        with_step(&item(19, &[text(b"a"), item(0, b"")].concat())),
        with_step(&item(19, &[text(b"\xc0\x80"), text(b"b")].concat())),
        with_step(&item(19, &[text(b"a"), text(b"\xed\xa0\x80")].concat())),
    ];
    for record in bad {
        assert_eq!(drum::panel_name(&record), Err(refusal(55, 0, 0)), "{record:?}");
        for number in [0, 1, 3, usize::MAX] {
            assert_eq!(drum::panel_step(&record, number), Err(refusal(55, 0, 0)), "{record:?}");
        }
    }
    assert_eq!(drum::panel_name(b"").unwrap_err().to_string(), "55 the bytes are no programme that a panel can show");
}

#[test]
fn shares() {
    assert_eq!(drum::share(&[1, 9, 9], 8), Ok([1, 4, 3, 0, 0, 0, 0, 0]));
    assert_eq!(drum::share(&[255; 8], u32::MAX), Ok([255; 8]));
    assert_eq!(drum::share(&[0, 255], 2), Ok([0, 2, 0, 0, 0, 0, 0, 0]));
    assert_eq!(drum::share(&[], 8), Err(refusal(61, 0, 0)));
    assert_eq!(drum::share(&[1; 9], 8), Err(refusal(61, 0, 0)));
    assert_eq!(drum::share(&[256], 0), Err(refusal(61, 0, 0)));
    assert_eq!(drum::share(&[0; 8], 7), Err(refusal(62, 0, 0)));
}

#[test]
fn logs() {
    let (mut pairs, mut lone_hammers, mut lone_sounds) = ([[7; 2]; 3], [7; 2], [7; 3]);
    let paired = drum::pair_logs(&[20, 200, 300], &[0, 39, 60, 260], &mut pairs, &mut lone_hammers, &mut lone_sounds);
    assert_eq!(paired, Ok(Paired { pairs: 2, lone_hammers: 1, lone_sounds: 2 }));
    assert_eq!((pairs, lone_hammers, lone_sounds), ([[0, 0], [2, 3], [7, 7]], [1, 7], [1, 2, 7]));
    let refused = drum::pair_logs(&[20, 200, 300], &[0, 39, 60, 260], &mut pairs[1..2], &mut lone_hammers, &mut lone_sounds);
    assert_eq!(refused, Err(refusal(65, 0, 0)));
    assert_eq!((pairs, lone_hammers, lone_sounds), ([[0, 0], [0, 0], [7, 7]], [0; 2], [0; 3]));
    assert_eq!(drum::pair_logs(&[1, 0], &[], &mut [], &mut [], &mut []), Err(refusal(63, 0, 0)));
    assert_eq!(drum::pair_logs(&[1, 0], &[0; drum::TIMES + 1], &mut [], &mut [], &mut []), Err(refusal(64, 0, 0)));
    let mut most = [[7; 2]; drum::TIMES];
    let paired = drum::pair_logs(&[u32::MAX; drum::TIMES], &[u32::MAX - 40; drum::TIMES], &mut most, &mut [], &mut []);
    assert_eq!(paired, Ok(Paired { pairs: drum::TIMES, lone_hammers: 0, lone_sounds: 0 }));
    assert_eq!(most.last(), Some(&[4095; 2]));
    let paired = drum::pair_logs(&[u32::MAX], &[0], &mut [], &mut lone_hammers, &mut lone_sounds);
    assert_eq!(paired, Ok(Paired { pairs: 0, lone_hammers: 1, lone_sounds: 1 }));
}

#[test]
fn threads() {
    let texts = [NOON, ROUNDS, KINDS];
    let alone = texts.map(read);
    std::thread::scope(|scope| {
        for _ in 0..4 {
            scope.spawn(|| (0..50).for_each(|i| assert_eq!(read(texts[i % 3]), alone[i % 3])));
        }
    });
}
