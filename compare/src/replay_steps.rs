//! Writes the sections of the check of steps and of the lookups of section 6 into the stream of
//! `crates/replay`, behind what the file named by the argument has, and prints what must be printed
//! of them. Records come in as lines of hexadecimal text.

use std::fs::OpenOptions;
use std::io::{self, BufRead, Write};

#[allow(dead_code)]
mod decide;
#[allow(dead_code)]
mod making;
mod panel;
#[allow(dead_code)]
mod random;
mod section;
#[allow(dead_code)]
mod writing;

use decide::{BUILT_IN_STEPS, STEP_FIELDS, check_steps, items, record};
use making::{
    Inner, Leaf, NOT_UTF8, Node, damaged, list, map, node, null, one_step, scenario, string,
    written,
};
use random::Random;
use writing::write_text;

const NAMES: [&str; 3] = ["strike", "wait", "press"];

// ---- what must be printed

fn checked(bytes: &[u8], lines: &[u32], names: &[u8]) -> String {
    match check_steps(bytes, lines, names) {
        Ok(steps) => format!("good {steps}"),
        Err((number, line, step)) => format!("refused {number} {line} {step}"),
    }
}

fn found(place: Option<(usize, usize)>) -> String {
    place.map_or(" none".to_owned(), |(start, end)| format!(" {start}+{}", end - start))
}

fn looked_up(bytes: &[u8], sought: &[u8]) -> String {
    let Some(record) = record(bytes) else {
        return "id !40 !40 !40/0/0 !40 !40/0/0".to_owned();
    };
    let mut line = "id".to_owned() + &found(record.step_by_id(sought));
    for number in 0..record.steps.len() + 2 {
        line += &match record.value_by_key(number, sought) {
            Ok(place) => found(place),
            Err((refusal, ..)) => format!(" !{refusal}"),
        };
        line += &match record.times(number) {
            Ok(times) => format!(" {times}"),
            Err((refusal, line, step)) => format!(" !{refusal}/{line}/{step}"),
        };
    }
    line
}

struct Cases {
    stream: Vec<u8>,
    answers: Vec<u8>,
}

impl Cases {
    fn check(&mut self, bytes: &[u8], lines: &[u32], names: &[u8]) {
        let mut text = Vec::new();
        text.extend((bytes.len() as u32).to_le_bytes());
        text.extend((lines.len() as u32).to_le_bytes());
        lines.iter().for_each(|line| text.extend(line.to_le_bytes()));
        text.extend(bytes);
        text.extend(names);
        write_text(&mut self.stream, &text).unwrap();
        let (check, panel) = (checked(bytes, lines, names), panel::told(bytes));
        writeln!(self.answers, "{check}{panel}").unwrap();
    }

    fn look_up(&mut self, bytes: &[u8], sought: &[u8]) {
        let mut text = (bytes.len() as u32).to_le_bytes().to_vec();
        text.extend(bytes);
        text.extend(sought);
        write_text(&mut self.stream, &text).unwrap();
        writeln!(self.answers, "{}{}", looked_up(bytes, sought), panel::told(bytes)).unwrap();
    }

    fn begin(&mut self, kind: &str) {
        section::begin(&mut self.stream, kind, [0; 3]).unwrap();
    }

    fn end(&mut self) {
        section::end(&mut self.stream).unwrap();
    }
}

// ---- what they are made of

fn names_of(names: &[&str]) -> Vec<u8> {
    written(&Inner(4, names.iter().map(|name| string(name)).collect()))
}

fn with_steps(steps: Vec<Node>) -> Vec<u8> {
    written(&scenario(null(), list(), steps))
}

fn command(key: &str) -> Node {
    one_step(key, null(), null())
}

fn entries(held: Vec<(&str, Node)>) -> Node {
    Inner(5, held.into_iter().flat_map(|(key, value)| [string(key), value]).collect())
}

fn repeat(steps: Node) -> Node {
    one_step("repeat", entries(vec![("times", int(2)), ("steps", steps)]), null())
}

fn int(n: i64) -> Node {
    Leaf(2, n.to_le_bytes().into())
}

fn flag() -> Node {
    Leaf(1, vec![1])
}

/// A value of each kind but the mapping.
fn no_mappings() -> [Node; 5] {
    [null(), flag(), int(3), string("steps"), Inner(4, vec![string("steps"), list()])]
}

// ---- the check of steps

/// Name lists that are good, and such that are not: damaged at each byte, of other kinds, not UTF-8.
fn lists(cases: &mut Cases) {
    let bytes = with_steps(vec![command("wait"), command("strike"), command("set")]);
    for copy in damaged(&names_of(&NAMES)) {
        cases.check(&bytes, &[4, 5, 6], &copy);
    }
    let all =
        [&NAMES[..], &[], &[""], &["wait"], &["wait", "strike", "wait"], &["Wait", "strikes"]];
    for names in all {
        cases.check(&bytes, &[4, 5, 6], &names_of(names));
    }
    for bad in NOT_UTF8 {
        for place in 0..3 {
            let mut names: Vec<Node> = NAMES.iter().map(|name| string(name)).collect();
            names[place] = Leaf(3, bad.to_vec());
            cases.check(&bytes, &[4, 5, 6], &written(&Inner(4, names)));
        }
    }
    for kind in [0, 1, 2, 3, 4, 5, 6, 16, 17, 18, 19, 260] {
        let names: Vec<Node> = NAMES.iter().map(|name| string(name)).collect();
        cases.check(&bytes, &[4, 5, 6], &written(&Inner(kind, names)));
        let other = Inner(4, vec![string("wait"), Leaf(kind, b"strike".to_vec())]);
        cases.check(&bytes, &[4, 5, 6], &written(&other));
    }
    cases.check(&bytes, &[4, 5, 6], &written(&Inner(4, vec![Inner(4, vec![string("wait")])])));
    cases.check(&bytes, &[4, 5, 6], &names_of(&["name", "id", "timeout", "wait", "strike"]));
}

/// 36 at each step, with fewer lines than steps, as many, and more.
fn lines(cases: &mut Cases) {
    let numbers = [4, 6, 9, 70_000, u32::MAX, 1];
    for count in 1..=5 {
        for unknown in 0..count {
            let key = |place| if place == unknown { "x" } else { "wait" };
            let bytes = with_steps((0..count).map(|place| command(key(place))).collect());
            for lent in 0..=count + 1 {
                cases.check(&bytes, &numbers[..lent], &names_of(&NAMES));
            }
        }
    }
}

/// Commands that are built in, fields, words like them; known by the list, and not.
fn commands(cases: &mut Cases) {
    let near = ["", " ", "Wait", "wai", "waits", "delay2", "ui", "ui.expec", "repeat ", "Repeat"];
    for key in BUILT_IN_STEPS.iter().chain(&near) {
        let bytes = with_steps(vec![command("wait"), command(key)]);
        for names in [&NAMES[..], &["wait", key], &[key]] {
            cases.check(&bytes, &[4, 5], &names_of(names));
        }
        let bytes = with_steps(vec![repeat(Inner(4, vec![map(&[key]), map(&["wait"])]))]);
        for names in [&NAMES[..], &["wait", key], &[key]] {
            cases.check(&bytes, &[4, 5], &names_of(names));
        }
    }
}

/// Inner steps that are refused, each with its number.
fn faults() -> Vec<Node> {
    let mut faults = no_mappings().to_vec();
    for bad in no_mappings() {
        faults.push(entries(vec![("wait", null()), ("expect", bad)]));
    }
    faults.push(map(&[]));
    faults.push(map(&["name", "id"]));
    faults.push(map(&["wait", "strike"]));
    faults.push(map(&["wait", "name", "x"]));
    faults.push(entries(vec![("x", null()), ("y", null()), ("expect", null())]));
    for key in ["set", "repeat"] {
        faults.push(entries(vec![("expect", map(&["a"])), (key, null())]));
    }
    faults.push(map(&["x"]));
    faults.push(entries(vec![("x", null()), ("expect", map(&[]))]));
    faults
}

/// Each refusal of an inner step, at several inner and outer steps, also beside another one.
fn repeats(cases: &mut Cases) {
    let names = names_of(&NAMES);
    let outer = |place: usize, value: Node| {
        let mut steps: Vec<Node> = (0..place).map(|_| command("wait")).collect();
        steps.push(one_step("repeat", value, null()));
        steps.push(command("y"));
        with_steps(steps)
    };
    for place in 0..3 {
        for value in no_mappings().into_iter().chain([map(&[]), map(&["Steps", "step", "times"])]) {
            cases.check(&outer(place, value), &[4, 6, 8], &names);
        }
        for steps in [null(), flag(), int(0), string(""), list(), map(&[]), map(&["wait"])] {
            cases.check(&outer(place, entries(vec![("steps", steps)])), &[4, 6, 8], &names);
        }
        for fault in faults() {
            for at in 0..3 {
                let mut steps: Vec<Node> = (0..at).map(|_| map(&["wait", "name"])).collect();
                steps.push(fault.clone());
                let value = |steps| entries(vec![("times", null()), ("steps", Inner(4, steps))]);
                cases.check(&outer(place, value(steps.clone())), &[4, 6, 8][at..], &names);
                // Behind another unknown command, and before one.
                if place == 1 {
                    steps.push(map(&["z"]));
                    cases.check(&outer(place, value(steps.clone())), &[4, 6, 8], &names);
                    steps.rotate_right(1);
                    cases.check(&outer(place, value(steps)), &[4, 6, 8], &names);
                }
            }
        }
    }
    // Inner repeats are not entered, and the values of `ui.expect` are not read.
    for inner in [null(), int(1), map(&[]), entries(vec![("steps", int(1))])] {
        for key in ["repeat", "ui.expect"] {
            let steps = Inner(4, vec![entries(vec![(key, inner.clone())]), map(&["wait"])]);
            cases.check(&with_steps(vec![repeat(steps)]), &[], &names);
        }
        cases.check(&with_steps(vec![one_step("ui.expect", inner, null())]), &[], &names);
    }
}

/// Records that are none; 40 comes before all else.
fn no_records(cases: &mut Cases) {
    let bytes = with_steps(vec![command("x"), one_step("repeat", null(), null())]);
    for copy in damaged(&bytes).iter().step_by(4) {
        cases.check(copy, &[4, 5], &names_of(&NAMES));
    }
    for key in STEP_FIELDS {
        cases.check(&with_steps(vec![command(key)]), &[4], &names_of(&[key]));
    }
    cases.check(&[], &[], &[]);
    cases.check(&bytes, &[], &[]);
    cases.check(&[], &[], &names_of(&NAMES));
}

// ---- the lookups

fn with_id(id: &str, value: Node) -> Node {
    let parts = [string("n"), string(id), string("strike"), value, null(), flag(), null()];
    Inner(19, parts.to_vec())
}

fn with_ids<'a>(ids: impl IntoIterator<Item = &'a str>) -> Vec<u8> {
    with_steps(ids.into_iter().map(|id| with_id(id, null())).collect())
}

/// Ids that one step has, several, or none; the empty id.
fn ids(cases: &mut Cases) {
    let rows = [
        "a", "a b", "a a", " a", "a  b ", "a b c b a", "ab a abc", "id strike n",
        "\u{1f514} a \u{1f514}",
    ];
    let sought = ["", "a", "b", "c", "ab", "abc", "abcd", "A", "id", "n", "strike", "\u{1f514}"];
    for row in rows {
        let bytes = with_ids(row.split(' '));
        for id in sought {
            cases.look_up(&bytes, id.as_bytes());
        }
        cases.look_up(&bytes, b"\xff");
        cases.look_up(&bytes, "\u{1f514}".as_bytes().split_last().unwrap().1);
    }
    cases.look_up(&with_steps(Vec::new()), b"a");
    cases.look_up(&with_steps(Vec::new()), b"");
}

/// Ids that several steps have, of which the first is found: any two of a few, many, and the first and
/// the last of a long programme; and ids that are the beginnings of others.
fn shared_ids(cases: &mut Cases) {
    for last in 1..5 {
        for first in 0..last {
            let id = |place| if place == first || place == last { "refrain" } else { "verse" };
            cases.look_up(&with_ids((0..5).map(id)), b"refrain");
        }
    }
    for before in [0, 1, 39] {
        let id = |place| if place < before { "verse" } else { "refrain" };
        cases.look_up(&with_ids((0..40).map(id)), b"refrain");
    }
    let verses: Vec<String> = (2..600).map(|number| format!("verse {number}")).collect();
    let ends = |first, last| {
        with_ids([first].into_iter().chain(verses.iter().map(String::as_str)).chain([last]))
    };
    for (first, last) in [("refrain", "refrain"), ("", "refrain"), ("refrains", "refrain")] {
        cases.look_up(&ends(first, last), b"refrain");
    }
    cases.look_up(&ends("verse 599", "verse 2"), b"verse 2");
    let long = |letters: usize| "k".repeat(letters);
    let lengths = [601, 599, 600, 1, 600, 601];
    let bytes = with_ids(lengths.map(long).iter().map(String::as_str));
    for letters in [0, 1, 2, 599, 600, 601, 602] {
        cases.look_up(&bytes, long(letters).as_bytes());
    }
}

/// Ids of inner steps, which are part of a value: before an outer step with the same id, behind it, and
/// alone; as the first key of the inner step and as a later one; inside a repeat of a repeat.
fn inner_ids(cases: &mut Cases) {
    let inner = |id| entries(vec![("id", string(id)), ("strike", int(1))]);
    let later = |id| entries(vec![("strike", int(1)), ("name", string(id)), ("id", string(id))]);
    let nested =
        |id| entries(vec![("repeat", entries(vec![("steps", Inner(4, vec![inner(id)]))]))]);
    let outer = || with_id("x", int(2));
    for one in [inner("x"), later("x"), nested("x")] {
        let repeated = || repeat(Inner(4, vec![one.clone(), inner("y")]));
        let beside = || with_id("y", entries(vec![("id", string("x")), ("steps", one.clone())]));
        let rows = [
            vec![repeated()],
            vec![repeated(), outer()],
            vec![outer(), repeated()],
            vec![repeated(), outer(), repeated(), outer()],
            vec![beside()],
            vec![beside(), repeated(), outer()],
        ];
        for steps in rows {
            let bytes = with_steps(steps);
            for id in ["x", "y", "id", ""] {
                cases.look_up(&bytes, id.as_bytes());
            }
        }
    }
}

/// Keys at each place of mappings, and keys that are not there.
fn keys(cases: &mut Cases) {
    for count in [0, 1, 2, 3, 10, 60] {
        let names: Vec<String> = (0..count).map(|n| format!("k{n}")).collect();
        let kinds = |n: usize| no_mappings()[n % 5].clone();
        let held = names.iter().enumerate().map(|(n, key)| (key.as_str(), kinds(n)));
        let first = entries(held.collect());
        let last = entries(vec![("k1", entries(vec![("inner", null())])), ("", int(7))]);
        let bytes = with_steps(vec![with_id("k0", first), with_id("", null()), with_id("", last)]);
        for key in names.iter().map(String::as_str).chain(["", "k", "K0", "k60", "inner", "times"])
        {
            cases.look_up(&bytes, key.as_bytes());
        }
    }
    for value in no_mappings() {
        cases.look_up(&with_steps(vec![with_id("", value)]), b"steps");
    }
}

/// Keys that begin alike: of one length, and each the beginning of the next; and keys that end alike.
fn long_keys(cases: &mut Cases) {
    let long = |first: &str, last: &str| format!("{first}{}{last}", "k".repeat(600));
    let kinds = [
        ["a", "b", "ab", "ba"].map(|last| long("", last)),
        ["", "k", "kk", "kkk"].map(|last| long("", last)),
        ["a", "b", "ab", "ba"].map(|first| long(first, "")),
    ];
    for names in &kinds {
        let held = names.iter().map(|key| (key.as_str(), null())).collect();
        let bytes = with_steps(vec![with_id(&names[0], entries(held))]);
        for key in kinds.iter().flatten().chain(&[long("c", ""), long("", "c")]) {
            cases.look_up(&bytes, key.as_bytes());
        }
    }
}

/// `times` at the ends of its range, of each kind, and beside any command.
fn times(cases: &mut Cases) {
    let numbers = [
        0,
        1,
        2,
        255,
        256,
        65_535,
        65_536,
        2_147_483_647,
        2_147_483_648,
        4_294_967_294,
        4_294_967_295,
        4_294_967_296,
        4_294_967_297,
        8_589_934_592,
        i64::MAX,
        i64::MAX - 1,
        -1,
        -2,
        -256,
        -4_294_967_295,
        -4_294_967_296,
        i64::MIN,
        i64::MIN + 1,
    ];
    for n in numbers {
        let value = entries(vec![("steps", list()), ("times", int(n))]);
        let first = one_step("repeat", value.clone(), null());
        cases.look_up(&with_steps(vec![first, command("wait"), with_id("", value)]), b"times");
    }
    for other in no_mappings().into_iter().chain([string("3"), map(&["times"]), list()]) {
        let value = entries(vec![("times", other.clone())]);
        cases.look_up(&with_steps(vec![with_id("times", value), with_id("", other)]), b"times");
    }
    for key in ["time", "Times", "times ", "", "timess"] {
        let value = entries(vec![(key, int(3))]);
        cases.look_up(&with_steps(vec![with_id("times", value)]), key.as_bytes());
    }
}

/// Records that are none.
fn damaged_lookups(cases: &mut Cases) {
    let value = entries(vec![("a", flag()), ("times", int(3))]);
    for copy in damaged(&with_steps(vec![with_id("a", value)])).iter().step_by(2) {
        cases.look_up(copy, b"a");
    }
    cases.look_up(&[], b"");
}

/// What scenarios have: each id, each key of each value.
fn from_scenarios(cases: &mut Cases, records: &[Vec<u8>], random: &mut Random) {
    for bytes in records {
        let found = record(bytes).expect("a record");
        let mut sought: Vec<&str> = found.steps.iter().map(|step| step.id).collect();
        sought.extend(found.steps.iter().flat_map(|step| step.beside.iter().map(|(key, ..)| *key)));
        random.shuffle(&mut sought);
        sought.truncate(5);
        sought.extend(["steps", "nowhere"]);
        for one in sought {
            cases.look_up(bytes, one.as_bytes());
        }
    }
}

/// Their steps, with lists of some of the names that the scenarios have.
fn checks_from_scenarios(cases: &mut Cases, records: &[Vec<u8>], random: &mut Random) {
    let all = ["strike", "wait", "press", "play", "7", "true", ""];
    for bytes in records {
        for _ in 0..4 {
            let names: Vec<&str> = all.into_iter().filter(|_| !random.once_in(4)).collect();
            let lines: Vec<u32> = (0..random.below(6)).map(|n| 4 + 3 * n as u32).collect();
            cases.check(bytes, &lines, &names_of(&names));
        }
        let whole = node(&items(bytes, 0).expect("a record")[0]);
        cases.check(&written(&whole), &[], &names_of(&all));
    }
}

fn main() {
    let path = std::env::args().nth(1).expect("the file for the stream");
    let mut cases = Cases { stream: Vec::new(), answers: Vec::new() };
    let mut random = Random::new(61);
    let mut records = Vec::new();
    for line in io::stdin().lock().lines() {
        let line = line.unwrap();
        let byte = |at| u8::from_str_radix(&line[at..at + 2], 16).expect("hexadecimal");
        records.push((0..line.len()).step_by(2).map(byte).collect::<Vec<u8>>());
    }
    cases.begin("record_checks");
    lists(&mut cases);
    lines(&mut cases);
    commands(&mut cases);
    repeats(&mut cases);
    no_records(&mut cases);
    checks_from_scenarios(&mut cases, &records, &mut random);
    cases.end();
    cases.begin("lookups");
    ids(&mut cases);
    shared_ids(&mut cases);
    inner_ids(&mut cases);
    keys(&mut cases);
    long_keys(&mut cases);
    times(&mut cases);
    damaged_lookups(&mut cases);
    from_scenarios(&mut cases, &records, &mut random);
    cases.end();
    OpenOptions::new().append(true).open(path).unwrap().write_all(&cases.stream).unwrap();
    io::stdout().write_all(&cases.answers).unwrap();
}
