//! Writes the sections of records into the stream of `crates/replay`, behind what the file named by
//! the argument has, and prints what must be printed of them. Records come in as lines of
//! hexadecimal text. With a seed behind the file, they and their damaged copies alone are written.

use std::fs::OpenOptions;
use std::io::{self, BufRead, Write};

#[path = "decide.rs"]
#[allow(dead_code)]
mod decide;
#[path = "making.rs"]
mod making;
#[path = "panel.rs"]
mod panel;
#[path = "random.rs"]
#[allow(dead_code)]
mod random;
#[path = "section.rs"]
mod section;
#[path = "writing.rs"]
#[allow(dead_code)]
mod writing;

use decide::{BUILT_IN_STEPS, LONGEST, STEP_FIELDS, items, record};
use making::{
    Inner, Leaf, NOT_UTF8, Node, change, count, damaged, list, map, node, null, one_step, scenario,
    string, written,
};
use random::Random;
use writing::write_text;

/// What the lookups of 0, each number up to the count, and one more say.
fn lookups(places: impl Iterator<Item = (usize, usize)>) -> String {
    let found = places.map(|(start, end)| format!(" {start}+{}", end - start));
    format!(" !53{} !53", found.collect::<String>())
}

fn answer(bytes: &[u8]) -> String {
    match record(bytes) {
        None => "refused 40 0 0 !40 !40 !40".to_owned(),
        Some(found) => {
            let fields = lookups(found.fields.iter().copied());
            let steps = lookups(found.steps.iter().map(|step| (step.start, step.end)));
            format!("good {}{fields}{steps}", found.steps.len())
        }
    }
}

// ---- damaged copies

/// One change to the items, so that all lengths fit.
fn damage(items: &mut Vec<Node>, at: usize, random: &mut Random) {
    let kinds = [0, 1, 2, 3, 4, 5, 6, 15, 16, 17, 18, 19, 20, 256, 259];
    match random.below(8) {
        0 => drop(items.remove(at)),
        1 => items.insert(at, items[at].clone()),
        2 if at > 0 => items.swap(at - 1, at),
        3 => match &mut items[at] {
            Leaf(kind, _) | Inner(kind, _) => *kind = random.pick(&kinds),
        },
        4 => {
            if let Leaf(_, content) = &mut items[at] {
                content.extend(random.pick(&NOT_UTF8));
            }
        }
        // A key made equal to the one before, or to a word that the rules name.
        5 if at > 1 => items[at] = items[at - 2].clone(),
        6 => {
            let words = if random.once_in(2) { STEP_FIELDS } else { BUILT_IN_STEPS };
            items[at] = string(random.pick(&words));
        }
        _ => {
            if let Leaf(_, content) = &mut items[at] {
                content.pop();
            }
        }
    }
}

fn nested(kind: u16, depth: usize) -> Node {
    let mut node = Inner(kind, Vec::new());
    for _ in 1..depth {
        let inner = std::mem::replace(&mut node, Leaf(0, Vec::new()));
        node = Inner(kind, if kind == 5 { vec![string("k"), inner] } else { vec![inner] });
    }
    node
}

fn with_setup(setup: Node) -> Node {
    scenario(setup, list(), Vec::new())
}

fn with_fail_on(fail_on: Node) -> Node {
    scenario(null(), fail_on, Vec::new())
}

fn with_step(key: &str, value: Node, expect: Node) -> Node {
    scenario(null(), list(), vec![one_step(key, value, expect)])
}

/// Setup, fail_on, values and expect nested up to the limit and beyond it.
fn nests(out: &mut Vec<Node>) {
    for kind in [4, 5] {
        for depth in 28..=33 {
            out.push(with_setup(nested(kind, depth)));
            out.push(with_fail_on(Inner(4, vec![nested(kind, depth - 1)])));
            out.push(with_step("strike", nested(kind, depth), null()));
            out.push(with_step("strike", null(), nested(kind, depth)));
        }
    }
}

/// Each word that the rules name as a command, and words like them.
fn commands(out: &mut Vec<Node>) {
    let near = ["Name", "nam", "names", "", "delay2", "continue", "ui", "ui.expect2", "expect_no"];
    for key in STEP_FIELDS.iter().chain(&BUILT_IN_STEPS).chain(&near) {
        for expect in [null(), map(&[]), map(&["a"]), list(), string("")] {
            out.push(with_step(key, null(), expect));
        }
    }
}

/// Keys that differ, and keys that don't, in each mapping that a meaning can have.
fn keys(out: &mut Vec<Node>) {
    let lists = ["a b", "a a", " ", "a ab abc", "a b a", "a b c b", "b a a", "a"];
    for list in lists {
        let keys: Vec<&str> = list.split(' ').collect();
        let inner = Inner(5, vec![string("x"), map(&keys)]);
        out.push(with_setup(map(&keys)));
        out.push(with_setup(Inner(4, vec![map(&["a"]), inner])));
        out.push(with_fail_on(Inner(4, vec![map(&["a"]), map(&keys)])));
        out.push(with_step("strike", map(&keys), null()));
        out.push(with_step("strike", null(), map(&keys)));
    }
}

/// Scalars of a wrong size, and mappings that are no pairs of a string and a value.
fn contents(out: &mut Vec<Node>) {
    let sizes = [(0, 0), (0, 1), (1, 0), (1, 1), (1, 2), (2, 7), (2, 8), (2, 9), (3, 0), (6, 0)];
    for (kind, size) in sizes {
        for byte in [0, 1, 2, 127, 128, 255] {
            out.push(with_setup(Leaf(kind, vec![byte; size])));
        }
    }
    out.push(with_setup(Inner(5, vec![string("a")])));
    out.push(with_setup(Inner(5, vec![null(), null()])));
    out.push(with_setup(Inner(16, Vec::new())));
}

// ---- the cases

struct Cases {
    stream: Vec<u8>,
    answers: Vec<u8>,
}

impl Cases {
    fn take(&mut self, bytes: &[u8]) {
        write_text(&mut self.stream, bytes).unwrap();
        writeln!(self.answers, "{}{}", answer(bytes), panel::told(bytes)).unwrap();
    }

    /// A record whose name is so long that the whole has this many bytes. The zeros of the name are
    /// put in by the program, behind the first twelve bytes.
    fn long(&mut self, whole: usize) {
        let mut bytes = written(&with_step("strike", null(), null()));
        let zeros = whole - bytes.len();
        for at in [0, 6] {
            let length = u32::from_le_bytes(bytes[at..at + 4].try_into().unwrap()) + zeros as u32;
            bytes[at..at + 4].copy_from_slice(&length.to_le_bytes());
        }
        let numbers = [(12 + zeros) as u32, whole as u32, 0];
        section::begin(&mut self.stream, "long_record", numbers).unwrap();
        write_text(&mut self.stream, &bytes[..12]).unwrap();
        write_text(&mut self.stream, &bytes[12..]).unwrap();
        bytes.splice(12..12, vec![0; zeros]);
        writeln!(self.answers, "{}{}", answer(&bytes), panel::told(&bytes)).unwrap();
    }

    fn begin(&mut self, kind: &str) {
        section::begin(&mut self.stream, kind, [0; 3]).unwrap();
    }

    fn end(&mut self) {
        section::end(&mut self.stream).unwrap();
    }
}

/// The cases that are always the same.
fn fixed(cases: &mut Cases) {
    cases.answers.extend(b"tr.strike....\n");
    cases.begin("parts");
    cases.begin("records");
    for copy in damaged(&written(&with_step("strike", map(&["a"]), null()))) {
        cases.take(&copy);
    }
    let mut ends = Vec::new();
    nests(&mut ends);
    commands(&mut ends);
    keys(&mut ends);
    contents(&mut ends);
    for one in ends {
        cases.take(&written(&one));
    }
    cases.end();
    for whole in [LONGEST - 1, LONGEST, LONGEST + 1] {
        cases.long(whole);
    }
}

fn main() {
    let mut arguments = std::env::args().skip(1);
    let path = arguments.next().expect("the file for the stream");
    let seed = arguments.next().map(|word| word.parse().expect("a seed"));
    let mut cases = Cases { stream: Vec::new(), answers: Vec::new() };
    let mut random = Random::new(seed.unwrap_or(41));
    if seed.is_none() {
        fixed(&mut cases);
    }
    cases.begin("records");
    for line in io::stdin().lock().lines() {
        let line = line.unwrap();
        let byte = |at| u8::from_str_radix(&line[at..at + 2], 16).expect("hexadecimal");
        let bytes: Vec<u8> = (0..line.len()).step_by(2).map(byte).collect();
        cases.take(&bytes);
        let whole = node(&items(&bytes, 0).expect("a record")[0]);
        for _ in 0..10 {
            let mut copy = whole.clone();
            let place = random.below(count(&whole) - 1);
            change(&mut copy, place, &mut |items, at| damage(items, at, &mut random));
            cases.take(&written(&copy));
        }
    }
    cases.end();
    OpenOptions::new().append(true).open(path).unwrap().write_all(&cases.stream).unwrap();
    io::stdout().write_all(&cases.answers).unwrap();
}
