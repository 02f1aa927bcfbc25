//! Writes the sections of what a panel shows into the stream of `crates/replay`, behind what the
//! file named by the argument has, and prints what must be printed of them. Records come in as
//! lines of hexadecimal text. With a seed behind the file, they and their damaged copies alone are
//! written.

use std::fs::OpenOptions;
use std::io::{self, BufRead, Write};

#[allow(dead_code)]
mod decide;
#[allow(dead_code)]
mod making;
mod panel;
#[allow(dead_code)]
mod random;
mod section;
#[allow(dead_code)]
mod writing;

use decide::{LONGEST, STEP_FIELDS, items, record};
use making::{
    Inner, Leaf, NOT_UTF8, Node, change, count, damaged, list, map, node, null, one_step, scenario,
    string, written,
};
use random::Random;
use writing::write_text;

/// The place of the item that holds the steps.
const STEPS: usize = 7;

/// Kinds that are known and kinds that are not, one of which ends like that of texts.
const KINDS: [u16; 10] = [0, 3, 4, 16, 18, 19, 20, 99, 259, 65_535];

/// Contents that are no items: too short for a header, or with a length that runs past the end.
const NO_ITEMS: [&[u8]; 5] = [b"\x01", &[0; 5], &[255; 6], b"\x01\0\0\0\x03\0", b"no items, no"];

/// Behind items: no item, an empty one, one of an unknown kind, and such with a byte behind.
const TAILS: [&[u8]; 7] =
    [b"\0", &[0; 5], &[0; 6], &[0; 7], &[255; 6], b"\x02\0\0\0\x63\0no", b"\x02\0\0\0\x63\0not"];

const UTF8: [&str; 6] =
    ["\u{1f514}", "\0", "\u{7f}\u{80}", "\u{7ff}\u{800}", "\u{d7ff}\u{e000}", "\u{10ffff}"];

// ---- programmes, and their parts

fn step(name: &str, id: &str) -> Node {
    let command = one_step("strike", null(), null());
    with(command, |whole| inner(whole).splice(..2, [string(name), string(id)]).for_each(drop))
}

fn programme() -> Node {
    scenario(null(), list(), vec![step("First", ""), step("Last \u{1f514}", "last")])
}

/// The shortest with two steps.
fn small() -> Node {
    let step = |name, id| Inner(20, vec![string(name), string(id), Leaf(99, Vec::new())]);
    let mut fields = vec![null(); STEPS];
    fields[0] = string("n");
    fields.push(Inner(77, vec![step("a", ""), step("b", "cd")]));
    Inner(16, fields)
}

fn with(mut node: Node, how: impl FnOnce(&mut Node)) -> Node {
    how(&mut node);
    node
}

fn inner(node: &mut Node) -> &mut Vec<Node> {
    match node {
        Inner(_, items) => items,
        Leaf(..) => panic!("no items"),
    }
}

fn steps(whole: &mut Node) -> &mut Vec<Node> {
    inner(&mut inner(whole)[STEPS])
}

/// By a place: the whole, the item that holds the steps, and each step.
fn around(whole: &mut Node, place: usize) -> &mut Node {
    match place {
        0 => whole,
        1 => &mut inner(whole)[STEPS],
        number => &mut steps(whole)[number - 2],
    }
}

fn set_kind(node: &mut Node, new: u16) {
    match node {
        Leaf(kind, _) | Inner(kind, _) => *kind = new,
    }
}

/// Its content as bytes, which need be no items.
fn set_content(node: &mut Node, how: impl FnOnce(&mut Vec<u8>)) {
    let Inner(kind, items) = node else { panic!("no items") };
    let mut content: Vec<u8> = items.iter().flat_map(written).collect();
    how(&mut content);
    *node = Leaf(*kind, content);
}

/// What is not shown: fields of the whole, and items of steps.
fn each_unshown(whole: &mut Node, mut how: impl FnMut(&mut Node)) {
    inner(whole)[1..STEPS].iter_mut().for_each(&mut how);
    for step in steps(whole) {
        inner(step)[2..].iter_mut().for_each(&mut how);
    }
}

// ---- what must be printed

fn checked(bytes: &[u8]) -> String {
    record(bytes)
        .map_or("refused 40 0 0".to_owned(), |record| format!("good {}", record.steps.len()))
}

struct Cases {
    stream: Vec<u8>,
    answers: Vec<u8>,
}

impl Cases {
    fn take(&mut self, bytes: &[u8]) {
        write_text(&mut self.stream, bytes).unwrap();
        writeln!(self.answers, "{}{}", checked(bytes), panel::told(bytes)).unwrap();
    }

    /// The programme, changed.
    fn changed(&mut self, how: impl FnOnce(&mut Node)) {
        self.take(&written(&with(programme(), how)));
    }

    /// The programme with so many zeros somewhere that it has this many bytes, over the limit of
    /// the sequencer's reader. They are put in by the program.
    fn long(&mut self, size: usize, how: impl Fn(&mut Node, Vec<u8>)) {
        let of = |zeros| written(&with(programme(), |whole| how(whole, vec![0; zeros])));
        let zeros = vec![0; size - of(0).len()];
        let bytes = of(zeros.len());
        let start = bytes.windows(zeros.len()).position(|part| part == zeros).expect("the zeros");
        let rest = start + zeros.len();
        let numbers = [rest as u32, size as u32, 0];
        section::begin(&mut self.stream, "long_record", numbers).unwrap();
        write_text(&mut self.stream, &bytes[..start]).unwrap();
        write_text(&mut self.stream, &bytes[rest..]).unwrap();
        writeln!(self.answers, "refused 40 0 0 !40 !40 !40{}", panel::told(&bytes)).unwrap();
    }

    fn begin(&mut self) {
        section::begin(&mut self.stream, "panels", [0; 3]).unwrap();
    }

    fn end(&mut self) {
        section::end(&mut self.stream).unwrap();
    }
}

// ---- the cases

/// Each item of each kind; then all that may be of any kind.
fn kinds(cases: &mut Cases) {
    for kind in KINDS {
        cases.changed(|whole| set_kind(whole, kind));
        for place in 0..count(&programme()) - 1 {
            cases.changed(|whole| {
                change(whole, place, &mut |items, at| set_kind(&mut items[at], kind))
            });
        }
        cases.changed(|whole| each_unshown(whole, |item| set_kind(item, kind)));
        cases.changed(|whole| steps(whole).iter_mut().for_each(|step| set_kind(step, kind)));
        cases.changed(|whole| {
            each_unshown(whole, |item| *item = Leaf(kind, NO_ITEMS[4].to_vec()));
            steps(whole).iter_mut().for_each(|step| set_kind(step, kind));
            inner(whole).push(Leaf(kind, NO_ITEMS[4].to_vec()));
            set_kind(&mut inner(whole)[STEPS], kind);
        });
    }
}

/// Contents that are no items, in each item of the whole, of the eighth and of a step, and in more.
fn contents(cases: &mut Cases) {
    for (content, kind) in NO_ITEMS.into_iter().zip([99, 4, 5, 19, 4]) {
        let other = || Leaf(kind, content.to_vec());
        for place in 0..4 {
            let count = inner(around(&mut programme(), place)).len();
            for at in 0..count {
                cases.changed(|whole| inner(around(whole, place))[at] = other());
            }
            for more in 1..=2 {
                cases.changed(|whole| inner(around(whole, place)).extend(vec![other(); more]));
            }
        }
    }
}

/// Where an item and those in it begin.
fn places(node: &Node, start: usize, out: &mut Vec<usize>) {
    out.push(start);
    if let Inner(_, items) = node {
        items.iter().fold(start + 6, |at, item| {
            places(item, at, out);
            at + written(item).len()
        });
    }
}

/// Each length alone changed: too short, or past the end of what is around, also up to the end of
/// all.
fn lengths(cases: &mut Cases) {
    let longer = with(programme(), |whole| inner(whole).extend([string("ninth"), null()]));
    let bytes = written(&longer);
    let mut starts = Vec::new();
    places(&longer, 0, &mut starts);
    for start in starts {
        let length = u32::from_le_bytes(bytes[start..start + 4].try_into().unwrap());
        let left = (bytes.len() - start - 6) as u32;
        for new in [0, length.wrapping_sub(1), length + 1, length + 6, left, left + 1, u32::MAX] {
            if new != length {
                let mut copy = bytes.clone();
                copy[start..start + 4].copy_from_slice(&new.to_le_bytes());
                cases.take(&copy);
            }
        }
    }
}

/// Bytes behind the items of the whole, of the eighth and of each step, and cut ends; all lengths
/// around them fit.
fn ends(cases: &mut Cases) {
    for place in 0..4 {
        for tail in TAILS {
            cases.changed(|whole| {
                set_content(around(whole, place), |content| content.extend(tail));
            });
        }
        for cut in [1, 2, 5, 6, 7, 12, 13] {
            cases.changed(|whole| {
                set_content(around(whole, place), |content| {
                    content.truncate(content.len().saturating_sub(cut))
                });
            });
        }
    }
    for tail in TAILS {
        cases.take(&[&written(&programme()), tail].concat());
        cases.take(&[tail, &written(&programme())].concat());
    }
}

/// Each item left out, alone and with all behind it, given twice, and before the one in front of
/// it; and no step, few and many.
fn counts(cases: &mut Cases) {
    for place in 0..4 {
        let count = inner(around(&mut programme(), place)).len();
        for at in 0..count {
            cases.changed(|whole| inner(around(whole, place)).truncate(at));
            cases.changed(|whole| drop(inner(around(whole, place)).remove(at)));
            cases.changed(|whole| {
                let items = inner(around(whole, place));
                items.insert(at, items[at].clone());
            });
            cases.changed(|whole| inner(around(whole, place)).swap(at.saturating_sub(1), at));
        }
    }
    for count in [0, 1, 2, 40] {
        let labels: Vec<String> = (0..count).map(|at| "k".repeat(at)).collect();
        let many: Vec<Node> = labels.iter().rev().zip(&labels).map(|(n, id)| step(n, id)).collect();
        cases.changed(|whole| *steps(whole) = many);
    }
}

/// Texts that are UTF-8 and texts that are not, in each item of the whole and of each step.
fn texts(cases: &mut Cases) {
    let cut = [&b"\xc0\xaf"[..], b"a\xf0\x9f\x94", b"\x80", b"ok\xff"];
    for text in NOT_UTF8.into_iter().chain(cut).chain(UTF8.map(str::as_bytes)) {
        for place in [0, 2, 3] {
            let count = inner(around(&mut programme(), place)).len();
            for at in (0..count).filter(|at| (place, *at) != (0, STEPS)) {
                cases.changed(|whole| {
                    inner(around(whole, place))[at] = Leaf(3, text.to_vec());
                });
            }
        }
    }
}

/// What only the sequencer's reader refuses: by what a record means.
fn meanings(cases: &mut Cases) {
    let deep =
        |kind, levels| (1..levels).fold(Inner(kind, Vec::new()), |node, _| Inner(kind, vec![node]));
    for setup in [map(&["a", "a"]), deep(4, 31), deep(4, 32), deep(5, 3), Leaf(1, vec![2])] {
        cases.changed(|whole| inner(whole)[4] = setup);
    }
    let keys = STEP_FIELDS.iter().chain(&["repeat", "set", "delay", "expect_not", "ui.expect"]);
    for (key, at) in keys.zip([0, 1].into_iter().cycle()) {
        for expect in [null(), map(&["a"]), list()] {
            cases.changed(|whole| {
                let items = inner(&mut steps(whole)[at]);
                items[2] = string(key);
                items[6] = expect;
            });
        }
    }
}

/// Records over the limit: the zeros stand in the name, in an item that is not shown, in a step's
/// name, in what a step has besides, or behind the eighth item.
fn long(cases: &mut Cases) {
    let [least, most] = [LONGEST + 1, LONGEST + 64];
    cases.long(least, |whole, zeros| inner(whole)[0] = Leaf(3, zeros));
    cases.long(most, |whole, zeros| inner(whole)[0] = Leaf(4, zeros));
    cases.long(most, |whole, zeros| inner(whole)[2] = Leaf(99, zeros));
    cases.long(most, |whole, zeros| inner(&mut steps(whole)[1])[0] = Leaf(3, zeros));
    cases.long(least, |whole, zeros| inner(&mut steps(whole)[1])[1] = Leaf(1, zeros));
    cases.long(least, |whole, zeros| inner(&mut steps(whole)[0])[5] = Leaf(4, zeros));
    cases.long(least, |whole, zeros| inner(whole).push(Leaf(16, zeros)));
}

/// The cases that are always the same.
fn fixed(cases: &mut Cases) {
    cases.begin();
    for copy in damaged(&written(&small())) {
        cases.take(&copy);
    }
    kinds(cases);
    contents(cases);
    lengths(cases);
    ends(cases);
    counts(cases);
    texts(cases);
    meanings(cases);
    cases.end();
    long(cases);
}

// ---- random ones

fn any_leaf(random: &mut Random) -> Node {
    let content = match random.below(4) {
        0 => Vec::new(),
        1 => random.pick(&TAILS).to_vec(),
        2 => random.pick(&NOT_UTF8).to_vec(),
        _ => random.pick(&NO_ITEMS).to_vec(),
    };
    Leaf(random.pick(&KINDS), content)
}

/// One change to these items or to those in them, so that all lengths fit. The last ones, where the
/// steps are, are changed more often.
fn change_one(items: &mut Vec<Node>, random: &mut Random) {
    if items.is_empty() {
        return items.push(any_leaf(random));
    }
    let at = if random.once_in(2) { items.len() - 1 } else { random.below(items.len()) };
    match &mut items[at] {
        Inner(_, inner) if !random.once_in(3) => return change_one(inner, random),
        Leaf(_, content) if random.once_in(4) => {
            return content.extend(random.pick(&NOT_UTF8));
        }
        _ => {}
    }
    match random.below(8) {
        0 => drop(items.remove(at)),
        1 => items.insert(at, items[at].clone()),
        2 => items.insert(at, any_leaf(random)),
        3 => items.push(any_leaf(random)),
        4 => items[at] = any_leaf(random),
        5 => items.swap(at.saturating_sub(1), at),
        _ => set_kind(&mut items[at], random.pick(&KINDS)),
    }
}

/// One change to the bytes; the length of the whole may be made to fit.
fn change_bytes(bytes: &mut Vec<u8>, random: &mut Random) {
    let at = random.below(bytes.len());
    match random.below(4) {
        0 => bytes.truncate(at),
        1 => bytes.insert(at, random.pick(&[0, 1, 255])),
        2 => bytes.extend(random.pick(&TAILS)),
        _ => bytes[at] = bytes[at].wrapping_add(random.pick(&[1, 6, 128, 250, 255])),
    }
    if let Some(content) = bytes.len().checked_sub(6)
        && !random.once_in(3)
    {
        bytes[..4].copy_from_slice(&(content as u32).to_le_bytes());
    }
}

fn copies(cases: &mut Cases, bytes: &[u8], random: &mut Random) {
    cases.take(bytes);
    let whole = node(&items(bytes, 0).expect("a record")[0]);
    for _ in 0..10 {
        let changes = random.below(4);
        let copy = with(whole.clone(), |copy| {
            (0..changes).for_each(|_| change_one(inner(copy), random));
        });
        let mut bytes = written(&copy);
        if changes == 0 || random.once_in(8) {
            change_bytes(&mut bytes, random);
        }
        cases.take(&bytes);
    }
}

fn main() {
    let mut arguments = std::env::args().skip(1);
    let path = arguments.next().expect("the file for the stream");
    let seed = arguments.next().map(|word| word.parse().expect("a seed"));
    let mut cases = Cases { stream: Vec::new(), answers: Vec::new() };
    let mut random = Random::new(seed.unwrap_or(81));
    if seed.is_none() {
        fixed(&mut cases);
    }
    cases.begin();
    for line in io::stdin().lock().lines() {
        let line = line.unwrap();
        let byte = |at| u8::from_str_radix(&line[at..at + 2], 16).expect("hexadecimal");
        let bytes: Vec<u8> = (0..line.len()).step_by(2).map(byte).collect();
        copies(&mut cases, &bytes, &mut random);
    }
    cases.end();
    OpenOptions::new().append(true).open(path).unwrap().write_all(&cases.stream).unwrap();
    io::stdout().write_all(&cases.answers).unwrap();
}
