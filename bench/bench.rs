//! Times of the Rust's `Scenario::parse`, of libyaml where it is there, and of ours through the static library, side by side in one process.

#[path = "../compare/src/stubs/error.rs"]
#[allow(dead_code)]
mod error;
#[path = "../compare/src/stubs/matchers.rs"]
#[allow(dead_code)]
mod matchers;
#[path = "../compare/src/stubs/receipt.rs"]
#[allow(dead_code)]
mod receipt;
#[path = "../compare/target/scenario.rs"]
#[allow(dead_code, unused_variables)]
mod scenario;

use std::hint::black_box;

use drum::{LINES_MAX, RECORD_MAX, WORK_MAX};
use scenario::Scenario;

const RUNS: usize = 30;

const PARTS: [usize; 4] = [8, 4, 2, 1];

#[cfg(libyaml)]
mod libyaml {
    unsafe extern "C" {
        fn libyaml_reads(text: *const u8, len: usize) -> i32;
    }

    pub fn reads(text: &str) -> Option<bool> {
        Some(unsafe { libyaml_reads(text.as_ptr(), text.len()) } != 0)
    }
}

#[cfg(not(libyaml))]
mod libyaml {
    pub fn reads(_: &str) -> Option<bool> {
        None
    }
}

/// Outputs that are enough for any text.
struct Lent {
    work: Vec<u8>,
    record: Vec<u8>,
    lines: Vec<u32>,
}

impl Lent {
    fn read(&mut self, text: &str) -> drum::Read {
        drum::read_scenario(text.as_bytes(), &mut self.work, &mut self.record, &mut self.lines).expect("accepted")
    }

    fn clear(&mut self) {
        self.work.fill(0);
        self.record.fill(0);
        self.lines.fill(0);
    }
}

unsafe extern "C" {
    fn clock_gettime(clock: i32, time: *mut [i64; 2]) -> i32;
}

/// Microseconds of processor time that this thread has taken, so that other work on the machine counts little.
fn now() -> f64 {
    const CLOCK_THREAD_CPUTIME_ID: i32 = 3;
    let mut time = [0; 2];
    let failed = unsafe { clock_gettime(CLOCK_THREAD_CPUTIME_ID, &mut time) };
    assert_eq!(failed, 0);
    time[0] as f64 * 1e6 + time[1] as f64 / 1e3
}

/// Microseconds of the best of the runs. A short one is run several times over, so that asking for the time counts little.
fn best(mut run: impl FnMut()) -> f64 {
    let mut timed = |times: usize| {
        let start = now();
        (0..times).for_each(|_| run());
        (now() - start) / times as f64
    };
    let times = (200.0 / timed(1)).ceil() as usize;
    (0..RUNS).map(|_| timed(times)).fold(f64::INFINITY, f64::min)
}

fn headed(rest: &str) -> String {
    format!("schema: passportsim/scenario@1\nname: bench\n{rest}")
}

fn repeated(bytes: usize, part: impl Fn(usize) -> String) -> String {
    let mut text = String::new();
    for i in 0.. {
        let next = part(i);
        if text.len() + next.len() > bytes {
            break;
        }
        text += &next;
    }
    text
}

fn key(i: usize) -> String {
    let digit = |n: usize| char::from(b"abcdefghijklmnopqrstuvwxyz"[n % 26]);
    [i / 17_576, i / 676, i / 26, i].map(digit).iter().collect()
}

/// A key of three bytes.
fn short_key(i: usize) -> String {
    [i / 4096, i / 64, i].map(|n| char::from(b'0' + (n % 64) as u8)).iter().collect()
}

fn lines(count: usize, line: impl Fn(usize) -> String) -> String {
    (0..count).map(line).collect()
}

fn setup(rest: String) -> String {
    headed(&format!("setup:{rest}\n"))
}

/// One text of each kind, a `part`-th as long as may be.
fn texts(part: usize) -> Vec<(&'static str, String)> {
    let bytes = 64_000 / part;
    let flow = repeated(bytes, |i| format!("{{strike: {i}, name: stroke {i}}}, "));
    let integers = repeated(bytes, |i| format!("{}, ", i % 100));
    vec![
        ("block steps", headed(&format!("steps:\n{}", lines(680 / part, |i| format!("  - strike: {i}\n    name: stroke {i}\n    timeout: 5s\n"))))),
        ("flow steps", headed(&format!("steps: [{flow}]\n"))),
        ("one line of 8,000 keys", setup(format!(" {{{}}}", lines(8000 / part, |i| format!("{}: 1,", key(i)))))),
        ("one line of 6,700 keys", setup(format!(" {{{}}}", lines(6700 / part, |i| format!("{}: 1, ", key(i)))))),
        ("1,900 keys in lines of their own", setup(format!("\n{}", lines(1900 / part, |i| format!("  {}: 1\n", key(i)))))),
        ("a sequence of integers", setup(format!(" [{integers}]"))),
        ("a literal", setup(format!(" |\n{}", lines(2000 / part, |i| format!("  line {i} of a hymn, as sung\n"))))),
        ("comments", headed(&lines(1300 / part, |i| format!("# a comment in line {i}, which says nothing more\n")))),
    ]
}

/// 20 long keys: alike but for their ends, each the beginning of the next, and alike but for their beginnings.
fn long_keys() -> [(&'static str, Vec<String>); 3] {
    let keys = |key: &dyn Fn(usize) -> String| (0..20).map(key).collect();
    let same = "k".repeat(598);
    [
        ("20 keys of 600 letters that begin alike", keys(&|i| format!("{same}{i:02}"))),
        ("20 keys of 600 to 619 letters that begin alike", keys(&|i| format!("{same}kk{}", "k".repeat(i)))),
        ("20 keys of 600 letters that end alike", keys(&|i| format!("{i:02}{same}"))),
    ]
}

/// A row of the table of long keys: a step with them is read, and the last is looked up in the record, which checks it.
fn look_up(name: &str, keys: &[String], lent: &mut Lent) {
    let text = headed(&format!("steps:\n  - strike: {{{}}}\n", keys.join(": 1, ") + ": 1"));
    let last = keys.last().expect("a key");
    let rust = best(|| _ = black_box(Scenario::parse(&text).expect("accepted")));
    let ours = best(|| _ = black_box(lent.read(&text)));
    let read = lent.read(&text);
    let record = &lent.record[..read.record_bytes];
    let found = best(|| _ = black_box(drum::value_by_key(record, 1, last).expect("a record").expect("a value")));
    println!("| {name} | {} | {rust:.0} | {ours:.1} | {found:.1} |", text.len());
}

fn item(kind: u16, content: &[u8]) -> Vec<u8> {
    [&(content.len() as u32).to_le_bytes()[..], &kind.to_le_bytes(), content].concat()
}

/// A record of `setup` and `steps` alone, by the layout of docs/RECORD.md.
fn record_with(setup: &[u8], steps: &[u8]) -> Vec<u8> {
    let defaults = item(17, &[item(0, b""), item(0, b"")].concat());
    let fields = [item(3, b"n"), item(3, b""), item(4, b""), item(3, b""), setup.to_vec(), defaults, item(4, b""), item(18, steps)];
    item(16, &fields.concat())
}

fn record_of(setup: &[u8]) -> Vec<u8> {
    record_with(setup, b"")
}

fn mapping(keys: impl Iterator<Item = String>) -> Vec<u8> {
    item(5, &keys.flat_map(|key| [item(3, key.as_bytes()), item(0, b"")].concat()).collect::<Vec<u8>>())
}

/// Keys whose bits all stand in one word, where the reader tells new keys by bits (crates/entries/src/filter.rt).
fn crowded() -> impl Iterator<Item = String> {
    let hash = |key: &str| key.bytes().fold(0, |h: u32, b| h.wrapping_add(u32::from(b) + 1).wrapping_mul(16_777_619));
    (0..).map(|i: usize| format!("{i:x}")).filter(move |key| hash(key) % 2048 == 0)
}

/// One record of each kind, a `part`-th as long as may be.
fn records(part: usize) -> Vec<(&'static str, Vec<u8>)> {
    let small = mapping((0..3).map(key));
    let count = ((1 << 20) - 100) / part / small.len();
    vec![
        ("mappings of 3 entries", record_of(&item(4, &small.repeat(count)))),
        ("one mapping of 69,900 keys", record_of(&mapping((0..69_900 / part).map(short_key)))),
        ("one of 55,000 keys that share a word", record_of(&mapping(crowded().take(55_000 / part)))),
    ]
}

/// One record of each kind for a panel, a `part`-th as long as a drum takes, and how many steps it has.
fn shown(part: usize) -> Vec<(&'static str, (Vec<u8>, usize))> {
    let room = ((1 << 20) - 100) / part;
    let null = item(0, b"");
    let labels = item(3, b"").repeat(2);
    let short = item(19, &labels);
    let many = room / short.len();
    let one = |more: &[u8]| (record_with(&null, &item(19, &[&labels[..6], more].concat())), 1);
    vec![
        ("steps of two empty texts", (record_with(&null, &short.repeat(many)), many)),
        ("one step of empty items", one(&[&labels[6..], &null.repeat(room / null.len())].concat())),
        ("one step with a long id", one(&item(3, &vec![b'a'; room]))),
    ]
}

/// A row of the table of texts.
fn compare(name: &str, text: &str, lent: &mut Lent) {
    let rust = best(|| _ = black_box(Scenario::parse(text).expect("accepted")));
    let yaml = libyaml::reads(text).map(|read| {
        assert!(read, "{name}: libyaml refuses");
        best(|| _ = black_box(libyaml::reads(text)))
    });
    let ours = best(|| _ = black_box(lent.read(text)));
    let cleared = best(|| {
        lent.clear();
        _ = black_box(lent.read(text));
    });
    let shown = |n: Option<f64>, digits: usize| n.map_or("-".to_owned(), |n| format!("{n:.digits$}"));
    println!(
        "| {name} | {} | {rust:.0} | {} | {ours:.1} | {cleared:.0} | {:.2} | {} |",
        text.len(), shown(yaml, 0), rust / ours, shown(yaml.map(|yaml| yaml / ours), 2),
    );
}

/// A row of a table of growth: how long a half, a quarter and an eighth take, and the whole.
fn grow<T>(name: &str, parts: [T; 4], mut run: impl FnMut(&T)) {
    let times = parts.map(|part| format!("{:.1}", best(|| run(&part))));
    println!("| {name} | {} |", times.join(" | "));
}

/// The texts or records of one kind, the shortest first.
fn each_kind<T>(kinds: impl Fn(usize) -> Vec<(&'static str, T)>) -> Vec<(&'static str, [T; 4])> {
    let [a, b, c, d] = PARTS.map(kinds);
    a.into_iter().zip(b).zip(c).zip(d).map(|(((a, b), c), d)| (a.0, [a.1, b.1, c.1, d.1])).collect()
}

/// A beat of drums on one supply, each stroke behind the first shares given by itself.
fn stroke_by_stroke(wishes: &[u32], allowed: u32) -> [u32; drum::DRUMS] {
    let mut got = [0; drum::DRUMS];
    let first = allowed / wishes.len() as u32;
    wishes.iter().zip(&mut got).for_each(|(wish, got)| *got = first.min(*wish));
    let mut rest = allowed - got.iter().sum::<u32>();
    loop {
        let before = rest;
        for (wish, got) in wishes.iter().zip(&mut got) {
            if rest > 0 && *got < *wish {
                *got += 1;
                rest -= 1;
            }
        }
        if rest == before {
            return got;
        }
    }
}

/// A row of the table of beats, in nanoseconds.
fn beat(name: &str, wishes: &[u32], allowed: u32) {
    assert_eq!(drum::share(wishes, allowed), Ok(stroke_by_stroke(wishes, allowed)));
    let single = best(|| _ = black_box(stroke_by_stroke(black_box(wishes), black_box(allowed)))) * 1e3;
    let ours = best(|| _ = black_box(drum::share(black_box(wishes), black_box(allowed)))) * 1e3;
    println!("| {name} | {allowed} | {single:.0} | {ours:.0} |");
}

/// The pairs, the lone hammers and the lone sounds of two logs that never fall.
fn walk(hammers: &[u32], sounds: &[u32]) -> Option<(Vec<[u32; 2]>, Vec<u32>, Vec<u32>)> {
    if !hammers.is_sorted() || !sounds.is_sorted() {
        return None;
    }
    let (mut pairs, mut lone_hammers, mut lone_sounds) = (Vec::new(), Vec::new(), Vec::new());
    let (mut i, mut j) = (0, 0);
    while i < hammers.len() && j < sounds.len() {
        if hammers[i].abs_diff(sounds[j]) <= 40 {
            pairs.push([i as u32, j as u32]);
            i += 1;
            j += 1;
        } else if hammers[i] < sounds[j] {
            lone_hammers.push(i as u32);
            i += 1;
        } else {
            lone_sounds.push(j as u32);
            j += 1;
        }
    }
    lone_hammers.extend(i as u32..hammers.len() as u32);
    lone_sounds.extend(j as u32..sounds.len() as u32);
    Some((pairs, lone_hammers, lone_sounds))
}

/// A row of the table of logs. Ours is lent lists that are enough for any.
fn pair(name: &str, hammers: &[u32], sounds: &[u32]) {
    let (mut pairs, mut lone_hammers, mut lone_sounds) = ([[0; 2]; drum::TIMES], [0; drum::TIMES], [0; drum::TIMES]);
    let walked = walk(hammers, sounds).expect("rising");
    let paired = drum::pair_logs(hammers, sounds, &mut pairs, &mut lone_hammers, &mut lone_sounds).expect("rising");
    assert_eq!(walked.0, pairs[..paired.pairs]);
    assert_eq!((walked.1, walked.2), (lone_hammers[..paired.lone_hammers].to_vec(), lone_sounds[..paired.lone_sounds].to_vec()));
    let plain = best(|| _ = black_box(walk(black_box(hammers), black_box(sounds))));
    let ours = best(|| _ = black_box(drum::pair_logs(black_box(hammers), black_box(sounds), &mut pairs, &mut lone_hammers, &mut lone_sounds)));
    println!("| {name} | {} | {} | {} | {plain:.2} | {ours:.2} |", hammers.len(), sounds.len(), paired.pairs);
}

/// So many times that rise by these steps in turn, from a start.
fn rising(count: usize, start: u32, step: impl Fn(u32) -> u32) -> Vec<u32> {
    (0..count as u32).scan(start, |time, i| Some(std::mem::replace(time, *time + step(i)))).collect()
}

/// Steps of up to 80, without order.
fn uneven(seed: u32) -> impl Fn(u32) -> u32 {
    move |i| ((i + seed).wrapping_mul(2_654_435_761) >> 16) % 81
}

fn main() {
    let mut lent = Lent { work: vec![0; WORK_MAX], record: vec![0; RECORD_MAX], lines: vec![0; LINES_MAX] };
    println!("Microseconds of processor time, best of {RUNS}. Ours is lent outputs that are enough for any text; \"cleared\" fills them with zeros before each run.\n");
    println!("| text | bytes | the Rust | libyaml | ours | ours, cleared | the Rust / ours | libyaml / ours |");
    println!("|---|---|---|---|---|---|---|---|");
    for (name, text) in texts(1) {
        compare(name, &text, &mut lent);
    }
    compare("examples/noon.yaml", include_str!("../examples/noon.yaml"), &mut lent);
    println!("\n| a step with | bytes | the Rust | ours | looked up |\n|---|---|---|---|---|");
    for (name, keys) in long_keys() {
        look_up(name, &keys, &mut lent);
    }
    println!("\n| text | an eighth | a quarter | half | whole |\n|---|---|---|---|---|");
    for (name, parts) in each_kind(texts) {
        grow(name, parts, |text| _ = black_box(lent.read(text)));
    }
    println!("\n| record | an eighth | a quarter | half | whole |\n|---|---|---|---|---|");
    for (name, parts) in each_kind(records) {
        grow(name, parts, |record| _ = black_box(drum::check_record(record).expect("a record")));
    }
    println!("\n| the last step of a record, on a panel | an eighth | a quarter | half | whole |\n|---|---|---|---|---|");
    for (name, parts) in each_kind(shown) {
        grow(name, parts, |(record, steps)| _ = black_box(drum::panel_step(record, *steps).expect("a step")));
    }
    println!("\n| wishes in a beat, nanoseconds | allowed | stroke by stroke | ours |\n|---|---|---|---|");
    beat("7 of 0, one of 255", &[0, 0, 0, 0, 0, 0, 0, 255], 250);
    beat("0, 36, 72 and on to 252", &[0, 36, 72, 108, 144, 180, 216, 252], 900);
    beat("8 of 255", &[255; 8], 1000);
    beat("8 of 255, all met", &[255; 8], u32::MAX);
    beat("1, 9 and 9", &[1, 9, 9], 8);
    beat("one of 255", &[255], 100);
    let even = |start, step| rising(drum::TIMES, start, move |_| step);
    println!("\n| two logs | hammers | sounds | pairs | a walk with vectors | ours |\n|---|---|---|---|---|---|");
    pair("all pairs", &even(0, 100), &even(25, 100));
    pair("every second hammer without a sound", &even(0, 100), &rising(drum::TIMES / 2, 25, |_| 200));
    pair("all alone, in turn", &even(0, 100), &even(50, 100));
    pair("uneven", &rising(drum::TIMES, 0, uneven(0)), &rising(drum::TIMES, 0, uneven(1 << 20)));
    pair("small", &[20, 200, 300], &[0, 39, 60, 260]);
}
