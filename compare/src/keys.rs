//! Scenarios with mappings of few and of many keys, in lines of their own and in one line: keys that stand twice at any place, faults
//! behind them, and keys that share their bits where the reader tells new keys by bits.

use crate::random::Random;

/// As `crates/entries/src/filter.rt` has it.
fn hash(key: &str) -> u32 {
    key.bytes().fold(0, |h: u32, b| h.wrapping_add(u32::from(b) + 1).wrapping_mul(16_777_619))
}

fn letters(random: &mut Random) -> String {
    (0..6).map(|_| char::from(b'a' + random.below(26) as u8)).collect()
}

/// A key whose bits stand in one of four words, so that they are soon all there.
fn crowded(random: &mut Random) -> String {
    loop {
        let key = letters(random);
        if hash(&key) % 2048 < 4 {
            return key;
        }
    }
}

/// A key in one of its writings.
fn written(random: &mut Random, key: &str) -> String {
    match random.below(20) {
        0 => format!("\"{key}\""),
        1 => format!("'{key}'"),
        2 => format!("{key} "),
        _ => key.to_owned(),
    }
}

fn keys(random: &mut Random, count: usize) -> Vec<String> {
    let kind = random.below(4);
    let mut keys: Vec<String> = (0..count)
        .map(|i| match kind {
            0 => random.below(count * count + 1).to_string(),
            1 => format!("k{i}"),
            2 => crowded(random),
            _ => letters(random),
        })
        .collect();
    if random.once_in(3) {
        keys.sort();
        keys.dedup();
        random.shuffle(&mut keys);
    }
    if random.once_in(3) {
        let (from, to) = (random.below(keys.len()), random.below(keys.len()));
        keys[to] = keys[from].clone();
    }
    keys
}

fn value(random: &mut Random) -> &'static str {
    if random.once_in(200) {
        return random.pick(&["{b: 1, b: 2}", "[*a]", "{b", "'"]);
    }
    random.pick(&["1", "~", "strike", "{b: 1}", "[1, 2]"])
}

fn count(random: &mut Random, most: usize) -> usize {
    if random.once_in(60) {
        return random.pick(&[300, 1000, most]);
    }
    random.pick(&[1, 2, 3, 4, 8, 16, 17, 24, 47, 48, 49, 60])
}

/// Entries behind each other, each with what stands before and behind it.
fn entries(random: &mut Random, most: usize, before: &str, behind: &str) -> String {
    let count = count(random, most);
    let keys = keys(random, count);
    keys.iter()
        .map(|key| format!("{before}{}: {}{behind}", written(random, key), value(random)))
        .collect()
}

fn mapping(random: &mut Random) -> String {
    match random.below(5) {
        0 | 1 => {
            let entries = entries(random, 3500, "", ", ");
            let end = random.pick(&["}", "}", "}", "*a: 1}", "", "} x", "]"]);
            format!(" {{{entries}{end}\n")
        }
        2 | 3 => {
            let end = random.pick(&["", "", "", "  *a: 1\n", "  c: [\n", "\tc: 1\n", "  : 1\n", "   c: 1\n"]);
            format!("\n{}{end}", entries(random, 1900, "  ", "\n"))
        }
        _ => {
            let first = written(random, "k1");
            format!("\n  - {first}: 1\n{}", entries(random, 1900, "    ", "\n"))
        }
    }
}

pub fn text(random: &mut Random) -> Vec<u8> {
    let setup = mapping(random);
    let value = if random.once_in(4) { mapping(random).replace('\n', "\n    ") } else { " 1\n".to_owned() };
    format!("schema: passportsim/scenario@1\nname: keys\nsetup:{setup}steps:\n  - strike:{value}\n").into_bytes()
}
