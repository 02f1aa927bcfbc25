//! What document 01 adds to the Rust, as far as it can be judged from outside the reader: 1, 2, 3,
//! the line of 19, and 20 and 50 to 52. Outputs have the largest size that counts, for drumread
//! those of the program. Where the reader's inner state would be needed, the answer is `unsure`.

use std::collections::BTreeMap;

use crate::ask::{Answer, Asker};
use crate::messages::{Refusal, refusal_of};
use crate::reply::{LONGEST, Mode, refused};
use crate::scenario::inside::{Entry, entries};

const TEXT_BYTES: usize = 65_535;
const ENTRIES: usize = 2_048;
const LEVELS: usize = 32;

/// What a byte of text adds at most to the running sum of 50: a digit as an integer. By P3 a
/// line of a literal gives no more bytes than it has, with its newline.
const MOST_FOR_A_BYTE: usize = 14;

const DRUMREAD_BYTES: usize = 65_536;
const DRUMREAD_STEPS: usize = 512;

/// Reads parts of texts, to find the line at which something happens.
pub struct Limits {
    trees: Asker,
}

impl Limits {
    pub fn new() -> Limits {
        Limits { trees: Asker::with_requests(&["--sized", "tree"]) }
    }

    /// Document 01's answer, made of the Rust's.
    pub fn paper(&mut self, mode: &Mode, text: &[u8], answer: &Answer) -> String {
        let rust = answer.told.clone();
        if matches!(mode, Mode::KeyEnd | Mode::Flow | Mode::Memory) {
            return rust;
        }
        if text.len() > TEXT_BYTES {
            return refuse(1, 0);
        }
        let Ok(text) = str::from_utf8(text) else {
            return refuse(2, 0);
        };
        let scanned = match scan(text) {
            Ok(scanned) => scanned,
            Err(refusal) => return refused(&refusal),
        };
        if *mode == Mode::Lines {
            return rust;
        }
        let work = match mode {
            Mode::Drumread => DRUMREAD_BYTES,
            _ => LONGEST,
        };
        match answer.size {
            Some((levels, bytes)) => match (levels > LEVELS, bytes > work) {
                (false, false) => {}
                (true, false) => {
                    let lines = numbers(&scanned, |_| true);
                    return refuse(20, self.first_line(text, &lines, is_deep));
                }
                (false, true) => return refuse(50, 0),
                (true, true) => return "unsure".to_owned(),
            },
            None if may_be_deep(&scanned) || MOST_FOR_A_BYTE * text.len() > work => {
                return "unsure".to_owned();
            }
            None => {}
        }
        if rust == "endless" {
            let lines = numbers(&scanned, |entry| entry.text.contains('['));
            return refuse(19, self.first_line(text, &lines, is_endless));
        }
        if rust.starts_with("long") {
            return refuse(52, 0);
        }
        if *mode == Mode::Drumread
            && let Some(number) = drumread_refusal(&rust)
        {
            return refuse(number, 0);
        }
        rust
    }

    /// The first of these lines such that the text up to it has the property. The Rust reads lines
    /// in order and looks ahead for no more than "is there a deeper line", so once the property has
    /// come about it stays, and the line is found by halving.
    fn first_line(
        &mut self,
        text: &str,
        lines: &[usize],
        property: impl Fn(&Answer) -> bool,
    ) -> usize {
        let part = |line: usize| -> String { text.split_inclusive('\n').take(line).collect() };
        let place = lines[..lines.len() - 1]
            .partition_point(|&line| !property(&self.trees.ask(&[part(line)])[0]));
        lines[place]
    }
}

fn refuse(number: u32, line: usize) -> String {
    refused(&Refusal { number, line, step: 0 })
}

fn is_deep(answer: &Answer) -> bool {
    answer.size.is_some_and(|(levels, _)| levels > LEVELS)
}

fn is_endless(answer: &Answer) -> bool {
    answer.told == "endless"
}

fn numbers(entries: &[Entry], chosen: impl Fn(&Entry) -> bool) -> Vec<usize> {
    let chosen = entries.iter().filter(|entry| chosen(entry));
    chosen.map(|entry| entry.number).collect()
}

/// The line entries with 3. A tab or a `---` (4, 5) comes after the entries of the lines before it.
fn scan(text: &str) -> Result<Vec<Entry>, Refusal> {
    let (found, error) = match entries(text) {
        Ok(found) => (found, None),
        Err(error) => {
            let before: String = text.split_inclusive('\n').take(error.line - 1).collect();
            (entries(&before).unwrap_or_default(), Some(error))
        }
    };
    if let Some(surplus) = found.get(ENTRIES) {
        return Err(Refusal { number: 3, line: surplus.number, step: 0 });
    }
    match error {
        Some(error) => Err(refusal_of(&error)),
        None => Ok(found),
    }
}

/// Whether a 33rd level may be opened. A block inside a block stands further right, and a line
/// opens two at most (a dash and the mapping behind it); the rest takes brackets on one line.
fn may_be_deep(entries: &[Entry]) -> bool {
    let mut blocks: BTreeMap<usize, usize> = BTreeMap::new();
    for entry in entries {
        let opened = if entry.text.starts_with("- ") { 2 } else { 1 };
        let most = blocks.entry(entry.indent).or_default();
        *most = opened.max(*most);
    }
    entries.iter().any(|entry| {
        let above: usize = blocks.range(..=entry.indent).map(|(_, opened)| opened).sum();
        let brackets = entry.text.bytes().filter(|byte| matches!(byte, b'[' | b'{'));
        above + brackets.count() > LEVELS
    })
}

/// 51 and 52 of drumread, from `ok RECORD TREE STEPS; ..`.
fn drumread_refusal(rust: &str) -> Option<u32> {
    let counts = rust.split(';').next()?.strip_prefix("ok ")?;
    let counts: Vec<usize> = counts.split(' ').filter_map(|word| word.parse().ok()).collect();
    match counts[..] {
        [_, _, steps] if steps > DRUMREAD_STEPS => Some(51),
        [record, _, _] if record > DRUMREAD_BYTES => Some(52),
        _ => None,
    }
}
