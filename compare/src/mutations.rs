//! Scenarios with a few things changed.

use crate::random::Random;
use crate::scenarios::scenario;

/// What decides something somewhere.
const PIECES: &[&str] = &[
    "[", "]", "{", "}", ":", ": ", ",", "#", " #", "\"", "'", "\\", "|", ": |", ": |-", ":  |",
    "|-", "- ", "-", "\n", "\n\n", "\n ", "\n- ", "\r", "\r\n", "\t", "\n\t", " ", "  ", "\u{a0}",
    "\u{3000}", "\u{85}", "\u{2028}", "\u{feff}", "\u{200b}", "\u{1c}", "&", "*", "!", "?", "~",
    "null", "true", "---", "\n---\n", "...", "+", "0", "7", "9223372036854775808", "\\n", "\\x",
    "\\\"", "''", "\"\"", "[]", "{}", "[,", "{a: ", "a: b", "[a: b]", "[}", ">", "@", "\u{e4}",
    "\u{1f514}", "\0", "name: ", "expect: ", "repeat: ", "steps:", "times: ", "id: x",
];

const KEYS: &[&str] = &[
    "schema", "name", "description", "image", "tags", "setup", "defaults", "fail_on", "steps",
    "repeat", "times", "expect", "timeout", "wall_budget", "settle", "total_timeout", "id",
    "continue_on_error", "set", "delay", "expect_not", "ui.expect", "strike",
];

pub fn mutated(random: &mut Random) -> Vec<u8> {
    let mut text = scenario(random);
    mutate(random, &mut text);
    while random.once_in(3) {
        mutate(random, &mut text);
    }
    text
}

fn mutate(random: &mut Random, text: &mut Vec<u8>) {
    match random.below(12) {
        0..4 => {
            let at = place(random, text);
            let piece = random.pick(PIECES);
            text.splice(at..at, piece.bytes());
        }
        4 => {
            let start = place(random, text);
            let end = boundary(text, (start + 1 + random.below(4)).min(text.len()));
            text.drain(start..end);
        }
        5 => {
            let start = place(random, text);
            let end = boundary(text, (start + 1).min(text.len()));
            let piece = random.pick(PIECES);
            text.splice(start..end, piece.bytes());
        }
        6 => {
            // A piece of the text somewhere else.
            let start = place(random, text);
            let end = boundary(text, (start + random.below(20)).min(text.len()));
            let piece = text[start..end].to_vec();
            let at = place(random, text);
            text.splice(at..at, piece);
        }
        7 => change_key(random, text),
        8 if random.once_in(8) => {
            // Any byte, so mostly no UTF-8.
            let at = random.below(text.len() + 1);
            text.insert(at, random.next() as u8);
        }
        _ => change_lines(random, text),
    }
}

/// A place between two characters.
fn place(random: &mut Random, text: &[u8]) -> usize {
    boundary(text, random.below(text.len() + 1))
}

fn boundary(text: &[u8], mut at: usize) -> usize {
    while at < text.len() && text[at] & 0xc0 == 0x80 {
        at += 1;
    }
    at
}

/// Puts another key where one stands.
fn change_key(random: &mut Random, text: &mut Vec<u8>) {
    let colons: Vec<usize> = (0..text.len()).filter(|&at| text[at] == b':').collect();
    if colons.is_empty() {
        return;
    }
    let end = random.pick(&colons);
    let key = |byte: &u8| byte.is_ascii_alphanumeric() || *byte == b'_' || *byte == b'.';
    let length = text[..end].iter().rev().take_while(|byte| key(byte)).count();
    let new = random.pick(KEYS);
    text.splice(end - length..end, new.bytes());
}

fn change_lines(random: &mut Random, text: &mut Vec<u8>) {
    let mut lines: Vec<Vec<u8>> = text.split(|&byte| byte == b'\n').map(<[u8]>::to_vec).collect();
    let at = random.below(lines.len());
    let other = random.below(lines.len());
    match random.below(6) {
        0 => lines.insert(other, lines[at].clone()),
        1 => lines.swap(at, other),
        2 => {
            lines.remove(at);
        }
        3 => indent(random, &mut lines[at]),
        4 => {
            // A whole part moved in or out.
            let end = lines.len().min(at + 1 + random.below(4));
            let seed = random.next();
            for line in &mut lines[at..end] {
                indent(&mut Random::new(seed), line);
            }
        }
        _ => lines.insert(at, Vec::new()),
    }
    *text = lines.join(&b'\n');
}

fn indent(random: &mut Random, line: &mut Vec<u8>) {
    let by = 1 + random.below(3);
    if random.once_in(2) {
        line.splice(0..0, vec![b' '; by]);
    } else {
        let spaces = line.iter().take_while(|&&byte| byte == b' ').count();
        line.drain(..by.min(spaces));
    }
}
