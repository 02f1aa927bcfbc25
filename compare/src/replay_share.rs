//! Writes the section of drums on one supply into the stream of `crates/replay`, behind what the
//! file named by the first argument has, and prints what must be printed of it. With a seed and a
//! count behind the file, so many random beats instead of the stored ones.
//!
//! The shares are decided otherwise than the reader does it: every stroke that is wanted beyond the
//! first shares is listed with its round and its drum, these are put in order, and the first ones
//! are given, as many as remain.

use std::fs::OpenOptions;
use std::io::{self, Write};

#[allow(dead_code)]
mod random;
mod section;
#[allow(dead_code)]
mod writing;

use random::Random;
use writing::write_text;

/// The refusal's number, or what each drum gets.
fn share(wishes: &[u32], allowed: u32) -> Result<Vec<u32>, u32> {
    let drums = wishes.len();
    if !(1..=8).contains(&drums) || wishes.iter().any(|wish| *wish > 255) {
        return Err(61);
    }
    if (allowed as usize) < drums {
        return Err(62);
    }
    let first = allowed / drums as u32;
    let mut got: Vec<u32> = wishes.iter().map(|wish| first.min(*wish)).collect();
    let remain = allowed - got.iter().sum::<u32>();
    let mut wanted: Vec<(u32, usize)> = Vec::new();
    for (drum, wish) in wishes.iter().enumerate() {
        wanted.extend((1..=wish - got[drum]).map(|round| (round, drum)));
    }
    wanted.sort();
    wanted.iter().take(remain as usize).for_each(|(_, drum)| got[*drum] += 1);
    Ok(got)
}

struct Cases {
    stream: Vec<u8>,
    answers: Vec<u8>,
}

impl Cases {
    fn beat(&mut self, wishes: &[u32], allowed: u32) {
        let mut text = Vec::new();
        text.extend((wishes.len() as u32).to_le_bytes());
        text.extend(allowed.to_le_bytes());
        wishes.iter().for_each(|wish| text.extend(wish.to_le_bytes()));
        write_text(&mut self.stream, &text).unwrap();
        let (word, mut strokes) = match share(wishes, allowed) {
            Ok(strokes) => ("ok".to_owned(), strokes),
            Err(number) => (format!("refused {number} 0 0"), Vec::new()),
        };
        strokes.resize(8, 0);
        let told: String = strokes.iter().map(|n| format!(" {n}")).collect();
        writeln!(self.answers, "{word}{told}").unwrap();
    }
}

/// All beats of up to so many drums, with wishes and a supply up to these.
fn all(cases: &mut Cases, drums: usize, most: u32, allowed: u32) {
    let mut beats = vec![Vec::new()];
    for _ in 0..=drums {
        for wishes in &beats {
            (0..=allowed).for_each(|allowed| cases.beat(wishes, allowed));
        }
        let more = |wishes: &Vec<u32>| {
            let wishes = wishes.clone();
            (0..=most).map(move |wish| [&wishes[..], &[wish]].concat())
        };
        beats = beats.iter().flat_map(more).collect();
    }
}

/// A number at an end of the range of wishes, of all numbers, or between.
fn wish(random: &mut Random, over: bool) -> u32 {
    if over && random.once_in(12) {
        return random.pick(&[256, 257, 511, 65_536, u32::MAX - 1, u32::MAX]);
    }
    match random.below(3) {
        0 => random.pick(&[0, 0, 1, 2, 7, 8, 127, 128, 254, 255]),
        1 => random.below(256) as u32,
        _ => random.below(9) as u32,
    }
}

/// A supply around what decides: none, the drums, the wishes, the ends of 32 bits.
fn supply(random: &mut Random, wishes: &[u32]) -> u32 {
    let sum: u64 = wishes.iter().map(|wish| u64::from(*wish)).sum();
    let near = |n: u64, random: &mut Random| (n + random.below(4) as u64).saturating_sub(2) as u32;
    match random.below(6) {
        0 => near(wishes.len() as u64, random),
        1 => near(sum, random),
        2 => near(u64::from(random.pick(&[255, 256, 2040, 65_536, u32::MAX >> 1])), random),
        3 => u32::MAX - random.below(3) as u32,
        _ => random.below(sum as usize % 4096 + wishes.len() + 1) as u32,
    }
}

fn some(cases: &mut Cases, random: &mut Random, count: usize) {
    for _ in 0..count {
        let drums =
            if random.once_in(20) { random.pick(&[0, 9, 10, 63, 64]) } else { 1 + random.below(8) };
        let over = random.once_in(6);
        let wishes: Vec<u32> = (0..drums).map(|_| wish(random, over)).collect();
        let allowed = supply(random, &wishes);
        cases.beat(&wishes, allowed);
    }
}

fn main() {
    let arguments: Vec<String> = std::env::args().skip(1).collect();
    let number = |at: usize| arguments[at].parse::<u64>().expect("a number");
    let mut cases = Cases { stream: Vec::new(), answers: Vec::new() };
    section::begin(&mut cases.stream, "shares", [0; 3]).unwrap();
    if arguments.len() == 3 {
        some(&mut cases, &mut Random::new(number(1)), number(2) as usize);
    } else {
        all(&mut cases, 3, 6, 20);
        some(&mut cases, &mut Random::new(71), 1200);
    }
    section::end(&mut cases.stream).unwrap();
    OpenOptions::new().append(true).open(&arguments[0]).unwrap().write_all(&cases.stream).unwrap();
    io::stdout().write_all(&cases.answers).unwrap();
}
