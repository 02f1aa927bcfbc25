//! Writes the section of hammer logs and microphone logs into the stream of `crates/replay`, behind
//! what the file named by the first argument has, and prints what must be printed of it. With a
//! seed and a count behind the file, so many random logs instead of the stored ones.
//!
//! The three lists are decided by the words of document 02, P12. Beside that a largest pairing under
//! its two rules is sought by augmenting paths, among all that lie near each other and in any order;
//! it must have as many pairs.

use std::fs::OpenOptions;
use std::io::{self, Write};
use std::mem::replace;
use std::ops::Range;

#[allow(dead_code)]
mod random;
mod section;
#[allow(dead_code)]
mod writing;

use random::Random;
use writing::write_text;

const MOST_TIMES: usize = 4096;
const MOST_APART: u32 = 40;
/// The most places of a list that the stream may ask for; no list needs so many.
const PLACES: usize = 8256;
const TOP: u32 = u32::MAX;

/// The pairs, two numbers each, the lone hammers and the lone sounds.
type Lists = [Vec<usize>; 3];

/// The first unplaced of each log are a pair if they lie near, else the earlier is alone.
fn place(hammers: &[u32], sounds: &[u32]) -> Lists {
    let [mut pairs, mut lone_hammers, mut lone_sounds] = Lists::default();
    let (mut i, mut j) = (0, 0);
    while i < hammers.len() || j < sounds.len() {
        match (hammers.get(i), sounds.get(j)) {
            (Some(hammer), Some(sound)) if hammer.abs_diff(*sound) <= MOST_APART => {
                pairs.extend([i, j]);
                i += 1;
                j += 1;
            }
            (Some(hammer), sound) if sound.is_none_or(|sound| hammer < sound) => {
                lone_hammers.push(i);
                i += 1;
            }
            _ => {
                lone_sounds.push(j);
                j += 1;
            }
        }
    }
    [pairs, lone_hammers, lone_sounds]
}

/// A pairing that grows: the sounds near each hammer, the hammer of each sound, and the sounds from
/// which no free one is reached since it last grew.
struct Growing {
    near: Vec<Range<usize>>,
    hammer_of: Vec<Option<usize>>,
    spent: Vec<bool>,
}

impl Growing {
    /// Finds a sound for this hammer, where other hammers may change theirs.
    fn grow(&mut self, hammer: usize) -> bool {
        let near = self.near[hammer].clone();
        if let Some(sound) = near.clone().find(|sound| self.hammer_of[*sound].is_none()) {
            self.hammer_of[sound] = Some(hammer);
            return true;
        }
        for sound in near {
            let other = self.hammer_of[sound].expect("no sound here is free");
            if !replace(&mut self.spent[sound], true) && self.grow(other) {
                self.hammer_of[sound] = Some(hammer);
                return true;
            }
        }
        false
    }
}

/// How many pairs a largest pairing has. The last hammers choose first.
fn most_pairs(hammers: &[u32], sounds: &[u32]) -> usize {
    let near = |hammer: &u32| {
        let start = sounds.partition_point(|sound| *sound < hammer.saturating_sub(MOST_APART));
        start..sounds.partition_point(|sound| *sound <= hammer.saturating_add(MOST_APART))
    };
    let mut growing = Growing {
        near: hammers.iter().map(near).collect(),
        hammer_of: vec![None; sounds.len()],
        spent: vec![false; sounds.len()],
    };
    for hammer in (0..hammers.len()).rev() {
        if growing.grow(hammer) {
            growing.spent.fill(false);
        }
    }
    growing.hammer_of.iter().flatten().count()
}

/// The refusal's number, or the lists; of each list so many places are lent.
fn pair_logs(hammers: &[u32], sounds: &[u32], lent: [usize; 3]) -> Result<Lists, u32> {
    let logs = [hammers, sounds];
    if logs.iter().any(|log| log.len() > MOST_TIMES) {
        return Err(64);
    }
    if logs.iter().any(|log| log.windows(2).any(|times| times[1] < times[0])) {
        return Err(63);
    }
    let lists = place(hammers, sounds);
    let pairs = lists[0].len() / 2;
    assert_eq!(pairs + lists[1].len(), hammers.len());
    assert_eq!(pairs + lists[2].len(), sounds.len());
    assert_eq!(pairs, most_pairs(hammers, sounds), "{hammers:?} {sounds:?}");
    if lists.iter().zip(lent).any(|(list, lent)| list.len() > lent) {
        return Err(65);
    }
    Ok(lists)
}

/// Places of the three lists that are just enough; of logs that are refused, those of their walk.
fn enough(hammers: &[u32], sounds: &[u32]) -> [usize; 3] {
    place(hammers, sounds).map(|list| list.len())
}

/// Exactly enough, more, or one place less of a list, in turn.
fn in_turn(enough: [usize; 3], turn: usize) -> [usize; 3] {
    let mut lent = enough;
    match turn % 5 {
        0 => {}
        1 => lent = [0, 1, 2].map(|list| enough[list] + 1 + (turn + list) % 3),
        list => lent[list - 2] = enough[list - 2].saturating_sub(1),
    }
    lent
}

struct Cases {
    stream: Vec<u8>,
    answers: Vec<u8>,
    turn: usize,
}

impl Cases {
    fn logs(&mut self, hammers: &[u32], sounds: &[u32], lent: [usize; 3]) {
        let sizes = [hammers.len(), sounds.len(), lent[0], lent[1], lent[2]].map(|n| n as u32);
        let numbers = sizes.iter().chain(hammers).chain(sounds);
        let text: Vec<u8> = numbers.flat_map(|n| n.to_le_bytes()).collect();
        write_text(&mut self.stream, &text).unwrap();
        let told = match pair_logs(hammers, sounds, lent) {
            Ok([pairs, hammers, sounds]) => {
                let counts = [pairs.len() / 2, hammers.len(), sounds.len()];
                let lists = [&counts[..], &pairs, &hammers, &sounds].map(spaced);
                format!("ok{}", lists.join(" |"))
            }
            Err(number) => format!("refused {number} 0 0"),
        };
        writeln!(self.answers, "{told}").unwrap();
    }

    fn next(&mut self, hammers: &[u32], sounds: &[u32]) {
        self.logs(hammers, sounds, in_turn(enough(hammers, sounds), self.turn));
        self.turn += 1;
    }
}

fn spaced(numbers: &[usize]) -> String {
    numbers.iter().map(|n| format!(" {n}")).collect()
}

/// All logs of up to so many of these times, in any order.
fn logs_of(times: &[u32], most: usize) -> Vec<Vec<u32>> {
    let mut logs = vec![Vec::new()];
    let mut last = logs.clone();
    for _ in 0..most {
        last = last
            .iter()
            .flat_map(|log| times.iter().map(move |time| [&log[..], &[*time]].concat()))
            .collect();
        logs.extend(last.clone());
    }
    logs
}

/// Logs of up to three times; where a time falls, one of the two has at most two.
fn all(cases: &mut Cases) {
    let logs = logs_of(&[0, 40, 41, 80], 3);
    for hammers in &logs {
        for sounds in &logs {
            let rise = hammers.is_sorted() && sounds.is_sorted();
            if rise || hammers.len() + sounds.len() < 6 {
                cases.next(hammers, sounds);
            }
        }
    }
}

/// Logs at the ends of 32 bits, and refusals beside others.
fn edges(cases: &mut Cases) {
    let logs: [(&[u32], &[u32]); 12] = [
        (&[0], &[TOP]),
        (&[TOP], &[0]),
        (&[0, TOP], &[0, TOP]),
        (&[0, 20, TOP], &[TOP - 41, TOP - 40]),
        (&[TOP - 40, TOP], &[TOP, TOP]),
        (&[TOP - 41], &[TOP]),
        (&[TOP - 20], &[0, 19, TOP]),
        (&[1 << 31], &[(1 << 31) - 40, (1 << 31) + 40]),
        (&[20], &[0, 39, 60]),
        (&[0, 40, 80, 120], &[40, 80, 120, 160]),
        (&[100, 0], &[0, 100]),
        (&[0, 0, 0], &[TOP, TOP - 1]),
    ];
    for (hammers, sounds) in logs {
        let enough = enough(hammers, sounds);
        (0..5).for_each(|turn| cases.logs(hammers, sounds, in_turn(enough, turn)));
        cases.logs(hammers, sounds, [0; 3]);
        cases.logs(hammers, sounds, [PLACES; 3]);
    }
}

/// Logs as long as may be, and longer ones.
fn long(cases: &mut Cases, random: &mut Random) {
    let over: Vec<u32> = (0..=MOST_TIMES as u32).collect();
    cases.logs(&over, &[], [0, over.len(), 0]);
    cases.logs(&[3, 2], &over, [PLACES; 3]);
    cases.logs(&[], &over, [0; 3]);
    let mut falling = over;
    falling[MOST_TIMES] = 0;
    cases.logs(&falling, &[], [0; 3]);
    cases.logs(&[9], &falling[1..], [0; 3]);
    let full = &falling[..MOST_TIMES];
    cases.logs(full, full, [2 * MOST_TIMES - 1, 0, 0]);
    cases.logs(&[], full, [0, 0, MOST_TIMES]);
    let [hammers, sounds] = [(); 2].map(|()| rising(random, MOST_TIMES, 0));
    cases.logs(&hammers, &sounds, enough(&hammers, &sounds));
}

/// Times that rise by a few steps, up to the top of 32 bits at most.
fn rising(random: &mut Random, count: usize, start: u32) -> Vec<u32> {
    let steps: &[u32] = random.pick(&[
        &[0, 0, 1, 40][..],
        &[0, 1, 39, 40, 41],
        &[20, 40, 41, 80, 81],
        &[0, 7, 30, 100, 1000],
    ]);
    let mut times = Vec::new();
    let mut time = start;
    for _ in 0..count {
        times.push(time);
        time = time.saturating_add(random.pick(steps));
    }
    times
}

/// What is heard of these hammers: most of them somewhat later or earlier, and something else.
fn heard(random: &mut Random, hammers: &[u32]) -> Vec<u32> {
    let mut sounds = Vec::new();
    for hammer in hammers {
        let time = hammer.saturating_add(random.pick(&[0, 1, 25, 39, 40, 41, 60]));
        match random.below(8) {
            0 => {}
            1 => sounds.extend([time, time.saturating_sub(80)]),
            _ => sounds.push(time),
        }
    }
    sounds.sort();
    sounds
}

/// Somewhere a time is one below the one before it.
fn let_fall(random: &mut Random, log: &mut [u32]) {
    if log.len() > 1 {
        let at = 1 + random.below(log.len() - 1);
        log[at] = log[at - 1].saturating_sub(1);
    }
}

fn lend(random: &mut Random, enough: [usize; 3]) -> [usize; 3] {
    match random.below(8) {
        0..4 => enough,
        4 => in_turn(enough, random.below(15)),
        5 => enough.map(|n| random.pick(&[0, n.saturating_sub(1), n, n + 1, 2 * n])),
        6 => [0; 3],
        _ => [PLACES; 3],
    }
    .map(|n| n.min(PLACES))
}

/// Up to this, often the last two.
fn count_to(random: &mut Random, most: usize) -> usize {
    if random.once_in(4) { most - random.below(2) } else { random.below(most + 1) }
}

fn one(cases: &mut Cases, random: &mut Random, most: usize) {
    let [count, other_count] = [(); 2].map(|()| count_to(random, most));
    let starts = [0, 0, 1, 40, 1 << 31, TOP - 200, TOP - 41, TOP];
    let [start, other_start] = [(); 2].map(|()| random.pick(&starts));
    let mut hammers = rising(random, count, start);
    let mut sounds = match random.below(4) {
        0 => rising(random, other_count, start),
        1 => rising(random, other_count, other_start),
        _ => heard(random, &hammers),
    };
    match random.below(20) {
        0 => let_fall(random, &mut hammers),
        1 => let_fall(random, &mut sounds),
        _ => {}
    }
    let lent = lend(random, enough(&hammers, &sounds));
    cases.logs(&hammers, &sounds, lent);
}

fn main() {
    let arguments: Vec<String> = std::env::args().skip(1).collect();
    let number = |at: usize| arguments[at].parse::<u64>().expect("a number");
    let mut cases = Cases { stream: Vec::new(), answers: Vec::new(), turn: 0 };
    section::begin(&mut cases.stream, "logs", [0; 3]).unwrap();
    if arguments.len() == 3 {
        let mut random = Random::new(number(1));
        for _ in 0..number(2) {
            let most = if random.once_in(1000) { MOST_TIMES + 1 } else { 40 };
            one(&mut cases, &mut random, most);
        }
    } else {
        let mut random = Random::new(72);
        all(&mut cases);
        edges(&mut cases);
        long(&mut cases, &mut random);
        (0..1500).for_each(|_| one(&mut cases, &mut random, 9));
    }
    section::end(&mut cases.stream).unwrap();
    OpenOptions::new().append(true).open(&arguments[0]).unwrap().write_all(&cases.stream).unwrap();
    io::stdout().write_all(&cases.answers).unwrap();
}
