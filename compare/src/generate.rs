//! Writes a stream of texts. README.md tells the kinds.

mod boundary;
mod keys;
mod mutations;
mod random;
mod scenarios;
mod section;
// Here texts are written only.
#[allow(dead_code)]
mod writing;

use std::io::{self, BufRead, BufWriter, Write};
use std::process::ExitCode;

use random::Random;
use writing::{escape, unescape, write_text};

const USAGE: &str = "\
usage: generate [--show] scenario SEED COUNT
       generate [--show] mutate SEED COUNT
       generate [--show] keys SEED COUNT
       generate [--show] short CHARACTERS LENGTH [SEED COUNT]
       generate [--show] words WORD,WORD.. LENGTH [SEED COUNT]
       generate [--show] boundary
       generate [--show] written < a text in each line, escaped
       generate [--show] names NAME,NAME..
       generate section KIND [NUMBER NUMBER NUMBER]
       generate end";

struct Out {
    to: BufWriter<io::Stdout>,
    show: bool,
}

impl Out {
    fn put(&mut self, text: &[u8]) -> io::Result<()> {
        if self.show {
            writeln!(self.to, "{}", escape(text))
        } else {
            write_text(&mut self.to, text)
        }
    }
}

fn main() -> ExitCode {
    let arguments: Vec<String> = std::env::args().skip(1).collect();
    let mut words: Vec<&str> = arguments.iter().map(String::as_str).collect();
    let show = words.first() == Some(&"--show");
    if show {
        words.remove(0);
    }
    let to = BufWriter::new(io::stdout());
    let mut out = Out { to, show };
    match generate(&words, &mut out).and_then(|()| out.to.flush().map_err(|e| e.to_string())) {
        Ok(()) => ExitCode::SUCCESS,
        Err(error) => {
            eprintln!("{error}\n{USAGE}");
            ExitCode::FAILURE
        }
    }
}

fn generate(words: &[&str], out: &mut Out) -> Result<(), String> {
    match words {
        ["scenario", seed, count] => repeat(seed, count, out, scenarios::scenario),
        ["mutate", seed, count] => repeat(seed, count, out, mutations::mutated),
        ["keys", seed, count] => repeat(seed, count, out, keys::text),
        ["short", characters, length, rest @ ..] => {
            let characters = String::from_utf8(unescape(characters)?).map_err(|e| e.to_string())?;
            let alphabet = characters.chars().map(|c| c.to_string().into_bytes()).collect();
            strings(alphabet, length, rest, out)
        }
        ["words", list, length, rest @ ..] => {
            let alphabet = list.split(',').map(unescape).collect::<Result<_, _>>()?;
            strings(alphabet, length, rest, out)
        }
        ["boundary"] => boundary::boundary()
            .iter()
            .try_for_each(|text| out.put(text))
            .map_err(|error| error.to_string()),
        ["written"] => io::stdin().lock().lines().try_for_each(|line| {
            let line = line.map_err(|error| error.to_string())?;
            out.put(&unescape(&line)?).map_err(|error| error.to_string())
        }),
        ["names", list] => {
            let names = list.split(',').map(unescape).collect::<Result<Vec<_>, _>>()?;
            out.put(&item(4, &names.iter().flat_map(|name| item(3, name)).collect::<Vec<_>>()))
                .map_err(|error| error.to_string())
        }
        ["section", kind] => begin(kind, [0; 3], out),
        ["section", kind, a, b, c] => begin(kind, [number(a)?, number(b)?, number(c)?], out),
        ["end"] => section::end(&mut out.to).map_err(|error| error.to_string()),
        _ => Err(format!("no kind `{}`", words.join(" "))),
    }
}

fn begin(kind: &str, numbers: [u32; 3], out: &mut Out) -> Result<(), String> {
    section::begin(&mut out.to, kind, numbers).map_err(|error| error.to_string())
}

fn item(kind: u16, content: &[u8]) -> Vec<u8> {
    let size = (content.len() as u32).to_le_bytes();
    [&size[..], &kind.to_le_bytes(), content].concat()
}

fn number<T: std::str::FromStr>(word: &str) -> Result<T, String> {
    word.parse().map_err(|_| format!("`{word}` is no number"))
}

fn repeat(
    seed: &str,
    count: &str,
    out: &mut Out,
    text: impl Fn(&mut Random) -> Vec<u8>,
) -> Result<(), String> {
    let mut random = Random::new(number(seed)?);
    for _ in 0..number(count)? {
        out.put(&text(&mut random)).map_err(|error| error.to_string())?;
    }
    Ok(())
}

/// All strings of up to so many letters, or a number of random ones.
fn strings(
    alphabet: Vec<Vec<u8>>,
    length: &str,
    sample: &[&str],
    out: &mut Out,
) -> Result<(), String> {
    let length: usize = number(length)?;
    if let [seed, count] = sample {
        return repeat(seed, count, out, |random| {
            let count = random.below(length + 1);
            (0..count).flat_map(|_| alphabet[random.below(alphabet.len())].clone()).collect()
        });
    }
    for length in 0..=length {
        // The letters' places, counted up like digits.
        let mut places = vec![0; length];
        loop {
            let text: Vec<u8> = places.iter().flat_map(|&at| alphabet[at].clone()).collect();
            out.put(&text).map_err(|error| error.to_string())?;
            let Some(at) = places.iter().rposition(|&at| at + 1 < alphabet.len()) else {
                break;
            };
            places[at] += 1;
            places[at + 1..].fill(0);
        }
    }
    Ok(())
}
