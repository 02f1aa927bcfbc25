//! Says what the Rust answers for a stream of texts. README.md tells the modes and the stream.

mod ask;
mod cases;
#[path = "stubs/error.rs"]
#[allow(dead_code)]
mod error;
mod item;
mod limits;
#[path = "stubs/matchers.rs"]
#[allow(dead_code)]
mod matchers;
mod memory;
mod messages;
#[path = "stubs/receipt.rs"]
#[allow(dead_code)]
mod receipt;
mod reply;
#[allow(dead_code)]
mod requests;
// The unchanged text with `inside.rs` behind it, put together by the build; or, in the program
// `changed`, the copy that calls the rules of `requests`.
#[cfg_attr(not(changed), path = "../target/scenario.rs")]
#[cfg_attr(changed, path = "../target/changed.rs")]
#[allow(dead_code, unused_variables)]
mod scenario;
mod writing;

use std::io::{self, BufReader, BufWriter, Read, Write};
use std::process::ExitCode;

use ask::{Answer, Asker, CHILD, run_child};
use limits::Limits;
use reply::Mode;

const USAGE: &str = "\
usage: answer [--requests | --paper] [--show | --by] MODE < texts
       answer check-cases FILE ['as stored']
       answer fill-cases FILE
modes: lines keyend flow tree scenario `check NAME,NAME..` times drumread memory";

/// So many texts are held at a time.
const AT_ONCE: usize = 4_096;
const BYTES_AT_ONCE: usize = 1 << 24;

fn main() -> ExitCode {
    let arguments: Vec<String> = std::env::args().skip(1).collect();
    let mut words: Vec<&str> = arguments.iter().map(String::as_str).collect();
    let done = match words[..] {
        [CHILD, "--sized", ref mode @ ..] => {
            Mode::from_words(mode).map(|mode| run_child(mode, true))
        }
        [CHILD, ref mode @ ..] => Mode::from_words(mode).map(|mode| run_child(mode, false)),
        ["check-cases", file] => cases::check(file, "as stored"),
        ["check-cases", file, as_told] => cases::check(file, as_told),
        ["fill-cases", file] => cases::fill(file),
        _ => {
            let given = Given {
                paper: take(&mut words, "--paper"),
                requests: take(&mut words, "--requests"),
                show: take(&mut words, "--show"),
                by: take(&mut words, "--by"),
            };
            Answerer::new(&words, &given)
                .and_then(|mut answerer| answer_stream(&mut answerer).map_err(|e| e.to_string()))
                .map_err(|error| format!("{error}\n{USAGE}"))
        }
    };
    match done {
        Ok(()) => ExitCode::SUCCESS,
        Err(error) => {
            eprintln!("{error}");
            ExitCode::FAILURE
        }
    }
}

fn take(words: &mut Vec<&str>, option: &str) -> bool {
    let before = words.len();
    words.retain(|word| *word != option);
    words.len() < before
}

/// The options.
#[derive(Default)]
struct Given {
    paper: bool,
    requests: bool,
    show: bool,
    by: bool,
}

/// Answers texts in one mode.
struct Answerer {
    mode: Mode,
    asker: Asker,
    limits: Option<Limits>,
    show: bool,
    by: bool,
}

impl Answerer {
    fn new(words: &[&str], given: &Given) -> Result<Answerer, String> {
        let mode = Mode::from_words(words)?;
        let sized: &[&str] = if given.paper { &["--sized"] } else { &[] };
        let words = [sized, words].concat();
        let requests = given.paper || given.requests || given.by;
        Ok(Answerer {
            mode,
            asker: if requests { Asker::with_requests(&words) } else { Asker::new(&words) },
            limits: given.paper.then(Limits::new),
            show: given.show,
            by: given.by,
        })
    }

    fn answer(&mut self, texts: &[Vec<u8>]) -> Vec<String> {
        let answers = self.asker.ask(texts);
        texts.iter().zip(answers).map(|(text, answer)| self.finish(text, answer)).collect()
    }

    fn finish(&mut self, text: &[u8], answer: Answer) -> String {
        if self.by {
            return if answer.changed { "changed" } else { "rust" }.to_owned();
        }
        let line = match &mut self.limits {
            Some(limits) => limits.paper(&self.mode, text, &answer),
            None => answer.told,
        };
        if self.show { self.shown(&line) } else { line }
    }

    /// With the items and texts written for the eye.
    fn shown(&self, line: &str) -> String {
        let Some(rest) = line.strip_prefix("ok ") else {
            return line.to_owned();
        };
        let items = |hex: &str| item::show(&item::unhex(hex));
        match self.mode {
            Mode::Flow | Mode::Tree => format!("ok {}", items(rest)),
            Mode::Scenario => match rest.split_once(' ') {
                Some((hex, lines)) => format!("ok {} {lines}", items(hex)),
                None => line.to_owned(),
            },
            Mode::Lines => rest.split(' ').fold("ok".to_owned(), |out, entry| {
                let (place, hex) = entry.rsplit_once(':').expect("indent:number:text");
                format!("{out} {place}:\"{}\"", writing::escape(&item::unhex(hex)))
            }),
            _ => line.to_owned(),
        }
    }
}

fn answer_stream(answerer: &mut Answerer) -> io::Result<()> {
    let mut from = BufReader::new(io::stdin());
    let mut to = BufWriter::new(io::stdout());
    loop {
        let texts = some_texts(&mut from)?;
        if texts.is_empty() {
            return to.flush();
        }
        for line in answerer.answer(&texts) {
            writeln!(to, "{line}")?;
        }
    }
}

fn some_texts(from: &mut impl Read) -> io::Result<Vec<Vec<u8>>> {
    let mut texts = Vec::new();
    let mut bytes = 0;
    while texts.len() < AT_ONCE && bytes < BYTES_AT_ONCE {
        let Some(text) = writing::read_text(from)? else {
            break;
        };
        bytes += text.len();
        texts.push(text);
    }
    Ok(texts)
}
