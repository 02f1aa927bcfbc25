//! The child process that reads texts with the Rust, and the parent's side of it. The child answers
//! one line for each text. When it passes its memory cap the text is `endless`, and another child
//! goes on with the next text.

use std::io::{self, BufRead, BufReader, BufWriter, Write};
use std::process::{Child, ChildStdin, Command, Stdio};
use std::sync::mpsc::{Receiver, RecvTimeoutError, channel};
use std::thread;
use std::time::Duration;

use crate::memory;
use crate::reply::{Mode, reply, size};
use crate::requests;
use crate::writing::{read_text, write_text};

/// No text of the lengths in use takes a second; memory runs out far sooner than this.
const PATIENCE: Duration = Duration::from_secs(60);

/// For the deepest nesting that a text of some million bytes can have. Only what is used costs.
const STACK: usize = 1 << 30;

/// The first argument of a child.
pub const CHILD: &str = "--child";

/// What the child says of one text: the answer; if the tree was read, its levels and bytes; and
/// whether a request's rule changed something in the reading.
#[derive(Clone)]
pub struct Answer {
    pub told: String,
    pub size: Option<(usize, usize)>,
    pub changed: bool,
}

/// The Rust and, if the requests of document 02 count, the copy with their rules beside it.
pub struct Asker {
    rust: Reader,
    changed: Option<Reader>,
}

/// A child for one mode, started when first asked.
struct Reader {
    program: &'static str,
    words: Vec<String>,
    running: Option<Running>,
}

struct Running {
    child: Child,
    texts: ChildStdin,
    answers: Receiver<String>,
}

impl Asker {
    pub fn new(mode: &[&str]) -> Asker {
        Asker { rust: Reader::new("answer", mode), changed: None }
    }

    pub fn with_requests(mode: &[&str]) -> Asker {
        Asker { changed: Some(Reader::new("changed", mode)), ..Asker::new(mode) }
    }

    /// An answer for each text: the Rust's, but for a text that a rule changes the copy's. On all
    /// others the two agree, or the copy has more than the rules in it.
    pub fn ask<T: AsRef<[u8]> + Sync>(&mut self, texts: &[T]) -> Vec<Answer> {
        let Asker { rust, changed: Some(changed) } = self else {
            return self.rust.ask(texts);
        };
        let (theirs, copys) = thread::scope(|scope| {
            let theirs = scope.spawn(|| rust.ask(texts));
            let copys = changed.ask(texts);
            (theirs.join().expect("the Rust's answers"), copys)
        });
        theirs
            .into_iter()
            .zip(copys)
            .map(|(rust, changed)| {
                if changed.changed {
                    return changed;
                }
                assert_eq!(rust.told, changed.told, "a text that no rule changes");
                rust
            })
            .collect()
    }
}

impl Reader {
    fn new(program: &'static str, mode: &[&str]) -> Reader {
        let words = mode.iter().map(|word| (*word).to_owned()).collect();
        Reader { program, words, running: None }
    }

    fn ask<T: AsRef<[u8]> + Sync>(&mut self, texts: &[T]) -> Vec<Answer> {
        let mut answers = Vec::with_capacity(texts.len());
        while answers.len() < texts.len() {
            let mut running = match self.running.take() {
                Some(running) => running,
                None => start(self.program, &self.words).expect("a child process"),
            };
            let rest = &texts[answers.len()..];
            let Running { child, texts: to, answers: from } = &mut running;
            let failed = thread::scope(|scope| {
                scope.spawn(|| {
                    // A child that ended reads no more; the others are asked again.
                    let mut to = BufWriter::new(to);
                    let _ = rest
                        .iter()
                        .try_for_each(|text| write_text(&mut to, text.as_ref()))
                        .and_then(|()| to.flush());
                });
                for _ in rest {
                    match from.recv_timeout(PATIENCE) {
                        Ok(line) => answers.push(answer_of(&line)),
                        Err(RecvTimeoutError::Timeout) => {
                            let _ = child.kill();
                            return Some("stalled");
                        }
                        Err(RecvTimeoutError::Disconnected) => return Some("ended"),
                    }
                }
                None
            });
            match failed {
                None => self.running = Some(running),
                Some(word) => {
                    let status = running.child.wait().expect("the child's status");
                    let changed = status.code() == Some(memory::CHANGED_OVER_CAP);
                    let word = match status.code() {
                        Some(memory::OVER_CAP | memory::CHANGED_OVER_CAP) => "endless",
                        _ if word == "stalled" => word,
                        _ => "crashed",
                    };
                    answers.push(Answer { told: word.to_owned(), size: None, changed });
                }
            }
        }
        answers
    }
}

impl Drop for Reader {
    fn drop(&mut self) {
        if let Some(Running { mut child, texts, .. }) = self.running.take() {
            drop(texts);
            let _ = child.wait();
        }
    }
}

/// A program that stands beside this one.
fn start(program: &str, words: &[String]) -> io::Result<Running> {
    let mut child = Command::new(std::env::current_exe()?.with_file_name(program))
        .arg(CHILD)
        .args(words)
        .stdin(Stdio::piped())
        .stdout(Stdio::piped())
        .spawn()?;
    let texts = child.stdin.take().expect("piped");
    let lines = BufReader::new(child.stdout.take().expect("piped")).lines();
    let (sender, answers) = channel();
    thread::spawn(move || {
        for line in lines.map_while(Result::ok) {
            if sender.send(line).is_err() {
                break;
            }
        }
    });
    Ok(Running { child, texts, answers })
}

/// A line of the child: whether a rule changed something, levels, bytes (or two dashes), answer.
fn answer_of(line: &str) -> Answer {
    let mut parts = line.splitn(4, ' ');
    let changed = parts.next() == Some("true");
    let levels = parts.next().unwrap_or("").parse();
    let bytes = parts.next().unwrap_or("").parse();
    let told = parts.next().unwrap_or("crashed").to_owned();
    Answer { told, size: levels.ok().zip(bytes.ok()), changed }
}

/// The child itself. With `sized` it tells the tree's size too.
pub fn run_child(mode: Mode, sized: bool) {
    let work = move || {
        let mut from = BufReader::new(io::stdin());
        let mut to = io::stdout();
        while let Ok(Some(text)) = read_text(&mut from) {
            let line = child_line(&mode, sized, &text);
            memory::allow(usize::MAX);
            if to.write_all(line.as_bytes()).and_then(|()| to.flush()).is_err() {
                return;
            }
        }
    };
    let thread = thread::Builder::new().stack_size(STACK).spawn(work);
    let _ = thread.expect("a thread").join();
}

fn child_line(mode: &Mode, sized: bool, text: &[u8]) -> String {
    let Ok(text) = str::from_utf8(text) else {
        return "false - - no-utf8\n".to_owned();
    };
    memory::allow(memory::enough_for(text));
    requests::begin();
    let reading = || {
        let size = if sized { size(text) } else { None };
        let rust = reply(mode, text);
        let changed = requests::changed();
        match size {
            Some((levels, bytes)) => format!("{changed} {levels} {bytes} {rust}\n"),
            None => format!("{changed} - - {rust}\n"),
        }
    };
    std::panic::catch_unwind(reading).unwrap_or_else(|_| "false - - panicked\n".to_owned())
}
