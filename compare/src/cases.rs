//! Files of stored cases: mode, text and answer in a line, with tabs between them; lines that are
//! empty or start with `#` say something to the reader. Answers are those of `--paper --show`. What
//! stands behind the answer isn't judged here.

use std::collections::HashMap;
use std::fs;

use crate::writing::unescape;
use crate::{Answerer, Given};

struct Case {
    mode: String,
    text: String,
    answer: String,
    /// With its tab; mostly empty.
    more: String,
}

enum Line {
    Case(Case),
    Other(String),
}

fn read(file: &str) -> Result<Vec<Line>, String> {
    let content = fs::read_to_string(file).map_err(|error| format!("{file}: {error}"))?;
    content
        .lines()
        .map(|line| {
            if line.is_empty() || line.starts_with('#') {
                return Ok(Line::Other(line.to_owned()));
            }
            let parts: Vec<&str> = line.splitn(4, '\t').collect();
            let [mode, text, rest @ ..] = &parts[..] else {
                return Err(format!("{file}: no tab in `{line}`"));
            };
            Ok(Line::Case(Case {
                mode: (*mode).to_owned(),
                text: (*text).to_owned(),
                answer: rest.first().map_or(String::new(), |answer| (*answer).to_owned()),
                more: rest.get(1).map_or(String::new(), |more| format!("\t{more}")),
            }))
        })
        .collect()
}

/// Each case's answer, in order.
fn answers(lines: &[Line]) -> Result<Vec<String>, String> {
    let mut answerers: HashMap<String, Answerer> = HashMap::new();
    let mut found = Vec::new();
    for line in lines {
        let Line::Case(case) = line else { continue };
        let text = unescape(&case.text)?;
        if !answerers.contains_key(&case.mode) {
            let words: Vec<&str> = case.mode.split(' ').collect();
            answerers.insert(
                case.mode.clone(),
                Answerer::new(&words, &Given { paper: true, show: true, ..Given::default() })?,
            );
        }
        let answerer = answerers.get_mut(&case.mode).expect("just put there");
        found.extend(answerer.answer(&[text]));
    }
    Ok(found)
}

/// Says how many cases are answered as the file has it, and which aren't. `as_told` is the word for
/// where the stored answers come from.
pub fn check(file: &str, as_told: &str) -> Result<(), String> {
    let lines = read(file)?;
    let found = answers(&lines)?;
    let cases = lines.iter().filter_map(|line| match line {
        Line::Case(case) => Some(case),
        Line::Other(_) => None,
    });
    let mut good = 0;
    for (case, found) in cases.zip(&found) {
        if case.answer == *found {
            good += 1;
        } else {
            println!("{file}: {} {}", case.mode, case.text);
            println!("  stored: {}\n  found:  {found}", case.answer);
        }
    }
    println!("{file}: {good} of {} {as_told}", found.len());
    if good == found.len() { Ok(()) } else { Err(format!("{file}: not all {as_told}")) }
}

/// Prints a file with the answers as they are found.
pub fn fill(file: &str) -> Result<(), String> {
    let lines = read(file)?;
    let mut found = answers(&lines)?.into_iter();
    for line in &lines {
        match line {
            Line::Other(line) => println!("{line}"),
            Line::Case(case) => {
                let answer = found.next().expect("an answer for each case");
                println!("{}\t{}\t{answer}{}", case.mode, case.text, case.more);
            }
        }
    }
    Ok(())
}
