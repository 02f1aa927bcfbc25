//! What the Rust answers for one text. It may never end; the callers live in a child process.

use crate::item;
use crate::memory;
use crate::messages::{Refusal, refusal_of};
use crate::scenario::{Scenario, Yaml, inside, repeat_times};
use crate::writing::unescape;

/// Longer trees and records aren't written out, only their length is told: document 01 counts at
/// most so many bytes of an output.
pub const LONGEST: usize = 1_048_576;

#[derive(Clone, PartialEq, Eq)]
pub enum Mode {
    Lines,
    KeyEnd,
    Flow,
    Tree,
    Scenario,
    Check(Vec<String>),
    Times,
    Drumread,
    Memory,
}

impl Mode {
    pub fn from_words(words: &[&str]) -> Result<Mode, String> {
        match words {
            ["lines"] => Ok(Mode::Lines),
            ["keyend"] => Ok(Mode::KeyEnd),
            ["flow"] => Ok(Mode::Flow),
            ["tree"] => Ok(Mode::Tree),
            ["scenario"] => Ok(Mode::Scenario),
            ["check"] => Ok(Mode::Check(Vec::new())),
            ["check", names] => names
                .split(',')
                .map(|name| String::from_utf8(unescape(name)?).map_err(|e| e.to_string()))
                .collect::<Result<_, _>>()
                .map(Mode::Check),
            ["times"] => Ok(Mode::Times),
            ["drumread"] => Ok(Mode::Drumread),
            ["memory"] => Ok(Mode::Memory),
            _ => Err(format!("no mode `{}`", words.join(" "))),
        }
    }
}

/// Levels and bytes of a text's tree, if the Rust accepts it: for the limits, which it lacks.
pub fn size(text: &str) -> Option<(usize, usize)> {
    let tree = Yaml::parse(text).ok()?;
    let mut bytes = Vec::new();
    item::tree(&mut bytes, &tree);
    Some((item::levels(&tree), bytes.len()))
}

pub fn reply(mode: &Mode, text: &str) -> String {
    let answer = match mode {
        Mode::Lines => inside::entries(text).map(|entries| {
            let shown = entries.iter().map(|entry| {
                let text = item::hex(entry.text.as_bytes());
                format!("{}:{}:{text}", entry.indent, entry.number)
            });
            with_list("ok", shown)
        }),
        Mode::KeyEnd => Ok(match inside::key_end(text) {
            Some(place) => format!("ok {place}"),
            None => "none".to_owned(),
        }),
        Mode::Flow => inside::flow(text).map(|tree| tree_answer(&tree)),
        Mode::Tree => Yaml::parse(text).map(|tree| tree_answer(&tree)),
        Mode::Scenario => Scenario::parse(text).map(|scenario| scenario_answer(&scenario)),
        Mode::Check(names) => match Scenario::parse(text) {
            Ok(scenario) => return check(scenario, names),
            Err(error) => Err(error),
        },
        Mode::Times => Scenario::parse(text).map(|scenario| {
            let times = scenario.steps.iter().map(|step| match repeat_times(&step.value) {
                Ok(times) => times.to_string(),
                Err(error) => format!("!{}", refusal_of(&error).number),
            });
            with_list("ok", times)
        }),
        Mode::Drumread => Scenario::parse(text).map(|scenario| drumread(text, &scenario)),
        Mode::Memory => {
            let _ = Yaml::parse(text).map(|tree| tree_answer(&tree));
            let _ = Scenario::parse(text).map(|scenario| scenario_answer(&scenario));
            Ok(format!("ok {} of {}", memory::most(), memory::enough_for(text)))
        }
    };
    answer.unwrap_or_else(|error| refused(&refusal_of(&error)))
}

fn with_list(start: &str, items: impl Iterator<Item = String>) -> String {
    let mut line = start.to_owned();
    for item in items {
        line.push(' ');
        line.push_str(&item);
    }
    line
}

pub fn refused(refusal: &Refusal) -> String {
    format!("refused {} {} {}", refusal.number, refusal.line, refusal.step)
}

fn tree_answer(tree: &Yaml) -> String {
    let mut bytes = Vec::new();
    item::tree(&mut bytes, tree);
    bytes_answer(&bytes)
}

fn scenario_answer(scenario: &Scenario) -> String {
    let mut bytes = Vec::new();
    item::scenario(&mut bytes, scenario);
    let lines = scenario.steps.iter().map(|step| step.line.to_string());
    with_list(&(bytes_answer(&bytes) + " lines"), lines)
}

/// What the program drumread prints, with `; ` for its line ends.
fn drumread(text: &str, scenario: &Scenario) -> String {
    let mut record = Vec::new();
    item::scenario(&mut record, scenario);
    let tree = size(text).map_or(0, |(_, bytes)| bytes);
    let mut out = format!("ok {} {tree} {}", record.len(), scenario.steps.len());
    for (place, step) in scenario.steps.iter().enumerate() {
        out += &format!("; step {} {} {}", place + 1, step.line, step.key.len());
    }
    out
}

fn bytes_answer(bytes: &[u8]) -> String {
    if bytes.len() > LONGEST {
        format!("long {}", bytes.len())
    } else {
        format!("ok {}", item::hex(bytes))
    }
}

/// `check_steps`, with two things around it. Document 01 leaves the reading of `ui.expect` out, so
/// such a step's value gives way to one that reads. And 37 names the outer step, which the Rust's
/// message doesn't; steps are checked in order, so it is the first `repeat` without `steps`.
fn check(mut scenario: Scenario, names: &[String]) -> String {
    for step in &mut scenario.steps {
        if step.key == "ui.expect" {
            step.value = readable_expect();
        } else if step.key == "repeat" {
            make_inner_readable(&mut step.value);
        }
    }
    let names: Vec<&str> = names.iter().map(String::as_str).collect();
    match scenario.check_steps(&names) {
        Ok(()) => "ok".to_owned(),
        Err(error) => {
            let mut refusal = refusal_of(&error);
            if refusal.number == 37 {
                refusal.step = 1 + place_without_steps(&scenario).expect("such a step");
            }
            refused(&refusal)
        }
    }
}

fn place_without_steps(scenario: &Scenario) -> Option<usize> {
    scenario.steps.iter().position(|step| step.key == "repeat" && step.value.get("steps").is_none())
}

/// `{absent: [{}]}`
fn readable_expect() -> Yaml {
    let queries = Yaml::Seq(vec![Yaml::Map(Vec::new())]);
    Yaml::Map(vec![("absent".to_owned(), queries)])
}

fn make_inner_readable(repeat: &mut Yaml) {
    let Yaml::Map(entries) = repeat else { return };
    for (key, value) in entries {
        if key == "steps"
            && let Yaml::Seq(steps) = value
        {
            for step in steps {
                let Yaml::Map(entries) = step else { continue };
                for (key, value) in entries {
                    if key == "ui.expect" {
                        *value = readable_expect();
                    }
                }
            }
        }
    }
}
