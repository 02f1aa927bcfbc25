//! Sections of the stream of `crates/replay`: a kind and three numbers, texts, and an end.

use std::io::{self, Write};

/// The kinds, by their numbers. `crates/replay/src/section.rt` says what each is.
const KINDS: [&str; 19] = [
    "items", "headers", "same", "lines", "values", "trees", "least_work", "scenarios",
    "scenario_trees", "scenario_sizes", "records", "long_record", "parts", "scenario_checks",
    "record_checks", "lookups", "shares", "logs", "panels",
];

pub fn begin(out: &mut impl Write, kind: &str, numbers: [u32; 3]) -> io::Result<()> {
    let Some(place) = KINDS.iter().position(|name| *name == kind) else {
        return Err(io::Error::other(format!("no section `{kind}`")));
    };
    out.write_all(&(place as u32).to_le_bytes())?;
    numbers.iter().try_for_each(|number| out.write_all(&number.to_le_bytes()))
}

pub fn end(out: &mut impl Write) -> io::Result<()> {
    out.write_all(&u32::MAX.to_le_bytes())
}
