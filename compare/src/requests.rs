//! The rules of document 02's requests, for the second copy of `scenario.rs`, into which the build
//! puts calls of them. That copy is no longer the Rust. It answers for the texts that a rule
//! changes, and the unchanged file for all others.

use std::sync::atomic::{AtomicBool, Ordering::Relaxed};

/// Whether a rule has changed something in the text that is being read.
static CHANGED: AtomicBool = AtomicBool::new(false);

pub fn begin() {
    CHANGED.store(false, Relaxed);
}

pub fn changed() -> bool {
    CHANGED.load(Relaxed)
}

/// P4: no integer has a plus, or a zero before its other digits.
pub fn integer(text: &str) -> Result<i64, ()> {
    let digits = text.strip_prefix('-').unwrap_or(text);
    let padded = text.starts_with('+') || digits.len() > 1 && digits.starts_with('0');
    match text.parse() {
        Ok(_) if padded => {
            CHANGED.store(true, Relaxed);
            Err(())
        }
        Ok(number) => Ok(number),
        Err(_) => Err(()),
    }
}

/// P3: the extra spaces of the first of these lines, each with its indentation and its text, in a
/// literal whose first line is indented by `first`. Blank lines directly before a body line that
/// is deeper than that have none.
pub fn extra_spaces<'a>(first: usize, mut lines: impl Iterator<Item = (usize, &'a str)>) -> String {
    let Some((indent, text)) = lines.next() else {
        return String::new();
    };
    let spaces = " ".repeat(indent - first);
    let bare = text.is_empty()
        && lines.find(|(_, text)| !text.is_empty()).is_some_and(|(indent, _)| indent > first);
    if bare && !spaces.is_empty() {
        CHANGED.store(true, Relaxed);
        return String::new();
    }
    spaces
}
