//! Decides by itself what a panel shows of a record: splits into items the record, its eighth item
//! and the items of that one, and nothing else. All of these are of any kind but the first.

use crate::decide::{Item, items, record};

/// Where an item begins and ends in the record.
type Place = (usize, usize);

struct Shown {
    name: Place,
    /// The name and the id of each step.
    steps: Vec<[Place; 2]>,
}

fn label(item: &Item) -> Option<Place> {
    (item.kind == 3 && std::str::from_utf8(item.content).is_ok()).then_some((item.start, item.end))
}

fn labels(step: &Item) -> Option<[Place; 2]> {
    match items(step.content, step.start + 6)?.as_slice() {
        [name, id, ..] => Some([label(name)?, label(id)?]),
        _ => None,
    }
}

fn shown(bytes: &[u8]) -> Option<Shown> {
    let whole = items(bytes, 0)?;
    let [programme] = whole.as_slice() else { return None };
    (programme.kind == 16).then_some(())?;
    let fields = items(programme.content, 6)?;
    let [name, _, _, _, _, _, _, list, ..] = fields.as_slice() else { return None };
    let steps = items(list.content, list.start + 6)?;
    Some(Shown { name: label(name)?, steps: steps.iter().map(labels).collect::<Option<_>>()? })
}

/// Every record that the sequencer's reader accepts is shown, with its name and its count of steps,
/// the name of each where its item begins, and its id.
fn agrees_with_the_check(bytes: &[u8], shown: Option<&Shown>) -> bool {
    let Some(record) = record(bytes) else { return true };
    let Some(Shown { name, steps }) = shown else { return false };
    let text = |(start, end): Place| std::str::from_utf8(&bytes[start + 6..end]);
    *name == record.fields[0]
        && steps.len() == record.steps.len()
        && steps.iter().zip(&record.steps).all(|([name, id], step)| {
            name.0 == step.start + 6 && name.1 == id.0 && text(*id) == Ok(step.id)
        })
}

fn part((start, end): Place) -> String {
    format!(" {start}+{}", end - start)
}

/// What it shows for the name, and for the numbers 0, each up to the count, one more and the
/// largest.
pub fn told(bytes: &[u8]) -> String {
    let shown = shown(bytes);
    assert!(agrees_with_the_check(bytes, shown.as_ref()), "{bytes:?}");
    let Some(Shown { name, steps }) = shown else {
        return " panel !55 !55 !55 !55".to_owned();
    };
    let parts: String = steps.iter().flatten().map(|place| part(*place)).collect();
    format!(" panel{} {} !53{parts} !53 !53", part(name), steps.len())
}
