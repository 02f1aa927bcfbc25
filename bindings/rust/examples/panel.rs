//! A panel: shows a programme's name, and each step's number, name and id. Then it shows the same of a record as a later drum may make it, with
//! kinds that this library does not know: a sequencer refuses that one, a panel does not. `panel examples/noon.yaml`

use drum::{Item, PanelName, PanelStep, Record, Refusal};
use std::process::ExitCode;

// ---- the panel

/// Each call judges the whole record anew, so a panel asks for those steps that it has room for.
fn show(record: &[u8]) -> Result<(), Refusal> {
    let PanelName { name, steps } = drum::panel_name(record)?;
    println!("on a panel: \"{name}\", {steps} steps");
    for number in 1..=steps {
        let PanelStep { name, id } = drum::panel_step(record, number)?;
        println!("step {number}: \"{name}\", id \"{id}\"");
    }
    Ok(())
}

// ---- a record as a later drum may make it

/// A kind that this library does not know.
const LATER: u16 = 999;

fn item(kind: u16, content: &[u8]) -> Vec<u8> {
    [&(content.len() as u32).to_le_bytes()[..], &kind.to_le_bytes(), content].concat()
}

/// A step of a new kind, with a new part behind its own.
fn later_step(step: Item) -> Vec<u8> {
    item(LATER, &[step.content, &item(LATER, b"swing")].concat())
}

/// Of the eight fields two are new, one of them with content that is no item.
fn later_field(place: usize, field: Item) -> Vec<u8> {
    match place {
        5 => item(LATER, b"two towers"),
        8 => item(LATER, &field.items().flat_map(later_step).collect::<Vec<_>>()),
        _ => item(field.kind, field.content),
    }
}

/// Behind the eight fields there is a ninth.
fn later(record: Record) -> Vec<u8> {
    let fields = (1..).zip(record.fields()).flat_map(|(place, field)| later_field(place, field));
    item(16, &fields.chain(item(LATER, b"")).collect::<Vec<_>>())
}

// ---- both records

fn check(record: &[u8]) {
    match drum::check_record(record) {
        Ok(steps) => println!("in a sequencer: {steps} steps"),
        Err(e) => println!("in a sequencer: refused {}, line {}, step {}", e.number, e.line, e.step),
    }
}

fn run(text: &[u8]) -> Result<(), Refusal> {
    let record = drum::read(text)?.record;
    check(&record);
    show(&record)?;

    let later = later(Record::new(&record)?);
    println!("the same of a later drum");
    check(&later);
    show(&later)
}

fn main() -> ExitCode {
    let Some(path) = std::env::args().nth(1) else {
        eprintln!("usage: panel FILE");
        return ExitCode::from(2);
    };
    let text = match std::fs::read(&path) {
        Ok(text) => text,
        Err(e) => {
            eprintln!("{path}: {e}");
            return ExitCode::from(2);
        }
    };
    match run(&text) {
        Ok(()) => ExitCode::SUCCESS,
        Err(e) => {
            println!("refused {}, line {}, step {}", e.number, e.line, e.step);
            ExitCode::FAILURE
        }
    }
}
