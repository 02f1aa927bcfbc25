//! Reads a programme, prints its steps, and looks some up by their ids: `steps examples/noon.yaml hour`. With `--words` it prints the words
//! of each refusal.

use drum::{Record, Step};
use std::process::ExitCode;

fn shown(step: Step) -> String {
    if step.id.is_empty() {
        return step.command.to_owned();
    }
    format!("{} ({})", step.command, step.id)
}

fn run(text: &[u8], ids: &[String]) -> Result<(), drum::Refusal> {
    let programme = drum::read(text)?;
    let record = Record::new(&programme.record)?;
    println!("a record of {} bytes, {} steps", record.bytes().len(), record.len());
    for (i, (step, line)) in record.steps().zip(&programme.lines).enumerate() {
        println!("step {}, line {line}: {}", i + 1, shown(step));
    }
    for id in ids {
        match drum::step_by_id(record.bytes(), id)? {
            Some(item) => {
                let step = Step::of(item).map(shown).unwrap_or_default();
                println!("id {id}: {step}, {} bytes", item.content.len() + 6);
            }
            None => println!("id {id}: no step"),
        }
    }
    Ok(())
}

fn main() -> ExitCode {
    let arguments: Vec<String> = std::env::args().skip(1).collect();
    match &arguments[..] {
        [flag] if flag == "--words" => {
            (1..=65).filter(|n| drum::words(*n) != "refused").for_each(|n| println!("{n}\t{}", drum::words(n)));
            ExitCode::SUCCESS
        }
        [path, ids @ ..] => match std::fs::read(path) {
            Err(e) => {
                eprintln!("{path}: {e}");
                ExitCode::from(2)
            }
            Ok(text) => match run(&text, ids) {
                Ok(()) => ExitCode::SUCCESS,
                Err(e) => {
                    println!("refused {}, line {}, step {}", e.number, e.line, e.step);
                    eprintln!("{path}: {e}");
                    ExitCode::FAILURE
                }
            },
        },
        _ => {
            eprintln!("usage: steps FILE ID..");
            ExitCode::from(2)
        }
    }
}
