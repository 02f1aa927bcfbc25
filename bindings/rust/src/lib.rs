//! The drum reader for Rust: safe functions over the static library of crate `drum_c`, whose functions are proved. The buffers are the
//! caller's, nothing is kept between calls, and all may be called on several threads.
//!
//! `read` needs no buffers of the caller, and `check_steps` makes the list of names; the other functions allocate nothing.

use std::error::Error;
use std::fmt;
use std::ops::Range;

mod item;
mod raw;
mod record;
mod words;

pub use item::{Entries, Item, Items, Value};
use raw::ask;
pub use record::{Record, Step};
pub use words::words;

/// A text may have so many bytes; a longer one is refused (1).
pub const TEXT_MAX: usize = 65_535;
/// So much of each output is enough for any text.
pub const WORK_MAX: usize = 1_048_576;
pub const RECORD_MAX: usize = 1_048_576;
pub const LINES_MAX: usize = 16_384;
/// The most drums on one supply.
pub const DRUMS: usize = 8;
/// The most times of a log; a list of so many is enough for any two logs.
pub const TIMES: usize = 4_096;

/// Why a text, a record, a beat or a log is refused. Lines and steps count from 1, and are 0 where none is named.
#[derive(Clone, Copy, Debug, PartialEq, Eq)]
pub struct Refusal {
    pub number: u32,
    pub line: u32,
    pub step: u32,
}

impl fmt::Display for Refusal {
    fn fmt(&self, f: &mut fmt::Formatter<'_>) -> fmt::Result {
        if self.line > 0 {
            write!(f, "line {}: ", self.line)?;
        }
        write!(f, "{} {}", self.number, words(self.number))?;
        if self.step > 0 {
            write!(f, " (step {})", self.step)?;
        }
        Ok(())
    }
}

impl Error for Refusal {}

/// How much a reading wrote, and how many steps there are.
#[derive(Clone, Copy, Debug, PartialEq, Eq)]
pub struct Read {
    pub tree_bytes: usize,
    pub record_bytes: usize,
    pub line_bytes: usize,
    pub steps: usize,
}

/// A programme that was read: its record, and the line of each step (0 for one that has none of its own).
#[derive(Clone, Debug, PartialEq, Eq)]
pub struct Programme {
    pub record: Vec<u8>,
    pub lines: Vec<u32>,
}

/// What a panel shows of a programme.
#[derive(Clone, Copy, Debug, PartialEq, Eq)]
pub struct PanelName<'a> {
    pub name: &'a str,
    pub steps: usize,
}

/// What a panel shows of a step. Either is empty if there is none.
#[derive(Clone, Copy, Debug, PartialEq, Eq)]
pub struct PanelStep<'a> {
    pub name: &'a str,
    pub id: &'a str,
}

/// How many pairs two logs have, and how many of each are alone.
#[derive(Clone, Copy, Debug, PartialEq, Eq)]
pub struct Paired {
    pub pairs: usize,
    pub lone_hammers: usize,
    pub lone_sounds: usize,
}

/// Reads the tree of a text into `work`, and gives its bytes.
pub fn read_tree(text: &[u8], work: &mut [u8]) -> Result<usize, Refusal> {
    let told = ask(|answer, places| unsafe {
        raw::drum_read_tree(text.as_ptr(), text.len(), work.as_mut_ptr(), work.len(), answer, places)
    });
    Ok(numbers(told)?[0])
}

/// Reads a programme: its tree into `work`, its record into `record`, the lines of its steps into `lines`. A refusal leaves zeros in all.
pub fn read_scenario(text: &[u8], work: &mut [u8], record: &mut [u8], lines: &mut [u32]) -> Result<Read, Refusal> {
    let told = ask(|answer, places| unsafe {
        raw::drum_read_scenario(
            text.as_ptr(), text.len(), work.as_mut_ptr(), work.len(), record.as_mut_ptr(), record.len(),
            lines.as_mut_ptr(), lines.len(), answer, places,
        )
    });
    let [tree_bytes, record_bytes, line_bytes, steps] = numbers(told)?;
    Ok(Read { tree_bytes, record_bytes, line_bytes, steps })
}

/// Reads a programme with buffers that are enough for any.
pub fn read(text: &[u8]) -> Result<Programme, Refusal> {
    let mut record = vec![0; RECORD_MAX];
    let mut lines = vec![0; LINES_MAX];
    let read = read_scenario(text, &mut vec![0; WORK_MAX], &mut record, &mut lines)?;
    record.truncate(read.record_bytes);
    lines.truncate(read.steps);
    Ok(Programme { record, lines })
}

/// Whether bytes are a record; gives the number of its steps.
pub fn check_record(record: &[u8]) -> Result<usize, Refusal> {
    let told = ask(|answer, places| unsafe { raw::drum_check_record(record.as_ptr(), record.len(), answer, places) });
    Ok(numbers(told)?[0])
}

/// Whether the commands of a record are built in or among the names, and whether each `repeat` holds steps; gives the number of steps. Refusals
/// name the lines of the steps that are lent.
pub fn check_steps(record: &[u8], lines: &[u32], names: &[&str]) -> Result<usize, Refusal> {
    let names = name_list(names);
    let told = ask(|answer, places| unsafe {
        raw::drum_check_steps(
            record.as_ptr(), record.len(), lines.as_ptr(), lines.len(), names.as_ptr(), names.len(), answer, places,
        )
    });
    Ok(numbers(told)?[0])
}

/// The item of the field at a place, from 1 to 8.
pub fn field(record: &[u8], place: usize) -> Result<Item<'_>, Refusal> {
    let told = ask(|answer, places| unsafe { raw::drum_field(record.as_ptr(), record.len(), place, answer, places) });
    found(record, told)?.ok_or(OUT_OF_RANGE)
}

/// The item of the step with this number, from 1 on.
pub fn step(record: &[u8], number: usize) -> Result<Item<'_>, Refusal> {
    let told = ask(|answer, places| unsafe { raw::drum_step(record.as_ptr(), record.len(), number, answer, places) });
    found(record, told)?.ok_or(OUT_OF_RANGE)
}

/// The item of the first step with this id; no step has an empty one.
pub fn step_by_id<'a>(record: &'a [u8], id: &str) -> Result<Option<Item<'a>>, Refusal> {
    let told = ask(|answer, places| unsafe {
        raw::drum_step_by_id(record.as_ptr(), record.len(), id.as_ptr(), id.len(), answer, places)
    });
    found(record, told)
}

/// The item of the value beside a key, in the mapping beside the command of the step with this number.
pub fn value_by_key<'a>(record: &'a [u8], number: usize, key: &str) -> Result<Option<Item<'a>>, Refusal> {
    let told = ask(|answer, places| unsafe {
        raw::drum_value_by_key(record.as_ptr(), record.len(), number, key.as_ptr(), key.len(), answer, places)
    });
    found(record, told)
}

/// How often the step with this number is repeated.
pub fn times(record: &[u8], number: usize) -> Result<u32, Refusal> {
    let told = ask(|answer, places| unsafe { raw::drum_times(record.as_ptr(), record.len(), number, answer, places) });
    Ok(numbers(told)?[0] as u32)
}

/// The programme's name and how many steps there are, as a panel shows them; a record may have kinds that are not known here.
pub fn panel_name(record: &[u8]) -> Result<PanelName<'_>, Refusal> {
    let told = ask(|answer, places| unsafe { raw::drum_panel_name(record.as_ptr(), record.len(), answer, places) });
    let [start, end, steps, _] = numbers(told)?;
    Ok(PanelName { name: label(record, start..end)?, steps })
}

/// The name and the id of the step with this number, from 1 on, as a panel shows them.
pub fn panel_step(record: &[u8], number: usize) -> Result<PanelStep<'_>, Refusal> {
    let told = ask(|answer, places| unsafe { raw::drum_panel_step(record.as_ptr(), record.len(), number, answer, places) });
    let [name_start, name_end, id_start, id_end] = numbers(told)?;
    Ok(PanelStep { name: label(record, name_start..name_end)?, id: label(record, id_start..id_end)? })
}

/// What each of up to eight drums on one supply gets in a beat, by what each wishes, up to 255, and what the supply allows; 0 for a drum that
/// is not there.
pub fn share(wishes: &[u32], allowed: u32) -> Result<[u32; DRUMS], Refusal> {
    let mut strokes = [0; DRUMS];
    let told = ask(|answer, places| unsafe {
        raw::drum_share(wishes.as_ptr(), wishes.len(), allowed, strokes.as_mut_ptr(), answer, places)
    });
    numbers(told)?;
    Ok(strokes)
}

/// Pairs the hammers of a log with the sounds of another, by their times in milliseconds, at most 40 apart: the positions of each pair, the
/// hammer's and the sound's, into `pairs`, those of the others into `lone_hammers` and `lone_sounds`. A refusal leaves zeros in all.
pub fn pair_logs(
    hammers: &[u32], sounds: &[u32], pairs: &mut [[u32; 2]], lone_hammers: &mut [u32], lone_sounds: &mut [u32],
) -> Result<Paired, Refusal> {
    let told = ask(|answer, places| unsafe {
        raw::drum_pair_logs(
            hammers.as_ptr(), hammers.len(), sounds.as_ptr(), sounds.len(), pairs.as_mut_ptr().cast(), 2 * pairs.len(),
            lone_hammers.as_mut_ptr(), lone_hammers.len(), lone_sounds.as_mut_ptr(), lone_sounds.len(), answer, places,
        )
    });
    let [pairs, lone_hammers, lone_sounds, _] = numbers(told)?;
    Ok(Paired { pairs, lone_hammers, lone_sounds })
}

const OUT_OF_RANGE: Refusal = Refusal { number: 53, line: 0, step: 0 };
const NOT_FOR_PANEL: Refusal = Refusal { number: 55, line: 0, step: 0 };

type Told = Result<Option<[usize; raw::ANSWER - 1]>, Refusal>;

/// The numbers of a job that never answers nothing.
fn numbers(told: Told) -> Result<[usize; raw::ANSWER - 1], Refusal> {
    Ok(told?.unwrap_or_default())
}

fn found(record: &[u8], told: Told) -> Result<Option<Item<'_>>, Refusal> {
    let Some([start, end, ..]) = told? else { return Ok(None) };
    Ok(item_at(record, start..end))
}

fn item_at(record: &[u8], place: Range<usize>) -> Option<Item<'_>> {
    Items::of(record.get(place)?).next()
}

/// A text that a panel shows.
fn label(record: &[u8], place: Range<usize>) -> Result<&str, Refusal> {
    item_at(record, place).and_then(Item::text).ok_or(NOT_FOR_PANEL)
}

/// A list of command names as an item: a sequence of strings.
fn name_list(names: &[&str]) -> Vec<u8> {
    let items: Vec<u8> = names.iter().flat_map(|name| item(3, name.as_bytes())).collect();
    item(4, &items)
}

fn item(kind: u16, content: &[u8]) -> Vec<u8> {
    [&(content.len() as u32).to_le_bytes()[..], &kind.to_le_bytes(), content].concat()
}
