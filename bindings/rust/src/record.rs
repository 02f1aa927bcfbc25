//! A record that was checked, and its steps.

use crate::{check_record, field, step_by_id, times, value_by_key, Item, Items, Refusal};

/// Bytes that are a record.
#[derive(Clone, Copy, Debug, PartialEq, Eq)]
pub struct Record<'a> {
    bytes: &'a [u8],
    steps: usize,
}

/// A step of a record.
#[derive(Clone, Copy, Debug, PartialEq, Eq)]
pub struct Step<'a> {
    pub name: &'a str,
    /// Empty if there is none.
    pub id: &'a str,
    pub command: &'a str,
    pub value: Item<'a>,
    pub timeout: Option<&'a str>,
    pub continue_on_error: bool,
    /// A mapping, if there is one.
    pub expect: Option<Item<'a>>,
}

impl<'a> Step<'a> {
    /// A step from its item.
    pub fn of(item: Item<'a>) -> Option<Step<'a>> {
        if item.kind != 19 {
            return None;
        }
        let mut parts = item.items();
        let mut next = || parts.next();
        Some(Step {
            name: next()?.text()?,
            id: next()?.text()?,
            command: next()?.text()?,
            value: next()?,
            timeout: next()?.text(),
            continue_on_error: next()?.content.first() == Some(&1),
            expect: next().filter(|expect| expect.kind == 5),
        })
    }
}

impl<'a> Record<'a> {
    /// Checks the bytes.
    pub fn new(bytes: &'a [u8]) -> Result<Record<'a>, Refusal> {
        Ok(Record { bytes, steps: check_record(bytes)? })
    }

    pub fn bytes(&self) -> &'a [u8] {
        self.bytes
    }

    /// How many steps there are.
    pub fn len(&self) -> usize {
        self.steps
    }

    pub fn is_empty(&self) -> bool {
        self.steps == 0
    }

    /// The eight fields in their order: name, description, tags, image, setup, defaults, fail_on, steps.
    pub fn fields(&self) -> Items<'a> {
        Items::of(&self.bytes[6..])
    }

    /// The field at a place, from 1 to 8.
    pub fn field(&self, place: usize) -> Result<Item<'a>, Refusal> {
        field(self.bytes, place)
    }

    pub fn name(&self) -> &'a str {
        self.fields().next().and_then(Item::text).unwrap_or_default()
    }

    /// The steps in their order. It walks along their items and checks nothing again.
    pub fn steps(&self) -> impl Iterator<Item = Step<'a>> {
        self.fields().nth(7).into_iter().flat_map(Item::items).filter_map(Step::of)
    }

    /// The first step with this id; no step has an empty one.
    pub fn step_by_id(&self, id: &str) -> Result<Option<Step<'a>>, Refusal> {
        Ok(step_by_id(self.bytes, id)?.and_then(Step::of))
    }

    /// The value beside a key, in the mapping beside the command of the step with this number.
    pub fn value_by_key(&self, number: usize, key: &str) -> Result<Option<Item<'a>>, Refusal> {
        value_by_key(self.bytes, number, key)
    }

    /// How often the step with this number is repeated.
    pub fn times(&self, number: usize) -> Result<u32, Refusal> {
        times(self.bytes, number)
    }
}
