//! Decides by itself which bytes are a record and a name list, and what the jobs on them answer, by
//! the layout and the rules of document 01, sections 5 and 6.

use std::collections::HashSet;

pub const LONGEST: usize = 1_048_576;
pub const STEP_FIELDS: [&str; 5] = ["name", "id", "timeout", "continue_on_error", "expect"];
pub const BUILT_IN_STEPS: [&str; 5] = ["repeat", "set", "delay", "expect_not", "ui.expect"];

// ---- the layout, then its rules

pub struct Item<'a> {
    pub kind: u16,
    pub start: usize,
    pub end: usize,
    pub content: &'a [u8],
}

/// All of a content as items; `start` is where it begins in the record.
pub fn items(mut content: &[u8], mut start: usize) -> Option<Vec<Item<'_>>> {
    let mut found = Vec::new();
    while !content.is_empty() {
        let (length, rest) = content.split_first_chunk::<4>()?;
        let (kind, rest) = rest.split_first_chunk::<2>()?;
        let (inner, rest) = rest.split_at_checked(u32::from_le_bytes(*length) as usize)?;
        let end = start + 6 + inner.len();
        found.push(Item { kind: u16::from_le_bytes(*kind), start, end, content: inner });
        (content, start) = (rest, end);
    }
    Some(found)
}

pub enum Value<'a> {
    Null,
    Bool,
    Int(i64),
    Str(&'a str),
    Seq(Vec<Value<'a>>),
    Map(Vec<(&'a str, Value<'a>)>),
}

impl Value<'_> {
    pub fn get(&self, key: &str) -> Option<&Self> {
        let Value::Map(entries) = self else { return None };
        entries.iter().find(|(other, _)| *other == key).map(|(_, value)| value)
    }
}

fn value<'a>(item: &Item<'a>) -> Option<Value<'a>> {
    let inner = || items(item.content, 0);
    match item.kind {
        0 => item.content.is_empty().then_some(Value::Null),
        1 => matches!(item.content, [0] | [1]).then_some(Value::Bool),
        2 => item.content.try_into().ok().map(|bytes| Value::Int(i64::from_le_bytes(bytes))),
        3 => std::str::from_utf8(item.content).ok().map(Value::Str),
        4 => inner()?.iter().map(value).collect::<Option<_>>().map(Value::Seq),
        5 => inner()?
            .chunks(2)
            .map(|pair| match pair {
                [key, held] => match value(key)? {
                    Value::Str(key) => Some((key, value(held)?)),
                    _ => None,
                },
                _ => None,
            })
            .collect::<Option<_>>()
            .map(Value::Map),
        _ => None,
    }
}

fn levels(value: &Value) -> usize {
    match value {
        Value::Seq(items) => 1 + items.iter().map(levels).max().unwrap_or(0),
        Value::Map(entries) => 1 + entries.iter().map(|(_, v)| levels(v)).max().unwrap_or(0),
        _ => 0,
    }
}

fn keys_differ(value: &Value) -> bool {
    match value {
        Value::Seq(items) => items.iter().all(keys_differ),
        Value::Map(entries) => {
            let keys: HashSet<_> = entries.iter().map(|(key, _)| key).collect();
            keys.len() == entries.len() && entries.iter().all(|(_, v)| keys_differ(v))
        }
        _ => true,
    }
}

fn tree<'a>(item: &Item<'a>, deepest: usize) -> Option<Value<'a>> {
    value(item).filter(|value| levels(value) <= deepest && keys_differ(value))
}

fn text<'a>(item: &Item<'a>) -> Option<&'a str> {
    match value(item)? {
        Value::Str(text) => Some(text),
        _ => None,
    }
}

fn text_or_null(item: &Item) -> Option<()> {
    matches!(value(item)?, Value::Null | Value::Str(_)).then_some(())
}

pub struct Step<'a> {
    pub start: usize,
    pub end: usize,
    pub id: &'a str,
    pub key: &'a str,
    pub value: Value<'a>,
    /// The keys of a value that is a mapping, and where the item beside each begins and ends.
    pub beside: Vec<(&'a str, usize, usize)>,
}

fn step<'a>(whole: &Item<'a>) -> Option<Step<'a>> {
    (whole.kind == 19).then_some(())?;
    let parts = items(whole.content, whole.start + 6)?;
    let [name, id, key, held, timeout, go_on, expect] = parts.as_slice() else { return None };
    text(name)?;
    let id = text(id)?;
    let key = text(key)?;
    let value = tree(held, 29)?;
    text_or_null(timeout)?;
    matches!(self::value(go_on)?, Value::Bool).then_some(())?;
    let expected = match tree(expect, 29)? {
        Value::Null => false,
        Value::Map(_) => true,
        _ => return None,
    };
    if STEP_FIELDS.contains(&key) || expected && BUILT_IN_STEPS.contains(&key) {
        return None;
    }
    let mut beside = Vec::new();
    if held.kind == 5 {
        for pair in items(held.content, held.start + 6)?.chunks(2) {
            beside.push((text(&pair[0])?, pair[1].start, pair[1].end));
        }
    }
    Some(Step { start: whole.start, end: whole.end, id, key, value, beside })
}

/// Where each field of a record begins and ends, and its steps.
pub struct Record<'a> {
    pub fields: Vec<(usize, usize)>,
    pub steps: Vec<Step<'a>>,
}

pub fn record(bytes: &[u8]) -> Option<Record<'_>> {
    let whole = items(bytes, 0)?;
    let [scenario] = whole.as_slice() else { return None };
    (scenario.kind == 16 && bytes.len() <= LONGEST).then_some(())?;
    let fields = items(scenario.content, 6)?;
    let [name, description, tags, image, setup, defaults, fail_on, list] = fields.as_slice() else {
        return None;
    };
    for one in [name, description, image] {
        text(one)?;
    }
    (tags.kind == 4 && defaults.kind == 17 && fail_on.kind == 4 && list.kind == 18).then_some(())?;
    for tag in &items(tags.content, 0)? {
        text(tag)?;
    }
    tree(setup, 31)?;
    tree(fail_on, 31)?;
    let times = items(defaults.content, 0)?;
    let [timeout, wall_budget] = times.as_slice() else { return None };
    text_or_null(timeout)?;
    text_or_null(wall_budget)?;
    let steps = items(list.content, list.start + 6)?.iter().map(step).collect::<Option<_>>()?;
    Some(Record { fields: fields.iter().map(|item| (item.start, item.end)).collect(), steps })
}

pub fn names(bytes: &[u8]) -> Option<Vec<&str>> {
    let whole = items(bytes, 0)?;
    let [list] = whole.as_slice() else { return None };
    (list.kind == 4).then_some(())?;
    items(list.content, 0)?.iter().map(text).collect()
}

// ---- section 6

/// A refusal's number, line and step.
pub type Refused = (u32, u32, u32);

fn known(key: &str, names: &[&str]) -> bool {
    BUILT_IN_STEPS.contains(&key) || names.contains(&key)
}

/// The command of the inner step with this number.
fn command<'a>(step: &Value<'a>, number: u32) -> Result<&'a str, Refused> {
    let Value::Map(entries) = step else { return Err((32, 0, number)) };
    let expect = step.get("expect");
    if expect.is_some_and(|value| !matches!(value, Value::Map(_))) {
        return Err((33, 0, number));
    }
    let keys = entries.iter().map(|(key, _)| *key);
    let commands: Vec<_> = keys.filter(|key| !STEP_FIELDS.contains(key)).collect();
    match commands[..] {
        [key] if expect.is_some() && BUILT_IN_STEPS.contains(&key) => Err((35, 0, number)),
        [key] => Ok(key),
        _ => Err((34, 0, number)),
    }
}

fn inner<'a>(value: &'a Value, outer: u32) -> Result<Vec<&'a str>, Refused> {
    match value.get("steps") {
        None => Err((37, 0, outer)),
        Some(Value::Null) => Ok(Vec::new()),
        Some(Value::Seq(steps)) => {
            steps.iter().zip(1..).map(|(step, number)| command(step, number)).collect()
        }
        Some(_) => Err((31, 0, 0)),
    }
}

pub fn check_steps(bytes: &[u8], lines: &[u32], list: &[u8]) -> Result<usize, Refused> {
    let record = record(bytes).ok_or((40, 0, 0))?;
    let names = names(list).ok_or((40, 0, 0))?;
    for (place, step) in record.steps.iter().enumerate() {
        let number = place as u32 + 1;
        let line = lines.get(place).copied().unwrap_or(0);
        let mut keys = vec![step.key];
        if step.key == "repeat" {
            keys.extend(inner(&step.value, number)?);
        }
        if !keys.iter().all(|key| known(key, &names)) {
            return Err((36, line, number));
        }
    }
    Ok(record.steps.len())
}

impl Record<'_> {
    fn numbered(&self, number: usize) -> Result<&Step<'_>, Refused> {
        number.checked_sub(1).and_then(|place| self.steps.get(place)).ok_or((53, 0, 0))
    }

    /// The first of the steps with this id.
    pub fn step_by_id(&self, id: &[u8]) -> Option<(usize, usize)> {
        let found = self.steps.iter().find(|step| !id.is_empty() && step.id.as_bytes() == id);
        found.map(|step| (step.start, step.end))
    }

    pub fn value_by_key(
        &self,
        number: usize,
        key: &[u8],
    ) -> Result<Option<(usize, usize)>, Refused> {
        let beside = &self.numbered(number)?.beside;
        let found = beside.iter().find(|(other, ..)| other.as_bytes() == key);
        Ok(found.map(|(_, start, end)| (*start, *end)))
    }

    pub fn times(&self, number: usize) -> Result<u32, Refused> {
        match self.numbered(number)?.value.get("times") {
            Some(Value::Int(times @ 1..)) => {
                u32::try_from(*times).map_err(|_| (39, 0, number as u32))
            }
            _ => Err((38, 0, number as u32)),
        }
    }
}
