//! Items, as a record is made of them (docs/RECORD.md).

use std::str;

/// An item: its kind and its content.
#[derive(Clone, Copy, Debug, PartialEq, Eq)]
pub struct Item<'a> {
    pub kind: u16,
    pub content: &'a [u8],
}

/// The items that fill some bytes, one behind another. It ends early where there is no whole item.
#[derive(Clone, Copy, Debug)]
pub struct Items<'a>(&'a [u8]);

/// The entries of a mapping: keys and values.
#[derive(Clone, Copy, Debug)]
pub struct Entries<'a>(Items<'a>);

/// What a value is: kinds 0 to 5.
#[derive(Clone, Copy, Debug)]
pub enum Value<'a> {
    Null,
    Bool(bool),
    Integer(i64),
    String(&'a str),
    Sequence(Items<'a>),
    Mapping(Entries<'a>),
}

impl<'a> Items<'a> {
    pub fn of(bytes: &'a [u8]) -> Items<'a> {
        Items(bytes)
    }
}

impl<'a> Iterator for Items<'a> {
    type Item = Item<'a>;

    fn next(&mut self) -> Option<Item<'a>> {
        let (length, rest) = self.0.split_first_chunk::<4>()?;
        let (kind, rest) = rest.split_first_chunk::<2>()?;
        let length = u32::from_le_bytes(*length) as usize;
        let content = rest.get(..length)?;
        self.0 = &rest[length..];
        Some(Item { kind: u16::from_le_bytes(*kind), content })
    }
}

impl<'a> Iterator for Entries<'a> {
    type Item = (&'a str, Item<'a>);

    fn next(&mut self) -> Option<Self::Item> {
        let key = self.0.next()?.text()?;
        Some((key, self.0.next()?))
    }
}

impl<'a> Item<'a> {
    /// The items inside: of a sequence, of defaults, of steps; of a mapping keys and values in turn.
    pub fn items(self) -> Items<'a> {
        Items(self.content)
    }

    /// The text of a string.
    pub fn text(self) -> Option<&'a str> {
        if self.kind != 3 {
            return None;
        }
        str::from_utf8(self.content).ok()
    }

    /// The value of an item of kinds 0 to 5.
    pub fn value(self) -> Option<Value<'a>> {
        match self.kind {
            0 => Some(Value::Null),
            1 => Some(Value::Bool(*self.content.first()? == 1)),
            2 => Some(Value::Integer(i64::from_le_bytes(self.content.try_into().ok()?))),
            3 => Some(Value::String(self.text()?)),
            4 => Some(Value::Sequence(self.items())),
            5 => Some(Value::Mapping(Entries(self.items()))),
            _ => None,
        }
    }
}
