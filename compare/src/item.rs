//! Trees and scenarios as the items of document 01, section 5, and as hexadecimal text.

use crate::scenario::{Defaults, Scenario, Step, Yaml};

const NULL: u16 = 0;
const BOOLEAN: u16 = 1;
const INTEGER: u16 = 2;
const STRING: u16 = 3;
const SEQUENCE: u16 = 4;
const MAPPING: u16 = 5;
const SCENARIO: u16 = 16;
const DEFAULTS: u16 = 17;
const STEPS: u16 = 18;
const STEP: u16 = 19;

/// Content length (4 bytes), kind (2 bytes), content. The length is put in when the content is
/// written. One beyond 4 bytes can't be told and is left at zeros; such an item is never shown.
fn item(out: &mut Vec<u8>, kind: u16, content: impl FnOnce(&mut Vec<u8>)) {
    let at = out.len();
    out.extend([0; 4]);
    out.extend(kind.to_le_bytes());
    content(out);
    let length = u32::try_from(out.len() - at - 6).unwrap_or(0);
    out[at..at + 4].copy_from_slice(&length.to_le_bytes());
}

fn null(out: &mut Vec<u8>) {
    item(out, NULL, |_| {});
}

fn boolean(out: &mut Vec<u8>, value: bool) {
    item(out, BOOLEAN, |out| out.push(u8::from(value)));
}

fn string(out: &mut Vec<u8>, text: &str) {
    item(out, STRING, |out| out.extend(text.as_bytes()));
}

fn string_or_null(out: &mut Vec<u8>, text: Option<&String>) {
    match text {
        Some(text) => string(out, text),
        None => null(out),
    }
}

pub fn tree(out: &mut Vec<u8>, value: &Yaml) {
    match value {
        Yaml::Null => null(out),
        Yaml::Bool(value) => boolean(out, *value),
        Yaml::Int(value) => item(out, INTEGER, |out| out.extend(value.to_le_bytes())),
        Yaml::Str(text) => string(out, text),
        Yaml::Seq(items) => sequence(out, items),
        Yaml::Map(entries) => item(out, MAPPING, |out| {
            for (key, value) in entries {
                string(out, key);
                tree(out, value);
            }
        }),
    }
}

fn sequence(out: &mut Vec<u8>, items: &[Yaml]) {
    item(out, SEQUENCE, |out| {
        for value in items {
            tree(out, value);
        }
    });
}

pub fn scenario(out: &mut Vec<u8>, scenario: &Scenario) {
    item(out, SCENARIO, |out| {
        string(out, &scenario.name);
        string(out, &scenario.description);
        item(out, SEQUENCE, |out| {
            for tag in &scenario.tags {
                string(out, tag);
            }
        });
        string(out, &scenario.image);
        tree(out, &scenario.setup);
        defaults(out, &scenario.defaults);
        sequence(out, &scenario.fail_on);
        item(out, STEPS, |out| {
            for one in &scenario.steps {
                step(out, one);
            }
        });
    });
}

fn defaults(out: &mut Vec<u8>, defaults: &Defaults) {
    item(out, DEFAULTS, |out| {
        string_or_null(out, defaults.timeout.as_ref());
        string_or_null(out, defaults.wall_budget.as_ref());
    });
}

fn step(out: &mut Vec<u8>, step: &Step) {
    item(out, STEP, |out| {
        string(out, &step.name);
        string(out, &step.id);
        string(out, &step.key);
        tree(out, &step.value);
        string_or_null(out, step.timeout.as_ref());
        boolean(out, step.continue_on_error);
        match &step.expect {
            Some(expect) => tree(out, expect),
            None => null(out),
        }
    });
}

/// Levels of collections; a scalar has none.
pub fn levels(value: &Yaml) -> usize {
    match value {
        Yaml::Seq(items) => 1 + items.iter().map(levels).max().unwrap_or(0),
        Yaml::Map(entries) => 1 + entries.iter().map(|(_, v)| levels(v)).max().unwrap_or(0),
        _ => 0,
    }
}

pub fn hex(bytes: &[u8]) -> String {
    const DIGITS: &[u8; 16] = b"0123456789abcdef";
    let mut out = String::with_capacity(2 * bytes.len());
    for byte in bytes {
        out.push(char::from(DIGITS[usize::from(byte >> 4)]));
        out.push(char::from(DIGITS[usize::from(byte & 15)]));
    }
    out
}

pub fn unhex(text: &str) -> Vec<u8> {
    let digit = |c: u8| (c as char).to_digit(16).expect("hexadecimal") as u8;
    text.as_bytes().chunks(2).map(|pair| 16 * digit(pair[0]) + digit(pair[1])).collect()
}

/// Items written for the eye, read back from their bytes: `{"a": [1, null]}`,
/// `scenario("noon", "", [], ..)`.
pub fn show(bytes: &[u8]) -> String {
    let mut out = String::new();
    let end = show_item(bytes, 0, &mut out);
    assert_eq!(end, bytes.len(), "bytes behind an item");
    out
}

fn show_item(bytes: &[u8], at: usize, out: &mut String) -> usize {
    let length = u32::from_le_bytes(bytes[at..at + 4].try_into().unwrap()) as usize;
    let kind = u16::from_le_bytes(bytes[at + 4..at + 6].try_into().unwrap());
    let (start, end) = (at + 6, at + 6 + length);
    let content = &bytes[start..end];
    let (open, close) = match kind {
        SEQUENCE => ("[", "]"),
        MAPPING => ("{", "}"),
        SCENARIO => ("scenario(", ")"),
        DEFAULTS => ("defaults(", ")"),
        STEPS => ("steps(", ")"),
        STEP => ("step(", ")"),
        _ => {
            match kind {
                NULL => out.push_str("null"),
                BOOLEAN => out.push_str(if content[0] == 1 { "true" } else { "false" }),
                INTEGER => {
                    let value = i64::from_le_bytes(content.try_into().unwrap());
                    out.push_str(&value.to_string());
                }
                STRING => {
                    out.push('"');
                    let text = crate::writing::escape(content);
                    out.push_str(&text.replace('"', "\\\""));
                    out.push('"');
                }
                _ => panic!("kind {kind}"),
            }
            return end;
        }
    };
    out.push_str(open);
    let mut at = start;
    while at < end {
        if at > start {
            out.push_str(", ");
        }
        at = show_item(bytes, at, out);
        if kind == MAPPING {
            out.push_str(": ");
            at = show_item(bytes, at, out);
        }
    }
    out.push_str(close);
    end
}
