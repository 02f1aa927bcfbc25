//! Items put together, so that all lengths fit: records and name lists that need not keep the rules.

use crate::decide::{Item, items};

pub const NOT_UTF8: [&[u8]; 5] =
    [b"\xff", b"\xc0\x80", b"\xed\xa0\x80", b"\xe2\x82", b"\xf4\x90\x80\x80"];

#[derive(Clone)]
pub enum Node {
    Leaf(u16, Vec<u8>),
    Inner(u16, Vec<Node>),
}
pub use Node::{Inner, Leaf};

pub fn node(item: &Item) -> Node {
    match item.kind {
        4 | 5 | 16..=19 => {
            Inner(item.kind, items(item.content, 0).expect("items").iter().map(node).collect())
        }
        kind => Leaf(kind, item.content.to_vec()),
    }
}

fn write(node: &Node, out: &mut Vec<u8>) {
    let at = out.len();
    let kind = match node {
        Leaf(kind, _) | Inner(kind, _) => *kind,
    };
    out.extend([0; 4]);
    out.extend(kind.to_le_bytes());
    match node {
        Leaf(_, content) => out.extend(content),
        Inner(_, items) => items.iter().for_each(|item| write(item, out)),
    }
    let length = (out.len() - at - 6) as u32;
    out[at..at + 4].copy_from_slice(&length.to_le_bytes());
}

pub fn written(node: &Node) -> Vec<u8> {
    let mut out = Vec::new();
    write(node, &mut out);
    out
}

pub fn string(text: &str) -> Node {
    Leaf(3, text.into())
}

pub fn null() -> Node {
    Leaf(0, Vec::new())
}

pub fn one_step(key: &str, value: Node, expect: Node) -> Node {
    Inner(19, vec![string(""), string(""), string(key), value, null(), Leaf(1, vec![0]), expect])
}

pub fn scenario(setup: Node, fail_on: Node, steps: Vec<Node>) -> Node {
    let tags = Inner(4, vec![string("a"), string("")]);
    let defaults = Inner(17, vec![null(), string("5 s")]);
    let steps = Inner(18, steps);
    Inner(16, vec![string("noon"), string(""), tags, string(""), setup, defaults, fail_on, steps])
}

pub fn list() -> Node {
    Inner(4, Vec::new())
}

pub fn map(keys: &[&str]) -> Node {
    Inner(5, keys.iter().flat_map(|key| [string(key), null()]).collect())
}

// ---- copies that are changed

pub fn count(node: &Node) -> usize {
    match node {
        Leaf(..) => 1,
        Inner(_, items) => 1 + items.iter().map(count).sum::<usize>(),
    }
}

/// The items around the place of an item among all of them, and its place among these.
pub fn change(node: &mut Node, place: usize, how: &mut dyn FnMut(&mut Vec<Node>, usize)) {
    let Inner(_, items) = node else { return };
    let mut left = place;
    for at in 0..items.len() {
        if left == 0 {
            return how(items, at);
        }
        let size = count(&items[at]);
        if left < size {
            return change(&mut items[at], left - 1, how);
        }
        left -= size;
    }
}

/// Each byte changed to several values, each length, bytes before and behind.
pub fn damaged(bytes: &[u8]) -> Vec<Vec<u8>> {
    let mut copies = Vec::new();
    for at in 0..bytes.len() {
        let byte = bytes[at];
        for other in [0, 255, byte.wrapping_add(1), byte.wrapping_sub(1), byte ^ 128] {
            if other != byte {
                let mut copy = bytes.to_vec();
                copy[at] = other;
                copies.push(copy);
            }
        }
        copies.push(bytes[..at].to_vec());
    }
    for more in [0, 1, 255] {
        copies.push([bytes, &[more][..]].concat());
        copies.push([&[more][..], bytes].concat());
    }
    copies.push([bytes, bytes].concat());
    copies
}
