//! Writes the sections of items into the stream of `crates/replay`, behind what the file named by
//! the argument has, and prints what must be printed of them, by Rust's own integers and slices.

#[path = "section.rs"]
mod section;
#[path = "writing.rs"]
#[allow(dead_code)]
mod writing;

use std::fs::{File, OpenOptions};
use std::io;

use writing::write_text;

fn item(kind: u16, content: &[u8]) -> Vec<u8> {
    let mut out = (content.len() as u32).to_le_bytes().to_vec();
    out.extend(kind.to_le_bytes());
    out.extend(content);
    out
}

fn show(bytes: &[u8]) {
    println!("{}", bytes.iter().map(|b| format!("{b:02x}")).collect::<String>());
}

/// Sixteen sevens with items stored over them: what stands around an item must stay.
fn among(items: &[(usize, Vec<u8>)]) {
    let mut out = [7u8; 16];
    for (at, bytes) in items {
        out[*at..at + bytes.len()].copy_from_slice(bytes);
    }
    show(&out);
}

/// A section of one text, whose number says a place or a length; `u32::MAX` is the largest of all.
fn section(stream: &mut File, kind: &str, number: usize, text: &[u8]) -> io::Result<()> {
    section::begin(stream, kind, [u32::try_from(number).unwrap_or(u32::MAX), 0, 0])?;
    write_text(stream, text)?;
    section::end(stream)
}

fn header(stream: &mut File, s: &[u8], at: usize) -> io::Result<()> {
    match s.get(at..).and_then(|rest| Some((rest.get(..4)?, rest.get(4..6)?))) {
        None => println!("cut"),
        Some((size, kind)) => {
            let size = u32::from_le_bytes(size.try_into().unwrap()) as usize;
            let kind = u16::from_le_bytes(kind.try_into().unwrap());
            match s.get(at + 6..at + 6 + size) {
                None => println!("past end"),
                Some(_) => println!("item {kind} {} {}", at + 6, at + 6 + size),
            }
        }
    }
    section(stream, "headers", at, s)
}

fn same(stream: &mut File, a: &[u8], b: &[u8]) -> io::Result<()> {
    println!("{}", if a == b { "same" } else { "different" });
    section(stream, "same", a.len(), &[a, b].concat())
}

/// These the program makes itself.
fn items() {
    for n in [0, 0, -1, 255, -256, i64::MAX, -i64::MAX, i64::MIN] {
        among(&[(1, item(2, &n.to_le_bytes()))]);
    }
    for b in [true, false] {
        among(&[(1, item(1, &[b as u8])), (9, item(0, b""))]);
    }
    for s in ["", "strike", "123456789"] {
        among(&[(1, item(3, s.as_bytes()))]);
    }
    show(&[7, 0, 0, 7]);
    show(&[7, 7, 7, 7]);
}

const HEADERS: [(&[u8], usize); 10] = [
    (b"", 0),
    (b"", usize::MAX),
    (b"\x01\0\0\0\x03", 0),
    (b"\0\0\0\0\x03\0", 0),
    (b"\0\0\0\0\x03\0", 1),
    (b"\x01\0\0\0\x03\0", 0),
    (b"\x01\0\0\0\x03\0a", 0),
    (b"\xff\xff\xff\xff\x05\0abc", 0),
    (b"xyz\x02\0\0\0\xff\xffabc", 3),
    (b"xyz\x02\0\0\0\xff\xffabc", 7),
];

const PAIRS: [(&[u8], &[u8]); 5] =
    [(b"", b""), (b"", b"a"), (b"bell", b"bell"), (b"bell", b"belt"), (b"bell", b"bells")];

fn main() -> io::Result<()> {
    let path = std::env::args().nth(1).expect("the file for the stream");
    let mut stream = OpenOptions::new().append(true).open(path)?;
    section::begin(&mut stream, "items", [0; 3])?;
    items();
    HEADERS.iter().try_for_each(|(s, at)| header(&mut stream, s, *at))?;
    PAIRS.iter().try_for_each(|(a, b)| same(&mut stream, a, b))
}
