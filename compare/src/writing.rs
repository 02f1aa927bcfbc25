//! Texts in one line of a file: `\n`, `\t`, `\r`, `\\`, `\xHH` for a byte, and `\(N text\)` for a
//! text N times. The stream of texts: length in 4 bytes, little-endian, then the bytes.

use std::io::{self, Read, Write};

pub fn escape(text: &[u8]) -> String {
    let mut out = String::with_capacity(text.len());
    for &byte in text {
        match byte {
            b'\n' => out.push_str("\\n"),
            b'\t' => out.push_str("\\t"),
            b'\r' => out.push_str("\\r"),
            b'\\' => out.push_str("\\\\"),
            b' '..=b'~' => out.push(char::from(byte)),
            _ => out.push_str(&format!("\\x{byte:02x}")),
        }
    }
    out
}

pub fn unescape(written: &str) -> Result<Vec<u8>, String> {
    let bytes = written.as_bytes();
    let mut out = Vec::new();
    // Where the text of an open `\(N ` begins, and N.
    let mut open: Option<(usize, usize)> = None;
    let mut at = 0;
    while at < bytes.len() {
        if bytes[at] != b'\\' {
            out.push(bytes[at]);
            at += 1;
            continue;
        }
        let rest = &written[at + 1..];
        at += 2;
        match rest.as_bytes().first() {
            Some(b'n') => out.push(b'\n'),
            Some(b't') => out.push(b'\t'),
            Some(b'r') => out.push(b'\r'),
            Some(b'\\') => out.push(b'\\'),
            Some(b'x') => {
                let digits = rest.get(1..3).ok_or("`\\x` without two digits")?;
                out.push(u8::from_str_radix(digits, 16).map_err(|e| e.to_string())?);
                at += 2;
            }
            Some(b'(') => {
                let (number, _) = rest[1..].split_once(' ').ok_or("`\\(` without a number")?;
                let times = number.parse::<usize>().map_err(|e| e.to_string())?;
                open = Some((out.len(), times));
                at += number.len() + 1;
            }
            Some(b')') => {
                let (start, times) = open.take().ok_or("`\\)` without `\\(`")?;
                let once = out.split_off(start);
                out.extend(once.repeat(times));
            }
            _ => return Err(format!("unknown escape before `{rest}`")),
        }
    }
    Ok(out)
}

pub fn write_text(out: &mut impl Write, text: &[u8]) -> io::Result<()> {
    let length = u32::try_from(text.len()).expect("a text below 4 GiB");
    out.write_all(&length.to_le_bytes())?;
    out.write_all(text)
}

/// The next text, none at the end of the stream.
pub fn read_text(from: &mut impl Read) -> io::Result<Option<Vec<u8>>> {
    let mut length = [0; 4];
    match from.read_exact(&mut length) {
        Err(error) if error.kind() == io::ErrorKind::UnexpectedEof => return Ok(None),
        other => other?,
    }
    let mut text = vec![0; u32::from_le_bytes(length) as usize];
    from.read_exact(&mut text)?;
    Ok(Some(text))
}
