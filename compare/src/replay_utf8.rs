// Prints what crates/replay_utf8 must print, by Rust's own str::from_utf8, char::is_whitespace and str::trim_start/trim_end.

const EDGES: [u8; 24] = [
    0x00, 0x7f, 0x80, 0x8f, 0x90, 0x9f, 0xa0, 0xbf, 0xc0, 0xc1, 0xc2, 0xdf, 0xe0, 0xe1, 0xec, 0xed, 0xee, 0xef, 0xf0, 0xf1,
    0xf3, 0xf4, 0xf5, 0xff,
];

const PIECES: [&[u8]; 17] = [
    b"a", b" ", b"\t", b"\xc2\xa0", b"\xc2\x85", b"\xe1\x9a\x80", b"\xe2\x80\x80", b"\xe2\x80\xa8", b"\xe2\x81\x9f",
    b"\xe3\x80\x80", b"\xc3\xa9", b"\xe2\x80\x8b", b"\xc2", b"\xe2", b"\xe2\x80", b"\x80", b"\xa0",
];

// RFC 3629 section 3's bit layout, for any number up to 1FFFFF.
fn encode(c: u32) -> Vec<u8> {
    let tail = |k: u32| (0x80 | (c >> (6 * k) & 0x3f)) as u8;
    match c {
        0..=0x7f => vec![c as u8],
        0x80..=0x7ff => vec![(0xc0 | c >> 6) as u8, tail(0)],
        0x800..=0xffff => vec![(0xe0 | c >> 12) as u8, tail(1), tail(0)],
        _ => vec![(0xf0 | c >> 18) as u8, tail(2), tail(1), tail(0)],
    }
}

fn accepts(bytes: &[u8]) -> bool {
    std::str::from_utf8(bytes).is_ok()
}

fn mix(hash: u64, n: u64) -> u64 {
    (hash * 31 + n) & 0xffff_ffff
}

fn runs() {
    let (mut was, mut n) = (false, 0);
    for c in 0..0x120000 {
        let is = accepts(&encode(c));
        assert_eq!(is, char::from_u32(c).is_some());
        if is != was {
            println!("{} from {:04x}", if is { "accepted" } else { "refused" }, c);
        }
        was = is;
        n += is as u64;
    }
    println!("accepted {n}");
}

fn edges(len: usize) {
    let (mut n, mut hash) = (0u64, 0u64);
    for k in 0..24usize.pow(len as u32) {
        let bytes: Vec<u8> = (0..len).map(|i| EDGES[k / 24usize.pow(i as u32) % 24]).collect();
        let is = accepts(&bytes) as u64;
        n += is;
        hash = mix(hash, is);
    }
    println!("sequences of boundary bytes accepted {n}");
    println!("hash {hash}");
}

// The two places of a part without the white space at its ends. Where the part is no UTF-8, white space characters are taken off
// as long as one is there, byte by byte compared.
fn trims(part: &[u8], whites: &[Vec<u8>]) -> (usize, usize) {
    let mut start = part;
    while let Some(w) = whites.iter().find(|w| start.starts_with(w)) {
        start = &start[w.len()..];
    }
    let mut end = part;
    while let Some(w) = whites.iter().find(|w| end.ends_with(w)) {
        end = &end[..end.len() - w.len()];
    }
    let places = (part.len() - start.len(), end.len());
    if let Ok(text) = std::str::from_utf8(part) {
        assert_eq!(places, (text.len() - text.trim_start().len(), text.trim_end().len()));
    }
    places
}

fn main() {
    runs();
    let white: Vec<char> = (0..0x120000).filter_map(char::from_u32).filter(|c| c.is_whitespace()).collect();
    for c in &white {
        println!("white {:04x}", *c as u32);
    }
    for len in 0..5 {
        edges(len);
    }
    let whites: Vec<Vec<u8>> = white.iter().map(|c| c.to_string().into_bytes()).collect();
    let mut hash = 0;
    for k in 0..17usize.pow(3) {
        let mut text = [PIECES[k % 17], PIECES[k / 17 % 17], PIECES[k / 289]].concat();
        text.resize(16, 0);
        for from in 0..17 {
            for to in 0..17 {
                let mut places = 0;
                if from <= to {
                    let (start, end) = trims(&text[from..to], &whites);
                    places = (from + start) * 256 + from + end;
                }
                hash = mix(hash, places as u64);
            }
        }
    }
    println!("trims, hash {hash}");
}
