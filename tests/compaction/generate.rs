//! Captures to compact: records of every code, padded, dirty, spelled longer than needed, unreadable, with marks inside; garbage, half marks and cut records
//! between them; some very long, some of very many records, some empty.

use crate::judge::laid;
use crate::packets::{self, Random};

/// The contents of a frame: bytes of headers, or marks and whole records.
fn content(r: &mut Random, n: usize) -> Vec<u8> {
    let mut bytes = r.bytes(n);
    if n >= 2 && r.one_in(4) {
        let at = r.below(n - 1);
        let head = [0x4b, 0x9d, 7, 0, r.below(12) as u8];
        for (to, from) in bytes[at..].iter_mut().zip(head) {
            *to = from;
        }
    }
    bytes
}

/// A packet of so many frames, all of one length or not, in a layout.
fn built(r: &mut Random, code: u8, count: usize, same: bool, unequal: bool, padding: Option<usize>, most: usize) -> Vec<u8> {
    let toc = if count > 2 { r.of(&[0x80, 0x84, 0xe0, 0xf4]) } else { r.below(256) as u8 };
    let each = r.below(most);
    let contents: Vec<Vec<u8>> = (0..count)
        .map(|_| {
            let n = if same { each } else { r.below(most) };
            content(r, n)
        })
        .collect();
    let frames: Vec<&[u8]> = contents.iter().map(|f| &f[..]).collect();
    let mut p = laid(toc, code, unequal, padding, &frames, false);
    let padding = padding.unwrap_or(0);
    if padding > 0 && r.one_in(3) {
        let at = p.len() - 1 - r.below(padding);
        p[at] = 1 + r.below(255) as u8;
    }
    p
}

/// A packet above 65,000 bytes: short frames with very much padding, 48 frames as long as can be, or one that cannot be read.
pub fn long(r: &mut Random) -> Vec<u8> {
    let any = 65000 + r.below(536);
    let size = r.of(&[65001, 65534, 65535, any]);
    match r.below(4) {
        0 => {
            let mut p = content(r, size);
            p[0] = r.below(256) as u8;
            p
        }
        1 => {
            let frame = vec![r.below(256) as u8; 1275];
            let missing = size - 61202;
            laid(0x80, 3, false, Some(missing - missing / 254 - 2), &[&frame[..]; 48], false)
        }
        _ => {
            let count = 1 + r.below(4);
            let frames: Vec<Vec<u8>> = (0..count)
                .map(|_| {
                    let n = r.below(300);
                    content(r, n)
                })
                .collect();
            let frames: Vec<&[u8]> = frames.iter().map(|f| &f[..]).collect();
            let missing = size - 12 - frames.iter().map(|f| f.len()).sum::<usize>();
            laid(0x80, 3, true, Some(missing - missing / 254 - 2), &frames, false)
        }
    }
}

/// A packet of 1 to 65,535 bytes.
pub fn packet(r: &mut Random) -> Vec<u8> {
    let most = r.of(&[2, 6, 12, 12, 30, 30, 100, 260]);
    let padding = r.of(&[0, 1, 2, 5, 20, 253, 254, 255, 256, 508, 509]);
    let several = 3 + r.below(6);
    match r.below(20) {
        0..=2 => built(r, 0, 1, true, false, None, most),
        3 => built(r, 1, 2, true, false, None, most),
        4 => built(r, 2, 2, false, true, None, most),
        5 | 6 => built(r, 2, 2, true, true, None, most),
        7 => built(r, 3, several, true, false, None, most),
        8 => built(r, 3, several, false, true, None, most),
        9 => built(r, 3, several, true, true, None, most),
        10 => {
            let unequal = r.one_in(2);
            built(r, 3, several, !unequal, unequal, Some(padding), most)
        }
        11 | 12 => {
            let flag = r.one_in(2);
            built(r, 3, 1, true, flag, None, most)
        }
        13 => built(r, 3, 1, true, false, Some(padding), most),
        14 | 15 => {
            let same = r.one_in(2);
            let padding = if r.one_in(2) { Some(padding) } else { None };
            let unequal = !same || r.one_in(2);
            built(r, 3, 2, same, unequal, padding, most)
        }
        // any of the judge's, self-delimited, changed and cut ones among them
        16..=18 => {
            let p = packets::packet(r).0;
            if p.is_empty() || p.len() > 65535 { vec![r.below(256) as u8] } else { p }
        }
        _ => {
            let n = 1 + r.below(12);
            r.bytes(n)
        }
    }
}

fn head(r: &mut Random, length: usize) -> Vec<u8> {
    vec![0x4b, 0x9d, r.below(256) as u8, (length >> 8) as u8, length as u8]
}

pub fn record(r: &mut Random, packet: &[u8]) -> Vec<u8> {
    let mut bytes = head(r, packet.len());
    bytes.extend(packet);
    bytes
}

/// What stands between records: garbage, halves of marks, heads of no record, a cut record with whole ones inside.
fn between(r: &mut Random) -> Vec<u8> {
    match r.below(6) {
        0 => vec![0x4b; 1 + r.below(3)],
        1 => vec![0x9d],
        2 => head(r, 0),
        3 => {
            let n = 3000 + r.below(62000);
            head(r, n)
        }
        4 => {
            let p = packet(r);
            let mut bytes = head(r, 20 + p.len());
            bytes.extend(record(r, &p));
            bytes
        }
        _ => {
            let n = r.below(6);
            r.bytes(n)
        }
    }
}

/// A capture. One in 150 has a record above 65,000 bytes, one in 60 some hundred records, most of which stay as they are.
pub fn capture(r: &mut Random) -> Vec<u8> {
    let mut bytes = Vec::new();
    if r.one_in(60) {
        let each = r.of(&[4, 12, 200]);
        for _ in 0..20 + r.below(if each == 200 { 40 } else { 300 }) {
            let p = if r.one_in(25) { packet(r) } else { built_short(r, each) };
            bytes.extend(record(r, &p));
            if r.one_in(60) {
                bytes.extend(between(r));
            }
        }
        return bytes;
    }
    let at = if r.one_in(150) { r.below(3) } else { usize::MAX };
    for i in 0..r.below(8) {
        let p = if i == at { long(r) } else { packet(r) };
        bytes.extend(record(r, &p));
        if r.one_in(3) {
            bytes.extend(between(r));
        }
    }
    if r.one_in(3) {
        let n = bytes.len().saturating_sub(r.below(8));
        bytes.truncate(n);
    }
    if r.one_in(8) && !bytes.is_empty() {
        let place = r.below(bytes.len());
        bytes[place] = r.of(&[0, 1, 2, 3, 0x4b, 0x9d, 0xff]);
    }
    bytes
}

/// A packet of code 0 or 1, often readable.
fn built_short(r: &mut Random, most: usize) -> Vec<u8> {
    let n = 1 + r.below(most);
    let mut p = content(r, n);
    p[0] = (r.below(64) * 4 + r.below(2)) as u8;
    p
}
