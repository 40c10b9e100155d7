//! A compactor of captures, written from M-103 of document 02 and from RFC 6716's rules alone. It shares nothing with the proved one: packets are read by
//! the independent judge's reader (tests/judge/judge.rs), captures by the independent reader of them (tests/captures/reader.rs).
//!
//! The shorter spelling is found by a search: every layout of the frames is written, and the shortest that reads back as them is taken.

use crate::judge::{frames, laid, read};
use crate::reader;
use std::collections::HashMap;

/// The bytes of a record before its packet.
pub const HEAD: usize = 5;

/// The shortest packet with the same frames and upper six bits, or none where the packet cannot be read.
pub fn shortest(p: &[u8]) -> Option<Vec<u8>> {
    if p.len() > 65535 {
        return None;
    }
    let contents = frames(p, &read(p, false).ok()?);
    let mut found: Vec<Vec<u8>> = Vec::new();
    for (code, unequal) in [(0, false), (1, false), (2, false), (3, false), (3, true)] {
        let q = laid(p[0], code, unequal, None, &contents, false);
        let same = read(&q, false).is_ok_and(|packet| frames(&q, &packet) == contents);
        if same && q[0] & 0xfc == p[0] & 0xfc {
            found.push(q);
        }
    }
    found.sort_by_key(|q| q.len());
    assert!(found.len() < 2 || found[0].len() < found[1].len(), "two shortest spellings of {p:02x?}");
    Some(found.swap_remove(0))
}

/// The chooser: the compact packet, or none where the packet itself is handed back.
pub fn shorter(p: &[u8], room: usize) -> Option<Vec<u8>> {
    shortest(p).filter(|q| q.len() < p.len() && q.len() <= room)
}

/// A record of a capture, and its bytes as they are rewritten.
#[derive(Clone)]
pub struct Record {
    pub place: usize,
    pub length: usize,
    pub rewritten: Vec<u8>,
}

/// The record with its packet in the shorter spelling, for which there are 65,535 bytes of room.
fn rewrite(capture: &[u8], r: reader::Record) -> Vec<u8> {
    let packet = &capture[r.place + HEAD..r.place + HEAD + r.length];
    let packet = shorter(packet, 65535).unwrap_or(packet.to_vec());
    let mut bytes = vec![0x4b, 0x9d, r.line];
    bytes.extend((packet.len() as u16).to_be_bytes());
    bytes.extend(packet);
    bytes
}

/// A capture and what was rewritten of it so far, by place: many starts meet the same records.
pub struct Capture<'a> {
    pub bytes: &'a [u8],
    known: HashMap<usize, Record>,
}

impl<'a> Capture<'a> {
    pub fn new(bytes: &'a [u8]) -> Self {
        Capture { bytes, known: HashMap::new() }
    }
    /// The records that are read from a place on.
    pub fn records(&mut self, start: usize) -> Vec<Record> {
        let mut all = Vec::new();
        let mut at = start;
        while let Some(r) = reader::next(self.bytes, at) {
            let bytes = self.bytes;
            let known = self.known.entry(r.place).or_insert_with(|| Record { place: r.place, length: r.length, rewritten: rewrite(bytes, r) });
            all.push(known.clone());
            at = r.place + HEAD + r.length;
        }
        all
    }
}

/// What a call answers, in the layout of include/aveluafi.h.
#[derive(Clone, Copy, Debug, Default, PartialEq)]
#[repr(C)]
pub struct Share {
    pub number: i32,
    pub resume: usize,
    pub records: usize,
    pub written: usize,
    pub reclaimed: usize,
    pub passed: usize,
}

fn refused(number: i32) -> (Share, Vec<u8>) {
    (Share { number, ..Share::default() }, Vec::new())
}

/// What a call from a start on answers and writes: `records` are those that are read from there, in a capture of `size` bytes.
pub fn share(size: usize, start: usize, records: &[Record], room: usize, budget: usize) -> (Share, Vec<u8>) {
    if start > size {
        return refused(-1);
    }
    if room < budget {
        return refused(-2);
    }
    let mut done = Share::default();
    let mut bytes = Vec::new();
    let mut at = start;
    for r in records {
        if bytes.len() + r.rewritten.len() > budget {
            if done.records == 0 {
                return refused(-21);
            }
            done.resume = r.place;
            done.passed += r.place - at;
            return (done, bytes);
        }
        bytes.extend(&r.rewritten);
        done.records += 1;
        done.written += r.rewritten.len();
        done.reclaimed += HEAD + r.length - r.rewritten.len();
        done.passed += r.place - at;
        at = r.place + HEAD + r.length;
    }
    done.resume = size;
    done.passed += size - at;
    (done, bytes)
}

/// Holds `shortest` against every string of at most `most` bytes with the upper six bits 0, over a few bytes that can stand in headers: of all that read
/// as the same frames one alone is shortest, and it is the one that `shortest` finds for each of them. Answers how many strings and lists of frames.
pub fn agree(most: usize) -> (usize, usize) {
    let bytes = [0u8, 1, 2, 3, 4, 5, 0x41, 0x42, 0x82, 0x83, 0xc1, 0xc2];
    let mut strings = 0;
    let mut least: HashMap<Vec<Vec<u8>>, Vec<u8>> = HashMap::new();
    // the shortest come first
    for size in 1..=most {
        for number in 0..4 * bytes.len().pow(size as u32 - 1) {
            let mut p = vec![(number % 4) as u8];
            let mut rest = number / 4;
            for _ in 1..size {
                p.push(bytes[rest % bytes.len()]);
                rest /= bytes.len();
            }
            strings += 1;
            let Ok(packet) = read(&p, false) else { continue };
            let key = frames(&p, &packet).iter().map(|f| f.to_vec()).collect();
            let first = least.entry(key).or_insert(p.clone());
            assert_eq!(shortest(&p).as_ref(), Some(&*first), "{p:02x?}");
            assert!(*first == p || first.len() < p.len(), "{first:02x?} and {p:02x?}");
        }
    }
    (strings, least.len())
}
