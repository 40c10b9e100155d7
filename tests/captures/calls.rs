//! Holds the archive's call `aveluafi_next_record` against the independent reader: on each generated capture at every start place, the end and two
//! places past it.
//!
//!   calls COUNT SEED

mod generate;
mod reader;
use std::process::exit;

#[derive(PartialEq, Debug)]
#[repr(C)]
struct Record {
    number: i32,
    line: u8,
    place: usize,
    length: usize,
    passed: usize,
}

#[link(name = "aveluafi", kind = "static")]
extern "C" {
    fn aveluafi_next_record(data: *const u8, data_len: usize, start: usize) -> Record;
}

fn expected(file: &[u8], start: usize) -> Record {
    if start > file.len() {
        return Record { number: -1, line: 0, place: 0, length: 0, passed: 0 };
    }
    match reader::next(file, start) {
        Some(r) => Record { number: 0, line: r.line, place: r.place, length: r.length, passed: r.place - start },
        None => Record { number: 0, line: 0, place: file.len(), length: 0, passed: file.len() - start },
    }
}

fn main() {
    let words: Vec<u64> = std::env::args().skip(1).map(|w| w.parse().expect("a number")).collect();
    let mut r = generate::Random::new(words[1]);
    let (mut calls, mut differ) = (0usize, 0usize);
    for _ in 0..words[0] {
        let capture = generate::capture(&mut r);
        // in a long capture only the last places: each answer is sought from its start on
        let first = capture.len().saturating_sub(1000);
        for start in (first..=capture.len() + 2).chain([0, usize::MAX]) {
            let got = unsafe { aveluafi_next_record(capture.as_ptr(), capture.len(), start) };
            calls += 1;
            if got != expected(&capture, start) {
                differ += 1;
                if differ == 1 {
                    println!("start {} in {:02x?}: expected {:?}, got {:?}", start, capture, expected(&capture, start), got);
                }
            }
        }
    }
    println!("{} captures, {} calls, {} differ", words[0], calls, differ);
    exit(if differ == 0 { 0 } else { 1 });
}
