//! Holds the archive's call `aveluafi_compact` against the independent compactor, on generated captures.
//!
//!   calls COUNT SEED
//!
//! On each capture the call is made from 0, every place of a record, a place inside each, the end and past it; at each start with every budget at which one
//! record more is done, one below and one above it, 0 and more than enough; each into a destination as long as the budget, one that is shorter by one, and
//! at every second budget a longer one. Of captures with more than 12 records or 10,000 bytes, start 0 has all budgets, and some six records are taken as
//! starts, with some budgets each. Every field of the answer and every byte of the destination and beside it are compared. Then calls are resumed with
//! random budgets until the end, the output is compacted again, and read back.

mod compactor;
mod generate;
#[path = "../judge/judge.rs"]
mod judge;
#[path = "../judge/generate.rs"]
mod packets;
#[path = "../captures/reader.rs"]
mod reader;
use compactor::{share, Capture, Record, Share, HEAD};
use packets::Random;
use std::process::exit;

extern "C" {
    fn aveluafi_compact(data: *const u8, data_len: usize, start: usize, dst: *mut u8, dst_len: usize, budget: usize) -> Share;
}

/// Bytes before and behind the destination that no call may touch.
const EDGE: usize = 16;

/// What the destination and the bytes beside it hold before a call, from a number on.
fn pattern(room: usize, from: usize) -> Vec<u8> {
    (from..from + room + 2 * EDGE).map(|i| (i * 7 + i / 256) as u8).collect()
}

/// The call: its answer, and the destination with the bytes beside it.
fn called(capture: &[u8], start: usize, room: usize, budget: usize, from: usize) -> (Share, Vec<u8>) {
    let mut dst = pattern(room, from);
    let answer = unsafe { aveluafi_compact(capture.as_ptr(), capture.len(), start, dst[EDGE..].as_mut_ptr(), room, budget) };
    (answer, dst)
}

/// The first n bytes of the destination, or all of them where there are not so many.
fn front(dst: &[u8], n: usize) -> &[u8] {
    let room = dst.len() - 2 * EDGE;
    &dst[EDGE..EDGE + n.min(room)]
}

#[derive(Default)]
struct Count {
    captures: usize,
    bytes: usize,
    empty: usize,
    records: usize,
    shortened: usize,
    unreadable: usize,
    long: usize,
    passed: usize,
    calls: usize,
    resumed: usize,
    /// done in full, done in part, -1, -2, -21
    seen: [usize; 5],
    differ: usize,
    smallest: Option<(usize, String)>,
}

impl Count {
    fn wrong(&mut self, size: usize, text: impl FnOnce() -> String) {
        self.differ += 1;
        if self.smallest.as_ref().map_or(true, |s| size < s.0) {
            self.smallest = Some((size, text()));
        }
    }
    fn compare(&mut self, capture: &[u8], start: usize, records: &[Record], room: usize, budget: usize) {
        let (answer, bytes) = share(capture.len(), start, records, room, budget);
        let from = self.calls % 1000;
        let (got, dst) = called(capture, start, room, budget, from);
        let mut expected = pattern(room, from);
        expected[EDGE..EDGE + bytes.len()].copy_from_slice(&bytes);
        self.calls += 1;
        let kind = match answer.number {
            -1 => 2,
            -2 => 3,
            -21 => 4,
            _ => usize::from(answer.resume < capture.len()),
        };
        self.seen[kind] += 1;
        if got != answer || dst != expected {
            let at = (0..dst.len()).find(|&i| dst[i] != expected[i]).map(|i| i as i64 - EDGE as i64);
            self.wrong(capture.len(), || {
                format!("start {start}, budget {budget}, room {room} in {capture:02x?}:\nexpected {answer:?}\ngot {got:?}\nfirst other byte at {at:?}")
            });
        }
    }
    fn join(mut self, other: Count) -> Count {
        self.captures += other.captures;
        self.bytes += other.bytes;
        self.empty += other.empty;
        self.records += other.records;
        self.shortened += other.shortened;
        self.unreadable += other.unreadable;
        self.long += other.long;
        self.passed += other.passed;
        self.calls += other.calls;
        self.resumed += other.resumed;
        for (sum, n) in self.seen.iter_mut().zip(other.seen) {
            *sum += n;
        }
        self.differ += other.differ;
        if let Some((size, text)) = other.smallest {
            if self.smallest.as_ref().map_or(true, |s| size < s.0) {
                self.smallest = Some((size, text));
            }
        }
        self
    }
}

/// The budgets at which one record more is done, one below and above them, 0 and more than enough; of long lists `most` of them if not all.
fn budgets(r: &mut Random, size: usize, records: &[Record], most: usize) -> Vec<usize> {
    let mut sum = 0;
    let sums: Vec<usize> = records
        .iter()
        .map(|one| {
            sum += one.rewritten.len();
            sum
        })
        .collect();
    let mut some = sums.clone();
    if some.len() > most {
        some = (0..most).map(|_| r.of(&sums)).chain(sums.last().copied()).collect();
    }
    let mut all: Vec<usize> = some.iter().flat_map(|&n| [n - 1, n, n + 1]).chain([0, 4, 5, size, size + 40]).collect();
    all.sort();
    all.dedup();
    all
}

fn every_call(c: &mut Count, r: &mut Random, known: &mut Capture) {
    let capture = known.bytes;
    let front = known.records(0);
    let many = front.len() > 12 || capture.len() > 10000;
    let mut starts = vec![0, capture.len(), capture.len() + 1, usize::MAX];
    for one in &front {
        if !many || r.below(front.len()) < 6 {
            starts.push(one.place);
            starts.push(one.place + 1 + r.below(HEAD - 1 + one.length));
        }
    }
    starts.push(r.below(capture.len() + 1));
    for (i, &start) in starts.iter().enumerate() {
        let records = if start > capture.len() { Vec::new() } else { known.records(start) };
        let most = if i == 0 || !many { usize::MAX } else { 6 };
        for budget in budgets(r, capture.len(), &records, most) {
            c.compare(capture, start, &records, budget, budget);
            if budget > 0 {
                c.compare(capture, start, &records, budget - 1, budget);
            }
            if r.one_in(2) {
                c.compare(capture, start, &records, budget + 1 + r.below(300), budget);
            }
        }
        c.compare(capture, start, &records, r.below(100), usize::MAX - r.below(2));
        c.compare(capture, start, &records, 0, 5);
    }
}

/// Calls with random budgets, resumed until the end, write and count what one call with ample budget does.
fn resumed(c: &mut Count, r: &mut Random, capture: &[u8], start: usize) {
    let (whole, ample) = called(capture, start, capture.len(), capture.len(), 0);
    let most = r.of(&[30, 100, 1000, 70000]);
    let mut sum = Share { resume: start, ..Share::default() };
    let mut joined: Vec<u8> = Vec::new();
    let mut budget = r.below(most);
    while sum.resume < capture.len() {
        let (one, dst) = called(capture, sum.resume, budget, budget, 0);
        c.resumed += 1;
        if one.number == -21 && budget < 70000 {
            budget = budget * 2 + 1;
            continue;
        }
        if one.number != 0 || one.resume <= sum.resume {
            break;
        }
        joined.extend(front(&dst, one.written));
        sum = Share {
            number: one.number,
            resume: one.resume,
            records: sum.records + one.records,
            written: sum.written + one.written,
            reclaimed: sum.reclaimed + one.reclaimed,
            passed: sum.passed + one.passed,
        };
        budget = r.below(most);
    }
    let counted = whole.resume == start + whole.written + whole.reclaimed + whole.passed;
    if sum != whole || !counted || joined != front(&ample, whole.written) {
        c.wrong(capture.len(), || format!("resumed from {start} in {capture:02x?}:\nexpected {whole:?}\ngot {sum:?}"));
    }
}

/// The output is all records, compacting it changes nothing, and its records are those of the capture: same lines, frames and upper six bits, and packets
/// that cannot be read byte for byte.
fn read_back(c: &mut Count, capture: &[u8]) {
    let (whole, dst) = called(capture, 0, capture.len(), capture.len(), 0);
    let out = front(&dst, whole.written);
    let (again, second) = called(out, 0, out.len(), out.len(), 0);
    let n = out.len();
    let same = again == Share { number: 0, resume: n, records: whole.records, written: n, reclaimed: 0, passed: 0 } && front(&second, n) == out;
    let mut alike = true;
    let (mut from, mut at) = (0, 0);
    while let Some(old) = reader::next(capture, from) {
        let before = &capture[old.place + HEAD..old.place + HEAD + old.length];
        from = old.place + HEAD + old.length;
        c.records += 1;
        let Some(new) = reader::next(out, at) else {
            alike = false;
            break;
        };
        let after = &out[new.place + HEAD..new.place + HEAD + new.length];
        alike &= new.place == at && new.line == old.line && new.length <= old.length;
        alike &= match (judge::read(before, false), judge::read(after, false)) {
            (Ok(one), Ok(two)) => judge::frames(before, &one) == judge::frames(after, &two) && before[0] & 0xfc == after[0] & 0xfc,
            (Err(_), Err(_)) => before == after,
            _ => false,
        };
        at = new.place + HEAD + new.length;
        c.shortened += usize::from(new.length < old.length);
        c.unreadable += usize::from(judge::read(before, false).is_err());
        c.long += usize::from(old.length > 65000);
    }
    c.passed += whole.passed;
    if !same || !alike || at != n {
        c.wrong(capture.len(), || format!("read back {capture:02x?}:\noutput {out:02x?}, compacted again {again:?}, same {same}, alike {alike}"));
    }
}

/// Every second capture of a seed's, from the first or from the second on.
fn half(turn: usize, count: usize, seed: u64) -> Count {
    let mut r = Random::new(seed);
    let mut own = Random::new(seed + 1000003 + turn as u64);
    let mut c = Count::default();
    for i in 0..count {
        let capture = generate::capture(&mut r);
        if i % 2 != turn {
            continue;
        }
        c.captures += 1;
        c.bytes += capture.len();
        c.empty += usize::from(capture.is_empty());
        every_call(&mut c, &mut own, &mut Capture::new(&capture));
        resumed(&mut c, &mut own, &capture, 0);
        let start = own.below(capture.len() + 1);
        resumed(&mut c, &mut own, &capture, start);
        read_back(&mut c, &capture);
    }
    c
}

fn main() {
    let words: Vec<u64> = std::env::args().skip(1).map(|w| w.parse().expect("a number")).collect();
    let (count, seed) = (words[0] as usize, words[1]);
    let c = std::thread::scope(|scope| {
        let threads: Vec<_> = (0..2).map(|turn| scope.spawn(move || half(turn, count, seed))).collect();
        threads.into_iter().map(|t| t.join().expect("a thread")).fold(Count::default(), Count::join)
    });
    println!("{} bytes, {} of them passed over, {} captures of none", c.bytes, c.passed, c.empty);
    println!("{} records: {} shortened, {} unreadable, {} above 65,000 bytes", c.records, c.shortened, c.unreadable, c.long);
    let [all, part, bad, small, over] = c.seen;
    println!("{} calls compared: {all} done to the end, {part} in part, {bad} refused by -1, {small} by -2, {over} by -21; {} resumed", c.calls, c.resumed);
    println!("{} captures, {} differ", c.captures, c.differ);
    if let Some((_, text)) = &c.smallest {
        println!("the smallest: {text}");
    }
    exit(if c.differ == 0 { 0 } else { 1 });
}
