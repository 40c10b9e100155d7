//! Holds kinds 25 and 26 of the program `replay` against the independent compactor, and that against the cases of the request.
//!
//!   program shares COUNT SEED WORK COMMAND..      kind 25: generated captures with starts, budgets and rooms, many to a run
//!   program choices COUNT SEED WORK COMMAND..     kind 26: generated packets with work rooms, many to a run
//!   program malformed WORK COMMAND..              cases of both kinds that are malformed or cut short
//!   program record COUNT SEED MOST WORK           so many cases of each kind, of at most MOST bytes, to WORK/record.bin, and their lines to WORK/record.txt
//!   program edges                                 the request's own cases, and the shorter spelling, by the independent compactor alone
//!
//! WORK is a folder for what the command gets as its standard input.

mod compactor;
mod generate;
#[path = "../judge/judge.rs"]
mod judge;
#[path = "../judge/generate.rs"]
mod packets;
#[path = "../captures/reader.rs"]
mod reader;
use compactor::{agree, share, shorter, shortest, Capture, Share};
use packets::Random;
use std::fs::{write, File};
use std::process::{exit, Command, Stdio};

fn hex(bytes: &[u8]) -> String {
    if bytes.is_empty() {
        return "-".to_string();
    }
    bytes.iter().map(|b| format!("{b:02x}")).collect()
}

fn unhex(digits: &str) -> Vec<u8> {
    let digits = digits.replace(' ', "");
    (0..digits.len()).step_by(2).map(|i| u8::from_str_radix(&digits[i..i + 2], 16).expect("digits")).collect()
}

/// What a byte of a destination or a work buffer holds before the call.
const UNSET: u8 = 238;

fn buffer(bytes: &[u8], room: usize) -> String {
    let mut all = vec![UNSET; room];
    all[..bytes.len()].copy_from_slice(bytes);
    hex(&all)
}

/// A case: what replay reads, the line that it is to print, and which kind of answer that is.
type Case = (Vec<u8>, String, usize);

const SHARES: [&str; 5] = ["done to the end", "done in part", "refused by -1", "refused by -2", "refused by -21"];

/// Kind 25. Most budgets are those at which one record more is done, or a byte from it.
fn share_case(r: &mut Random) -> Case {
    let mut capture = generate::capture(r);
    capture.truncate(65536);
    let mut known = Capture::new(&capture);
    let front = known.records(0);
    let size = capture.len();
    let start = match r.below(6) {
        0 | 1 => 0,
        2 | 3 if !front.is_empty() => front[r.below(front.len())].place,
        4 if r.one_in(2) => r.of(&[size, size + 1, size + 2, i32::MAX as usize]),
        _ => r.below(size + 1),
    };
    let records = if start > size { Vec::new() } else { known.records(start) };
    let sum: usize = records.iter().take(r.below(records.len() + 1)).map(|one| one.rewritten.len()).sum();
    let budget = match r.below(10) {
        0 => r.below(80),
        1 => r.of(&[0, size, 65536, i32::MAX as usize]),
        _ => (sum + 1).saturating_sub(r.below(3)),
    };
    let room = match r.below(6) {
        0 => budget.saturating_sub(1),
        1 => r.below(100),
        2 => budget,
        _ => budget + r.below(8),
    };
    let room = room.min(65536);
    let mut input = vec![25];
    for n in [start, budget, room, size] {
        input.extend((n as i32).to_le_bytes());
    }
    input.extend(&capture);
    let (s, bytes) = share(size, start, &records, room, budget);
    let line = format!("{} {} {} {} {} {} {}", s.number, s.resume, s.records, s.written, s.reclaimed, s.passed, buffer(&bytes, room));
    let kind = match s.number {
        -1 => 2,
        -2 => 3,
        -21 => 4,
        _ => usize::from(s.resume < size),
    };
    (input, line, kind)
}

const CHOICES: [&str; 5] = ["shorter", "no longer than the compact one", "unreadable", "with too little room", ""];

/// Kind 26. The work room is often what the compact packet needs, or a byte from it.
fn choice_case(r: &mut Random) -> Case {
    let p = match r.below(20000) {
        0..=999 => packets::packet(r).0,
        1000 => generate::long(r),
        1001 => vec![r.below(256) as u8; 65536],
        _ => generate::packet(r),
    };
    let least = shortest(&p).map_or(p.len(), |q| q.len());
    let room = match r.below(8) {
        0 => r.below(20),
        1 => p.len(),
        2 => r.below(2 * p.len() + 2),
        3 if r.one_in(2000) => r.of(&[65534, 65535, 65536]),
        _ => (least + 1).saturating_sub(r.below(3)),
    };
    let room = room.min(65536);
    let mut input = vec![26];
    input.extend((room as i32).to_le_bytes());
    input.extend((p.len() as i32).to_le_bytes());
    input.extend(&p);
    let found = shorter(&p, room);
    let line = match &found {
        Some(q) => format!("1 {} {}", hex(q), buffer(q, room)),
        None => format!("0 {} {}", hex(&p), buffer(&[], room)),
    };
    let kind = match (&found, shortest(&p)) {
        (Some(_), _) => 0,
        (None, None) => 2,
        (None, Some(q)) if q.len() < p.len() => 3,
        _ => 1,
    };
    (input, line, kind)
}

/// What the command prints; a crash is told as a line more, which differs from any answer.
fn printed(command: &[String], path: &str, input: &[u8]) -> String {
    write(path, input).expect("the input's file");
    let input = File::open(path).expect("the input's file");
    let run = Command::new(&command[0]).args(&command[1..]).stdin(input).stderr(Stdio::inherit()).output().expect("the program");
    let text = String::from_utf8_lossy(&run.stdout).into_owned();
    if run.status.success() {
        text
    } else {
        format!("{text}ended with {}\n", run.status)
    }
}

/// So many cases go to one run.
const RUN: usize = 10000;

fn cases(what: &str, make: fn(&mut Random) -> Case, names: [&str; 5], count: usize, seed: u64, work: &str, command: &[String]) -> usize {
    let mut r = Random::new(seed);
    let mut seen = [0; 5];
    let (mut done, mut bytes, mut differ) = (0, 0, 0);
    let mut smallest: Option<(Vec<u8>, String, String)> = None;
    while done < count {
        let run: Vec<Case> = (0..RUN.min(count - done)).map(|_| make(&mut r)).collect();
        let input: Vec<u8> = run.iter().flat_map(|one| one.0.iter().copied()).collect();
        let got = printed(command, &format!("{work}/{what}.bin"), &input);
        let mut lines = got.lines();
        done += run.len();
        bytes += input.len();
        for (case, expected, kind) in run {
            seen[kind] += 1;
            let line = lines.next().unwrap_or("nothing");
            if line != expected {
                differ += 1;
                if smallest.as_ref().map_or(true, |s| case.len() < s.0.len()) {
                    smallest = Some((case, expected, line.to_string()));
                }
            }
        }
        if let Some(more) = lines.next() {
            println!("a line more than cases: {more}");
            differ += 1;
        }
    }
    let kinds: Vec<String> = names.iter().zip(seen).filter(|k| !k.0.is_empty()).map(|(name, n)| format!("{n} {name}")).collect();
    println!("{what}: {bytes} bytes of cases; {}", kinds.join(", "));
    println!("{done} {what}, {differ} differ");
    if let Some((case, expected, got)) = smallest {
        println!("the smallest: {}\nexpected:\n{expected}\ngot:\n{got}", hex(&case));
    }
    differ
}

/// A list of cases and their lines, for the gate: no room above 2,500 bytes, which would be a long line.
fn record(count: usize, seed: u64, most: usize, work: &str) {
    let mut r = Random::new(seed);
    let (mut input, mut lines) = (Vec::new(), String::new());
    for make in [share_case as fn(&mut Random) -> Case, choice_case] {
        let mut left = count;
        while left > 0 {
            let (case, line, _) = make(&mut r);
            if case.len() <= most && line.len() <= 5000 {
                input.extend(case);
                lines += &line;
                lines.push('\n');
                left -= 1;
            }
        }
    }
    write(format!("{work}/record.bin"), input).expect("the list's file");
    write(format!("{work}/record.txt"), lines).expect("the lines' file");
}

/// Cases that are malformed by their numbers or cut short: behind the line of a case that is not, each prints that word and ends the program.
fn malformed(work: &str, command: &[String]) -> usize {
    let case = |kind: u8, numbers: &[i32], bytes: &[u8]| {
        let mut input = vec![kind];
        numbers.iter().for_each(|n| input.extend(n.to_le_bytes()));
        input.extend(bytes);
        input
    };
    let good = case(26, &[3, 4], &[3, 2, 0xaa, 0xbb]);
    let mut bad = vec![
        case(25, &[0, 0, 0, 2], &[0]),
        case(25, &[0, 0, 0], &[]),
        case(25, &[0, 0], &[]),
        case(25, &[0], &[]),
        case(25, &[], &[]),
        case(26, &[0, 2], &[0]),
        case(26, &[0], &[]),
        case(26, &[], &[]),
    ];
    // what stands behind one that is malformed by a number is not answered
    let numbers = [
        case(25, &[-1, 0, 0, 0], &[]),
        case(25, &[i32::MIN, 0, 0, 0], &[]),
        case(25, &[0, -1, 0, 0], &[]),
        case(25, &[0, i32::MIN, 0, 0], &[]),
        case(25, &[0, 0, -1, 0], &[]),
        case(25, &[0, 0, 65537, 0], &[]),
        case(25, &[0, 0, 0, -1], &[]),
        case(25, &[0, 0, 0, 65537], &[0; 65537]),
        case(26, &[-1, 0], &[]),
        case(26, &[65537, 0], &[]),
        case(26, &[0, -1], &[]),
        case(26, &[0, 65537], &[0; 65537]),
    ];
    bad.extend(numbers.map(|one| [one, good.clone()].concat()));
    let mut differ = 0;
    for one in &bad {
        let got = printed(command, &format!("{work}/malformed.bin"), &[&good[..], one].concat());
        if got != "1 01aabb 01aabb\nmalformed\n" {
            differ += 1;
            println!("{} printed:\n{got}", hex(&one[..one.len().min(40)]));
        }
    }
    println!("{} malformed cases, {differ} differ", bad.len());
    differ
}

/// The cases of the request: start, destination, budget, and number, resume place, records, bytes written, reclaimed and passed over.
fn edges() {
    let capture = unhex("4b9d 01 0004 0302aabb 4b4b 4b9d 02 0002 0300 4b9d 03 0002 00aa 00");
    let rewritten = unhex("4b9d 01 0003 01aabb 4b9d 02 0002 0300 4b9d 03 0002 00aa");
    let asked = [
        (0, 99, 99, (0, 26, 3, 22, 1, 3)),
        (0, 22, 22, (0, 26, 3, 22, 1, 3)),
        (0, 8, 8, (0, 11, 1, 8, 1, 2)),
        (0, 14, 14, (0, 11, 1, 8, 1, 2)),
        (0, 7, 7, (-21, 0, 0, 0, 0, 0)),
        (0, 15, 15, (0, 18, 2, 15, 1, 2)),
        (11, 6, 6, (-21, 0, 0, 0, 0, 0)),
        (26, 0, 0, (0, 26, 0, 0, 0, 0)),
        (27, 0, 5, (-1, 0, 0, 0, 0, 0)),
        (0, 5, 6, (-2, 0, 0, 0, 0, 0)),
    ];
    for (start, room, budget, (number, resume, records, written, reclaimed, passed)) in asked {
        let list = if start > capture.len() { Vec::new() } else { Capture::new(&capture).records(start) };
        let (got, bytes) = share(capture.len(), start, &list, room, budget);
        assert_eq!(got, Share { number, resume, records, written, reclaimed, passed }, "start {start}, destination {room}, budget {budget}");
        assert_eq!(bytes, rewritten[..written], "start {start}, budget {budget}");
    }
    let choices = [("0302 aabb", 3, Some("01aabb")), ("0302 aabb", 2, None), ("0300", 9, None), ("00aa", 9, None)];
    for (p, room, expected) in choices {
        assert_eq!(shorter(&unhex(p), room), expected.map(unhex), "{p} into {room}");
    }
    let (strings, lists) = agree(6);
    let n = asked.len() + choices.len();
    println!("the independent compactor: {n} cases of the request; its spelling is the shortest over {strings} strings, {lists} lists of frames");
}

fn main() {
    let words: Vec<String> = std::env::args().skip(1).collect();
    let number = |i: usize| words[i].parse::<u64>().expect("a number");
    let differ = match words[0].as_str() {
        "shares" => cases("shares", share_case, SHARES, number(1) as usize, number(2), &words[3], &words[4..]),
        "choices" => cases("choices", choice_case, CHOICES, number(1) as usize, number(2), &words[3], &words[4..]),
        "malformed" => malformed(&words[1], &words[2..]),
        "record" => {
            record(number(1) as usize, number(2), number(3) as usize, &words[4]);
            0
        }
        _ => {
            edges();
            0
        }
    };
    exit(if differ == 0 { 0 } else { 1 });
}
