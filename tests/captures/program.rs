//! Holds the program `captures` against the independent reader.
//!
//!   program random COUNT SEED WORK COMMAND..     generated captures, two at a time
//!   program kinds WORK COMMAND..                 65,536 bytes of each kind
//!
//! WORK is a folder for the captures, which the command gets as its standard input.

mod generate;
mod reader;
use std::fs::{write, File};
use std::process::{exit, Command, Stdio};

fn hex(bytes: &[u8]) -> String {
    bytes.iter().map(|b| format!("{b:02x}")).collect()
}

/// What the program prints for a capture; a crash is told as text, so that it differs from any listing.
fn printed(command: &[String], path: &str, capture: &[u8]) -> String {
    write(path, capture).expect("the capture's file");
    let input = File::open(path).expect("the capture's file");
    let run = Command::new(&command[0]).args(&command[1..]).stdin(input).stderr(Stdio::inherit()).output().expect("the program");
    if !run.status.success() {
        return format!("ended with {}\n", run.status);
    }
    String::from_utf8_lossy(&run.stdout).into_owned()
}

struct Count {
    captures: usize,
    bytes: usize,
    records: usize,
    marks: usize,
    differ: usize,
    smallest: Option<(Vec<u8>, String)>,
}

/// Every second capture of a seed's, from the first or from the second on.
fn share(turn: usize, count: usize, seed: u64, work: &str, command: &[String]) -> Count {
    let mut r = generate::Random::new(seed);
    let path = format!("{work}/capture{turn}.bin");
    let mut c = Count { captures: 0, bytes: 0, records: 0, marks: 0, differ: 0, smallest: None };
    for i in 0..count {
        let capture = generate::capture(&mut r);
        if i % 2 != turn {
            continue;
        }
        let expected = reader::text(&capture);
        let got = printed(command, &path, &capture);
        c.captures += 1;
        c.bytes += capture.len();
        c.records += expected.lines().filter(|l| !l.starts_with("refused")).count();
        c.marks += capture.windows(2).filter(|w| w == &[0x4b, 0x9d]).count();
        if got != expected {
            c.differ += 1;
            if c.smallest.as_ref().map_or(true, |(s, _)| capture.len() < s.len()) {
                c.smallest = Some((capture, got));
            }
        }
    }
    c
}

fn random(count: usize, seed: u64, work: &str, command: &[String]) -> usize {
    let counts: Vec<Count> = std::thread::scope(|scope| {
        let threads: Vec<_> = (0..2).map(|turn| scope.spawn(move || share(turn, count, seed, work, command))).collect();
        threads.into_iter().map(|t| t.join().expect("a thread")).collect()
    });
    let sum = |f: fn(&Count) -> usize| counts.iter().map(f).sum::<usize>();
    println!("{} captures of {} bytes, {} marks in them, {} records", sum(|c| c.captures), sum(|c| c.bytes), sum(|c| c.marks), sum(|c| c.records));
    println!("{} differ", sum(|c| c.differ));
    let smallest = counts.iter().filter_map(|c| c.smallest.as_ref()).min_by_key(|(capture, _)| capture.len());
    if let Some((capture, got)) = smallest {
        println!("the smallest: {}\nexpected:\n{}got:\n{}", hex(capture), reader::text(capture), got);
    }
    sum(|c| c.differ)
}

fn kinds(work: &str, command: &[String]) -> usize {
    let mut differ = 0;
    for (name, capture) in generate::kinds() {
        let expected = reader::text(&capture);
        let same = printed(command, &format!("{work}/kind.bin"), &capture) == expected;
        println!("{} bytes, {}: {} lines, {}", capture.len(), name, expected.lines().count(), if same { "as expected" } else { "NOT as expected" });
        differ += usize::from(!same);
    }
    differ
}

fn main() {
    let words: Vec<String> = std::env::args().skip(1).collect();
    let number = |i: usize| words[i].parse::<u64>().expect("a number");
    let differ = match words[0].as_str() {
        "random" => random(number(1) as usize, number(2), &words[3], &words[4..]),
        _ => kinds(&words[1], &words[2..]),
    };
    exit(if differ == 0 { 0 } else { 1 });
}
