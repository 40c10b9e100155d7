//! Holds the program `judge` and kind 24 of the program `replay` against the independent judge.
//!
//!   program captures COUNT SEED WORK COMMAND..     generated captures, each to a run of `judge`, two at a time
//!   program packets COUNT SEED WORK COMMAND..      generated packets, many to a run of `replay`
//!   program text CAPTURE                           what `judge` is to print for a capture, as crates/judge/stdout has it for crates/judge/stdin
//!   program edges                                  the request's own cases, and the least lengths, by the independent judge alone
//!
//! WORK is a folder for what the command gets as its standard input.

mod generate;
mod judge;
#[path = "../captures/reader.rs"]
mod reader;
use generate::Random;
use judge::{agree, judge, Verdict};
use std::fs::{write, File};
use std::process::{exit, Command, Stdio};

fn hex(bytes: &[u8]) -> String {
    bytes.iter().map(|b| format!("{b:02x}")).collect()
}

/// The line of a verdict, and the place of its total.
fn line(v: Verdict) -> (String, usize) {
    match v {
        Verdict::Refused => ("-1".to_string(), 4),
        Verdict::Unreadable(rule, place) => (format!("unreadable {rule} {place}"), 0),
        Verdict::Dirty => ("dirty".to_string(), 1),
        Verdict::Longer(least) => (format!("longer {least}"), 2),
        Verdict::Clean => ("clean".to_string(), 3),
    }
}

const KINDS: [&str; 5] = ["unreadable", "dirty", "longer", "clean", "refused"];

/// What the program is to print for a capture, and how many verdicts of each kind there are.
fn text(capture: &[u8]) -> (String, [usize; 5]) {
    let mut seen = [0; 5];
    if capture.len() > 65536 {
        return ("refused -1\n".to_string(), seen);
    }
    let mut lines = String::new();
    let mut place = 0;
    while let Some(r) = reader::next(capture, place) {
        let packet = &capture[r.place + 5..r.place + 5 + r.length];
        let (said, kind) = line(judge(packet, false));
        lines += &format!("{said}\n");
        seen[kind] += 1;
        place = r.place + 5 + r.length;
    }
    for (kind, n) in KINDS.iter().zip(seen).take(4) {
        lines += &format!("total {kind} {n}\n");
    }
    (lines, seen)
}

/// What the command prints; a crash is told as text, so that it differs from any verdict.
fn printed(command: &[String], path: &str, input: &[u8]) -> String {
    write(path, input).expect("the input's file");
    let input = File::open(path).expect("the input's file");
    let run = Command::new(&command[0]).args(&command[1..]).stdin(input).stderr(Stdio::inherit()).output().expect("the program");
    if !run.status.success() {
        return format!("ended with {}\n", run.status);
    }
    String::from_utf8_lossy(&run.stdout).into_owned()
}

#[derive(Default)]
struct Count {
    cases: usize,
    bytes: usize,
    seen: [usize; 5],
    differ: usize,
    smallest: Option<(Vec<u8>, String, String)>,
}

impl Count {
    fn add(&mut self, case: &[u8], seen: [usize; 5], expected: &str, got: &str) {
        self.cases += 1;
        self.bytes += case.len();
        for (sum, n) in self.seen.iter_mut().zip(seen) {
            *sum += n;
        }
        if got != expected {
            self.differ += 1;
            self.keep((case.to_vec(), expected.to_string(), got.to_string()));
        }
    }
    fn keep(&mut self, case: (Vec<u8>, String, String)) {
        if self.smallest.as_ref().map_or(true, |s| case.0.len() < s.0.len()) {
            self.smallest = Some(case);
        }
    }
    fn join(mut self, other: Count) -> Count {
        self.cases += other.cases;
        self.bytes += other.bytes;
        for (sum, n) in self.seen.iter_mut().zip(other.seen) {
            *sum += n;
        }
        self.differ += other.differ;
        if let Some(case) = other.smallest {
            self.keep(case);
        }
        self
    }
    fn tell(&self, what: &str) {
        let kinds: Vec<String> = KINDS.iter().zip(self.seen).map(|(kind, n)| format!("{n} {kind}")).collect();
        println!("{what}: {} bytes; verdicts: {}", self.bytes, kinds.join(", "));
        println!("{} {what}, {} differ", self.cases, self.differ);
        if let Some((case, expected, got)) = &self.smallest {
            println!("the smallest: {}\nexpected:\n{expected}\ngot:\n{got}", hex(case));
        }
    }
}

/// Every second capture of a seed's, from the first or from the second on.
fn share(turn: usize, count: usize, seed: u64, work: &str, command: &[String]) -> Count {
    let mut r = Random::new(seed);
    let path = format!("{work}/capture{turn}.bin");
    let mut c = Count::default();
    for i in 0..count {
        let capture = generate::capture(&mut r);
        if i % 2 == turn {
            let (expected, seen) = text(&capture);
            c.add(&capture, seen, &expected, &printed(command, &path, &capture));
        }
    }
    c
}

fn captures(count: usize, seed: u64, work: &str, command: &[String]) -> Count {
    std::thread::scope(|scope| {
        let threads: Vec<_> = (0..2).map(|turn| scope.spawn(move || share(turn, count, seed, work, command))).collect();
        threads.into_iter().map(|t| t.join().expect("a thread")).fold(Count::default(), Count::join)
    })
}

/// So many packets go to one run.
const RUN: usize = 20000;

fn packets(count: usize, seed: u64, work: &str, command: &[String]) -> Count {
    let mut r = Random::new(seed);
    let mut c = Count::default();
    while c.cases < count {
        let mut input = Vec::new();
        let mut cases = Vec::new();
        for _ in 0..RUN.min(count - c.cases) {
            let (p, own) = generate::packet(&mut r);
            input.extend([24, u8::from(own)]);
            input.extend((p.len() as i32).to_le_bytes());
            input.extend(&p);
            cases.push((p, own));
        }
        let got = printed(command, &format!("{work}/packets.bin"), &input);
        let mut lines = got.lines();
        for (p, own) in cases {
            let (expected, kind) = line(judge(&p, own));
            let mut seen = [0; 5];
            seen[kind] = 1;
            let expected = format!("{expected} ({})", if own { "self-delimited" } else { "ordinary" });
            let got = format!("{} ({})", lines.next().unwrap_or("nothing"), if own { "self-delimited" } else { "ordinary" });
            c.add(&p, seen, &expected, &got);
        }
        assert_eq!(lines.next(), None, "more lines than cases");
    }
    c
}

/// The cases of the request: a packet in hexadecimal digits, its delimiting, and the verdict.
fn edges() {
    let cases = [
        ("0341 01aa 07", false, Verdict::Dirty),
        ("0341 01aa 00", false, Verdict::Longer(2)),
        ("0341 00aa", false, Verdict::Longer(2)),
        ("0201 aabb", false, Verdict::Longer(3)),
        ("00aa", false, Verdict::Clean),
        ("0001 aa55 66", true, Verdict::Clean),
        ("0002 aa", true, Verdict::Unreadable(8, 1)),
    ];
    for (digits, own, expected) in cases {
        let digits = digits.replace(' ', "");
        let p: Vec<u8> = (0..digits.len()).step_by(2).map(|i| u8::from_str_radix(&digits[i..i + 2], 16).expect("digits")).collect();
        assert_eq!(judge(&p, own), expected, "{digits}");
    }
    assert_eq!(judge(&[0; 65535], false), Verdict::Unreadable(2, 1));
    assert_eq!(judge(&[0; 65536], true), Verdict::Refused);
    let (strings, lists) = agree(6);
    println!("the independent judge: {} cases of the request; its least lengths hold over {strings} strings, {lists} lists of frames", cases.len() + 2);
}

fn main() {
    let words: Vec<String> = std::env::args().skip(1).collect();
    let number = |i: usize| words[i].parse::<u64>().expect("a number");
    let run = match words[0].as_str() {
        "captures" => captures,
        "packets" => packets,
        "text" => {
            print!("{}", text(&std::fs::read(&words[1]).expect("a capture")).0);
            return;
        }
        _ => return edges(),
    };
    let c = run(number(1) as usize, number(2), &words[3], &words[4..]);
    c.tell(&words[0]);
    exit(if c.differ == 0 { 0 } else { 1 });
}
