//! Walks a capture file from standard input: each record, what is in its packet and how short that packet could be, and the bytes that are in no
//! record. Through the safe wrapper in aveluafi.rs. examples/run builds and runs it; walk.c does the same in C and prints the same text.

#[allow(dead_code)]
mod aveluafi;
use aveluafi::{next_record, read, unpad, Record, Refusal, RECORD_HEAD};
use std::io::Read;

fn show(r: &Record) {
    print!("record at {}: line {}, {} bytes, ", r.place, r.line, r.packet.len());
    match read(r.packet, false) {
        Err(refusal) => println!("{}", refusal),
        Ok(p) => {
            let frames = p.frames().count();
            let without = unpad(&mut r.packet.to_vec()).expect("a packet that can be read can be stripped");
            println!("{} frame{}, {} without padding", frames, if frames == 1 { "" } else { "s" }, without);
        }
    }
}

fn main() -> Result<(), Refusal> {
    let mut capture = Vec::new();
    std::io::stdin().read_to_end(&mut capture).expect("standard input");
    let (mut records, mut passed, mut at) = (0, 0, 0);
    loop {
        let next = next_record(&capture, at)?;
        if next.passed > 0 {
            println!("passed over {} byte{} at {}", next.passed, if next.passed == 1 { "" } else { "s" }, at);
        }
        passed += next.passed;
        let Some(r) = next.record else { break };
        show(&r);
        records += 1;
        at = r.place + RECORD_HEAD + r.packet.len();
    }
    println!("{} records and {} bytes passed over in {}", records, passed, capture.len());
    if let Err(refusal) = next_record(&capture, capture.len() + 1) {
        println!("a start past the end: {}", refusal.number());
    }
    Ok(())
}
