//! Reads the identification header of an Ogg Opus stream, turns its gain down by 3 dB, writes it and reads it back, and sees headers refused: one of a version
//! to come, one without its last entry, one whose field breaks a rule, and fields that cannot be written. Through the safe wrapper in aveluafi.rs.
//! examples/run builds and runs it; head.c does the same in C and prints the same text.

#[allow(dead_code)]
mod aveluafi;
use aveluafi::{read_head, version, write_head, Head, Refusal, MOST_HEAD, VERSION};

// Version 1, six channels, 312 samples to be left out, 44,100 Hz, a gain of 1 dB, family 1: four streams, of which two are pairs, and the channels' places.
const SIX: &[u8] = b"OpusHead\x01\x06\x38\x01\x44\xac\x00\x00\x00\x01\x01\x04\x02\x00\x04\x01\x02\x03\x05";

fn show(h: &Head) {
    let mapping: Vec<String> = h.mapping[..h.channels as usize].iter().map(|e| format!(" {e}")).collect();
    print!("version {}, {} channels, pre-skip {}, {} Hz, ", h.version, h.channels, h.pre_skip, h.rate);
    println!("gain {}/256 dB, family {}, streams {}, coupled {}, mapping{}", h.gain, h.family, h.streams, h.coupled, mapping.concat());
}

// A header, or fields to be written, that must be refused.
fn refused<T>(what: &str, answer: Result<T, Refusal>) {
    if let Err(refusal) = answer {
        println!("{what}: {}, {refusal}", refusal.number());
    }
}

fn main() -> Result<(), Refusal> {
    assert_eq!(version(), VERSION, "the archive is of another version than aveluafi.rs");
    let mut head = read_head(SIX)?;
    show(&head);

    // 3 dB less; the rest as it was read.
    head.gain -= 3 * 256;
    let mut bytes = [0; MOST_HEAD];
    let n = write_head(&head, &mut bytes)?;
    let text: Vec<String> = bytes[..n].iter().map(|b| format!(" {b:02x}")).collect();
    println!("written: {n} bytes:{}", text.concat());
    let again = read_head(&bytes[..n])?;
    show(&again);
    println!("read back: {}", if again == head { "the same fields" } else { "NOT the same fields" });

    // Headers that are refused, each with one byte changed or missing.
    bytes[8] = 16;
    refused("version 16", read_head(&bytes[..n]));
    bytes[8] = 1;
    refused("without its last entry", read_head(&bytes[..n - 1]));
    bytes[26] = 6;
    refused("entry 6 of 6 places", read_head(&bytes[..n]));

    // Fields that no header of version 1 has, and a destination that is too short; nothing is written.
    head.mapping[6] = 1;
    refused("an entry for a seventh channel", write_head(&head, &mut bytes));
    head.mapping[6] = 0;
    refused("into 26 bytes", write_head(&head, &mut bytes[..26]));
    Ok(())
}
