//! Joins the packets of three streams into one multistream packet, sees one that lasts longer and one that is cut short refused, takes the streams out again
//! and joins them once more, through the safe wrapper in aveluafi.rs. examples/run builds and runs it; streams.c does the same in C and prints the same text.

#[allow(dead_code)]
mod aveluafi;
use aveluafi::{join, take, version, Refusal, VERSION};

// A pair of channels, 20 ms in one frame; a channel, 20 ms in two frames of 10, with a padding byte; a silent one, 20 ms in a frame without a byte.
const FRONT: &[u8] = &[0x7c, 0xa1, 0xa2, 0xa3, 0xa4];
const CENTRE: &[u8] = &[0x73, 0xc2, 1, 2, 0xb1, 0xb2, 0xb3, 0];
const LOW: &[u8] = &[0x78];
const LONGER: &[u8] = &[0x79, 0xc1, 0xc2];
const CUT: &[u8] = &[0x7a, 3, 0xd1];

fn show(what: &str, packet: &[u8]) {
    let bytes: Vec<String> = packet.iter().map(|b| format!(" {b:02x}")).collect();
    let plural = if packet.len() == 1 { "" } else { "s" };
    println!("{what}: {} byte{plural}:{}", packet.len(), bytes.concat());
}

// The packets one behind another, joined.
fn joined(packets: &[&[u8]], dst: &mut [u8]) -> Result<usize, Refusal> {
    let lengths: Vec<u16> = packets.iter().map(|p| p.len() as u16).collect();
    join(&packets.concat(), &lengths, dst)
}

fn main() -> Result<(), Refusal> {
    assert_eq!(version(), VERSION, "the archive is of another version than aveluafi.rs");
    let (mut buffer, mut packet, mut again) = ([0; 64], [0; 64], [0; 64]);

    // Streams of one packet last equally long: 40 ms do not go with 20. Nothing is written beside a refusal. One that cannot be read: the rule that it breaks,
    // and the byte, counted from the first of all.
    for other in [LONGER, CUT] {
        if let Err(refusal) = joined(&[FRONT, CENTRE, other], &mut buffer) {
            println!("refused: {refusal}");
        }
    }
    let bytes = joined(&[FRONT, CENTRE, LOW], &mut buffer)?;
    let whole = &buffer[..bytes];
    show("joined", whole);

    // Each stream's packet, in its shortest form, and all of them joined again.
    let mut packets = Vec::new();
    for k in 0..3 {
        let taken = take(whole, 3, k, &mut packet)?;
        show("taken out", &packet[..taken]);
        packets.push(packet[..taken].to_vec());
    }
    let parts: Vec<&[u8]> = packets.iter().map(|p| p.as_slice()).collect();
    let once_more = joined(&parts, &mut again)?;
    println!("joined again: {}", if again[..once_more] == *whole { "the same bytes" } else { "NOT the same bytes" });
    if let Err(refusal) = take(whole, 3, 3, &mut packet) {
        println!("refused stream 3 of 3: {}", refusal.number());
    }
    Ok(())
}
