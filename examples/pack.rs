//! Packs three packets into one, sees three others refused, pads and strips the packet in place, reads its frames back, cuts one out again, then all of them
//! in one call, and restores one of the packets, through the safe wrapper in aveluafi.rs. examples/run builds and runs it; pack.c does the same in C and prints
//! the same text.

#[allow(dead_code)]
mod aveluafi;
use aveluafi::{pad, read, unpad, version, Collector, Refusal, LEAST_STORE, VERSION};

const TOC: u8 = 0x78; // hybrid, 20 ms, one channel; code 0: one frame
const STEREO: u8 = 0x04; // one of the upper six bits, which must agree within a collector
const HEADERS: usize = 40; // bytes that each packet on the wire costs beside itself: IPv4 20, UDP 8, RTP 12

// A packet of one frame: the TOC byte, then the frame.
fn make(bytes: usize, toc: u8, fill: u8) -> Vec<u8> {
    let mut packet = vec![fill; bytes];
    packet[0] = toc;
    packet
}

fn same(a: Option<&[u8]>, b: &[u8]) -> &'static str {
    if a == Some(b) {
        "as added"
    } else {
        "NOT as added"
    }
}

fn main() -> Result<(), Refusal> {
    assert_eq!(version(), VERSION, "the archive is of another version than aveluafi.rs");

    // All memory is the caller's: the store that the collector copies frames into, the buffer that packets are written to.
    let mut store = [0; LEAST_STORE];
    let mut buffer = [0; 200];

    let packets = [make(40, TOC, 0xa1), make(45, TOC, 0xa2), make(38, TOC, 0xa3)];
    let before: usize = packets.iter().map(|p| p.len()).sum();

    let mut collector = Collector::new(&mut store);
    for p in &packets {
        collector.add(p)?;
        let held = collector.held();
        println!("added {} bytes: {} frame{} held", p.len(), held, if held == 1 { "" } else { "s" });
    }

    // A refusal changes nothing: the collector and its store are as they were, and can be used on.
    if let Err(refusal) = collector.add(&make(30, TOC | STEREO, 0xdd)) {
        println!("refused a packet with other TOC bits: {}, still {} frames held", refusal.number(), collector.held());
    }

    // A packet that cannot be read: the rule that it breaks, and the byte. Here the length of the first of two frames is cut short.
    if let Err(refusal) = collector.add(&[TOC | 2, 252]) {
        println!("refused a packet that is cut short: {}", refusal);
    }

    // A strict add refuses a packet whose padding is not zeros, which packing would drop: one frame of one byte, and one padding byte, 07.
    if let Err(refusal) = collector.add_strict(&[TOC | 3, 0x41, 1, 0xaa, 0x07]) {
        println!("refused a packet with dirty padding: {}, still {} frames held", refusal.number(), collector.held());
    }

    // All frames held, as one packet in its shortest form.
    let packed = collector.write(&mut buffer)?;
    println!("packed 3 packets, {} bytes in all, into 1 packet of {} bytes", before, packed);
    let more = packed - before;
    println!("reclaimed {} bytes on the wire: 2 headers of {} bytes fewer, {} byte more in the packet", 2 * HEADERS - more, HEADERS, more);

    // Padding, as a sender at a constant rate adds it, and the same packet stripped of it where it stands.
    pad(&mut buffer, packed)?;
    println!("padded to {} bytes", buffer.len());
    let stripped = unpad(&mut buffer)?;
    println!("stripped to {} bytes in place", stripped);
    println!("reclaimed {} bytes of padding", buffer.len() - stripped);

    // Each frame's place in the bytes that were read.
    let packet = read(&buffer[..stripped], false)?;
    println!("read {} frames in {} bytes, TOC byte {}", packet.frames().count(), packet.packet_offset, packet.toc);
    for (i, (place, p)) in packet.frames().zip(&packets).enumerate() {
        let (at, bytes) = (place.start, place.len());
        println!("frame {}: {} bytes at {}, {}", i, bytes, at, same(buffer.get(place), &p[1..]));
    }

    // Any range of the frames held can be written, again and again; here the second alone.
    let cut = collector.write_range(1..2, &mut buffer)?;
    println!("cut frame 1 out: a packet of {} bytes, {}", cut, same(buffer.get(..cut), &packets[1]));

    // Many ranges in one call, up to 48, their packets one behind another: here each frame by itself. If one is refused, nothing is written, and the refusal
    // says which, from 1.
    let ranges = [0..1, 1..2, 2..3];
    if let Err(refusal) = collector.write_many(&ranges, &mut buffer[..before - 1]) {
        println!("refused 3 cuts into {} bytes: {}", before - 1, refusal);
    }
    let cuts = collector.write_many(&ranges, &mut buffer[..before])?;
    println!("made 3 cuts into {} bytes", cuts.bytes);
    for (i, (place, p)) in cuts.packets().zip(&packets).enumerate() {
        let (at, bytes) = (place.start, place.len());
        println!("order {}: a packet of {} bytes at {}, {}", i + 1, bytes, at, same(buffer.get(place), p));
    }

    // Or the packets that were added, by their numbers: the refused ones have none, so the third that was accepted is number 2.
    let third = collector.write_packet(2, &mut buffer)?;
    println!("restored packet 2: {} bytes, {}", third, same(buffer.get(..third), &packets[2]));
    if let Err(refusal) = collector.write_packet(3, &mut buffer) {
        println!("refused packet 3: {}", refusal.number());
    }
    Ok(())
}
