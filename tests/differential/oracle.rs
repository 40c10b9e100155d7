// Answers cases of the replay protocol by the crate unopus 0.0.1 itself: its opus.rs, repacketizer.rs, opus_defines.rs and externs.rs are taken
// in unchanged. `build` puts the folder they stand in for CRATE_FOLDER.
//
// Written here, from document 01: the frame count, whose text the crate does not give; the bounds outside which the crate would touch memory
// that is not its own, or which the port adds (size, room, rate, 65,535 bytes, 1 to 255 streams). After a refused pad, multistream pad or
// multistream unpad the crate has moved bytes already, and only the number is compared: the line then has the buffer as it was. A refused unpad is
// compared byte for byte. A call in place is lent more bytes than it is told of, and must leave those.
#![allow(unused, non_snake_case, non_camel_case_types, static_mut_refs, dead_code)]

#[path = "CRATE_FOLDER/src/externs.rs"]
mod externs;
mod src {
    pub mod opus_defines {
        include!("CRATE_FOLDER/src/src/opus_defines.rs");
    }
    pub mod opus {
        include!("CRATE_FOLDER/src/src/opus.rs");
        // The length reader is private to the crate's module.
        pub unsafe fn length_reader(data: *const u8, len: i32, size: *mut i16) -> i32 {
            parse_size(data, len, size)
        }
    }
    pub mod repacketizer {
        include!("CRATE_FOLDER/src/src/repacketizer.rs");
        pub fn empty() -> OpusRepacketizer {
            OpusRepacketizer {
                toc: 0,
                nb_frames: 0,
                frames: [std::ptr::null(); 48],
                len: [0; 48],
                framesize: 0,
            }
        }
    }
}
pub use src::opus::opus_packet_get_samples_per_frame;
use src::opus::*;
use src::repacketizer::*;
use std::fmt::Write as _;
use std::io::{Read, Write};

// Document 01: 1 for code 0, 2 for codes 1 and 2, the low six bits of the second byte for code 3; -1 for an empty packet, -4 for code 3 without
// a second byte.
pub unsafe fn opus_packet_get_nb_frames(packet: *const u8, len: i32) -> i32 {
    if len < 1 {
        return -1;
    }
    match *packet & 3 {
        0 => 1,
        1 | 2 => 2,
        _ if len < 2 => -4,
        _ => (*packet.offset(1) & 0x3f) as i32,
    }
}

struct Input {
    all: Vec<u8>,
    at: usize,
}

// None where the case is cut short or malformed.
impl Input {
    fn u8(&mut self) -> Option<u8> {
        let b = *self.all.get(self.at)?;
        self.at += 1;
        Some(b)
    }
    fn i32(&mut self) -> Option<i32> {
        let b = self.all.get(self.at..self.at + 4)?;
        self.at += 4;
        Some(i32::from_le_bytes(b.try_into().unwrap()))
    }
    fn bytes(&mut self) -> Option<Vec<u8>> {
        let n = self.room()?;
        let b = self.all.get(self.at..self.at + n)?.to_vec();
        self.at += n;
        Some(b)
    }
    fn room(&mut self) -> Option<usize> {
        let n = self.i32()?;
        (0..=65536).contains(&n).then_some(n as usize)
    }
}

const MOST: usize = 65535;
// bytes behind those that a call in place is told of
const BEHIND: usize = 9;

fn hex(line: &mut String, b: &[u8]) {
    if b.is_empty() {
        line.push('-');
    }
    for x in b {
        write!(line, "{x:02x}").unwrap();
    }
}

fn number_and(line: &mut String, n: i32, b: &[u8]) {
    write!(line, "{n} ").unwrap();
    hex(line, b);
}

unsafe fn read(line: &mut String, delim: bool, p: &[u8]) {
    if p.len() > MOST {
        line.push_str("-1");
        return;
    }
    let (mut toc, mut first, mut taken) = (0u8, 0i32, 0i32);
    let mut frames = [std::ptr::null(); 48];
    let mut size = [0i16; 48];
    let n = opus_packet_parse_impl(
        p.as_ptr(),
        p.len() as i32,
        delim as i32,
        &mut toc,
        frames.as_mut_ptr(),
        size.as_mut_ptr(),
        &mut first,
        &mut taken,
    );
    if n < 0 {
        write!(line, "{n}").unwrap();
        return;
    }
    write!(line, "{n} {toc} {first} {taken}").unwrap();
    for s in &size[..n as usize] {
        write!(line, " {s}").unwrap();
    }
}

unsafe fn collect(line: &mut String, delim: bool, pad: bool, begin: i32, end: i32, room: usize, packets: &[Vec<u8>]) {
    let mut rp = empty();
    opus_repacketizer_init(&mut rp);
    for p in packets {
        let n = if p.len() > MOST {
            -1
        } else {
            opus_repacketizer_cat(&mut rp, p.as_ptr(), p.len() as i32)
        };
        write!(line, "{n} ").unwrap();
    }
    write!(line, "; {} ; ", opus_repacketizer_get_nb_frames(&mut rp)).unwrap();
    let mut out = vec![0xee; room];
    let n = if room > MOST {
        -1
    } else {
        opus_repacketizer_out_range_impl(&mut rp, begin, end, out.as_mut_ptr(), room as i32, delim as i32, pad as i32)
    };
    write!(line, "{n} ; ").unwrap();
    hex(line, &out);
}

// The buffer of a call that works in place; after a refusal it is shown as it was.
// `moves`: a refusal of the crate's may have moved bytes.
unsafe fn in_place(line: &mut String, packet: &[u8], size: usize, over: bool, moves: bool, f: impl Fn(*mut u8, i32) -> i32) {
    let len = size.max(packet.len());
    let mut old = packet.to_vec();
    old.resize(len, 0);
    let mut new = old.clone();
    new.resize(len + BEHIND, 0xdd);
    let n = if over {
        -1
    } else {
        f(new.as_mut_ptr(), packet.len() as i32)
    };
    assert!(new[len..].iter().all(|b| *b == 0xdd), "the crate has written behind the lengths it was given");
    number_and(line, n, if n < 0 && moves { &old } else { &new[..len] });
}

unsafe fn answer(i: &mut Input, kind: u8, line: &mut String) -> Option<()> {
    match kind {
        1 => {
            let d = i.u8()? != 0;
            read(line, d, &i.bytes()?);
        }
        2 => {
            let (d, pad) = (i.u8()? != 0, i.u8()? != 0);
            let (begin, end, room) = (i.i32()?, i.i32()?, i.room()?);
            let n = i.u8()?;
            let mut packets = Vec::new();
            for _ in 0..n {
                packets.push(i.bytes()?);
            }
            collect(line, d, pad, begin, end, room, &packets);
        }
        3 => {
            let new = i.room()?;
            let p = i.bytes()?;
            in_place(line, &p, new, p.len() > MOST || new > MOST, true, |b, len| opus_packet_pad(b, len, new as i32));
        }
        4 => {
            let p = i.bytes()?;
            in_place(line, &p, 0, p.len() > MOST, false, |b, len| opus_packet_unpad(b, len));
        }
        5 => {
            let streams = i.i32()?;
            let new = i.room()?;
            let p = i.bytes()?;
            let over = p.len() > MOST || new > MOST || !(1..=255).contains(&streams);
            in_place(line, &p, new, over, true, |b, len| opus_multistream_packet_pad(b, len, new as i32, streams));
        }
        6 => {
            let streams = i.i32()?;
            let p = i.bytes()?;
            let over = p.len() > MOST || !(1..=255).contains(&streams);
            in_place(line, &p, 0, over, true, |b, len| opus_multistream_packet_unpad(b, len, streams));
        }
        7 => {
            let size = i.i32()?;
            let mut out = vec![0xee; i.u8()? as usize];
            let n = if !(0..=1275).contains(&size) {
                -1
            } else if out.len() < if size < 252 { 1 } else { 2 } {
                -2
            } else {
                encode_size(size, out.as_mut_ptr())
            };
            number_and(line, n, &out);
        }
        8 => {
            let b = i.bytes()?;
            let mut size = 0i16;
            let n = length_reader(b.as_ptr(), b.len() as i32, &mut size);
            if n < 0 {
                write!(line, "{n}").unwrap();
            } else {
                write!(line, "{n} {size}").unwrap();
            }
        }
        9 => {
            let p = i.bytes()?;
            write!(line, "{}", opus_packet_get_nb_frames(p.as_ptr(), p.len() as i32)).unwrap();
        }
        10 => {
            let rate = i.i32()?;
            let p = i.bytes()?;
            let known = [8000, 12000, 16000, 24000, 48000].contains(&rate);
            let n = if p.is_empty() || !known {
                -1
            } else {
                opus_packet_get_samples_per_frame(p.as_ptr(), rate)
            };
            write!(line, "{n}").unwrap();
        }
        _ => return None,
    }
    Some(())
}

fn main() {
    let mut i = Input { all: Vec::new(), at: 0 };
    std::io::stdin().lock().read_to_end(&mut i.all).unwrap();
    let mut out = std::io::BufWriter::new(std::io::stdout().lock());
    while let Some(kind) = i.u8() {
        let mut line = String::new();
        let ok = unsafe { answer(&mut i, kind, &mut line) }.is_some();
        if !ok {
            line = "malformed".into();
        }
        line.push('\n');
        out.write_all(line.as_bytes()).unwrap();
        if !ok {
            break;
        }
    }
}
