// Answers kinds 11 to 21 of the replay protocol, with rule and place, by the crate unopus 0.0.1 whose refusing returns are marked (places.patch). The
// build puts the folder of the marked copy for CRATE_FOLDER.
//
// Written here, from documents 01 and 02: the rules that the length reader can be told; the bounds outside which the crate would touch memory that is not
// its own, or which the port adds (65,535 bytes, the lent buffer, 1 to 255 streams); soundness of a collector and the least store; the store, into which
// the port copies the frames that the crate points at; dirty padding (kinds 18 and 19), looked for behind the frames that the crate has found; packet
// numbers (kinds 19 and 20). The output of a packet by its number is what the crate's unpad makes of the packet itself, which is kept for that. Many cuts in
// one call (kind 21) are the crate's single outputs, each into what is left; what is refused before them is written here.
// Beside a refusal every other field is 0, and the collector, the store and the buffer are as they were.
#![allow(unused, non_snake_case, non_camel_case_types, static_mut_refs, dead_code)]

#[path = "CRATE_FOLDER/src/externs.rs"]
mod externs;
mod src {
    pub mod opus_defines {
        include!("CRATE_FOLDER/src/src/opus_defines.rs");
    }
    pub mod opus {
        include!("CRATE_FOLDER/src/src/opus.rs");
        // The length reader is private to the crate's module.
        pub unsafe fn length_reader(data: *const u8, len: i32, size: *mut i16, told: u16) -> i32 {
            parse_size(data, len, size, told)
        }
    }
    pub mod repacketizer {
        include!("CRATE_FOLDER/src/src/repacketizer.rs");
        pub fn collector(toc: u8, nb_frames: i32, framesize: i32, len: [i16; 48]) -> OpusRepacketizer {
            OpusRepacketizer { toc, nb_frames, frames: [std::ptr::null(); 48], len, framesize }
        }
    }
}
pub use src::opus::opus_packet_get_samples_per_frame;
use src::opus::*;
use src::repacketizer::*;
use std::fmt::Write as _;
use std::io::{Read, Write};

// ---- the marks

// Rule and place of the last refusing return; 0 and 0 where none was reached.
static mut MARK: (u16, isize) = (0, 0);

pub unsafe fn marked(rule: u16, place: isize, number: i32) -> i32 {
    MARK = (rule, place);
    number
}

pub unsafe fn shifted(by: isize, number: i32) -> i32 {
    if MARK.0 != 0 {
        MARK.1 += by;
    }
    number
}

// A call, and its number with rule and place.
unsafe fn told(call: impl FnOnce() -> i32) -> (i32, u16, isize) {
    MARK = (0, 0);
    let n = call();
    if n < 0 { (n, MARK.0, MARK.1) } else { (n, 0, 0) }
}

// Document 01: 1 for code 0, 2 for codes 1 and 2, the low six bits of the second byte for code 3; -1 for an empty packet, -4 for code 3 without
// a second byte.
pub unsafe fn opus_packet_get_nb_frames(packet: *const u8, len: i32) -> i32 {
    if len < 1 {
        return -1;
    }
    match *packet & 3 {
        0 => 1,
        1 | 2 => 2,
        _ if len < 2 => -4,
        _ => (*packet.offset(1) & 0x3f) as i32,
    }
}

// ---- the fields of a case; None where it is cut short or malformed

struct Input {
    all: Vec<u8>,
    at: usize,
}

impl Input {
    fn take(&mut self, n: usize) -> Option<&[u8]> {
        let b = self.all.get(self.at..self.at + n)?;
        self.at += n;
        Some(b)
    }
    fn u8(&mut self) -> Option<u8> {
        Some(self.take(1)?[0])
    }
    fn u16(&mut self) -> Option<u16> {
        Some(u16::from_le_bytes(self.take(2)?.try_into().unwrap()))
    }
    fn i32(&mut self) -> Option<i32> {
        Some(i32::from_le_bytes(self.take(4)?.try_into().unwrap()))
    }
    fn room(&mut self) -> Option<usize> {
        let n = self.i32()?;
        (0..=65536).contains(&n).then_some(n as usize)
    }
    fn bytes(&mut self) -> Option<Vec<u8>> {
        let n = self.room()?;
        Some(self.take(n)?.to_vec())
    }
}

// ---- lines

const MOST: usize = 65535;
const UNSET: u8 = 0xee;
// bytes behind those that are lent, which a call must leave
const BEHIND: usize = 9;

fn hex(line: &mut String, b: &[u8]) {
    if b.is_empty() {
        line.push('-');
    }
    for x in b {
        write!(line, "{x:02x}").unwrap();
    }
}

fn put(line: &mut String, (number, rule, place): (i32, u16, isize)) {
    write!(line, "{number} {rule} {place} ").unwrap();
}

unsafe fn read(line: &mut String, delim: bool, p: &[u8]) {
    let (mut toc, mut first, mut taken) = (0u8, 0i32, 0i32);
    let mut frames = [std::ptr::null(); 48];
    let mut size = [0i16; 48];
    let r = told(|| {
        if p.len() > MOST {
            return -1;
        }
        opus_packet_parse_impl(
            p.as_ptr(),
            p.len() as i32,
            delim as i32,
            &mut toc,
            frames.as_mut_ptr(),
            size.as_mut_ptr(),
            &mut first,
            &mut taken,
        )
    });
    if r.0 < 0 {
        (toc, first, taken, size) = (0, 0, 0, [0; 48]);
    }
    put(line, r);
    write!(line, "{toc} {first} {taken}").unwrap();
    for s in &size {
        write!(line, " {s}").unwrap();
    }
}

// A call in place on a buffer that is lent whole; `bad` where a length or the streams are out of bounds.
unsafe fn in_place(line: &mut String, lent: &[u8], bad: bool, call: impl FnOnce(*mut u8) -> i32) {
    let mut new = lent.to_vec();
    new.resize(lent.len() + BEHIND, 0xdd);
    let r = told(|| if bad { -1 } else { call(new.as_mut_ptr()) });
    assert!(new[lent.len()..].iter().all(|b| *b == 0xdd), "the crate has written behind the lengths it was given");
    put(line, r);
    hex(line, if r.0 < 0 { lent } else { &new[..lent.len()] });
}

// A length above the lent buffer or 65,535 bytes.
fn over(len: i32, lent: &[u8]) -> bool {
    len > lent.len().min(MOST) as i32
}

// Whether a packet that the crate reads has a byte other than zero behind its last frame.
unsafe fn dirty(p: &[u8]) -> bool {
    let (mut toc, mut first, mut taken) = (0u8, 0i32, 0i32);
    let mut frames = [std::ptr::null(); 48];
    let mut size = [0i16; 48];
    let n = opus_packet_parse_impl(
        p.as_ptr(),
        p.len() as i32,
        0,
        &mut toc,
        frames.as_mut_ptr(),
        size.as_mut_ptr(),
        &mut first,
        &mut taken,
    );
    if n < 1 {
        return false;
    }
    let last = n as usize - 1;
    let end = frames[last].offset_from(p.as_ptr()) as usize + size[last] as usize;
    p[end..].iter().any(|b| *b != 0)
}

// ---- the collector

const LEAST_STORE: usize = 61200;
const MOST_ORDERS: usize = 48;

struct Held {
    toc: u8,
    count: u16,
    framesize: u16,
    len: [u16; 48],
    packet: [u8; 48],
    store: Vec<u8>,
    // The packets accepted since the case began.
    originals: Vec<Vec<u8>>,
}

// Numbers that begin at 0 and go from frame to frame by 0 or 1 (document 02, M-107).
fn numbered(n: &[u8]) -> bool {
    n.first().map_or(true, |k| *k == 0) && n.windows(2).all(|w| w[0] <= w[1] && w[1] - w[0] <= 1)
}

impl Held {
    fn read(i: &mut Input, numbered: bool) -> Option<Held> {
        let (toc, count, framesize) = (i.u8()?, i.u16()?, i.u16()?);
        let (mut len, mut packet) = ([0; 48], [0; 48]);
        let n = i.u8()? as usize;
        if n > 48 {
            return None;
        }
        for k in 0..n {
            len[k] = i.u16()?;
            packet[k] = if numbered { i.u8()? } else { 0 };
        }
        let size = i.room()?;
        let mut store = i.bytes()?;
        if store.len() > size {
            return None;
        }
        store.resize(size, UNSET);
        Some(Held { toc, count, framesize, len, packet, store, originals: Vec::new() })
    }

    // Document 01: empty, or frames of at most 1275 bytes, the TOC's frame size at 8 kHz, and at most 960 samples. Document 02: their packet numbers.
    unsafe fn sound(&self) -> bool {
        let own = opus_packet_get_samples_per_frame(&self.toc, 8000);
        let (n, each) = (self.count as usize, self.framesize as i32);
        let framed = n == 0 || each == own && n as i32 * each <= 960 && self.len[..n].iter().all(|l| *l <= 1275);
        framed && numbered(&self.packet[..n])
    }

    // The crate's collector, which points at the frames in the store.
    unsafe fn collector(&self) -> OpusRepacketizer {
        let mut rp = collector(self.toc, self.count as i32, self.framesize as i32, self.len.map(|l| l as i16));
        let mut at = 0;
        for k in 0..self.count as usize {
            rp.frames[k] = self.store.as_ptr().wrapping_add(at);
            at += self.len[k] as usize;
        }
        rp
    }

    // What every call refuses before it looks at its other arguments.
    unsafe fn refused(&self) -> Option<i32> {
        if !self.sound() {
            Some(-6)
        } else if self.store.len() < LEAST_STORE {
            Some(-1)
        } else {
            None
        }
    }

    // How many packets are held: one more than the last number.
    fn packets(&self) -> usize {
        self.packet[..self.count as usize].last().map_or(0, |k| *k as usize + 1)
    }

    unsafe fn add(&mut self, line: &mut String, p: Vec<u8>, strict: bool) {
        let held = self.count as usize;
        let mut rp = None;
        let r = told(|| {
            if let Some(n) = self.refused() {
                n
            } else if p.len() > MOST {
                -1
            } else {
                opus_repacketizer_cat(rp.insert(self.collector()), p.as_ptr(), p.len() as i32)
            }
        });
        let r = if r.0 >= 0 && strict && dirty(&p) { (-20, 0, 0) } else { r };
        put(line, r);
        let Some(mut rp) = rp.filter(|_| r.0 >= 0) else { return };
        let number = self.packets() as u8;
        let mut at: usize = self.len[..held].iter().map(|l| *l as usize).sum();
        let now = opus_repacketizer_get_nb_frames(&mut rp) as usize;
        for k in held..now {
            self.len[k] = rp.len[k] as u16;
            self.packet[k] = number;
            let frame = std::slice::from_raw_parts(rp.frames[k], self.len[k] as usize);
            self.store[at..at + frame.len()].copy_from_slice(frame);
            at += frame.len();
        }
        (self.toc, self.count, self.framesize) = (rp.toc, now as u16, rp.framesize as u16);
        self.originals.push(p);
    }

    unsafe fn frames_held(&self) -> i32 {
        if self.sound() { opus_repacketizer_get_nb_frames(&mut self.collector()) } else { -6 }
    }

    // The output of a range into a room, whose bytes are put behind the number.
    unsafe fn out_range(&self, line: &mut String, range: (i32, i32), room: usize, delim: bool, pad: bool) {
        let mut out = vec![UNSET; room];
        let n = self.refused().unwrap_or_else(|| {
            if room > MOST {
                return -1;
            }
            let (to, most) = (out.as_mut_ptr(), room as i32);
            opus_repacketizer_out_range_impl(&mut self.collector(), range.0, range.1, to, most, delim as i32, pad as i32)
        });
        write!(line, "{n} ").unwrap();
        hex(line, &out);
    }

    // The output of packet k: what unpadding the packet itself gives. Of one that was held before the first add there is only what is held: its frames.
    unsafe fn out_packet(&self, line: &mut String, k: i32, room: usize) {
        let refused = self.refused().or((room > MOST).then_some(-1));
        let held = if refused.is_none() { self.packets() as i32 } else { 0 };
        if !(0..held).contains(&k) {
            write!(line, "{} ", refused.unwrap_or(-1)).unwrap();
            return hex(line, &vec![UNSET; room]);
        }
        let given = held - self.originals.len() as i32;
        if k < given {
            let numbers = &self.packet[..self.count as usize];
            let begin = numbers.iter().position(|n| *n as i32 == k).unwrap();
            let end = numbers.iter().rposition(|n| *n as i32 == k).unwrap() + 1;
            return self.out_range(line, (begin as i32, end as i32), room, false, false);
        }
        let mut original = self.originals[(k - given) as usize].clone();
        let n = opus_packet_unpad(original.as_mut_ptr(), original.len() as i32);
        assert!(n > 0, "the crate has accepted a packet that it does not unpad");
        let mut out = vec![UNSET; room];
        let fits = n as usize <= room;
        if fits {
            out[..n as usize].copy_from_slice(&original[..n as usize]);
        }
        write!(line, "{} ", if fits { n } else { -2 }).unwrap();
        hex(line, &out);
    }

    // A list of cut orders (document 02, M-106): single outputs into a destination of their own, each behind the one before. Only if none is refused do the
    // lengths and that destination count.
    unsafe fn out_many(&self, line: &mut String, orders: &[(i32, i32)], room: usize) {
        let mut lengths = vec![UNSET as i32; orders.len()];
        let mut out = vec![UNSET; room];
        let refused = self.refused().or((room > MOST).then_some(-1)).or((orders.len() > MOST_ORDERS).then_some(-1));
        let (number, position) = match refused {
            Some(n) => (n, 0),
            None => {
                let mut rp = self.collector();
                let mut written = vec![UNSET; room + BEHIND];
                let (mut at, mut packets) = (0, Vec::new());
                let bad = orders.iter().position(|(begin, end)| {
                    let n = opus_repacketizer_out_range_impl(&mut rp, *begin, *end, written.as_mut_ptr().add(at), (room - at) as i32, 0, 0);
                    packets.push(n);
                    at += n.max(0) as usize;
                    n < 0
                });
                assert!(written[room..].iter().all(|b| *b == UNSET), "the crate has written behind the room it was given");
                if let Some(k) = bad {
                    (packets[k], k + 1)
                } else {
                    out.copy_from_slice(&written[..room]);
                    lengths = packets;
                    (at as i32, 0)
                }
            }
        };
        write!(line, "{number} {position} ;").unwrap();
        for ((begin, end), length) in orders.iter().zip(lengths) {
            write!(line, " {begin} {end} {length}").unwrap();
        }
        line.push_str(" ; ");
        hex(line, &out);
    }

    // The collector with its lengths, and its packet numbers where they are asked for, and the store.
    fn put(&self, line: &mut String, numbers: bool) {
        write!(line, "; {} {} {}", self.toc, self.count, self.framesize).unwrap();
        for l in &self.len {
            write!(line, " {l}").unwrap();
        }
        for k in self.packet.iter().filter(|_| numbers) {
            write!(line, " {k}").unwrap();
        }
        line.push_str(" ; ");
        let set = self.store.iter().rposition(|b| *b != UNSET).map_or(0, |k| k + 1);
        hex(line, &self.store[..set]);
    }
}

unsafe fn add_all(held: &mut Held, i: &mut Input, line: &mut String, kinds: bool) -> Option<()> {
    for _ in 0..i.u8()? {
        let strict = kinds && i.u8()? != 0;
        held.add(line, i.bytes()?, strict);
    }
    Some(())
}

unsafe fn adds(i: &mut Input, line: &mut String, kinds: bool) -> Option<()> {
    let mut held = Held::read(i, false)?;
    add_all(&mut held, i, line, kinds)?;
    held.put(line, false);
    Some(())
}

unsafe fn packet_out(i: &mut Input, line: &mut String) -> Option<()> {
    let mut held = Held::read(i, true)?;
    let (k, room) = (i.i32()?, i.room()?);
    add_all(&mut held, i, line, true)?;
    held.put(line, true);
    line.push_str(" ; ");
    held.out_packet(line, k, room);
    Some(())
}

unsafe fn range_out(i: &mut Input, line: &mut String) -> Option<()> {
    let mut held = Held::read(i, true)?;
    let (delim, pad) = (i.u8()? != 0, i.u8()? != 0);
    let (begin, end, room) = (i.i32()?, i.i32()?, i.room()?);
    write!(line, "{} ; ", held.frames_held()).unwrap();
    held.out_range(line, (begin, end), room, delim, pad);
    line.push_str(" ; ");
    held.add(line, i.bytes()?, false);
    held.put(line, true);
    Some(())
}

unsafe fn many_out(i: &mut Input, line: &mut String) -> Option<()> {
    let held = Held::read(i, false)?;
    let room = i.room()?;
    let orders: Option<Vec<(i32, i32)>> = (0..i.u8()?).map(|_| Some((i.i32()?, i.i32()?))).collect();
    held.out_many(line, &orders?, room);
    Some(())
}

unsafe fn answer(i: &mut Input, kind: u8, line: &mut String) -> Option<()> {
    match kind {
        11 => {
            let delim = i.u8()? != 0;
            read(line, delim, &i.bytes()?);
        }
        12 => {
            let rule = i.u8()? as u16;
            let b = i.bytes()?;
            let mut size = 0i16;
            let r = told(|| {
                if ![4, 7, 8].contains(&rule) {
                    return -1;
                }
                length_reader(b.as_ptr(), b.len() as i32, &mut size, rule)
            });
            put(line, r);
            write!(line, "{}", if r.0 < 0 { 0 } else { size }).unwrap();
        }
        13 => {
            let (len, new) = (i.i32()?, i.i32()?);
            let b = i.bytes()?;
            in_place(line, &b, over(len, &b) || over(new, &b), |d| opus_packet_pad(d, len, new));
        }
        14 => {
            let len = i.i32()?;
            let b = i.bytes()?;
            in_place(line, &b, over(len, &b), |d| opus_packet_unpad(d, len));
        }
        15 => {
            let (streams, len, new) = (i.i32()?, i.i32()?, i.i32()?);
            let b = i.bytes()?;
            let bad = over(len, &b) || over(new, &b) || !(1..=255).contains(&streams);
            in_place(line, &b, bad, |d| opus_multistream_packet_pad(d, len, new, streams));
        }
        16 => {
            let (streams, len) = (i.i32()?, i.i32()?);
            let b = i.bytes()?;
            let bad = over(len, &b) || !(1..=255).contains(&streams);
            in_place(line, &b, bad, |d| opus_multistream_packet_unpad(d, len, streams));
        }
        17 => adds(i, line, false)?,
        18 => adds(i, line, true)?,
        19 => packet_out(i, line)?,
        20 => range_out(i, line)?,
        21 => many_out(i, line)?,
        _ => return None,
    }
    Some(())
}

fn main() {
    let mut i = Input { all: Vec::new(), at: 0 };
    std::io::stdin().lock().read_to_end(&mut i.all).unwrap();
    let mut out = std::io::BufWriter::new(std::io::stdout().lock());
    while let Some(kind) = i.u8() {
        let mut line = String::new();
        let ok = unsafe { answer(&mut i, kind, &mut line) }.is_some();
        if !ok {
            line = "malformed".into();
        }
        line.push('\n');
        out.write_all(line.as_bytes()).unwrap();
        if !ok {
            break;
        }
    }
}
