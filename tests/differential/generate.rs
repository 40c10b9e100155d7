// Writes cases of the replay protocol to standard output: `generate SEED COUNT` for so many random ones, `generate short` for every packet of 0, 1 and
// 2 bytes through every call. `generate places ..`: the same for the kinds that tell rule and place, with packets that break a rule more often than not.
// `generate strict SEED COUNT`: adds of kind 18, strict and ordinary, of packets with clean padding and with dirty.
// `generate numbers SEED COUNT`: kinds 19 and 20, on collectors with packet numbers.
// `generate orders SEED COUNT`: kind 21, lists of cut orders.
// `generate streams SEED COUNT`: kinds 22 and 23, packets to be joined and multistream packets to be taken apart.
// `generate stages SEED COUNT` writes so many packets to be padded in two steps (tests/stages). The same seed and count give the same bytes.
use std::io::Write;

// xorshift64*: small, seeded, the same everywhere.
struct Random(u64);

impl Random {
    fn next(&mut self) -> u64 {
        self.0 ^= self.0 >> 12;
        self.0 ^= self.0 << 25;
        self.0 ^= self.0 >> 27;
        self.0.wrapping_mul(0x2545_F491_4F6C_DD1D)
    }
    fn below(&mut self, n: usize) -> usize {
        ((self.next() >> 33) as usize) % n
    }
    fn between(&mut self, a: usize, b: usize) -> usize {
        a + self.below(b - a + 1)
    }
    fn chance(&mut self, percent: usize) -> bool {
        self.below(100) < percent
    }
    fn pick<T: Copy>(&mut self, from: &[T]) -> T {
        from[self.below(from.len())]
    }
    fn byte(&mut self) -> u8 {
        self.next() as u8
    }
    fn bytes(&mut self, n: usize) -> Vec<u8> {
        (0..n).map(|_| self.byte()).collect()
    }
}

// ---- packets

fn field(out: &mut Vec<u8>, n: usize) {
    if n < 252 {
        out.push(n as u8);
    } else {
        out.push((252 + n % 4) as u8);
        out.push(((n - 252) / 4) as u8);
    }
}

// Samples at 48 kHz of a frame, by the configuration.
fn samples(toc: u8) -> usize {
    let c = (toc / 8) as usize;
    match c {
        0..=11 => [480, 960, 1920, 2880][c % 4],
        12..=15 => [480, 960][c % 2],
        _ => [120, 240, 480, 960][c % 4],
    }
}

fn frame_length(r: &mut Random) -> usize {
    match r.below(20) {
        0 => r.pick(&[250, 251, 252, 253, 254, 255, 256]),
        1 => r.pick(&[1273, 1274, 1275]),
        2 => r.between(252, 1275),
        3..=6 => 0,
        7..=9 => r.between(1, 3),
        _ => r.between(0, 60),
    }
}

// The padding lengths of code 3 for so many padding bytes.
fn chain(out: &mut Vec<u8>, r: &mut Random, pad: usize) {
    let mut left = pad;
    while left > 254 || (left == 254 && r.chance(50)) {
        out.push(255);
        left -= 254;
    }
    out.push(left as u8);
}

// A packet by the rules, with this TOC byte's upper six bits if there is one.
fn good_packet(r: &mut Random, delim: bool, six: Option<u8>) -> Vec<u8> {
    let six = six.unwrap_or_else(|| r.byte() & 0xfc);
    packet_within(r, delim, six, 48, 1275)
}

// The same of at most so many frames, of at most so many bytes each.
fn packet_within(r: &mut Random, delim: bool, six: u8, frames: usize, bytes: usize) -> Vec<u8> {
    let code = match r.pick(&[0u8, 0, 1, 2, 3, 3, 3, 3]) {
        1 | 2 if frames < 2 => 0,
        code => code,
    };
    let most = (5760 / samples(six)).min(frames);
    let many = if r.chance(20) { most } else { most.min(6) };
    let equal = r.chance(50);
    let count = match code {
        0 => 1,
        1 | 2 => 2,
        _ if r.chance(15) => most,
        _ => r.between(1, many),
    };
    let first = frame_length(r).min(bytes);
    let same = code == 1 || (code == 3 && equal) || r.chance(25);
    let lens: Vec<usize> = (0..count).map(|_| if same { first } else { frame_length(r).min(bytes) }).collect();
    let mut p = vec![six | code];
    let pad = match r.below(10) {
        0 => r.pick(&[0, 1, 253, 254, 255, 256, 508, 509]),
        1 => r.between(0, 700),
        2 if r.chance(10) => r.between(700, 3000),
        _ => r.between(0, 6),
    };
    let padded = code == 3 && r.chance(50);
    let unequal = code == 2 || (code == 3 && !(equal && same));
    if code == 3 {
        p.push(count as u8 | if padded { 0x40 } else { 0 } | if unequal { 0x80 } else { 0 });
        if padded {
            chain(&mut p, r, pad);
        }
    }
    if unequal {
        for n in &lens[..count - 1] {
            field(&mut p, *n);
        }
    }
    if delim {
        field(&mut p, lens[count - 1]);
    }
    for n in &lens {
        let f = r.bytes(*n);
        p.extend(f);
    }
    if padded {
        let clean = r.chance(60);
        for _ in 0..pad {
            let b = if clean { 0 } else { r.byte() };
            p.push(b);
        }
    }
    p.truncate(65535);
    p
}

// A packet, good, damaged, cut, or any bytes.
fn packet(r: &mut Random, delim: bool, six: Option<u8>) -> Vec<u8> {
    let mut p = good_packet(r, delim, six);
    match r.below(24) {
        0 => {
            let n = r.below(p.len() + 1);
            p.truncate(n);
        }
        1 | 2 => {
            let n = p.len();
            for _ in 0..r.between(1, 3) {
                let i = r.below(n.min(12));
                p[i] = if r.chance(50) { r.byte() } else { r.pick(&[0, 1, 251, 252, 253, 254, 255, 48, 49, 63]) };
            }
        }
        3 => {
            let n = r.between(1, 5);
            p.extend(r.bytes(n));
        }
        4 => {
            let n = r.between(0, 9);
            p = r.bytes(n);
        }
        5 if r.chance(3) => {
            let n = r.pick(&[1276, 1277, 2551, 2552, 65534, 65535, 65536, 61204]);
            p = r.bytes(n);
        }
        6 if r.chance(5) => {
            // a long run of 255 in the padding lengths
            let n = r.between(1, 600);
            p = vec![p[0] | 3, 0x41];
            p.extend(vec![255; n]);
            let k = r.between(0, 200_000).min(65535 - p.len());
            p.push(r.byte());
            p.extend(vec![0; k]);
        }
        _ => {}
    }
    p
}

fn streams_packet(r: &mut Random, streams: usize) -> Vec<u8> {
    let mut p = Vec::new();
    for i in 0..streams {
        let last = i + 1 == streams;
        let q = if r.chance(97) { good_packet(r, !last, None) } else { packet(r, !last, None) };
        if p.len() + q.len() > 60000 {
            break;
        }
        p.extend(q);
    }
    p
}

// ---- cases

fn put(out: &mut Vec<u8>, n: i32) {
    out.extend(n.to_le_bytes());
}

fn put_bytes(out: &mut Vec<u8>, b: &[u8]) {
    put(out, b.len() as i32);
    out.extend(b);
}

const EXTREMES: [i32; 8] = [i32::MIN, i32::MIN + 1, -2, -1, i32::MAX, i32::MAX - 1, 65536, 256];

fn new_length(r: &mut Random, len: usize) -> i32 {
    let n = match r.below(12) {
        0 => len,
        1 => len.saturating_sub(r.between(1, 3)),
        2 => len + r.pick(&[254, 255, 256, 257, 258, 509, 510, 511, 512]),
        3 if r.chance(4) => r.pick(&[65534, 65535, 65536]),
        4 => len + r.between(0, 900),
        _ => len + r.between(1, 6),
    };
    n.min(65536) as i32
}

// ---- what a collector holds, so that ranges and rooms stand at their edges; a mistake here would make worse cases, never a wrong verdict

fn field_bytes(n: usize) -> usize {
    if n < 252 { 1 } else { 2 }
}

// The lengths in an ordinary packet, if it can be read.
fn lengths(p: &[u8]) -> Option<Vec<usize>> {
    let toc = *p.first()?;
    let (mut at, mut end) = (1, p.len());
    let (mut count, mut unequal) = (if toc & 3 == 0 { 1 } else { 2 }, toc & 3 == 2);
    if toc & 3 == 3 {
        let flags = *p.get(1)?;
        at = 2;
        count = (flags & 0x3f) as usize;
        unequal = flags & 0x80 != 0;
        let mut more = flags & 0x40 != 0;
        while more {
            let n = *p.get(at)?;
            at += 1;
            more = n == 255;
            end = end.checked_sub(if more { 254 } else { n as usize })?;
        }
    }
    if count == 0 || count * samples(toc) > 5760 {
        return None;
    }
    let mut lens = Vec::new();
    if unequal {
        for _ in 1..count {
            let first = *p.get(at)? as usize;
            let n = if first < 252 { first } else { first + 4 * *p.get(at + 1)? as usize };
            at += field_bytes(n);
            lens.push(n);
        }
        lens.push(end.checked_sub(at + lens.iter().sum::<usize>())?);
    } else {
        let rest = end.checked_sub(at)?;
        lens = vec![rest / count; count];
        if rest % count != 0 {
            return None;
        }
    }
    (p.len() <= 65535 && lens[count - 1] <= 1275).then_some(lens)
}

// The lengths held after all adds.
fn held_after(packets: &[Vec<u8>]) -> Vec<usize> {
    let (mut toc, mut held) = (0, Vec::new());
    for p in packets {
        let Some(lens) = lengths(p) else { continue };
        if held.is_empty() {
            toc = p[0];
        }
        if p[0] & 0xfc == toc & 0xfc && (held.len() + lens.len()) * samples(toc) <= 5760 {
            held.extend(lens);
        }
    }
    held
}

// Bytes of the compact packet of these frames.
fn compact(lens: &[usize], delim: bool) -> usize {
    let Some((last, others)) = lens.split_last() else { return 0 };
    let equal = others.iter().all(|n| n == last);
    let fields: usize = if equal { 0 } else { others.iter().map(|n| field_bytes(*n)).sum() };
    let delimiter = if delim { field_bytes(*last) } else { 0 };
    1 + (lens.len() > 2) as usize + fields + delimiter + lens.iter().sum::<usize>()
}

// Adds for one collector: packets of one kind, now and then another kind or a damaged one, often up to 120 ms and past it.
fn adds(r: &mut Random) -> Vec<Vec<u8>> {
    // 2.5 ms more often than the others, since only there 48 frames fit
    let six = if r.chance(25) { 0x80 | (r.byte() & 0x64) } else { r.byte() & 0xfc };
    let full = 5760 / samples(six);
    let n = match r.below(20) {
        0 => 0,
        1..=10 => r.between(1, 4),
        11 => r.between(1, 50),
        12..=15 => full + r.between(0, 2),
        _ => r.between(1, full),
    };
    let frames = r.pick(&[1, 1, 2, 48]);
    let bytes = r.pick(&[0, 3, 3, 60, 1275]);
    (0..n)
        .map(|_| match r.below(25) {
            0 => packet(r, false, Some(six)),
            1 => {
                let other = six ^ r.pick(&[4, 8, 16, 32, 64, 128]);
                packet_within(r, false, other, frames, bytes)
            }
            _ => packet_within(r, false, six, frames, bytes),
        })
        .collect()
}

// A range of so many frames held: right, or wrong at an edge.
fn range(r: &mut Random, held: usize) -> (i32, i32) {
    let all = held as i32;
    let begin = r.below(held.max(1)) as i32;
    let far = r.pick(&EXTREMES);
    match r.below(20) {
        0 => (far, all),
        1 => (begin, far),
        2 => (far, r.pick(&EXTREMES)),
        3 => r.pick(&[(all, all), (begin, begin), (all, all + 1), (begin + 1, begin)]),
        4 => r.pick(&[(begin, all + 1), (-1, all), (-1, begin)]),
        5..=11 => (0, all),
        12 => (all - 1, all),
        _ => (begin, begin + 1 + r.below((all - begin).max(1) as usize) as i32),
    }
}

// A room for an output of this size.
fn room(r: &mut Random, size: usize) -> usize {
    match r.below(20) {
        0..=3 => size,
        4..=7 => size.saturating_sub(1),
        8 => size.saturating_sub(r.between(2, 6)),
        9 => r.below(size + 1),
        10..=13 => size + 1,
        14 | 15 => size + r.between(2, 6),
        16 => size + r.pick(&[254, 255, 256, 257, 258, 509, 510, 511, 512]),
        17 => size + r.between(0, 900),
        18 if r.chance(6) => r.between(size.min(65536), 65536),
        19 if r.chance(6) => r.pick(&[65534, 65535, 65536]),
        _ => size + 2,
    }
}

fn collector_case(r: &mut Random, out: &mut Vec<u8>) {
    let packets = adds(r);
    let held = held_after(&packets);
    let (begin, end) = range(r, held.len());
    let (delim, pad) = (r.chance(40), r.chance(40));
    let right = 0 <= begin && begin < end && end as usize <= held.len();
    let size = compact(if right { &held[begin as usize..end as usize] } else { &held }, delim);
    out.push(2);
    out.push(delim as u8);
    out.push(pad as u8);
    put(out, begin);
    put(out, end);
    put(out, room(r, size).min(65536) as i32);
    out.push(packets.len() as u8);
    for p in &packets {
        put_bytes(out, p);
    }
}

fn case(r: &mut Random, out: &mut Vec<u8>) {
    match r.below(20) {
        0..=4 => {
            let d = r.chance(50);
            out.push(1);
            out.push(d as u8);
            put_bytes(out, &packet(r, d, None));
        }
        5..=8 => collector_case(r, out),
        9..=11 => {
            let p = packet(r, false, None);
            out.push(3);
            put(out, new_length(r, p.len()));
            put_bytes(out, &p);
        }
        12..=13 => {
            out.push(4);
            put_bytes(out, &packet(r, false, None));
        }
        14 | 15 => {
            let streams = if r.chance(4) { r.between(1, 255) } else { r.between(1, 5) };
            let p = streams_packet(r, streams);
            let said = match r.below(30) {
                0 => r.pick(&EXTREMES),
                1 => streams as i32 + 1,
                2 => streams as i32 - 1,
                _ => streams as i32,
            };
            let pad = r.chance(50);
            out.push(if pad { 5 } else { 6 });
            put(out, said);
            if pad {
                put(out, new_length(r, p.len()));
            }
            put_bytes(out, &p);
        }
        16 => {
            out.push(7);
            let size = if r.chance(10) { r.pick(&EXTREMES) } else { r.between(0, 1300) as i32 };
            put(out, size);
            out.push(r.between(0, 3) as u8);
        }
        17 => {
            out.push(8);
            let n = r.between(0, 3);
            let mut b = r.bytes(n);
            if n > 0 && r.chance(60) {
                b[0] = r.between(250, 255) as u8;
            }
            put_bytes(out, &b);
        }
        18 => {
            out.push(9);
            put_bytes(out, &packet(r, false, None));
        }
        _ => {
            out.push(10);
            let rate = if r.chance(90) { r.pick(&[8000, 12000, 16000, 24000, 48000]) } else { r.pick(&EXTREMES) };
            put(out, rate);
            put_bytes(out, &packet(r, false, None));
        }
    }
}

// A packet to be padded in two steps: its streams (0 for an ordinary one), two lengths of which none is below its own, and the packet.
fn stages(r: &mut Random, out: &mut Vec<u8>) {
    let streams = if r.chance(75) { 0 } else { r.between(1, 5) };
    let mut p = match streams {
        0 if r.chance(95) => good_packet(r, false, None),
        0 => packet(r, false, None),
        _ => streams_packet(r, streams),
    };
    p.truncate(65535);
    let one = new_length(r, p.len()).clamp(p.len() as i32, 65535);
    let two = new_length(r, one as usize).clamp(one, 65535);
    put(out, streams as i32);
    put(out, one);
    put(out, two);
    put_bytes(out, &p);
}

// ---- rule and place

// A packet of code 3 with unequal lengths, any of which may be too long by itself or together with the others; in the self-delimited form the last too.
fn unequal_packet(r: &mut Random, delim: bool, six: u8) -> Vec<u8> {
    let most = (5760 / samples(six)).min(6);
    let count = r.between(1, most);
    let mut p = vec![six | 3, count as u8 | 0x80];
    if r.chance(25) {
        p[1] |= 0x40;
        let pad = r.between(0, 9);
        chain(&mut p, r, pad);
    }
    let size = r.pick(&[2, 5, 20, 300]);
    for _ in 1..count + delim as usize {
        let n = r.below(size);
        field(&mut p, n);
    }
    let n = r.below(2 * size + 1);
    p.extend(r.bytes(n));
    p
}

// A packet with one thing wrong, or right after all.
fn broken(r: &mut Random, delim: bool, six: Option<u8>) -> Vec<u8> {
    let mut p = good_packet(r, delim, six);
    let six = p[0] & 0xfc;
    match r.below(16) {
        // cut anywhere, and cut in the first bytes
        0 => {
            let n = r.below(p.len() + 1);
            p.truncate(n);
        }
        1 | 2 => {
            let n = r.below(p.len().min(8) + 1);
            p.truncate(n);
        }
        // one of the first bytes changed, or some bytes more
        3 | 4 => {
            let i = r.below(p.len().min(8));
            p[i] = if r.chance(40) { r.byte() } else { r.pick(&[0, 1, 2, 251, 252, 253, 254, 255]) };
        }
        5 => {
            let n = r.between(1, 5);
            p.extend(r.bytes(n));
        }
        // lengths too long, alone and together
        6..=8 => p = unequal_packet(r, delim, six),
        // two frames of which the first says its length
        9 => {
            p = vec![six | 2];
            field(&mut p, frame_length(r));
            let n = r.pick(&[0, 1, 3, 60, 1275, 1276, 1300]) + r.below(4);
            p.extend(r.bytes(n));
        }
        // a count of 0, at 120 ms, or above
        10 => {
            let full = 5760 / samples(six);
            let count = r.pick(&[0, full.min(63), (full + 1).min(63), 63]) as u8;
            p = vec![six | 3, count | r.pick(&[0, 0x40, 0x80, 0xc0])];
            let n = r.below(4);
            p.extend(r.bytes(n));
        }
        // padding that does not fit, or just does
        11 => {
            p = vec![six | 3, 1 | r.pick(&[0x40, 0xc0])];
            p.extend(vec![255; r.pick(&[0, 0, 1, 2])]);
            let n = r.below(6);
            p.push(n as u8);
            let k = (p.len() - 3) * 254 + r.below(8);
            p.extend(r.bytes(k));
        }
        // equal lengths that do not divide, or are too long
        12 => {
            let count = r.between(1, (5760 / samples(six)).min(6));
            p = vec![six | 3, count as u8];
            let n = count * r.pick(&[0, 1, 2, 1275, 1276]) + r.below(3);
            p.extend(r.bytes(n));
        }
        // the rest as one frame or two
        13 => {
            p = vec![six | r.pick(&[0, 1])];
            let n = r.pick(&[0, 1, 2, 1275, 1276, 2550, 2551, 2552]);
            p.extend(r.bytes(n));
        }
        14 if r.chance(3) => {
            let n = r.pick(&[65534, 65535, 65536]);
            p = r.bytes(n);
        }
        14 => {
            let n = r.below(6);
            p = r.bytes(n);
        }
        _ => {}
    }
    p.truncate(65536);
    p
}

// Streams one behind another, of which any may be broken, and bytes may be missing.
fn broken_streams(r: &mut Random, streams: usize) -> Vec<u8> {
    let mut p = Vec::new();
    let bad = r.below(streams + 1);
    for i in 0..streams {
        let delim = i + 1 < streams;
        let q = if i == bad { broken(r, delim, None) } else { packet_within(r, delim, 0x80, 3, 20) };
        p.extend(q);
    }
    if r.chance(15) {
        let n = r.below(p.len() + 1);
        p.truncate(n);
    }
    p.truncate(65536);
    p
}

// A length that a call is told of a buffer: mostly its own.
fn told_length(r: &mut Random, len: usize) -> i32 {
    match r.below(40) {
        0 => r.pick(&EXTREMES),
        1 => len as i32 + 1,
        2 => 0,
        3 => r.below(len + 1) as i32,
        _ => len as i32,
    }
}

// A collector and its store. The lengths are those of the frames made for it, of which it says how many it holds, and some behind them.
struct State {
    toc: u8,
    said: u16,
    each: u16,
    count: usize,
    lens: Vec<u16>,
    store: i32,
    front: Vec<u8>,
}

// One that holds frames of this kind, now and then not sound.
fn held_state(r: &mut Random, six: u8) -> State {
    let full = 5760 / samples(six);
    let count = match r.below(6) {
        0 | 1 => 0,
        2 => full,
        _ => r.between(1, full),
    };
    let mut lens: Vec<u16> = (0..count).map(|_| r.pick(&[0, 1, 2, 60])).collect();
    let (mut toc, mut said, mut each) = (six | r.pick(&[0, 1, 2, 3]), count as u16, (samples(six) / 6) as u16);
    match r.below(40) {
        0 => toc = r.byte(),
        1 => said = r.pick(&[0, 1, 48, 49, 65535]),
        2 => each = r.pick(&[0, 20, 40, 65535]),
        3 if count > 0 => lens[count - 1] = r.pick(&[1275, 1276, 32768, 65535]),
        _ => {}
    }
    // lengths behind those held, which stay
    if lens.len() < 48 && r.chance(20) {
        lens.push(r.below(65536) as u16);
    }
    let store = if r.chance(3) { r.pick(&[0, 61199, 61201, 65536]) } else { 61200 };
    let held: usize = lens[..count].iter().map(|n| *n as usize).sum();
    let front = r.bytes(held.min(store as usize));
    State { toc, said, each, count, lens, store, front }
}

// Each length has its packet number behind it, where numbers are given.
fn put_state(out: &mut Vec<u8>, s: &State, numbers: Option<&[u8]>) {
    out.push(s.toc);
    out.extend(s.said.to_le_bytes());
    out.extend(s.each.to_le_bytes());
    out.push(s.lens.len() as u8);
    for (i, n) in s.lens.iter().enumerate() {
        out.extend(n.to_le_bytes());
        if let Some(numbers) = numbers {
            out.push(numbers[i]);
        }
    }
    put(out, s.store);
    put_bytes(out, &s.front);
}

fn adds_with_places(r: &mut Random, out: &mut Vec<u8>) {
    let six = if r.chance(25) { 0x80 } else { r.byte() & 0xfc };
    out.push(17);
    put_state(out, &held_state(r, six), None);
    let n = r.between(0, 4);
    out.push(n as u8);
    for _ in 0..n {
        let kind = if r.chance(80) { six } else { six ^ r.pick(&[4, 8, 16, 32, 64, 128]) };
        let p = if r.chance(70) { broken(r, false, Some(kind)) } else { packet_within(r, false, kind, 2, 20) };
        put_bytes(out, &p);
    }
}

// A packet of code 3 whose padding is zeros but for at most one byte: the first, the last or any.
fn spotted(r: &mut Random, six: u8) -> Vec<u8> {
    let most = (5760 / samples(six)).min(3);
    let count = r.between(1, most);
    let pad = r.pick(&[0, 1, 1, 2, 3, 15, 16, 17, 31, 32, 33, 64, 253, 254, 255, 256, 509]);
    let size = r.pick(&[0, 1, 2, 20]);
    let mut p = vec![six | 3, count as u8 | 0x40];
    chain(&mut p, r, pad);
    p.extend(r.bytes(count * size));
    let first = p.len();
    p.resize(first + pad, 0);
    if pad > 0 && r.chance(70) {
        let at = match r.below(3) {
            0 => first,
            1 => first + pad - 1,
            _ => first + r.below(pad),
        };
        p[at] = r.pick(&[1, 2, 0x80, 0xff]);
    }
    p
}

// Adds to any collector, each strict or ordinary.
fn adds_of_kinds(r: &mut Random, out: &mut Vec<u8>) {
    let six = if r.chance(25) { 0x80 } else { r.byte() & 0xfc };
    out.push(18);
    put_state(out, &held_state(r, six), None);
    let n = r.between(0, 5);
    out.push(n as u8);
    for _ in 0..n {
        let kind = if r.chance(85) { six } else { six ^ r.pick(&[4, 8, 16, 32, 64, 128]) };
        out.push(if r.chance(75) { r.pick(&[1, 1, 2, 255]) } else { 0 });
        let p = match r.below(10) {
            0 => broken(r, false, Some(kind)),
            1..=4 => packet_within(r, false, kind, 2, 20),
            _ => spotted(r, kind),
        };
        put_bytes(out, &p);
    }
}

// ---- packet numbers

// Numbers for a state's frames: from 0 on by 0 or 1, now and then with one thing wrong; behind the frames anything.
fn packet_numbers(r: &mut Random, s: &State) -> Vec<u8> {
    let apart = r.pick(&[0, 30, 50, 70, 100]);
    let mut last = 0;
    let mut numbers: Vec<u8> = (0..s.lens.len())
        .map(|i| {
            last += (i > 0 && r.chance(apart)) as u8;
            if i < s.count { last } else { r.byte() }
        })
        .collect();
    if s.count == 0 {
        return numbers;
    }
    let held = &mut numbers[..s.count];
    let at = r.below(held.len());
    match r.below(60) {
        // not from 0 on: all, or the first
        0 => held.iter_mut().for_each(|k| *k += 1),
        1 => held[0] = r.pick(&[1, 2, 47, 48, 255]),
        // two further from a frame on, or in one
        2 => held[at..].iter_mut().for_each(|k| *k += 2),
        3 => held[at] += 2,
        // back: by one, to 0, or all from the last number down
        4 => held[at] = held[at].wrapping_sub(1),
        5 => held[at] = 0,
        6 => held.reverse(),
        7 => held[at] = r.pick(&[47, 48, 127, 128, 254, 255]),
        _ => {}
    }
    numbers
}

// Adds behind a state: a few, or as many as fit and more.
fn adds_behind(r: &mut Random, six: u8, held: usize) -> Vec<(u8, Vec<u8>)> {
    let left = (5760 / samples(six)).saturating_sub(held);
    let n = match r.below(12) {
        0 => 0,
        1 => left + r.between(0, 2),
        _ => r.between(1, 6),
    };
    let frames = if n > 6 { r.pick(&[1, 1, 2]) } else { r.pick(&[1, 2, 3, 48]) };
    let bytes = r.pick(&[0, 3, 20, 20, 20, 300, 1275]);
    let adds = (0..n).map(|_| {
        let kind = if r.chance(92) { six } else { six ^ r.pick(&[4, 8, 16, 32, 64, 128]) };
        let strict = if r.chance(50) { r.pick(&[1, 1, 2, 255]) } else { 0 };
        let p = match r.below(12) {
            0 => broken(r, false, Some(kind)),
            1..=3 => spotted(r, kind),
            4 if r.chance(10) => packet(r, false, Some(kind)),
            _ => packet_within(r, false, kind, frames, bytes),
        };
        (strict, p)
    });
    adds.collect()
}

// The lengths of each packet held after all adds, as far as this can tell: dirty padding is not looked for.
fn packets_after(s: &State, numbers: &[u8], adds: &[(u8, Vec<u8>)]) -> Vec<Vec<usize>> {
    let mut packets: Vec<Vec<usize>> = Vec::new();
    for i in 0..s.count {
        if i == 0 || numbers[i] != numbers[i - 1] {
            packets.push(Vec::new());
        }
        packets.last_mut().unwrap().push(s.lens[i] as usize);
    }
    let (mut toc, mut held) = (s.toc, s.count);
    for (_, p) in adds {
        let Some(lens) = lengths(p) else { continue };
        if held == 0 {
            toc = p[0];
        }
        if p[0] & 0xfc == toc & 0xfc && (held + lens.len()) * samples(toc) <= 5760 {
            held += lens.len();
            packets.push(lens);
        }
    }
    packets
}

// A packet's number: one held, the one behind the last, or any.
fn wanted(r: &mut Random, held: usize) -> i32 {
    match r.below(20) {
        0 => held as i32,
        1 => r.pick(&EXTREMES),
        2 => r.pick(&[-1, 47, 48, 255, 256]),
        3..=7 => held as i32 - 1,
        _ => r.below(held.max(1)) as i32,
    }
}

fn packet_case(r: &mut Random, out: &mut Vec<u8>, six: u8) {
    let s = held_state(r, six);
    let numbers = packet_numbers(r, &s);
    let adds = adds_behind(r, six, s.count);
    let packets = packets_after(&s, &numbers, &adds);
    let k = wanted(r, packets.len());
    let size = packets.get(k as usize).map_or(3, |lens| compact(lens, false));
    out.push(19);
    put_state(out, &s, Some(&numbers));
    put(out, k);
    put(out, room(r, size).min(65536) as i32);
    out.push(adds.len() as u8);
    for (strict, p) in &adds {
        out.push(*strict);
        put_bytes(out, p);
    }
}

fn range_case(r: &mut Random, out: &mut Vec<u8>, six: u8) {
    let s = held_state(r, six);
    let numbers = packet_numbers(r, &s);
    let held: Vec<usize> = s.lens[..s.count].iter().map(|n| *n as usize).collect();
    let (begin, end) = range(r, held.len());
    let (delim, pad) = (r.chance(40), r.chance(40));
    let right = 0 <= begin && begin < end && end as usize <= held.len();
    let size = compact(if right { &held[begin as usize..end as usize] } else { &held }, delim);
    out.push(20);
    put_state(out, &s, Some(&numbers));
    out.extend([delim as u8, pad as u8]);
    put(out, begin);
    put(out, end);
    put(out, room(r, size).min(65536) as i32);
    let p = if r.chance(25) { broken(r, false, Some(six)) } else { packet_within(r, false, six, 6, 60) };
    put_bytes(out, &p);
}

fn number_case(r: &mut Random, out: &mut Vec<u8>) {
    let six = if r.chance(40) { 0x80 | (r.byte() & 0x64) } else { r.byte() & 0xfc };
    if r.chance(75) {
        packet_case(r, out, six);
    } else {
        range_case(r, out, six);
    }
}

// ---- many cuts in one call

// A collector to be cut: one that holds frames, of other lengths now and then; or any numbers at all.
fn cut_state(r: &mut Random) -> State {
    // 2.5 ms more often than the others, since only there 48 frames fit
    let six = if r.chance(45) { 0x80 | (r.byte() & 0x64) } else { r.byte() & 0xfc };
    let mut s = held_state(r, six);
    while s.count == 0 && r.chance(85) {
        s = held_state(r, six);
    }
    if r.chance(2) {
        s.toc = r.byte();
        s.said = if r.chance(50) { r.between(0, 50) as u16 } else { r.next() as u16 };
        s.each = r.pick(&[0, 20, 40, 80, 160, 320, 480, 961, 65535]);
        let n = r.between(0, 48);
        s.lens = (0..n).map(|_| if r.chance(90) { r.between(0, 1277) } else { r.below(65536) } as u16).collect();
        s.front.clear();
    } else if s.count > 0 && r.chance(40) {
        let same = r.chance(30).then(|| frame_length(r) as u16);
        s.lens[..s.count].iter_mut().for_each(|n| *n = same.unwrap_or_else(|| frame_length(r) as u16));
        let held: usize = s.lens[..s.count].iter().map(|n| *n as usize).sum();
        s.front = r.bytes(held.min(s.store as usize));
    }
    s
}

fn right_range(r: &mut Random, held: usize) -> (i32, i32) {
    let begin = r.below(held);
    // a frame or a few, more often than not
    let most = if r.chance(70) { (held - begin).min(3) } else { held - begin };
    (begin as i32, (begin + r.between(1, most)) as i32)
}

// A range that is refused: empty, reversed, negative, past the frames held, or far out.
fn wrong_range(r: &mut Random, held: usize) -> (i32, i32) {
    let all = held as i32;
    let at = r.below(held + 1) as i32;
    let far = r.pick(&EXTREMES);
    match r.below(8) {
        0 => (at, at),
        1 => (at, at - 1 - r.below(3) as i32),
        2 => (-1, at),
        3 => (at, all + 1),
        4 => (all, all + 1),
        5 => (far, if far > 0 { at } else { all }),
        6 => (at, if far > 0 { far } else { -1 }),
        _ => (r.pick(&[i32::MIN, -1]), i32::MAX),
    }
}

fn cut_orders(r: &mut Random, held: usize) -> Vec<(i32, i32)> {
    let n = match r.below(24) {
        0 => 0,
        1 | 2 => 1,
        3 => 47,
        4 | 5 => 48,
        6 => 49,
        7 if r.chance(50) => r.pick(&[50, 64, 128, 254, 255]),
        8..=10 => r.between(7, 46),
        _ => r.between(2, 6),
    };
    if held == 0 {
        return (0..n).map(|_| range(r, held)).collect();
    }
    let mut orders: Vec<(i32, i32)> = match r.below(10) {
        // the frames held in order, each once: cut points 0 < c1 < .. < held
        0 | 1 => {
            let mut points: Vec<usize> = (1..held).filter(|_| r.chance(100 * n.min(held) / held)).collect();
            points.truncate(n.saturating_sub(1));
            points.push(held);
            let mut begin = 0;
            let cuts = points.iter().map(|end| (std::mem::replace(&mut begin, *end) as i32, *end as i32));
            cuts.take(n).collect()
        }
        // one range again and again
        2 => vec![right_range(r, held); n],
        // the shortest ranges there are
        3 => (0..n).map(|_| r.below(held) as i32).map(|begin| (begin, begin + 1)).collect(),
        4 => (0..n).map(|_| range(r, held)).collect(),
        _ => (0..n).map(|_| right_range(r, held)).collect(),
    };
    // one that is refused: the last, or any
    if !orders.is_empty() && r.chance(20) {
        let at = if r.chance(50) { orders.len() - 1 } else { r.below(orders.len()) };
        orders[at] = wrong_range(r, held);
    }
    orders
}

// A room by the totals of the orders' packets, one after another: at the last of them, at any, and beside.
fn cut_room(r: &mut Random, totals: &[usize]) -> usize {
    // long ones seldom, since every byte of the destination stands in the line
    let most = if r.chance(4) { 65535 } else { 2500 };
    let near: Vec<usize> = totals.iter().copied().filter(|t| *t <= most).collect();
    let last = near.last().copied().unwrap_or(0);
    let any = if near.is_empty() { 0 } else { r.pick(&near) };
    match r.below(40) {
        0..=11 => last,
        12..=16 => last.saturating_sub(1),
        17..=22 => last + r.between(1, 9),
        23..=25 => any,
        26..=28 => any.saturating_sub(1),
        29 | 30 => any + 1,
        31 => r.below(last + 1),
        32 => 0,
        33 if r.chance(15) => 65535,
        34 if r.chance(25) => 65536,
        _ => last + r.between(0, 300),
    }
}

fn orders_case(r: &mut Random, out: &mut Vec<u8>) {
    let s = cut_state(r);
    let held: Vec<usize> = s.lens[..s.count.min(s.lens.len())].iter().map(|n| *n as usize).collect();
    let orders = cut_orders(r, held.len());
    let mut total = 0;
    let right = |(begin, end): &(i32, i32)| 0 <= *begin && begin < end && *end as usize <= held.len();
    let totals: Vec<usize> = orders
        .iter()
        .take_while(|o| right(o))
        .map(|(begin, end)| {
            total += compact(&held[*begin as usize..*end as usize], false);
            total
        })
        .collect();
    out.push(21);
    put_state(out, &s, None);
    put(out, cut_room(r, &totals).min(65536) as i32);
    out.push(orders.len() as u8);
    for (begin, end) in &orders {
        put(out, *begin);
        put(out, *end);
    }
}

// ---- streams joined and taken apart

// A packet, and the bytes of its compact form in the delimiting that it will have.
struct Stream {
    bytes: Vec<u8>,
    compact: usize,
}

// The delimitings of a stream: of the packet in the case, and of its compact form in the answer.
#[derive(Clone, Copy)]
struct Delims {
    given: bool,
    made: bool,
}

// A packet of exactly so many frames, of at most so many bytes each.
fn stream_of(r: &mut Random, d: Delims, (six, count): (u8, usize), bytes: usize) -> Stream {
    let same = r.chance(50);
    let code = match count {
        1 => r.pick(&[0, 0, 0, 3]),
        2 if same => r.pick(&[1, 1, 2, 3]),
        2 => r.pick(&[2, 2, 3]),
        _ => 3,
    };
    let first = frame_length(r).min(bytes);
    let lens: Vec<usize> = (0..count).map(|_| if same { first } else { frame_length(r).min(bytes) }).collect();
    // equal lengths can be written like unequal ones
    let unequal = code == 2 || (code == 3 && (!same || r.chance(30)));
    let pad = (code == 3 && r.chance(35)).then(|| r.pick(&[0, 0, 1, 2, 6, 253, 254, 255, 256, 509]));
    let mut p = vec![six | code];
    if code == 3 {
        p.push(count as u8 | if pad.is_some() { 0x40 } else { 0 } | if unequal { 0x80 } else { 0 });
    }
    if let Some(n) = pad {
        chain(&mut p, r, n);
    }
    if unequal {
        lens[..count - 1].iter().for_each(|n| field(&mut p, *n));
    }
    if d.given {
        field(&mut p, lens[count - 1]);
    }
    p.extend(r.bytes(lens.iter().sum()));
    let dirt = if r.chance(80) { 0 } else { r.byte() };
    p.resize(p.len() + pad.unwrap_or(0), dirt);
    Stream { bytes: p, compact: compact(&lens, d.made) }
}

// A configuration, with the stereo bit, of which some frames last so long, and how many do.
fn lasting(r: &mut Random, time: usize) -> (u8, usize) {
    loop {
        let six = r.byte() & 0xfc;
        if time % samples(six) == 0 && time / samples(six) <= 48 {
            return (six, time / samples(six));
        }
    }
}

// Another duration: one frame less or more, half or twice as long, or any; now and then the same after all.
fn lasting_otherwise(r: &mut Random, time: usize) -> (u8, usize) {
    let (six, count) = lasting(r, time);
    match r.below(4) {
        0 if count > 1 => (six, count - 1),
        1 if (count + 1) * samples(six) <= 5760 => (six, count + 1),
        2 => (six ^ 8, count.min(5760 / samples(six ^ 8))),
        _ => (0x98, r.between(1, 6)),
    }
}

// How many streams: a few, more often than not.
fn stream_count(r: &mut Random) -> usize {
    match r.below(40) {
        0..=3 => 1,
        4 if r.chance(25) => 254,
        5 if r.chance(25) => 255,
        6 => r.between(21, 100),
        7..=10 => r.between(7, 20),
        _ => r.between(2, 6),
    }
}

// Streams that last equally long; of every four lists one has a stream that lasts longer or shorter, or that cannot be read. To be joined, all are
// ordinary; to be taken apart, the last.
fn streams_alike(r: &mut Random, n: usize, join: bool) -> Vec<Stream> {
    // the times of one frame and of many, 120 ms, and some that only a few configurations have; of many streams a short one, since all stands in the line
    let time = if n > 20 { r.pick(&[120, 240, 480, 960]) } else { r.pick(&[120, 240, 480, 960, 960, 1920, 2880, 1440, 3840, 5760, 360, 600, 4800]) };
    let bytes = if n > 20 { r.pick(&[0, 1, 3]) } else { r.pick(&[0, 3, 3, 20, 20, 60, 300, 1275]) };
    let delims = |i: usize| Delims { given: !join && i + 1 < n, made: join && i + 1 < n };
    let mut all: Vec<Stream> = Vec::new();
    for i in 0..n {
        let frames = lasting(r, time);
        all.push(stream_of(r, delims(i), frames, bytes));
    }
    let at = match r.below(4) {
        0 => 0,
        1 | 2 => n - 1,
        _ => r.below(n),
    };
    match r.below(24) {
        0 | 1 => {
            let frames = lasting_otherwise(r, time);
            all[at] = stream_of(r, delims(at), frames, bytes);
        }
        2 => all[at].bytes = broken(r, delims(at).given, None),
        // two, of which the first counts
        3 => {
            for i in [at, r.below(n)] {
                all[i].bytes = broken(r, delims(i).given, None);
            }
        }
        4 => {
            let kept = r.below(all[at].bytes.len() + 1);
            all[at].bytes.truncate(kept);
        }
        5 if r.chance(50) => all[at].bytes.clear(),
        5 => {
            let more = r.between(1, 3);
            all[at].bytes.extend(r.bytes(more));
        }
        _ => {}
    }
    all
}

// Packets of one long frame each, of so many bytes in all; joined they are longer by two each but the last.
fn long_streams(r: &mut Random, bytes: usize, join: bool) -> Vec<Stream> {
    let (mut all, mut left) = (Vec::new(), bytes);
    while left > 0 {
        let n = if r.chance(50) { 1275 } else { r.between(1200, 1275) }.min(left - 1);
        let last = n + 1 == left;
        let mut p = vec![0x98 | r.pick(&[0, 4])];
        if !join && !last {
            field(&mut p, n);
        }
        p.extend(vec![all.len() as u8; n]);
        left -= 1 + n;
        all.push(Stream { bytes: p, compact: compact(&[n], join && !last) });
    }
    all
}

fn bytes_of(all: &[Stream]) -> Vec<u8> {
    all.iter().flat_map(|s| s.bytes.clone()).collect()
}

// A room for an answer of this size: exact, one beside, none, or the longest.
fn streams_room(r: &mut Random, size: usize) -> usize {
    let n = match r.below(40) {
        0..=18 => size,
        19..=22 => size.saturating_sub(1),
        23..=28 => size + 1,
        29 if r.chance(50) => 0,
        30 => r.below(size + 1),
        31 if r.chance(4) => 65535,
        32 if r.chance(8) => 65536,
        _ => size + r.between(1, 40),
    };
    n.min(65536)
}

fn put_join(out: &mut Vec<u8>, room: usize, lens: &[u16], data: &[u8]) {
    out.push(22);
    put(out, room as i32);
    out.extend((lens.len() as u16).to_le_bytes());
    lens.iter().for_each(|n| out.extend(n.to_le_bytes()));
    put_bytes(out, data);
}

// Of 65,535 bytes, one more or less, or so many that they are 65,535 or a little more or less once they are joined.
fn long_join(r: &mut Random, out: &mut Vec<u8>) {
    let given = match r.below(4) {
        0 => r.pick(&[65534, 65535, 65536]),
        _ => r.between(65429, 65435),
    };
    let all = long_streams(r, given, true);
    let lens: Vec<u16> = all.iter().map(|s| s.bytes.len() as u16).collect();
    let size: usize = all.iter().map(|s| s.compact).sum();
    let room = r.pick(&[65535, 65535, 65534, 65536, size.min(65536), (size - 1).min(65536)]);
    put_join(out, room, &lens, &bytes_of(&all));
}

fn join_case(r: &mut Random, out: &mut Vec<u8>) {
    if r.below(400) == 0 {
        return long_join(r, out);
    }
    let n = stream_count(r);
    let all = streams_alike(r, n, true);
    let room = streams_room(r, all.iter().map(|s| s.compact).sum());
    let mut lens: Vec<u16> = all.iter().map(|s| s.bytes.len().min(65535) as u16).collect();
    let mut data = bytes_of(&all);
    let at = r.below(n);
    match r.below(100) {
        // lengths that do not sum to the buffer: by one, by 65,536, or by a packet
        0 => lens[at] = lens[at].wrapping_add(1),
        1 => lens[at] = lens[at].wrapping_sub(1),
        2 => data.push(0),
        3 => {
            data.pop();
        }
        4 => lens.extend([65535, 1]),
        5 => lens.truncate(n - 1),
        // that cut it elsewhere
        6 | 7 if n > 1 => {
            let k = (r.between(1, 3) as u16).min(lens[at]);
            lens[at] -= k;
            lens[(at + 1) % n] += k;
        }
        // one of no byte more
        8 | 9 => lens.insert(r.below(n + 1), 0),
        // none, with bytes or without; and more than 255, each a packet or some without a byte
        10 => {
            lens.clear();
            data.truncate(r.pick(&[0, 0, 5]));
        }
        11 if r.chance(50) => {
            lens = vec![1; r.pick(&[256, 256, 257, 1023, 1024])];
            data = vec![0x98; lens.len()];
        }
        12 if r.chance(50) => lens.resize(r.pick(&[256, 512, 1024]), 0),
        _ => {}
    }
    data.truncate(65536);
    put_join(out, room, &lens, &data);
}

fn take_case(r: &mut Random, out: &mut Vec<u8>) {
    let all = if r.below(800) == 0 {
        long_streams(r, 65000, false)
    } else {
        let n = stream_count(r);
        streams_alike(r, n, false)
    };
    let n = all.len();
    let mut p = bytes_of(&all);
    match r.below(60) {
        0 | 1 => p.truncate(r.below(p.len() + 1)),
        2 => p.push(r.byte()),
        3 if r.chance(5) => p.resize(r.pick(&[65535, 65536]), 0),
        _ => {}
    }
    p.truncate(65536);
    let said = match r.below(70) {
        0 => r.pick(&EXTREMES),
        1 => r.pick(&[0, -1, 255, 256]),
        2 => n as i32 + 1,
        3 => n as i32 - 1,
        _ => n as i32,
    };
    let k = match r.below(70) {
        0 => -1,
        1 => said,
        2 => r.pick(&EXTREMES),
        3 => r.pick(&[254, 255]),
        4..=14 => said.wrapping_sub(1),
        15..=25 => 0,
        _ => r.below(n) as i32,
    };
    out.push(23);
    put(out, said);
    put(out, k);
    put(out, streams_room(r, all.get(k as usize).map_or(3, |s| s.compact)) as i32);
    put_bytes(out, &p);
}

fn streams_case(r: &mut Random, out: &mut Vec<u8>) {
    if r.chance(55) {
        join_case(r, out);
    } else {
        take_case(r, out);
    }
}

fn place_case(r: &mut Random, out: &mut Vec<u8>) {
    match r.below(20) {
        0..=7 => {
            let delim = r.chance(50);
            out.extend([11, delim as u8]);
            put_bytes(out, &broken(r, delim, None));
        }
        8 => {
            out.extend([12, r.pick(&[4, 7, 8, 4, 7, 8, 0, 1, 2, 3, 5, 6, 9, 255])]);
            let n = r.between(0, 3);
            let mut b = r.bytes(n);
            if n > 0 && r.chance(60) {
                b[0] = r.between(250, 255) as u8;
            }
            put_bytes(out, &b);
        }
        9 | 10 => {
            let p = broken(r, false, None);
            let pad = r.chance(50);
            let mut lent = p.clone();
            let more = if pad { r.pick(&[0, 1, 2, 3, 256, 300]) } else { r.pick(&[0, 0, 1]) };
            lent.resize((p.len() + more).min(65536), 0x55);
            out.push(if pad { 13 } else { 14 });
            put(out, told_length(r, p.len()));
            if pad {
                put(out, told_length(r, lent.len()));
            }
            put_bytes(out, &lent);
        }
        11 | 12 => {
            let streams = if r.chance(4) { r.between(1, 255) } else { r.between(1, 5) };
            let p = broken_streams(r, streams);
            let pad = r.chance(50);
            let mut lent = p.clone();
            let more = if pad { r.pick(&[0, 1, 2, 3, 256, 300]) } else { r.pick(&[0, 0, 1]) };
            lent.resize((p.len() + more).min(65536), 0x55);
            out.push(if pad { 15 } else { 16 });
            let said = match r.below(30) {
                0 => r.pick(&EXTREMES),
                1 | 2 => streams as i32 + 1,
                3 => streams as i32 - 1,
                _ => streams as i32,
            };
            put(out, said);
            put(out, told_length(r, p.len()));
            if pad {
                put(out, told_length(r, lent.len()));
            }
            put_bytes(out, &lent);
        }
        _ => adds_with_places(r, out),
    }
}

// One packet through every call that tells rule and place.
fn every_place(out: &mut Vec<u8>, p: &[u8]) {
    let n = p.len() as i32;
    for delim in 0..2 {
        out.extend([11, delim]);
        put_bytes(out, p);
    }
    for told in [4, 5, 7, 8] {
        out.extend([12, told]);
        put_bytes(out, p);
    }
    let mut longer = p.to_vec();
    longer.extend([0x55, 0x55]);
    out.push(13);
    put(out, n);
    put(out, n + 2);
    put_bytes(out, &longer);
    out.push(14);
    put(out, n);
    put_bytes(out, p);
    // behind a stream of one frame, and before one
    for q in [[&[0, 1, 0xaa], p].concat(), [p, &[0, 0xaa]].concat()] {
        let n = q.len() as i32;
        let mut longer = q.clone();
        longer.push(0x55);
        out.push(15);
        put(out, 2);
        put(out, n);
        put(out, n + 1);
        put_bytes(out, &longer);
        out.push(16);
        put(out, 2);
        put(out, n);
        put_bytes(out, &q);
    }
    // to an empty collector; to one that holds a frame of the packet's kind, and to one that holds 00 AA
    let six = p.first().map_or(0, |b| b & 0xfc);
    for (toc, count) in [(0, 0u16), (six, 1), (0, 1)] {
        out.push(17);
        out.push(toc);
        out.extend(count.to_le_bytes());
        out.extend((count * (samples(toc) / 6) as u16).to_le_bytes());
        out.push(count as u8);
        if count == 1 {
            out.extend(1u16.to_le_bytes());
        }
        put(out, 61200);
        put_bytes(out, &[0xaa; 1][..count as usize]);
        out.push(1);
        put_bytes(out, p);
    }
}

// One packet through every call.
fn every_call(out: &mut Vec<u8>, p: &[u8]) {
    for d in 0..2 {
        out.extend([1, d]);
        put_bytes(out, p);
    }
    for (d, pad, room) in [(0u8, 0u8, 6), (1, 0, 6), (0, 1, 5), (1, 1, 5)] {
        out.extend([2, d, pad]);
        put(out, 0);
        put(out, 2);
        put(out, room);
        out.push(2);
        put_bytes(out, p);
        put_bytes(out, p);
    }
    out.push(3);
    put(out, p.len() as i32 + 2);
    put_bytes(out, p);
    out.push(4);
    put_bytes(out, p);
    out.push(5);
    put(out, 2);
    put(out, p.len() as i32 + 1);
    put_bytes(out, p);
    out.push(6);
    put(out, 2);
    put_bytes(out, p);
    out.push(8);
    put_bytes(out, p);
    out.push(9);
    put_bytes(out, p);
    out.push(10);
    put(out, 8000);
    put_bytes(out, p);
}

fn main() {
    let words: Vec<String> = std::env::args().skip(1).collect();
    let mut to = std::io::BufWriter::with_capacity(1 << 20, std::io::stdout().lock());
    let mut out = Vec::new();
    let places = words.first().is_some_and(|w| w == "places");
    if words.len() == 1 + places as usize && words[places as usize] == "short" {
        let every = if places { every_place } else { every_call };
        every(&mut out, &[]);
        for a in 0..=255u8 {
            every(&mut out, &[a]);
            for b in 0..=255u8 {
                every(&mut out, &[a, b]);
            }
            to.write_all(&out).unwrap();
            out.clear();
        }
        return;
    }
    let staged = words.len() == 3 && words[0] == "stages";
    let strict = words.len() == 3 && words[0] == "strict";
    let numbered = words.len() == 3 && words[0] == "numbers";
    let ordered = words.len() == 3 && words[0] == "orders";
    let streamed = words.len() == 3 && words[0] == "streams";
    let named = staged || strict || numbered || ordered || streamed || places;
    let numbers: Option<Vec<u64>> = words[named as usize..].iter().map(|w| w.parse().ok()).collect();
    let Some([seed, count]) = numbers.as_deref() else {
        eprintln!("usage: generate [places | stages | strict | numbers | orders | streams] SEED COUNT | generate [places] short");
        std::process::exit(2);
    };
    // a seed of 0 would stay 0
    let mut r = Random(seed.wrapping_mul(0x9E37_79B9_7F4A_7C15) | 1);
    for _ in 0..*count {
        if staged {
            stages(&mut r, &mut out);
        } else if strict {
            adds_of_kinds(&mut r, &mut out);
        } else if numbered {
            number_case(&mut r, &mut out);
        } else if ordered {
            orders_case(&mut r, &mut out);
        } else if streamed {
            streams_case(&mut r, &mut out);
        } else if places {
            place_case(&mut r, &mut out);
        } else {
            case(&mut r, &mut out);
        }
        to.write_all(&out).unwrap();
        out.clear();
    }
}
