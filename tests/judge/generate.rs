//! Packets and captures to judge: random ones, every layout with lengths at the edges of their fields, padded, dirty, self-delimited, cut off and changed.

use crate::judge::laid;

/// Numbers by xorshift, from a seed.
pub struct Random(u64);

impl Random {
    pub fn new(seed: u64) -> Self {
        Random(seed.wrapping_mul(0x9e37_79b9_7f4a_7c15) | 1)
    }
    pub fn below(&mut self, n: usize) -> usize {
        self.0 ^= self.0 << 13;
        self.0 ^= self.0 >> 7;
        self.0 ^= self.0 << 17;
        ((self.0 >> 11) % n as u64) as usize
    }
    pub fn one_in(&mut self, n: usize) -> bool {
        self.below(n) == 0
    }
    pub fn of<T: Copy>(&mut self, choices: &[T]) -> T {
        choices[self.below(choices.len())]
    }
    /// A byte that is likely to say something in a header.
    pub fn byte(&mut self) -> u8 {
        match self.below(6) {
            0 => self.below(8) as u8,
            1 => self.of(&[0x40, 0x80, 0xc0]) + self.below(6) as u8,
            2 => self.of(&[250, 251, 252, 253, 254, 255]),
            3 => 0,
            _ => self.below(256) as u8,
        }
    }
    pub fn bytes(&mut self, n: usize) -> Vec<u8> {
        (0..n).map(|_| self.byte()).collect()
    }
    /// The length of a frame: most are short, some stand at the edge of a field or of what a frame may have.
    fn length(&mut self) -> usize {
        match self.below(40) {
            0 => self.of(&[250, 251, 252, 253, 254, 255, 256, 257]),
            1 => self.of(&[1020, 1274, 1275]),
            2 => self.below(1276),
            3..=9 => 0,
            _ => self.below(12),
        }
    }
}

/// A packet in some layout, which may not be one that its frames can have.
fn built(r: &mut Random, own: bool) -> Vec<u8> {
    let toc = if r.one_in(2) { r.below(256) as u8 } else { r.of(&[0x00, 0x80, 0x08, 0x78, 0xfc]) };
    let count = if r.one_in(4) { 1 + r.below(13) } else if r.one_in(30) { 1 + r.below(49) } else { 1 + r.below(3) };
    let each = r.length();
    let same = r.one_in(2);
    let contents: Vec<Vec<u8>> = (0..count)
        .map(|_| {
            let n = if same { each } else { r.length() };
            r.bytes(n)
        })
        .collect();
    let frames: Vec<&[u8]> = contents.iter().map(|f| &f[..]).collect();
    let code = if count == 1 { r.of(&[0, 0, 3]) } else if count == 2 { r.of(&[1, 2, 3]) } else { 3 };
    let padding = match r.below(6) {
        _ if code < 3 => None,
        0 => Some(r.below(4)),
        1 => Some(r.of(&[0, 253, 254, 255, 256, 508, 509, 600])),
        2 => Some(r.below(20)),
        _ => None,
    };
    let mut p = laid(toc, code, r.one_in(2) || !same, padding, &frames, own);
    let padding = padding.unwrap_or(0);
    if padding > 0 && r.one_in(2) {
        let place = p.len() - 1 - if r.one_in(2) { r.below(padding) } else { r.of(&[0, padding - 1]) };
        p[place] = 1 + r.below(255) as u8;
    }
    p
}

/// A packet, and whether it is to be read as self-delimited.
pub fn packet(r: &mut Random) -> (Vec<u8>, bool) {
    let own = r.one_in(2);
    if r.one_in(8) {
        let n = r.below(24);
        return (r.bytes(n), own);
    }
    if r.one_in(20000) {
        let n = r.of(&[65534, 65535, 65536, 1276, 2551, 30000]);
        let mut p = vec![0; n];
        p[0] = r.byte();
        p[1] = r.byte();
        return (p, own);
    }
    // one in ten is read in the other delimiting
    let other = r.one_in(10);
    let mut p = built(r, own != other);
    if own && r.one_in(2) {
        let n = r.below(6);
        let behind = if r.one_in(2) { vec![0; n] } else { r.bytes(n) };
        p.extend(behind);
    }
    if r.one_in(6) && !p.is_empty() {
        let place = if r.one_in(2) { r.below(p.len().min(6)) } else { r.below(p.len()) };
        p[place] = r.byte();
    }
    if r.one_in(10) {
        let n = p.len() - r.below(p.len().min(6) + 1);
        p.truncate(n);
    }
    if r.one_in(20) {
        let n = 1 + r.below(3);
        let more = r.bytes(n);
        p.extend(more);
    }
    (p, own)
}

fn record(r: &mut Random, packet: &[u8]) -> Vec<u8> {
    let mut bytes = vec![0x4b, 0x9d, r.byte(), (packet.len() >> 8) as u8, packet.len() as u8];
    bytes.extend(packet);
    bytes
}

/// A capture of records and garbage; some are about as long as the program takes, and some have very many records.
pub fn capture(r: &mut Random) -> Vec<u8> {
    let mut bytes = Vec::new();
    let many = if r.one_in(400) { 200 + r.below(11000) } else { r.below(9) };
    for _ in 0..many {
        let p = if many > 100 && !r.one_in(30) {
            let n = 1 + r.below(3);
            r.bytes(n)
        } else {
            packet(r).0
        };
        if p.len() < 60000 && bytes.len() + p.len() < 65600 {
            bytes.extend(record(r, &p));
        }
        if r.one_in(6) {
            let n = r.below(5);
            let garbage = if r.one_in(2) { r.bytes(n) } else { vec![0x4b; n] };
            bytes.extend(garbage);
        }
        if r.one_in(20) {
            bytes.extend([0x4b, 0x9d, 0, r.byte(), r.byte()]);
        }
    }
    if r.one_in(500) && bytes.len() < 65530 {
        let left = r.of(&[65535, 65536, 65536, 65537]) - bytes.len();
        let n = left.saturating_sub(5).min(60000);
        bytes.extend(record(r, &vec![0; n]));
        bytes.resize(bytes.len() + left - n - 5, 0);
    }
    if r.one_in(4) {
        let n = bytes.len().saturating_sub(r.below(8));
        bytes.truncate(n);
    }
    bytes
}
