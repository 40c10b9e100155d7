//! Captures that are rich in false marks: halves of marks, lengths that run past the end with records inside, lengths of 0, marks inside packets.

/// Numbers by xorshift, from a seed.
pub struct Random(u64);

impl Random {
    pub fn new(seed: u64) -> Self {
        Random(seed.wrapping_mul(0x9e37_79b9_7f4a_7c15) | 1)
    }
    pub fn below(&mut self, n: usize) -> usize {
        self.0 ^= self.0 << 13;
        self.0 ^= self.0 >> 7;
        self.0 ^= self.0 << 17;
        ((self.0 >> 11) % n as u64) as usize
    }
    /// A byte that is likely to be a part of a head.
    fn byte(&mut self) -> u8 {
        match self.below(8) {
            0 | 1 => 0x4b,
            2 | 3 => 0x9d,
            4 => 0,
            5 => self.below(8) as u8,
            6 => 0xff,
            _ => self.below(256) as u8,
        }
    }
    fn bytes(&mut self, n: usize) -> Vec<u8> {
        (0..n).map(|_| self.byte()).collect()
    }
}

fn head(line: u8, length: usize) -> Vec<u8> {
    vec![0x4b, 0x9d, line, (length >> 8) as u8, length as u8]
}

fn record(r: &mut Random, length: usize) -> Vec<u8> {
    let mut bytes = head(r.byte(), length);
    bytes.extend(r.bytes(length));
    bytes
}

fn piece(r: &mut Random) -> Vec<u8> {
    match r.below(12) {
        0..=4 => {
            let n = 1 + r.below(20);
            record(r, n)
        }
        5 => vec![0x4b],
        6 => vec![0x9d],
        7 => head(r.byte(), 0),
        // a length that may run past the end, with a record inside
        8 => {
            let mut bytes = head(r.byte(), 7 + r.below(300));
            bytes.extend(record(r, 1));
            bytes
        }
        9 => head(r.byte(), 256 * (1 + r.below(255)) + r.below(256)),
        // a mark inside a packet
        10 => {
            let inner = record(r, 3);
            let mut bytes = head(r.byte(), inner.len());
            bytes.extend(inner);
            bytes
        }
        _ => {
            let n = r.below(6);
            r.bytes(n)
        }
    }
}

/// A capture of some pieces, perhaps cut off, perhaps with a byte changed; one in 200 is about 65,536 bytes long.
pub fn capture(r: &mut Random) -> Vec<u8> {
    if r.below(10) == 0 {
        let n = r.below(60);
        return r.bytes(n);
    }
    let mut bytes = Vec::new();
    if r.below(200) == 0 {
        let length = 65400 + r.below(140);
        bytes = if r.below(2) == 0 { record(r, length) } else { r.bytes(length) };
    }
    for _ in 0..r.below(12) {
        bytes.extend(piece(r));
    }
    if r.below(3) == 0 {
        let n = bytes.len().saturating_sub(r.below(8));
        bytes.truncate(n);
    }
    if !bytes.is_empty() && r.below(4) == 0 {
        let place = r.below(bytes.len());
        bytes[place] = r.byte();
    }
    bytes
}

/// 65,536 bytes of each kind that could make a reader nest its calls, each with a name.
pub fn kinds() -> Vec<(&'static str, Vec<u8>)> {
    let full = |pattern: &[u8]| pattern.iter().copied().cycle().take(65536).collect::<Vec<u8>>();
    let mut last = full(&[0x4b, 0x9d, 0, 0xff, 0xff]);
    last[65530..].copy_from_slice(&[0x4b, 0x9d, 7, 0, 1, 0xaa]);
    vec![
        ("marks", full(&[0x4b, 0x9d])),
        ("first halves of a mark", full(&[0x4b])),
        ("second halves of a mark", full(&[0x9d])),
        ("marks with lengths past the end", full(&[0x4b, 0x9d, 0, 0xff, 0xff])),
        ("the same, and a record at the end", last),
        ("marks with length 0", full(&[0x4b, 0x9d, 1, 0, 0])),
        ("records of one byte", full(&[0x4b, 0x9d, 1, 0, 1, 0x4b])),
        ("zeros", full(&[0])),
    ]
}
