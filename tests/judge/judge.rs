//! A judge of packets, written from M-110 and M-100 of document 02 and from RFC 6716 alone. It shares nothing with the proved one.
//!
//! A packet is read field by field. The least length of its frames is found by trying every layout, with padding and without, and taking the
//! shortest that reads back as the same frames; for longer packets by a sum over the fields, which `agree` holds against the search.

use std::collections::HashMap;

/// A packet that was read: the lengths of its frames, the place of the first, the bytes of padding behind the last, and the bytes taken.
#[derive(Clone, Debug, PartialEq)]
pub struct Packet {
    pub lengths: Vec<usize>,
    pub first: usize,
    pub padding: usize,
    pub taken: usize,
}

/// The rule that is broken, 1 to 8, and the place.
pub type Broken = (usize, usize);

#[derive(Clone, Copy, Debug, PartialEq)]
pub enum Verdict {
    Refused,
    Unreadable(usize, usize),
    Dirty,
    Longer(usize),
    Clean,
}

/// The duration of a frame in tenths of a millisecond (RFC 6716, 3.1).
fn tenths(toc: u8) -> usize {
    let configuration = (toc >> 3) as usize;
    match configuration {
        0..=11 => [100, 200, 400, 600][configuration % 4],
        12..=15 => [100, 200][configuration % 2],
        _ => [25, 50, 100, 200][configuration % 4],
    }
}

/// A length at a place, and the place behind it (3.2.1); the bytes from `end` on are not looked at.
fn length(p: &[u8], place: usize, end: usize) -> Option<(usize, usize)> {
    let bytes = &p[..end];
    let one = *bytes.get(place)? as usize;
    if one < 252 {
        return Some((one, place + 1));
    }
    Some((4 * *bytes.get(place + 1)? as usize + one, place + 2))
}

/// Frames that share what stands from a place to the end.
fn equal(p: &[u8], place: usize, end: usize, count: usize, odd: Broken, own: bool) -> Result<(Vec<usize>, usize), Broken> {
    if own {
        let (n, next) = length(p, place, end).ok_or((8, place))?;
        return if count * n <= end - next { Ok((vec![n; count], next)) } else { Err((8, place)) };
    }
    let rest = end - place;
    if rest % count != 0 {
        return Err(odd);
    }
    if rest / count > 1275 {
        return Err((2, place));
    }
    Ok((vec![rest / count; count], place))
}

/// Frames that say their lengths, but for the last, which takes the rest.
fn unequal(p: &[u8], place: usize, end: usize, count: usize, rule: usize, own: bool) -> Result<(Vec<usize>, usize), Broken> {
    let mut lengths = Vec::new();
    let mut next = place;
    for _ in 1..count {
        let at = next;
        let (n, behind) = length(p, at, end).ok_or((rule, at))?;
        if n > end - behind {
            return Err((rule, at));
        }
        lengths.push(n);
        next = behind;
    }
    let sum: usize = lengths.iter().sum();
    if sum > end - next {
        return Err((rule, next));
    }
    if own {
        let (n, behind) = length(p, next, end).ok_or((8, next))?;
        if sum + n > end - behind {
            return Err((8, next));
        }
        lengths.push(n);
        return Ok((lengths, behind));
    }
    let last = end - next - sum;
    if last > 1275 {
        return Err((2, next));
    }
    lengths.push(last);
    Ok((lengths, next))
}

/// Reads the packet at the front of p, which in the ordinary form is all of it.
pub fn read(p: &[u8], own: bool) -> Result<Packet, Broken> {
    let toc = *p.first().ok_or((1, 0))?;
    let mut padding = 0;
    let (lengths, first) = match toc & 3 {
        0 => unequal(p, 1, p.len(), 1, 2, own)?,
        1 => equal(p, 1, p.len(), 2, (3, 0), own)?,
        2 => unequal(p, 1, p.len(), 2, 4, own)?,
        _ => {
            let byte = *p.get(1).ok_or((5, 1))?;
            let count = (byte & 63) as usize;
            if count == 0 || count * tenths(toc) > 1200 {
                return Err((5, 1));
            }
            let rule = if byte & 128 == 0 { 6 } else { 7 };
            let mut place = 2;
            if byte & 64 != 0 {
                loop {
                    let n = *p.get(place).ok_or((rule, 2))? as usize;
                    place += 1;
                    padding += n.min(254);
                    if n < 255 {
                        break;
                    }
                }
            }
            if padding > p.len() - place {
                return Err((rule, 2));
            }
            let end = p.len() - padding;
            if rule == 6 {
                equal(p, place, end, count, (6, place), own)?
            } else {
                unequal(p, place, end, count, 7, own)?
            }
        }
    };
    let taken = first + lengths.iter().sum::<usize>() + padding;
    Ok(Packet { lengths, first, padding, taken })
}

/// The frames of a packet that was read.
pub fn frames<'a>(p: &'a [u8], packet: &Packet) -> Vec<&'a [u8]> {
    let mut place = packet.first;
    let cut = |&n: &usize| {
        place += n;
        &p[place - n..place]
    };
    packet.lengths.iter().map(cut).collect()
}

fn field(n: usize) -> Vec<u8> {
    if n < 252 {
        return vec![n as u8];
    }
    let low = 252 + n % 4;
    vec![low as u8, ((n - low) / 4) as u8]
}

/// A packet in one of the layouts: a code, for code 3 with or without the flag for unequal lengths, and with so many padding bytes or none at all.
pub fn laid(toc: u8, code: u8, unequal: bool, padding: Option<usize>, frames: &[&[u8]], own: bool) -> Vec<u8> {
    let mut p = vec![toc & 0xfc | code];
    if code == 3 {
        p.push(if unequal { 128 } else { 0 } + if padding.is_some() { 64 } else { 0 } + frames.len() as u8);
        let mut left = padding.unwrap_or(0);
        while left >= 255 {
            p.push(255);
            left -= 254;
        }
        if padding.is_some() {
            p.push(left as u8);
        }
    }
    let (last, others) = frames.split_last().expect("a frame");
    if code == 2 || code == 3 && unequal {
        others.iter().for_each(|f| p.extend(field(f.len())));
    }
    if own {
        p.extend(field(last.len()));
    }
    frames.iter().for_each(|f| p.extend(*f));
    p.extend(vec![0; padding.unwrap_or(0)]);
    p
}

/// The shortest packet of all layouts that read back as these frames, in full, with the same upper six bits.
pub fn search(toc: u8, frames: &[&[u8]], own: bool) -> usize {
    let mut least = usize::MAX;
    let mut with = |code: u8, unequal: bool, padding: Option<usize>| {
        let p = laid(toc, code, unequal, padding, frames, own);
        if let Ok(packet) = read(&p, own) {
            if packet.taken == p.len() && self::frames(&p, &packet) == frames {
                least = least.min(p.len());
            }
        }
    };
    for code in 0..3 {
        with(code, false, None);
    }
    for unequal in [false, true] {
        for padding in [None, Some(0), Some(1), Some(2), Some(255)] {
            with(3, unequal, padding);
        }
    }
    least
}

/// The same by a sum: the TOC byte, a count byte for three frames or more, a field for each length but the last where they differ, the last one's own
/// field in the self-delimited form, and the frames.
pub fn sum(lengths: &[usize], own: bool) -> usize {
    let width = |n: &usize| if *n < 252 { 1 } else { 2 };
    let (last, others) = lengths.split_last().expect("a frame");
    let fields = if others.iter().all(|n| n == last) { 0 } else { others.iter().map(width).sum() };
    1 + usize::from(lengths.len() > 2) + fields + if own { width(last) } else { 0 } + lengths.iter().sum::<usize>()
}

/// Judges the packet at the front of p.
pub fn judge(p: &[u8], own: bool) -> Verdict {
    if p.len() > 65535 {
        return Verdict::Refused;
    }
    let packet = match read(p, own) {
        Err((rule, place)) => return Verdict::Unreadable(rule, place),
        Ok(packet) => packet,
    };
    if p[packet.taken - packet.padding..packet.taken].iter().any(|b| *b != 0) {
        return Verdict::Dirty;
    }
    let least = sum(&packet.lengths, own);
    if packet.taken < 400 {
        let found = search(p[0], &frames(p, &packet), own);
        assert_eq!(least, found, "the sum and the search differ for {p:02x?}, self-delimited {own}");
    }
    if least < packet.taken {
        Verdict::Longer(least)
    } else {
        Verdict::Clean
    }
}

/// Holds the sum against every string of at most `most` bytes with the upper six bits 0, over a few bytes that can stand in headers: of all that read as
/// the same frames, in full, the shortest has as many bytes as the sum says. Answers how many strings and how many lists of frames there were.
pub fn agree(most: usize) -> (usize, usize) {
    let bytes = [0, 1, 2, 3, 4, 5, 0x41, 0x42, 0x82, 0x83, 0xc1, 0xc2];
    let mut strings = 0;
    let mut least: HashMap<(bool, Vec<Vec<u8>>), usize> = HashMap::new();
    // the shortest come first
    for size in 1..=most {
        for number in 0..4 * bytes.len().pow(size as u32 - 1) {
            let mut p = vec![(number % 4) as u8];
            let mut rest = number / 4;
            for _ in 1..size {
                p.push(bytes[rest % bytes.len()]);
                rest /= bytes.len();
            }
            strings += 1;
            for own in [false, true] {
                let Ok(packet) = read(&p, own) else { continue };
                if packet.taken < size {
                    continue;
                }
                let key = (own, frames(&p, &packet).iter().map(|f| f.to_vec()).collect());
                let found = *least.entry(key).or_insert(size);
                assert_eq!(found, sum(&packet.lengths, own), "{p:02x?}, self-delimited {own}");
            }
        }
    }
    (strings, least.len())
}
