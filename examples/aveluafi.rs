//! A safe Rust face of include/aveluafi.h: slices in the place of pointers and counts, refusals as an enum with words. No call panics or allocates,
//! whatever it is given, and a refused one has changed nothing. The calls that are left out go the same way.
//!
//! Why `unsafe` is right here: a slice's pointer is never null and names as many bytes as it says; `&mut` rules out that two arguments
//! overlap or that another thread writes to them; and no call keeps a pointer.

use std::fmt;
use std::ops::Range;

/// The header's AVELUAFI_VERSION: the archive that is linked must answer the same (`version`).
pub const VERSION: i32 = 3;

pub const MOST_FRAMES: usize = 48;
pub const LEAST_STORE: usize = 61200;
pub const MOST_ORDERS: usize = 48;
pub const MOST_HEAD: usize = 276;

/// Why a call was refused.
#[derive(Clone, Copy, Debug, PartialEq, Eq)]
pub enum Refusal {
    BadArg,
    BufferTooSmall,
    /// Other upper six TOC bits than those held, or over 120 ms together with them.
    InvalidPacket,
    /// A packet that breaks a rule of RFC 6716, 1 to 8, and the place of the first byte of the field concerned, from the first byte that was lent.
    Unreadable {
        rule: u16,
        place: u16,
    },
    InvalidState,
    /// A strict add: a padding byte is not zero.
    DirtyPadding,
    /// A share of compaction: the next record alone, rewritten, is longer than the budget.
    OverBudget,
    /// Of many cuts, the one at this position, from 1: it is no range of the frames held.
    BadOrder {
        position: u32,
    },
    /// Its packet is longer than what the cuts before it have left of the destination.
    OrderTooLong {
        position: u32,
    },
    /// Streams to be joined, or those of a packet, do not last equally long.
    UnequalTimes,
    /// Bytes that are no identification header: under 19 of them, other letters in front, or another length than the fields need.
    BadHeader,
    /// A header of a version above 15.
    UnknownVersion,
    /// A field of a header against the rules of RFC 7845; to be written, also a version other than 1.
    BadField,
    /// A number that this file does not know: the archive that was linked is of another version.
    Unknown(i32),
}

impl Refusal {
    /// The header's number.
    pub fn number(self) -> i32 {
        match self {
            Refusal::BadArg | Refusal::BadOrder { .. } => -1,
            Refusal::BufferTooSmall | Refusal::OrderTooLong { .. } => -2,
            Refusal::InvalidPacket | Refusal::Unreadable { .. } | Refusal::UnequalTimes => -4,
            Refusal::InvalidState => -6,
            Refusal::DirtyPadding => -20,
            Refusal::OverBudget => -21,
            Refusal::BadHeader => -22,
            Refusal::UnknownVersion => -23,
            Refusal::BadField => -24,
            Refusal::Unknown(number) => number,
        }
    }
}

impl fmt::Display for Refusal {
    fn fmt(&self, f: &mut fmt::Formatter) -> fmt::Result {
        match self {
            Refusal::BadArg => write!(f, "bad argument"),
            Refusal::BufferTooSmall => write!(f, "buffer too small"),
            Refusal::InvalidPacket => write!(f, "invalid packet: it does not go with the frames held"),
            Refusal::Unreadable { rule, place } => write!(f, "invalid packet: RFC 6716 rule R{rule} at byte {place}"),
            Refusal::InvalidState => write!(f, "invalid state of the collector"),
            Refusal::DirtyPadding => write!(f, "dirty padding: a padding byte is not zero"),
            Refusal::OverBudget => write!(f, "over budget: the next record alone is longer than it"),
            Refusal::BadOrder { position } => write!(f, "order {position}: no range of the frames held"),
            Refusal::OrderTooLong { position } => write!(f, "order {position}: destination too small"),
            Refusal::UnequalTimes => write!(f, "invalid packet: the streams do not last equally long"),
            Refusal::BadHeader => write!(f, "no identification header"),
            Refusal::UnknownVersion => write!(f, "header of an unknown version"),
            Refusal::BadField => write!(f, "header field against the rules of RFC 7845"),
            Refusal::Unknown(number) => write!(f, "refused by {number}, a number of another version"),
        }
    }
}

impl std::error::Error for Refusal {}

fn answer(number: i32) -> Result<usize, Refusal> {
    match number {
        0.. => Ok(number as usize),
        -1 => Err(Refusal::BadArg),
        -2 => Err(Refusal::BufferTooSmall),
        -4 => Err(Refusal::InvalidPacket),
        -6 => Err(Refusal::InvalidState),
        -20 => Err(Refusal::DirtyPadding),
        -21 => Err(Refusal::OverBudget),
        -22 => Err(Refusal::BadHeader),
        -23 => Err(Refusal::UnknownVersion),
        -24 => Err(Refusal::BadField),
        _ => Err(Refusal::Unknown(number)),
    }
}

#[repr(C)]
struct Report {
    number: i32,
    rule: u16,
    place: u16,
}

fn reported(r: Report) -> Result<usize, Refusal> {
    match r {
        Report { number: -4, rule: rule @ 1.., place } => Err(Refusal::Unreadable { rule, place }),
        _ => answer(r.number),
    }
}

#[repr(C)]
#[derive(Clone, Copy)]
struct Order {
    begin: i32,
    end: i32,
    length: u32,
}

#[repr(C)]
struct OrderReport {
    number: i32,
    position: u32,
}

fn ordered(r: OrderReport) -> Result<usize, Refusal> {
    match r {
        OrderReport { number: -1, position: position @ 1.. } => Err(Refusal::BadOrder { position }),
        OrderReport { number: -2, position: position @ 1.. } => Err(Refusal::OrderTooLong { position }),
        _ => answer(r.number),
    }
}

// A length as the header takes it. One that does not fit is far above the bound of 65,535 and is refused as any other above it.
fn length(n: usize) -> i32 {
    n.min(i32::MAX as usize) as i32
}

#[repr(C)]
struct Repacketizer {
    toc: u8,
    nb_frames: u16,
    framesize: u16,
    len: [u16; MOST_FRAMES],
    packet: [u8; MOST_FRAMES],
}

/// A packet that was read.
#[repr(C)]
pub struct Packet {
    number: i32,
    rule: u16,
    place: u16,
    lengths: [u16; MOST_FRAMES],
    pub toc: u8,
    payload_offset: usize,
    /// Bytes taken, padding included.
    pub packet_offset: usize,
}

#[repr(C)]
struct RawRecord {
    number: i32,
    line: u8,
    place: usize,
    length: usize,
    passed: usize,
}

#[repr(C)]
struct RawShare {
    number: i32,
    resume: usize,
    records: usize,
    written: usize,
    reclaimed: usize,
    passed: usize,
}

/// The fields of an identification header of an Ogg Opus stream.
#[repr(C)]
#[derive(Clone, Copy, Debug, PartialEq, Eq)]
pub struct Head {
    pub version: u8,
    pub channels: u8,
    /// Samples at 48 kHz, to be left out at the start.
    pub pre_skip: u16,
    /// That of the recording, in Hz; for information.
    pub rate: u32,
    /// In 1/256 dB.
    pub gain: i16,
    pub family: u8,
    pub streams: u8,
    pub coupled: u8,
    /// An entry for each channel, then zeros.
    pub mapping: [u8; 255],
}

#[repr(C)]
struct RawHead {
    number: i32,
    head: Head,
}

#[repr(C)]
struct RawVerdict {
    number: i32,
    verdict: u16,
    rule: u16,
    place: usize,
    least: usize,
}

/// What a packet is judged to be: the first of these that holds, in this order.
#[derive(Clone, Copy, Debug, PartialEq, Eq)]
pub enum Verdict {
    /// It breaks a rule of RFC 6716, at a place.
    Unreadable { rule: u16, place: usize },
    /// A padding byte is not zero.
    Dirty,
    /// Its frames fit in so many bytes, fewer than it takes.
    Longer(usize),
    /// It is the shortest packet for its frames.
    Clean,
}

#[link(name = "aveluafi", kind = "static")]
extern "C" {
    fn aveluafi_version() -> i32;
    fn aveluafi_packet_parse_impl(data: *const u8, data_len: usize, self_delimited: bool) -> Packet;
    fn aveluafi_packet_judge(data: *const u8, data_len: usize, self_delimited: bool) -> RawVerdict;
    fn aveluafi_repacketizer_init(rp: *mut Repacketizer);
    fn aveluafi_repacketizer_cat(rp: *mut Repacketizer, data: *const u8, data_len: usize, store: *mut u8, store_len: usize) -> Report;
    fn aveluafi_repacketizer_cat_strict(rp: *mut Repacketizer, data: *const u8, data_len: usize, store: *mut u8, store_len: usize) -> Report;
    fn aveluafi_repacketizer_get_nb_frames(rp: *const Repacketizer) -> i32;
    fn aveluafi_repacketizer_out(rp: *const Repacketizer, store: *const u8, store_len: usize, data: *mut u8, data_len: usize) -> i32;
    fn aveluafi_repacketizer_out_range(
        rp: *const Repacketizer,
        store: *const u8,
        store_len: usize,
        begin: i32,
        end: i32,
        data: *mut u8,
        data_len: usize,
    ) -> i32;
    fn aveluafi_repacketizer_out_packet(
        rp: *const Repacketizer,
        store: *const u8,
        store_len: usize,
        number: i32,
        data: *mut u8,
        data_len: usize,
    ) -> i32;
    fn aveluafi_repacketizer_out_many(
        rp: *const Repacketizer,
        store: *const u8,
        store_len: usize,
        orders: *mut Order,
        orders_len: usize,
        data: *mut u8,
        data_len: usize,
    ) -> OrderReport;
    fn aveluafi_packet_pad(data: *mut u8, data_len: usize, len: i32, new_len: i32) -> Report;
    fn aveluafi_packet_unpad(data: *mut u8, data_len: usize, len: i32) -> Report;
    fn aveluafi_multistream_join(
        data: *const u8,
        data_len: usize,
        lengths: *const u16,
        lengths_len: usize,
        dst: *mut u8,
        dst_len: usize,
    ) -> Report;
    fn aveluafi_multistream_take(data: *const u8, data_len: usize, nb_streams: i32, k: i32, dst: *mut u8, dst_len: usize) -> Report;
    fn aveluafi_next_record(data: *const u8, data_len: usize, start: usize) -> RawRecord;
    fn aveluafi_compact(data: *const u8, data_len: usize, start: usize, dst: *mut u8, dst_len: usize, budget: usize) -> RawShare;
    fn aveluafi_head_read(data: *const u8, data_len: usize) -> RawHead;
    fn aveluafi_head_write(head: *const Head, dst: *mut u8, dst_len: usize) -> i32;
}

/// The version of the archive that is linked. Where it is not `VERSION`, nothing that it answers can be relied on.
pub fn version() -> i32 {
    unsafe { aveluafi_version() }
}

/// Reads the packet at the front of `data`: an ordinary one takes all of it, a self-delimited one ends where it says.
pub fn read(data: &[u8], self_delimited: bool) -> Result<Packet, Refusal> {
    let packet = unsafe { aveluafi_packet_parse_impl(data.as_ptr(), data.len(), self_delimited) };
    reported(Report { number: packet.number, rule: packet.rule, place: packet.place }).map(|_| packet)
}

impl Packet {
    /// The place of each frame in the bytes that were read.
    pub fn frames(&self) -> impl Iterator<Item = Range<usize>> + '_ {
        let lengths = self.lengths.iter().take(self.number as usize);
        lengths.scan(self.payload_offset, |at, n| {
            let begin = *at;
            *at += *n as usize;
            Some(begin..*at)
        })
    }
}

/// Makes the packet in the first `len` bytes fill `data`.
pub fn pad(data: &mut [u8], len: usize) -> Result<(), Refusal> {
    let new_len = length(data.len());
    reported(unsafe { aveluafi_packet_pad(data.as_mut_ptr(), data.len(), length(len), new_len) }).map(|_| ())
}

/// Strips the padding of the packet that fills `data`, and answers the bytes that are left in its front.
pub fn unpad(data: &mut [u8]) -> Result<usize, Refusal> {
    reported(unsafe { aveluafi_packet_unpad(data.as_mut_ptr(), data.len(), length(data.len())) })
}

// Of streams an invalid packet is one whose streams do not last equally long.
fn timed(r: Report) -> Result<usize, Refusal> {
    reported(r).map_err(|refusal| if refusal == Refusal::InvalidPacket { Refusal::UnequalTimes } else { refusal })
}

/// Joins ordinary packets of these lengths, 1 to 255, which lie one behind another in `packets`, into one multistream packet at the front of `dst`, and answers
/// its bytes.
pub fn join(packets: &[u8], lengths: &[u16], dst: &mut [u8]) -> Result<usize, Refusal> {
    timed(unsafe { aveluafi_multistream_join(packets.as_ptr(), packets.len(), lengths.as_ptr(), lengths.len(), dst.as_mut_ptr(), dst.len()) })
}

/// Takes stream `k`, from 0, out of a multistream packet of so many streams: its ordinary packet at the front of `dst`, of which it answers the bytes.
pub fn take(data: &[u8], streams: usize, k: usize, dst: &mut [u8]) -> Result<usize, Refusal> {
    timed(unsafe { aveluafi_multistream_take(data.as_ptr(), data.len(), length(streams), length(k), dst.as_mut_ptr(), dst.len()) })
}

/// Judges a packet; what stands behind a self-delimited one is no part of it.
pub fn judge(data: &[u8], self_delimited: bool) -> Result<Verdict, Refusal> {
    let v = unsafe { aveluafi_packet_judge(data.as_ptr(), data.len(), self_delimited) };
    answer(v.number).map(|_| match v.verdict {
        1 => Verdict::Unreadable { rule: v.rule, place: v.place },
        2 => Verdict::Dirty,
        3 => Verdict::Longer(v.least),
        _ => Verdict::Clean,
    })
}

/// Frames of one kind, at most 120 ms, copied into a borrowed store.
pub struct Collector<'a> {
    rp: Repacketizer,
    store: &'a mut [u8; LEAST_STORE],
}

impl<'a> Collector<'a> {
    pub fn new(store: &'a mut [u8; LEAST_STORE]) -> Self {
        let mut rp = Repacketizer { toc: 0, nb_frames: 0, framesize: 0, len: [0; MOST_FRAMES], packet: [0; MOST_FRAMES] };
        unsafe { aveluafi_repacketizer_init(&mut rp) };
        Collector { rp, store }
    }
    /// Adds the frames of an ordinary packet behind those held.
    pub fn add(&mut self, packet: &[u8]) -> Result<(), Refusal> {
        let (store, n) = (self.store.as_mut_ptr(), self.store.len());
        reported(unsafe { aveluafi_repacketizer_cat(&mut self.rp, packet.as_ptr(), packet.len(), store, n) }).map(|_| ())
    }
    /// The same, but that a packet with a padding byte other than zero is refused, last of all.
    pub fn add_strict(&mut self, packet: &[u8]) -> Result<(), Refusal> {
        let (store, n) = (self.store.as_mut_ptr(), self.store.len());
        reported(unsafe { aveluafi_repacketizer_cat_strict(&mut self.rp, packet.as_ptr(), packet.len(), store, n) }).map(|_| ())
    }
    pub fn held(&self) -> usize {
        answer(unsafe { aveluafi_repacketizer_get_nb_frames(&self.rp) }).unwrap_or(0)
    }
    /// Writes all frames held as one packet in its shortest form, and answers its bytes.
    pub fn write(&self, data: &mut [u8]) -> Result<usize, Refusal> {
        let (store, n) = (self.store.as_ptr(), self.store.len());
        answer(unsafe { aveluafi_repacketizer_out(&self.rp, store, n, data.as_mut_ptr(), data.len()) })
    }
    /// The same for a range of them.
    pub fn write_range(&self, frames: Range<usize>, data: &mut [u8]) -> Result<usize, Refusal> {
        let (store, n) = (self.store.as_ptr(), self.store.len());
        let (begin, end) = (length(frames.start), length(frames.end));
        answer(unsafe { aveluafi_repacketizer_out_range(&self.rp, store, n, begin, end, data.as_mut_ptr(), data.len()) })
    }
    /// The frames that came in one accepted packet, the first of which since the collector was last empty has number 0: what unpadding it would have left.
    pub fn write_packet(&self, number: usize, data: &mut [u8]) -> Result<usize, Refusal> {
        let (store, n) = (self.store.as_ptr(), self.store.len());
        answer(unsafe { aveluafi_repacketizer_out_packet(&self.rp, store, n, length(number), data.as_mut_ptr(), data.len()) })
    }
    /// Many ranges in one call, at most 48, their packets one behind another from the front of `data`. Ranges may overlap and repeat. If one is refused,
    /// nothing is written, and the refusal says at which position, from 1.
    pub fn write_many(&self, frames: &[Range<usize>], data: &mut [u8]) -> Result<Cuts, Refusal> {
        // one more than the call takes, so that it is the call that refuses them
        let mut orders = [Order { begin: 0, end: 0, length: 0 }; MOST_ORDERS + 1];
        for (order, range) in orders.iter_mut().zip(frames) {
            (order.begin, order.end) = (length(range.start), length(range.end));
        }
        let (store, n, count) = (self.store.as_ptr(), self.store.len(), frames.len().min(orders.len()));
        let r = unsafe { aveluafi_repacketizer_out_many(&self.rp, store, n, orders.as_mut_ptr(), count, data.as_mut_ptr(), data.len()) };
        ordered(r).map(|bytes| Cuts { bytes, count, orders })
    }
}

/// Packets cut in one call.
pub struct Cuts {
    /// Of all of them.
    pub bytes: usize,
    count: usize,
    orders: [Order; MOST_ORDERS + 1],
}

impl Cuts {
    /// The place of each packet in the bytes that were written, in the order of the ranges.
    pub fn packets(&self) -> impl Iterator<Item = Range<usize>> + '_ {
        self.orders.iter().take(self.count).scan(0, |at, order| {
            let begin = *at;
            *at += order.length as usize;
            Some(begin..*at)
        })
    }
}

/// The bytes of a record before its packet.
pub const RECORD_HEAD: usize = 5;

/// A record of a capture file, its packet a part of the capture.
pub struct Record<'a> {
    pub line: u8,
    /// Of its mark.
    pub place: usize,
    pub packet: &'a [u8],
}

/// What comes next in a capture, behind the bytes that were passed over.
pub struct Next<'a> {
    pub passed: usize,
    /// None at the end.
    pub record: Option<Record<'a>>,
}

/// The next record at or after `start`, which is refused past the end.
pub fn next_record(capture: &[u8], start: usize) -> Result<Next<'_>, Refusal> {
    let r = unsafe { aveluafi_next_record(capture.as_ptr(), capture.len(), start) };
    answer(r.number)?;
    let record = (r.length > 0).then(|| Record { line: r.line, place: r.place, packet: &capture[r.place + RECORD_HEAD..][..r.length] });
    Ok(Next { passed: r.passed, record })
}

/// The bytes of the longest record, head and packet: a budget of so many is never too short for one.
pub const MOST_RECORD: usize = 65540;

/// What a share of compaction did. `resume` less the start is `written` and `reclaimed` and `passed` together.
#[derive(Clone, Copy, Debug, PartialEq, Eq)]
pub struct Share {
    /// Where the next one starts: the place of the next record, or the end where none is left.
    pub resume: usize,
    pub records: usize,
    /// Their bytes as they were written.
    pub written: usize,
    /// By how many bytes they were longer.
    pub reclaimed: usize,
    /// Bytes in no record, which are not written.
    pub passed: usize,
}

/// Rewrites the records of a capture at or after `start` into the front of `dst`, each packet in its shortest form, as many as `budget` bytes hold. Hand it
/// a whole file, or a part that ends right behind a record that was read. Dirty padding is stripped quietly: judge first.
pub fn compact(capture: &[u8], start: usize, dst: &mut [u8], budget: usize) -> Result<Share, Refusal> {
    let r = unsafe { aveluafi_compact(capture.as_ptr(), capture.len(), start, dst.as_mut_ptr(), dst.len(), budget) };
    let share = Share { resume: r.resume, records: r.records, written: r.written, reclaimed: r.reclaimed, passed: r.passed };
    answer(r.number).map(|_| share)
}

/// The shares of a capture from `start` on, one after another, each with a budget of the whole buffer, in which it is written.
pub fn shares<'a>(capture: &'a [u8], start: usize, buffer: &'a mut [u8]) -> Shares<'a> {
    Shares { capture, at: Some(start), buffer }
}

/// Goes from share to share: `while let Some(night) = shares.next_share()` lends the bytes of each, which stand in the buffer until the next; as an iterator,
/// `for night in shares(..)`, it hands them out to keep.
pub struct Shares<'a> {
    capture: &'a [u8],
    // None behind a refusal.
    at: Option<usize>,
    buffer: &'a mut [u8],
}

impl Shares<'_> {
    /// The next share and the bytes that it wrote. None at the capture's end, and behind a refusal, which comes once.
    pub fn next_share(&mut self) -> Option<Result<(Share, &[u8]), Refusal>> {
        let start = self.at.filter(|at| *at != self.capture.len())?;
        let budget = self.buffer.len();
        let night = compact(self.capture, start, self.buffer, budget);
        self.at = night.ok().map(|share| share.resume);
        Some(night.map(|share| (share, &self.buffer[..share.written])))
    }
}

impl Iterator for Shares<'_> {
    type Item = Result<(Share, Vec<u8>), Refusal>;

    fn next(&mut self) -> Option<Self::Item> {
        self.next_share().map(|night| night.map(|(share, bytes)| (share, bytes.to_vec())))
    }
}

/// Reads the identification header that `data` is. One of version 1 takes all of it; another may have more bytes behind its fields.
pub fn read_head(data: &[u8]) -> Result<Head, Refusal> {
    let r = unsafe { aveluafi_head_read(data.as_ptr(), data.len()) };
    answer(r.number).map(|_| r.head)
}

/// Writes a header of these fields, of version 1, at the front of `dst`, and answers its bytes.
pub fn write_head(head: &Head, dst: &mut [u8]) -> Result<usize, Refusal> {
    answer(unsafe { aveluafi_head_write(head, dst.as_mut_ptr(), dst.len()) })
}
