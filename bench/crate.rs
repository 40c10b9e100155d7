// The crate unopus 0.0.1 for the bench: its opus.rs, repacketizer.rs, opus_defines.rs and externs.rs are taken in unchanged and exported under
// names of their own. `run` puts the folder they stand in for CRATE_FOLDER. Written here, from document 01: the frame count, whose text the
// crate does not give.
#![allow(unused, non_snake_case, non_camel_case_types, static_mut_refs, dead_code)]

#[path = "CRATE_FOLDER/src/externs.rs"]
mod externs;
mod src {
    pub mod opus_defines {
        include!("CRATE_FOLDER/src/src/opus_defines.rs");
    }
    pub mod opus {
        include!("CRATE_FOLDER/src/src/opus.rs");
    }
    pub mod repacketizer {
        include!("CRATE_FOLDER/src/src/repacketizer.rs");
    }
}
pub use src::opus::opus_packet_get_samples_per_frame;
use src::opus::*;
use src::repacketizer::*;

pub unsafe fn opus_packet_get_nb_frames(packet: *const u8, len: i32) -> i32 {
    if len < 1 {
        return -1;
    }
    match *packet & 3 {
        0 => 1,
        1 | 2 => 2,
        _ if len < 2 => -4,
        _ => (*packet.offset(1) & 0x3f) as i32,
    }
}

// ---- exported

#[no_mangle]
pub unsafe extern "C" fn crate_packet_get_nb_frames(packet: *const u8, len: i32) -> i32 {
    opus_packet_get_nb_frames(packet, len)
}

#[no_mangle]
pub unsafe extern "C" fn crate_packet_parse(
    data: *const u8,
    len: i32,
    toc: *mut u8,
    frames: *mut *const u8,
    size: *mut i16,
    payload_offset: *mut i32,
) -> i32 {
    opus_packet_parse(data, len, toc, frames, size, payload_offset)
}

#[no_mangle]
pub unsafe extern "C" fn crate_packet_parse_impl(
    data: *const u8,
    len: i32,
    self_delimited: i32,
    toc: *mut u8,
    frames: *mut *const u8,
    size: *mut i16,
    payload_offset: *mut i32,
    packet_offset: *mut i32,
) -> i32 {
    opus_packet_parse_impl(data, len, self_delimited, toc, frames, size, payload_offset, packet_offset)
}

#[no_mangle]
pub unsafe extern "C" fn crate_repacketizer_get_size() -> i32 {
    opus_repacketizer_get_size()
}

#[no_mangle]
pub unsafe extern "C" fn crate_repacketizer_init(rp: *mut OpusRepacketizer) {
    opus_repacketizer_init(rp);
}

#[no_mangle]
pub unsafe extern "C" fn crate_repacketizer_cat(rp: *mut OpusRepacketizer, data: *const u8, len: i32) -> i32 {
    opus_repacketizer_cat(rp, data, len)
}

#[no_mangle]
pub unsafe extern "C" fn crate_repacketizer_out(rp: *mut OpusRepacketizer, data: *mut u8, maxlen: i32) -> i32 {
    opus_repacketizer_out(rp, data, maxlen)
}

#[no_mangle]
pub unsafe extern "C" fn crate_packet_pad(data: *mut u8, len: i32, new_len: i32) -> i32 {
    opus_packet_pad(data, len, new_len)
}

#[no_mangle]
pub unsafe extern "C" fn crate_packet_unpad(data: *mut u8, len: i32) -> i32 {
    opus_packet_unpad(data, len)
}

#[no_mangle]
pub unsafe extern "C" fn crate_multistream_packet_pad(data: *mut u8, len: i32, new_len: i32, nb_streams: i32) -> i32 {
    opus_multistream_packet_pad(data, len, new_len, nb_streams)
}

#[no_mangle]
pub unsafe extern "C" fn crate_multistream_packet_unpad(data: *mut u8, len: i32, nb_streams: i32) -> i32 {
    opus_multistream_packet_unpad(data, len, nb_streams)
}

// ---- exported from an object of its own, since one more caller of what these share changes how the others are compiled

#[no_mangle]
pub unsafe extern "C" fn crate_repacketizer_out_range(rp: *mut OpusRepacketizer, begin: i32, end: i32, data: *mut u8, maxlen: i32) -> i32 {
    opus_repacketizer_out_range(rp, begin, end, data, maxlen)
}

// ---- exported likewise

#[no_mangle]
pub unsafe extern "C" fn crate_repacketizer_out_delimited(rp: *mut OpusRepacketizer, frames: i32, data: *mut u8, maxlen: i32, self_delimited: i32) -> i32 {
    opus_repacketizer_out_range_impl(rp, 0, frames, data, maxlen, self_delimited, 0)
}
