//! A reader of capture files, written from the request alone: M-101 of document 02. It shares nothing with the proved one.
//!
//! A record is the mark 4B 9D, a line number (one byte), a length (two bytes, high byte first) and that many packet bytes, 1 to 65,535. It stands at
//! a place only if all of it fits. Where none stands, the reader moves on one byte.

/// What stands at a place.
#[derive(Clone, Copy)]
pub struct Record {
    pub line: u8,
    pub place: usize,
    pub length: usize,
}

fn stands(file: &[u8], place: usize) -> Option<Record> {
    match file[place..] {
        [0x4b, 0x9d, line, high, low, ref rest @ ..] => {
            let length = u16::from_be_bytes([high, low]) as usize;
            let fits = length >= 1 && length <= rest.len();
            fits.then_some(Record { line, place, length })
        }
        _ => None,
    }
}

/// The first record at or after a place.
pub fn next(file: &[u8], start: usize) -> Option<Record> {
    (start..file.len()).find_map(|place| stands(file, place))
}

/// What the program is to print.
pub fn text(file: &[u8]) -> String {
    if file.len() > 65536 {
        return "refused -1\n".to_string();
    }
    let mut lines = String::new();
    let mut place = 0;
    while let Some(r) = next(file, place) {
        lines += &format!("{} {} {}\n", r.line, r.place, r.length);
        place = r.place + 5 + r.length;
    }
    lines
}
