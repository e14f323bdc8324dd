//! "Capture records": a record read from a file's bytes, and one written, under the limit of request 7/13 that is in force.
use super::{refused, Refusal};

/// "Body length (2 bytes, little-endian), kind (2 bytes, little-endian)".
pub const HEAD_BYTES: usize = 4;

/// "1 vectors, 2 line bytes".
pub const VECTORS: u64 = 1;
pub const LINE_BYTES: u64 = 2;

/// "Raise the body limit to 65,472 bytes". Before it was 4,092, and in "phones not yet updated" it still is.
pub const LIMIT: usize = 65_472;
pub const OLD_LIMIT: usize = 4_092;

/// "A writer is told, by a yes or no, which limit to keep".
pub fn kept_limit(wide: u64) -> usize {
    if wide == 0 {
        OLD_LIMIT
    } else {
        LIMIT
    }
}

pub const WORDS: usize = 5;
pub const SUMMARY_BYTES: usize = 8 * WORDS;

/// "The body is the part of the file's bytes that starts after the head".
#[derive(Clone, Copy, PartialEq, Eq, Debug)]
pub struct Record {
    pub kind: u64,
    pub start: usize,
    pub length: usize,
}

impl Record {
    /// The summary: there is a record, its kind, where its body starts, how long it is, and the place after it.
    pub fn words(&self) -> [u64; WORDS] {
        [1, self.kind, self.start as u64, self.length as u64, (self.start + self.length) as u64]
    }
}

/// Two bytes, little-endian.
fn number(low: u8, high: u8) -> usize {
    low as usize + 256 * high as usize
}

/// What a reader with this limit answers at a place of a file, given the length of the lent summary. At the end there is no record.
pub fn read(limit: usize, file: &[u8], place: u64, summary_room: usize) -> Result<Option<Record>, Refusal> {
    let found = record_at(limit, file, place)?;
    if summary_room < SUMMARY_BYTES {
        return refused(4);
    }
    Ok(found)
}

fn record_at(limit: usize, file: &[u8], place: u64) -> Result<Option<Record>, Refusal> {
    // "No bytes left, or a place past them, is a plain end of records"
    if place >= file.len() as u64 {
        return Ok(None);
    }
    let place = place as usize;
    let refused = |number| Err(Refusal { number, place });
    // "6 (head)": "under 4 head bytes"
    let left = &file[place..];
    if left.len() < HEAD_BYTES {
        return refused(6);
    }
    let length = number(left[0], left[1]);
    let kind = number(left[2], left[3]) as u64;
    // "7 now means above the limit in force"
    if length > limit {
        return refused(7);
    }
    if kind != VECTORS && kind != LINE_BYTES {
        return refused(8);
    }
    // "6 (body)": "body past the end"
    if left.len() < HEAD_BYTES + length {
        return refused(6);
    }
    // "2 (kind 1 only)"
    if kind == VECTORS && length % 40 != 0 {
        return refused(2);
    }
    Ok(Some(Record { kind, start: place + HEAD_BYTES, length }))
}

/// What a writer with this limit answers: the bytes of the record, given the length of the lent room.
pub fn write(limit: usize, kind: u64, body: &[u8], room: usize) -> Result<Vec<u8>, Refusal> {
    if body.len() > limit {
        return refused(7);
    }
    if kind != VECTORS && kind != LINE_BYTES {
        return refused(8);
    }
    if kind == VECTORS && body.len() % 40 != 0 {
        return refused(2);
    }
    // "writing a record, below body + 4"
    if room < body.len() + HEAD_BYTES {
        return refused(4);
    }
    let mut record = vec![(body.len() % 256) as u8, (body.len() / 256) as u8, kind as u8, 0];
    record.extend(body);
    Ok(record)
}
