//! The library, through its C boundary: the declarations of include/holzmotte.h and safe functions over them.
use crate::reference::edition::Edition;

extern "C" {
    fn holzmotte_send(
        edition: u64,
        vectors: *const u8,
        vectors_len: usize,
        start_state: u64,
        line: *mut u8,
        line_len: usize,
        summary: *mut u8,
        summary_len: usize,
    ) -> u64;
    fn holzmotte_receive(
        edition: u64,
        line: *const u8,
        line_len: usize,
        vectors: *mut u8,
        vectors_len: usize,
        summary: *mut u8,
        summary_len: usize,
        counters: *mut u8,
        counters_len: usize,
    ) -> u64;
    fn holzmotte_begin(edition: u64, state: *mut u8, state_len: usize) -> u64;
    fn holzmotte_burst(
        state: *mut u8,
        state_len: usize,
        line: *const u8,
        line_len: usize,
        vectors: *mut u8,
        vectors_len: usize,
        summary: *mut u8,
        summary_len: usize,
        counters: *mut u8,
        counters_len: usize,
    ) -> u64;
    fn holzmotte_close(
        state: *mut u8,
        state_len: usize,
        vectors: *mut u8,
        vectors_len: usize,
        summary: *mut u8,
        summary_len: usize,
        counters: *mut u8,
        counters_len: usize,
    ) -> u64;
    fn holzmotte_read_record(file: *const u8, file_len: usize, place: u64, summary: *mut u8, summary_len: usize)
        -> u64;
    fn holzmotte_write_record(
        kind: u64,
        body: *const u8,
        body_len: usize,
        wide: u64,
        room: *mut u8,
        room_len: usize,
    ) -> u64;
    fn holzmotte_frames(
        vectors: *const u8,
        vectors_len: usize,
        list: *mut u8,
        list_len: usize,
        summary: *mut u8,
        summary_len: usize,
    ) -> u64;
    fn holzmotte_index(vectors: *const u8, vectors_len: usize, index: *mut u8, index_len: usize) -> u64;
    fn holzmotte_count(
        vectors: *const u8,
        vectors_len: usize,
        index: *const u8,
        index_len: usize,
        a: u64,
        b: u64,
        summary: *mut u8,
        summary_len: usize,
    ) -> u64;
    fn holzmotte_find_error(
        vectors: *const u8,
        vectors_len: usize,
        index: *const u8,
        index_len: usize,
        n: u64,
        summary: *mut u8,
        summary_len: usize,
    ) -> u64;
}

/// Sends a list: 0, or refusal number + 256 x place.
pub fn send(edition: u64, vectors: &[u8], start_state: u64, line: &mut [u8], summary: &mut [u8]) -> u64 {
    // Safety: a Rust slice is what the header asks of one, and no two of these overlap.
    unsafe {
        holzmotte_send(
            edition,
            vectors.as_ptr(),
            vectors.len(),
            start_state,
            line.as_mut_ptr(),
            line.len(),
            summary.as_mut_ptr(),
            summary.len(),
        )
    }
}

/// Receives a line: 0, or refusal number + 256 x place.
pub fn receive(edition: u64, line: &[u8], vectors: &mut [u8], summary: &mut [u8], counters: &mut [u8]) -> u64 {
    // Safety: as above.
    unsafe {
        holzmotte_receive(
            edition,
            line.as_ptr(),
            line.len(),
            vectors.as_mut_ptr(),
            vectors.len(),
            summary.as_mut_ptr(),
            summary.len(),
            counters.as_mut_ptr(),
            counters.len(),
        )
    }
}

/// A fresh state: 0, or a refusal's number.
pub fn begin(edition: u64, state: &mut [u8]) -> u64 {
    // Safety: as above.
    unsafe { holzmotte_begin(edition, state.as_mut_ptr(), state.len()) }
}

/// The next bytes of a line: 0, or a refusal's number.
pub fn burst(state: &mut [u8], line: &[u8], vectors: &mut [u8], summary: &mut [u8], counters: &mut [u8]) -> u64 {
    // Safety: as above.
    unsafe {
        holzmotte_burst(
            state.as_mut_ptr(),
            state.len(),
            line.as_ptr(),
            line.len(),
            vectors.as_mut_ptr(),
            vectors.len(),
            summary.as_mut_ptr(),
            summary.len(),
            counters.as_mut_ptr(),
            counters.len(),
        )
    }
}

/// The end of a line that came in bursts: 0, or a refusal's number.
pub fn close(state: &mut [u8], vectors: &mut [u8], summary: &mut [u8], counters: &mut [u8]) -> u64 {
    // Safety: as above.
    unsafe {
        holzmotte_close(
            state.as_mut_ptr(),
            state.len(),
            vectors.as_mut_ptr(),
            vectors.len(),
            summary.as_mut_ptr(),
            summary.len(),
            counters.as_mut_ptr(),
            counters.len(),
        )
    }
}

/// The record at a place of a file: 0, or refusal number + 256 x place.
pub fn read_record(file: &[u8], place: u64, summary: &mut [u8]) -> u64 {
    // Safety: as above.
    unsafe { holzmotte_read_record(file.as_ptr(), file.len(), place, summary.as_mut_ptr(), summary.len()) }
}

/// A record of a body: 0, or a refusal's number.
pub fn write_record(kind: u64, body: &[u8], wide: u64, room: &mut [u8]) -> u64 {
    // Safety: as above.
    unsafe { holzmotte_write_record(kind, body.as_ptr(), body.len(), wide, room.as_mut_ptr(), room.len()) }
}

/// The frames of a list of vectors: 0, or refusal number + 256 x place.
pub fn frames(vectors: &[u8], list: &mut [u8], summary: &mut [u8]) -> u64 {
    // Safety: as above.
    unsafe {
        holzmotte_frames(
            vectors.as_ptr(),
            vectors.len(),
            list.as_mut_ptr(),
            list.len(),
            summary.as_mut_ptr(),
            summary.len(),
        )
    }
}

/// The index of a list of vectors: 0, or refusal number + 256 x place.
pub fn index(vectors: &[u8], index: &mut [u8]) -> u64 {
    // Safety: as above.
    unsafe { holzmotte_index(vectors.as_ptr(), vectors.len(), index.as_mut_ptr(), index.len()) }
}

/// How many error vectors and vectors of kind S from `a` up to but not `b`: 0, or refusal number + 256 x place.
pub fn count(vectors: &[u8], index: &[u8], a: u64, b: u64, summary: &mut [u8]) -> u64 {
    // Safety: as above.
    unsafe {
        holzmotte_count(
            vectors.as_ptr(),
            vectors.len(),
            index.as_ptr(),
            index.len(),
            a,
            b,
            summary.as_mut_ptr(),
            summary.len(),
        )
    }
}

/// Where the n-th error vector is: 0, or refusal number + 256 x place.
pub fn find_error(vectors: &[u8], index: &[u8], n: u64, summary: &mut [u8]) -> u64 {
    // Safety: as above.
    unsafe {
        holzmotte_find_error(
            vectors.as_ptr(),
            vectors.len(),
            index.as_ptr(),
            index.len(),
            n,
            summary.as_mut_ptr(),
            summary.len(),
        )
    }
}

/// The words of receiving's summary, and its bytes.
pub const RECEIVE_WORDS: usize = 12;
pub const RECEIVE_SUMMARY_BYTES: usize = 8 * RECEIVE_WORDS;
pub const COUNTERS_BYTES: usize = 32;
pub const STATE_BYTES: usize = 232;

/// Word `i` of a summary.
pub fn word(summary: &[u8], i: usize) -> u64 {
    u64::from_le_bytes(summary[8 * i..8 * i + 8].try_into().unwrap())
}

/// All words of receiving's summary.
pub fn words(summary: &[u8; RECEIVE_SUMMARY_BYTES]) -> [u64; RECEIVE_WORDS] {
    std::array::from_fn(|i| word(summary, i))
}

/// The line and the summary of a list that sending accepts.
pub fn sent(edition: Edition, vectors: &[u8], start_state: u64) -> (Vec<u8>, [u8; 24]) {
    let mut line = vec![0; vectors.len() / 40 * 33];
    let mut summary = [0; 24];
    assert_eq!(send(edition as u64, vectors, start_state, &mut line, &mut summary), 0);
    (line, summary)
}

/// The vectors and the summary of a line that receiving accepts.
pub fn received(edition: Edition, line: &[u8]) -> (Vec<u8>, [u8; RECEIVE_SUMMARY_BYTES]) {
    let mut vectors = vec![0; 8 * line.len() / 66 * 10];
    let mut summary = [0; RECEIVE_SUMMARY_BYTES];
    assert_eq!(receive(edition as u64, line, &mut vectors, &mut summary, &mut [0; COUNTERS_BYTES]), 0);
    vectors.truncate(10 * word(&summary, 4) as usize);
    (vectors, summary)
}
