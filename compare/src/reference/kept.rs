//! Request 2/13 the obvious way: all bytes of the line are kept, and each call starts over with one call over all of them. "However the
//! bytes are cut [..] all the vectors joined and the last summary equal those of one call over the whole."
use super::block::{decode, kind, Kind};
use super::counters::{COUNTERS_BYTES, FIELDS};
use super::diagrams::State;
use super::edition::Edition;
use super::receiving::{receive_all, Received, MOST_LINE_BYTES, SUMMARY_BYTES};
use super::state::*;
use super::vector::ERROR;
use super::{refused, Refusal};

/// A capture: what there is of its line so far.
#[derive(Clone)]
pub struct Kept {
    pub edition: Edition,
    pub line: Vec<u8>,
    pub closed: bool,
}

/// What has been handed out of a capture so far, and the state that is handed back.
pub struct SoFar {
    pub vectors: Vec<u8>,
    pub summary: Vec<u8>,
    pub counted: [u64; FIELDS],
    pub state: Words,
}

impl Kept {
    pub fn begin(edition: Edition) -> Kept {
        Kept { edition, line: Vec::new(), closed: false }
    }

    /// Is a call refused that brings so many bytes more and is lent slices of these lengths? The closing call brings none.
    pub fn judged(&self, new: usize, room: usize, summary_room: usize, counters_room: usize) -> Result<(), Refusal> {
        if self.closed {
            return refused(9);
        }
        if self.line.len() + new > MOST_LINE_BYTES {
            return refused(1);
        }
        // "carried and new bits": those from the next block on; where that begins past the end, a slip's bit is yet to come
        let carried = (8 * self.line.len()).saturating_sub(receive_all(self.edition, &self.line).at);
        let wanted = 10 * ((carried + 8 * new) / 66 + 1);
        if room < wanted || summary_room < SUMMARY_BYTES || counters_room < COUNTERS_BYTES {
            return refused(4);
        }
        Ok(())
    }

    pub fn so_far(&self) -> SoFar {
        let mut received = receive_all(self.edition, &self.line);
        let state = self.state(&received);
        // the last vector waits for the closing call
        if !self.closed && !received.blocks.is_empty() {
            received.states.pop();
            received.vectors.truncate(received.vectors.len() - 10);
        }
        let mut so_far = SoFar { summary: received.summary(), counted: received.counted(), state, vectors: vec![] };
        so_far.state[VECTORS] = received.states.len() as u64;
        so_far.state[BEGUN] = received.begun();
        so_far.state[REPLACED] = received.replaced();
        so_far.vectors = received.vectors;
        so_far
    }

    /// The state after the whole of the line, but for the counts of what has been handed out.
    fn state(&self, received: &Received) -> Words {
        let mut words = fresh(self.edition);
        words[CLOSED] = self.closed as u64;
        words[LINE_BYTES] = self.line.len() as u64;
        words[LOCK_TESTED] = received.lock.tested as u64;
        words[LOCK_INVALID] = received.lock.invalid as u64;
        words[LOCKED] = received.lock.locked as u64;
        words[WINDOW_BLOCKS] = received.rate.blocks as u64;
        words[WINDOW_INVALID] = received.rate.invalid as u64;
        words[HIGH] = received.rate.high as u64;
        words[SCRAMBLER] = turned(received.scrambler.state);
        let end = 8 * self.line.len();
        let carried: Vec<bool> = (received.at..end).map(|n| (self.line[n / 8] >> (n % 8)) & 1 == 1).collect();
        put_carried(&mut words, &carried);
        words[SKIP] = (received.at > end) as u64;
        self.put_last(&mut words, received);
        words[TESTED] = received.blocks.len() as u64;
        words[SLIPS] = received.slips;
        words[REASONS..REASONS + 4].copy_from_slice(&received.faults());
        words
    }

    /// The last block, held until the closing call, and the diagram's state before it, which the closing call leaves.
    fn put_last(&self, words: &mut Words, received: &Received) {
        let before = received.states.iter().rev().nth(1);
        words[DIAGRAM] = before.copied().unwrap_or(State::Init) as u64;
        if let Some(last) = received.blocks.last().filter(|_| !self.closed) {
            let kind = kind(self.edition, last);
            // a block of kind E decoded by itself is the error vector
            let vector = if kind == Kind::E { ERROR } else { decode(self.edition, last) };
            put_held(words, received.lock.locked && !received.rate.high, kind, &vector);
        }
    }
}
