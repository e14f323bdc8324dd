//! Request 2/13: "Its state handed back and given again": 29 numbers of 64 bits, where each stands, and which of them are refused.
use super::block::{kinds, Kind};
use super::diagrams::State;
use super::edition::Edition;
use super::vector::Vector;

pub const WORDS: usize = 29;
pub const STATE_BYTES: usize = 8 * WORDS;
pub type Words = [u64; WORDS];

pub const CLOSED: usize = 0;
pub const LINE_BYTES: usize = 1;
pub const LOCK_TESTED: usize = 2;
pub const LOCK_INVALID: usize = 3;
pub const LOCKED: usize = 4;
pub const WINDOW_BLOCKS: usize = 5;
pub const WINDOW_INVALID: usize = 6;
pub const HIGH: usize = 7;
/// The last 58 payload bits of the line, the oldest lowest.
pub const SCRAMBLER: usize = 8;
/// How many bits of the line belong to no tested block yet; the first two of them; the others.
pub const CARRIED: usize = 9;
pub const CARRIED_HEADER: usize = 10;
pub const CARRIED_PAYLOAD: usize = 11;
/// Is the next line bit the one that a slip skips?
pub const SKIP: usize = 12;
/// The receive diagram's state at the last vector that was handed out.
pub const DIAGRAM: usize = 13;
/// Is there a tested block whose vector was not handed out yet? Did testing it leave the receiver locked and not high? Its kind, and the
/// two words of its decoded vector.
pub const HELD: usize = 14;
pub const HELD_UP: usize = 15;
pub const HELD_KIND: usize = 16;
pub const HELD_FIRST: usize = 17;
pub const HELD_SECOND: usize = 18;
/// The counts of the summary.
pub const TESTED: usize = 19;
pub const SLIPS: usize = 20;
pub const VECTORS: usize = 21;
pub const REASONS: usize = 22;
pub const BEGUN: usize = 26;
pub const REPLACED: usize = 27;
pub const EDITION: usize = 28;

/// "The edition is chosen with the fresh state and kept in it." All else is none.
pub fn fresh(edition: Edition) -> Words {
    let mut words = [0; WORDS];
    words[EDITION] = edition as u64;
    words
}

pub fn of_bytes(bytes: &[u8; STATE_BYTES]) -> Words {
    std::array::from_fn(|i| u64::from_le_bytes(std::array::from_fn(|k| bytes[8 * i + k])))
}

pub fn bytes(words: &Words) -> [u8; STATE_BYTES] {
    std::array::from_fn(|i| words[i / 8].to_le_bytes()[i % 8])
}

const STATES: [State; 6] = [State::Init, State::C, State::D, State::T, State::E, State::LI];

/// The diagram's state by its number, where the edition has it.
pub fn diagram(edition: Edition, number: u64) -> Option<State> {
    let known = match edition {
        Edition::Old => &STATES[..5],
        Edition::New => &STATES,
    };
    known.iter().copied().find(|state| *state as u64 == number)
}

/// A kind by its number: D, C, S, T, E and LI are 0 to 5. One that the edition does not have is E.
pub fn kind_of(edition: Edition, number: u64) -> Kind {
    kinds(edition).iter().copied().find(|kind| *kind as u64 == number).unwrap_or(Kind::E)
}

/// The 58 bits of a scrambler's state in the other order: the newest lowest, or the oldest.
pub fn turned(state: u64) -> u64 {
    (0..58).map(|i| ((state >> i) & 1) << (57 - i)).sum()
}

/// The carried bits that the words tell. Those at or above their number are none, and so are all but two of the first word's.
pub fn carried(words: &Words) -> Vec<bool> {
    let bit = |i: u64| match i {
        0 | 1 => words[CARRIED_HEADER] >> i,
        _ => words[CARRIED_PAYLOAD] >> (i - 2),
    };
    (0..words[CARRIED]).map(|i| bit(i) & 1 == 1).collect()
}

pub fn put_carried(words: &mut Words, bits: &[bool]) {
    let number = |bits: &[bool]| bits.iter().enumerate().map(|(i, bit)| (*bit as u64) << i).sum();
    let (header, payload) = bits.split_at(bits.len().min(2));
    words[CARRIED] = bits.len() as u64;
    words[CARRIED_HEADER] = number(header);
    words[CARRIED_PAYLOAD] = number(payload);
}

/// A vector is two words of five bytes, the control byte lowest. Bits above them are none.
pub fn vector_of(words: &Words) -> Vector {
    std::array::from_fn(|i| words[if i < 5 { HELD_FIRST } else { HELD_SECOND }].to_le_bytes()[i % 5])
}

pub fn put_held(words: &mut Words, up: bool, kind: Kind, vector: &Vector) {
    let number = |bytes: &[u8]| bytes.iter().rev().fold(0, |number, byte| number << 8 | *byte as u64);
    words[HELD] = 1;
    words[HELD_UP] = up as u64;
    words[HELD_KIND] = kind as u64;
    words[HELD_FIRST] = number(&vector[..5]);
    words[HELD_SECOND] = number(&vector[5..]);
}

/// Refusal 10: "A handed-in state with [..]", and "given for nothing else".
pub fn is_refused(edition: Edition, words: &Words) -> bool {
    let above = |word: usize, most: u64| words[word] > most;
    // "a lock count above 63 tested or 15 invalid, a window count above 19,530, line bytes above 825,000"
    let counts = above(LOCK_TESTED, 63)
        || above(LOCK_INVALID, 15)
        || above(WINDOW_BLOCKS, 19_530)
        || above(WINDOW_INVALID, 19_530)
        || above(LINE_BYTES, 825_000);
    // "a summary count above 100,000"
    let summary = (TESTED..=REPLACED).any(|word| above(word, 100_000));
    // "more invalid than tested in the lock counts or in the window"
    let more = words[LOCK_INVALID] > words[LOCK_TESTED] || words[WINDOW_INVALID] > words[WINDOW_BLOCKS];
    // "either of these invalid counts above zero or `high` while not locked"
    let unlocked = words[LOCKED] == 0 && [LOCK_INVALID, WINDOW_INVALID, HIGH].iter().any(|word| words[*word] != 0);
    // "scrambler bits at or above 2^58, over 65 carried bits, or an unknown diagram state"
    let rest = words[SCRAMBLER] >= 1 << 58 || above(CARRIED, 65) || diagram(edition, words[DIAGRAM]).is_none();
    counts || summary || more || unlocked || rest
}
