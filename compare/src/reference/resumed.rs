//! Request 2/13: a burst and the closing call by a receiver that goes on from the numbers of a state, whoever wrote them.
use super::block::{decode, kind, Block, Kind};
use super::counters::{Counters, COUNTERS_BYTES};
use super::diagrams::{receive as step, ErrorRate, Lock, State};
use super::edition::Edition;
use super::fault::{fault, FAULTS};
use super::receiving::{Tested, MOST_LINE_BYTES, SUMMARY_BYTES};
use super::scrambler::Scrambler;
use super::state::*;
use super::vector::{Vector, ERROR, LOCAL_FAULT};
use super::{refused, Refusal};

/// What is lent to a call. State and counters are read and written; of vectors and summary the lengths matter.
pub struct Lent<'a> {
    pub state: &'a mut [u8],
    pub room: usize,
    pub summary_room: usize,
    pub counters: &'a mut [u8],
}

/// What an accepted call hands out.
pub struct Answer {
    pub vectors: Vec<u8>,
    pub summary: Vec<u8>,
}

/// A fresh state.
pub fn begin(edition: u64, state: &mut [u8]) -> Result<(), Refusal> {
    let edition = Edition::numbered(edition)?;
    let Some(state) = state.first_chunk_mut::<STATE_BYTES>() else {
        return refused(4);
    };
    *state = bytes(&fresh(edition));
    Ok(())
}

/// "Room below 10 x (floor(carried and new bits / 66) + 1)" is refused.
pub fn wanted(carried: u64, new_bytes: usize) -> usize {
    10 * ((carried as usize + 8 * new_bytes) / 66 + 1)
}

/// The next bytes of the line.
pub fn burst(lent: Lent, line: &[u8]) -> Result<Answer, Refusal> {
    let (edition, before) = judged(&lent, line.len())?;
    let mut receiver = Receiver::of_words(edition, &before);
    for n in 0..8 * line.len() {
        receiver.take((line[n / 8] >> (n % 8)) & 1 == 1);
    }
    let mut after = receiver.words();
    after[LINE_BYTES] = before[LINE_BYTES] + line.len() as u64;
    // a burst is no end of the input, an empty one neither, so that no vector is judged without its successor
    Ok(written(lent, receiver.vectors, &before, &after, false))
}

/// "A closing call for the last vector". All but that vector, its counts and the two flags stays.
pub fn close(lent: Lent) -> Result<Answer, Refusal> {
    let (edition, before) = judged(&lent, 0)?;
    let mut receiver = Receiver::of_words(edition, &before);
    let had_one = receiver.held.is_some();
    // request 6/13: "A missing next block now counts as C"
    receiver.hand_out(Kind::C);
    let mut after = before;
    [LOCKED, HIGH, SKIP].into_iter().for_each(|flag| after[flag] = (before[flag] != 0) as u64);
    after[CLOSED] = 1;
    after[HELD..=HELD_SECOND].fill(0);
    [VECTORS, BEGUN, REPLACED].into_iter().for_each(|count| after[count] = receiver.counts[count]);
    let alone = had_one && receiver.diagram == State::T;
    Ok(written(lent, receiver.vectors, &before, &after, alone))
}

/// "9 [..] checked first; 10, checked next [..]; then 1 and 4". A state too short is 4 "before any check that reads it", and an unknown
/// edition is 13 "before all others, 9 included".
fn judged(lent: &Lent, new_bytes: usize) -> Result<(Edition, Words), Refusal> {
    let Some(state) = lent.state.first_chunk::<STATE_BYTES>() else {
        return refused(4);
    };
    let words = of_bytes(state);
    let edition = Edition::numbered(words[EDITION])?;
    if words[CLOSED] != 0 {
        return refused(9);
    }
    if is_refused(edition, &words) {
        return refused(10);
    }
    // "the length limit applies to the sum"
    if words[LINE_BYTES] as usize + new_bytes > MOST_LINE_BYTES {
        return refused(1);
    }
    let short = lent.summary_room < SUMMARY_BYTES || lent.counters.len() < COUNTERS_BYTES;
    if short || lent.room < wanted(words[CARRIED], new_bytes) {
        return refused(4);
    }
    Ok((edition, words))
}

/// Writes state and counters: "each field becomes its old number plus what this receiving call added". The summary is of the line so far.
fn written(lent: Lent, vectors: Vec<u8>, before: &Words, after: &Words, alone: bool) -> Answer {
    let counted = [TESTED, SLIPS, REASONS, REASONS + 1, REASONS + 2, REASONS + 3, BEGUN, REPLACED];
    let record = lent.counters.first_chunk_mut::<COUNTERS_BYTES>().unwrap();
    let mut total = Counters::of_bytes(record);
    total.add(counted.map(|word| after[word] - before[word]));
    *record = total.bytes();
    lent.state[..STATE_BYTES].copy_from_slice(&bytes(after));
    let first = [TESTED, SLIPS, LOCKED, HIGH, VECTORS, REASONS, REASONS + 1, REASONS + 2, REASONS + 3];
    let summary = first.map(|word| after[word]).into_iter().chain([alone as u64, after[BEGUN], after[REPLACED]]);
    Answer { vectors, summary: summary.flat_map(u64::to_le_bytes).collect() }
}

/// A tested block that waits for the one after it.
struct Held {
    up: bool,
    kind: Kind,
    vector: Vector,
}

struct Receiver {
    edition: Edition,
    lock: Lock,
    rate: ErrorRate,
    scrambler: Scrambler,
    carried: Vec<bool>,
    skip: bool,
    diagram: State,
    held: Option<Held>,
    /// The counts of the summary, each at its place in a state.
    counts: Words,
    /// What this call hands out.
    vectors: Vec<u8>,
}

impl Receiver {
    /// An accepted state's meaning, whatever its numbers: a flag is a yes for any number but 0.
    fn of_words(edition: Edition, words: &Words) -> Receiver {
        let flag = |word: usize| words[word] != 0;
        let count = |word: usize| words[word] as u32;
        let held = Held { up: flag(HELD_UP), kind: kind_of(edition, words[HELD_KIND]), vector: vector_of(words) };
        Receiver {
            edition,
            lock: Lock { tested: count(LOCK_TESTED), invalid: count(LOCK_INVALID), locked: flag(LOCKED) },
            rate: ErrorRate { blocks: count(WINDOW_BLOCKS), invalid: count(WINDOW_INVALID), high: flag(HIGH) },
            scrambler: Scrambler { state: turned(words[SCRAMBLER]) },
            carried: carried(words),
            skip: flag(SKIP),
            diagram: diagram(edition, words[DIAGRAM]).unwrap(),
            held: flag(HELD).then_some(held),
            counts: *words,
            vectors: Vec::new(),
        }
    }

    /// The state that is handed back, but for the line bytes.
    fn words(&self) -> Words {
        let mut words = fresh(self.edition);
        words[LOCK_TESTED] = self.lock.tested as u64;
        words[LOCK_INVALID] = self.lock.invalid as u64;
        words[LOCKED] = self.lock.locked as u64;
        words[WINDOW_BLOCKS] = self.rate.blocks as u64;
        words[WINDOW_INVALID] = self.rate.invalid as u64;
        words[HIGH] = self.rate.high as u64;
        words[SCRAMBLER] = turned(self.scrambler.state);
        put_carried(&mut words, &self.carried);
        words[SKIP] = self.skip as u64;
        words[DIAGRAM] = self.diagram as u64;
        if let Some(held) = &self.held {
            put_held(&mut words, held.up, held.kind, &held.vector);
        }
        words[TESTED..=REPLACED].copy_from_slice(&self.counts[TESTED..=REPLACED]);
        words
    }

    /// One line bit. Behind a skipped bit a block begins, so that bits which a foreign state carries beside it go with it.
    fn take(&mut self, bit: bool) {
        if self.skip {
            self.skip = false;
            self.carried.clear();
            return;
        }
        self.carried.push(bit);
        if self.carried.len() == 66 {
            let bits = std::mem::take(&mut self.carried);
            let (header, payload) = bits.split_at(2);
            self.test(Block { header: header.try_into().unwrap(), payload: payload.try_into().unwrap() });
        }
    }

    /// "Each tested block updates lock, then error rate, then receive state": that of the block before it, for which it is the next one.
    fn test(&mut self, mut block: Block) {
        let locked_before = self.lock.locked;
        self.skip = self.lock.test(block.header);
        self.rate.count(locked_before, self.lock.locked, block.header[0] == block.header[1]);
        block.payload = self.scrambler.descramble(&block.payload);
        self.counts[TESTED] += 1;
        self.counts[SLIPS] += self.skip as u64;
        let reason = fault(self.edition, &block);
        for (i, fault) in FAULTS.into_iter().enumerate() {
            self.counts[REASONS + i] += (reason == Some(fault)) as u64;
        }
        let tested = Tested { block, up: self.lock.locked && !self.rate.high };
        self.hand_out(tested.counts_as(self.edition));
        self.hold(&tested);
    }

    fn hold(&mut self, tested: &Tested) {
        let kind = kind(self.edition, &tested.block);
        // a block of kind E decoded by itself is the error vector
        let vector = if kind == Kind::E { ERROR } else { decode(self.edition, &tested.block) };
        self.held = Some(Held { up: tested.up, kind, vector });
    }

    /// Answers the held block, if there is one, by what the next one counts as.
    fn hand_out(&mut self, next: Kind) {
        let Some(held) = self.held.take() else {
            return;
        };
        // "Not locked or high: state INIT, answer the Local Fault vector."
        self.diagram = if held.up { step(self.diagram, held.kind, next) } else { State::Init };
        let answer = match self.diagram {
            State::Init => LOCAL_FAULT,
            State::E => ERROR,
            _ => held.vector,
        };
        let decoded = !matches!(self.diagram, State::Init | State::E);
        self.counts[VECTORS] += 1;
        self.counts[BEGUN] += (held.kind == Kind::S && decoded) as u64;
        self.counts[REPLACED] += (self.diagram == State::E) as u64;
        self.vectors.extend(answer);
    }
}
