//! Receiving a line.
use super::block::{decode, kind, Block, Kind};
use super::counters::{Counters, COUNTERS_BYTES, FIELDS};
use super::diagrams::{receive as step, ErrorRate, Lock, State};
use super::edition::Edition;
use super::fault::{fault, Fault, FAULTS};
use super::scrambler::Scrambler;
use super::vector::{Vector, ERROR, LOCAL_FAULT};
use super::{refused, Refusal};

pub const MOST_LINE_BYTES: usize = 825_000;
pub const SUMMARY_BYTES: usize = 96;

pub struct Received {
    pub edition: Edition,
    /// The tested blocks, descrambled.
    pub blocks: Vec<Block>,
    /// The receive diagram's state at each of them that is answered.
    pub states: Vec<State>,
    pub vectors: Vec<u8>,
    pub slips: u64,
    pub lock: Lock,
    pub rate: ErrorRate,
    pub scrambler: Scrambler,
    /// The line bit with which the next block begins: behind the last tested one, and behind the bit that its slip skips.
    pub at: usize,
}

impl Received {
    /// "Receiving counts the four reasons over all blocks tested."
    pub fn faults(&self) -> [u64; 4] {
        let found: Vec<Fault> = self.blocks.iter().filter_map(|block| fault(self.edition, block)).collect();
        FAULTS.map(|reason| found.iter().filter(|fault| **fault == reason).count() as u64)
    }

    /// "The last vector was judged without its successor, set exactly when it is an accepted Terminate": a block of kind T that is
    /// answered as it is decoded.
    pub fn alone(&self) -> bool {
        let accepted =
            |last| kind(self.edition, last) == Kind::T && self.vectors.ends_with(&decode(self.edition, last));
        self.states.len() == self.blocks.len() && self.blocks.last().is_some_and(accepted)
    }

    /// "Begun means a block of kind S answered as decoded".
    pub fn begun(&self) -> u64 {
        let decoded = |state: &State| *state != State::Init && *state != State::E;
        let begun = |(block, state): &(&Block, &State)| kind(self.edition, block) == Kind::S && decoded(state);
        self.blocks.iter().zip(&self.states).filter(begun).count() as u64
    }

    /// "Replaced means answered as the error vector."
    pub fn replaced(&self) -> u64 {
        self.states.iter().filter(|state| **state == State::E).count() as u64
    }

    /// What the counters count: "tested, slips, the four reasons, frames begun, vectors replaced".
    pub fn counted(&self) -> [u64; FIELDS] {
        let [header, type_byte, control_code, set_code] = self.faults();
        let tested = self.blocks.len() as u64;
        [tested, self.slips, header, type_byte, control_code, set_code, self.begun(), self.replaced()]
    }

    /// The summary as it crosses the C boundary; word 4 is the number of vectors.
    pub fn summary(&self) -> Vec<u8> {
        let (tested, vectors) = (self.blocks.len() as u64, self.vectors.len() as u64 / 10);
        let first = [tested, self.slips, self.lock.locked as u64, self.rate.high as u64, vectors];
        let last = [self.alone() as u64, self.begun(), self.replaced()];
        first.into_iter().chain(self.faults()).chain(last).flat_map(u64::to_le_bytes).collect()
    }
}

/// What receiving answers, given the lengths of the lent vectors and of the lent summary. "A counters record is lent to each call and
/// updated in place".
pub fn receive(
    edition: u64,
    line: &[u8],
    room: usize,
    summary_room: usize,
    counters: &mut [u8],
) -> Result<Received, Refusal> {
    // "checked before all others"
    let edition = Edition::numbered(edition)?;
    if line.len() > MOST_LINE_BYTES {
        return refused(1);
    }
    if room < 10 * (8 * line.len() / 66) || summary_room < SUMMARY_BYTES {
        return refused(4);
    }
    // "A state or record that a later request passes through C is a lent slice too; one too short is refusal 4"
    let Some(record) = counters.first_chunk_mut::<COUNTERS_BYTES>() else {
        return refused(4);
    };
    let received = receive_all(edition, line);
    let mut total = Counters::of_bytes(record);
    total.add(received.counted());
    *record = total.bytes();
    Ok(received)
}

/// A tested block, descrambled, and whether testing it left the receiver locked and not high.
pub struct Tested {
    pub block: Block,
    pub up: bool,
}

impl Tested {
    /// "The next block counts as E if testing it leaves the receiver not locked or high".
    pub fn counts_as(&self, edition: Edition) -> Kind {
        if self.up {
            kind(edition, &self.block)
        } else {
            Kind::E
        }
    }
}

/// A line that is not refused, from a fresh receiver.
pub fn receive_all(edition: Edition, line: &[u8]) -> Received {
    let mut lock = Lock::default();
    let mut rate = ErrorRate::default();
    let mut scrambler = Scrambler { state: 0 };
    let mut tested = Vec::new();
    let mut slips = 0;
    let mut at = 0;
    // "Bits that do not fill a block are not tested."
    while at + 66 <= 8 * line.len() {
        let mut block = block_at(line, at);
        at += 66;
        let locked_before = lock.locked;
        if lock.test(block.header) {
            slips += 1;
            at += 1;
        }
        rate.count(locked_before, lock.locked, block.header[0] == block.header[1]);
        block.payload = scrambler.descramble(&block.payload);
        tested.push(Tested { block, up: lock.locked && !rate.high });
    }
    let states = states(edition, &tested);
    let blocks: Vec<Block> = tested.into_iter().map(|tested| tested.block).collect();
    let vectors = states.iter().zip(&blocks).flat_map(|(state, block)| answer(edition, *state, block)).collect();
    Received { edition, blocks, states, vectors, slips, lock, rate, scrambler, at }
}

fn block_at(line: &[u8], at: usize) -> Block {
    let bit = |n: usize| (line[n / 8] >> (n % 8)) & 1 == 1;
    Block { header: std::array::from_fn(|i| bit(at + i)), payload: std::array::from_fn(|i| bit(at + 2 + i)) }
}

/// One state for each tested block.
fn states(edition: Edition, tested: &[Tested]) -> Vec<State> {
    let mut state = State::Init;
    let mut states = Vec::new();
    for (n, now) in tested.iter().enumerate() {
        // request 6/13: "A missing next block now counts as C"
        let next = tested.get(n + 1).map_or(Kind::C, |next| next.counts_as(edition));
        // "Not locked or high: state INIT"
        state = if now.up { step(state, kind(edition, &now.block), next) } else { State::Init };
        states.push(state);
    }
    states
}

/// "State E answers the error vector, the others the decoded block", and INIT the Local Fault vector.
fn answer(edition: Edition, state: State, block: &Block) -> Vector {
    match state {
        State::Init => LOCAL_FAULT,
        State::E => ERROR,
        _ => decode(edition, block),
    }
}
