//! Lines for receiving, as bits: made of blocks, and damaged.
use crate::lists;
use crate::random::Random;
use crate::reference::block::{encode, kinds, Block, Kind, CONTROL, DATA};
use crate::reference::diagrams::State;
use crate::reference::edition::Edition;
use crate::reference::scrambler::Scrambler;
use crate::reference::sending::{bytes, next_block};
use crate::reference::vector::Vector;

pub struct Line {
    pub bits: Vec<bool>,
}

impl Line {
    /// The scrambled blocks.
    pub fn of_blocks(blocks: &[Block], start: u64) -> Line {
        let mut scrambler = Scrambler { state: start };
        let mut bits = Vec::with_capacity(66 * blocks.len());
        for block in blocks {
            bits.extend(block.header);
            bits.extend(scrambler.scramble(&block.payload));
        }
        Line { bits }
    }

    /// The line of a list that a sender accepts.
    pub fn of_list(edition: Edition, vectors: &[u8], start: u64) -> Line {
        Line::of_blocks(&blocks_of(edition, vectors), start)
    }

    pub fn bytes(&self) -> Vec<u8> {
        bytes(&self.bits)
    }

    pub fn flip(&mut self, bit: usize) {
        self.bits[bit] = !self.bits[bit];
    }

    /// Flips `count` bits anywhere from bit `from` on.
    pub fn flip_some(&mut self, count: usize, from: usize, random: &mut Random) {
        for _ in 0..count {
            self.flip(from + random.below(self.bits.len() - from));
        }
    }

    /// Makes the header of a block invalid.
    pub fn spoil_header(&mut self, block: usize) {
        self.bits[66 * block] = self.bits[66 * block + 1];
    }

    /// Random bits in place of the line's own.
    pub fn burst(&mut self, from: usize, count: usize, random: &mut Random) {
        for bit in self.bits.iter_mut().skip(from).take(count) {
            *bit = random.word() & 1 == 1;
        }
    }

    /// Takes bits out of the line.
    pub fn cut(&mut self, from: usize, count: usize) {
        self.bits.drain(from..from + count);
    }

    /// Puts random bits into the line.
    pub fn stretch(&mut self, from: usize, count: usize, random: &mut Random) {
        let more: Vec<bool> = (0..count).map(|_| random.word() & 1 == 1).collect();
        self.bits.splice(from..from, more);
    }
}

/// Flips bits of a line that is bytes.
pub fn flip(line: &mut [u8], bits: &[usize]) {
    bits.iter().for_each(|bit| line[bit / 8] ^= 1 << (bit % 8));
}

/// The blocks that a sender sends, before scrambling.
pub fn blocks_of(edition: Edition, vectors: &[u8]) -> Vec<Block> {
    let mut diagram = State::Init;
    vectors
        .chunks(10)
        .map(|vector| {
            let block;
            (diagram, block) = next_block(edition, diagram, vector.try_into().unwrap());
            block
        })
        .collect()
}

/// The block of a vector that the new edition carries. Where the old one carries it too, it is by the same block.
pub fn carrying(vector: &Vector) -> Block {
    encode(Edition::New, vector).unwrap()
}

/// A block of eight idles.
pub fn idle() -> Block {
    carrying(&lists::idle())
}

/// A block of eight low power idles.
pub fn low_power() -> Block {
    carrying(&lists::low_power())
}

/// A block of a Start and seven data octets.
pub fn start() -> Block {
    carrying(&lists::start())
}

/// A block of a Terminate and seven idles.
pub fn end() -> Block {
    carrying(&lists::end())
}

/// A block with an invalid header.
pub fn invalid() -> Block {
    block([true, true], 0x1e)
}

/// Blocks that give lock and set high: 15 invalid headers in 64 keep lock, and one more is the 16th of the window.
pub fn until_high() -> Vec<Block> {
    [vec![idle(); 64], vec![invalid(); 15], vec![idle(); 49], vec![invalid()]].concat()
}

/// A block with a header and a payload, bit 0 lowest.
pub fn block(header: [bool; 2], payload: u64) -> Block {
    Block { header, payload: std::array::from_fn(|i| (payload >> i) & 1 == 1) }
}

/// Random data blocks: any bit but a header's is a fair coin.
pub fn data(random: &mut Random) -> Block {
    block(DATA, random.word())
}

/// A control block with any payload.
pub fn control(random: &mut Random) -> Block {
    block(CONTROL, random.word())
}

/// A block of any kind; of kind E it is any control block.
pub fn of_any_kind(edition: Edition, random: &mut Random) -> Block {
    match random.pick(kinds(edition)) {
        Kind::E => control(random),
        kind => carrying(&lists::of_kind(edition, kind, random)),
    }
}

/// A line that is damaged in many ways, cut at a wrong place, or nothing but noise.
pub fn damaged(edition: Edition, random: &mut Random) -> Vec<u8> {
    if random.once_in(4) {
        let bytes = random.below(1_000);
        return random.bytes(bytes);
    }
    let vectors = lists::list_after_lock(edition, 64 + random.below(100), 50, random);
    let mut line = Line::of_list(edition, &vectors, random.start_state());
    line.flip_some(random.below(20), 0, random);
    let from = random.below(line.bits.len() - 200);
    match random.below(3) {
        0 => line.burst(from, 200, random),
        1 => line.cut(from, random.below(66)),
        _ => line.stretch(from, random.below(66), random),
    }
    line.bytes()
}
