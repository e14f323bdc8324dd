//! Sending a list of vectors.
use super::block::{encode, error_block, kind_of_vector, Block};
use super::diagrams::{transmit, State};
use super::edition::Edition;
use super::scrambler::Scrambler;
use super::vector::Vector;
use super::{refused, Refusal};

pub const MOST_VECTOR_BYTES: usize = 1_000_000;
pub const SUMMARY_BYTES: usize = 24;

pub struct Sent {
    pub line: Vec<u8>,
    pub state: u64,
    pub diagram: State,
    pub replaced: u64,
}

impl Sent {
    /// The summary as it crosses the C boundary.
    pub fn summary(&self) -> Vec<u8> {
        [self.state, self.diagram as u64, self.replaced].iter().flat_map(|word| word.to_le_bytes()).collect()
    }
}

/// What sending answers, given the lengths of the lent line and of the lent summary.
pub fn send(edition: u64, vectors: &[u8], start: u64, room: usize, summary_room: usize) -> Result<Sent, Refusal> {
    // "checked before all others"
    let edition = Edition::numbered(edition)?;
    judge_length(vectors)?;
    if start >= 1 << 58 {
        return refused(3);
    }
    if room < vectors.len() / 40 * 33 || summary_room < SUMMARY_BYTES {
        return refused(4);
    }
    judge_control_bytes(vectors)?;
    Ok(send_all(edition, vectors, start))
}

/// 1, "more than 1,000,000 vector bytes", then 2, "vector bytes not a multiple of 40".
pub fn judge_length(vectors: &[u8]) -> Result<(), Refusal> {
    if vectors.len() > MOST_VECTOR_BYTES {
        return refused(1);
    }
    if vectors.len() % 40 != 0 {
        return refused(2);
    }
    Ok(())
}

/// 5, "a control byte above 15", with the "byte offset of the first".
pub fn judge_control_bytes(vectors: &[u8]) -> Result<(), Refusal> {
    match (0..vectors.len()).step_by(5).find(|place| vectors[*place] > 15) {
        Some(place) => Err(Refusal { number: 5, place }),
        None => Ok(()),
    }
}

fn send_all(edition: Edition, vectors: &[u8], start: u64) -> Sent {
    let mut scrambler = Scrambler { state: start };
    let mut diagram = State::Init;
    let mut replaced = 0;
    let mut bits = Vec::new();
    for vector in vectors.chunks(10) {
        let block;
        (diagram, block) = next_block(edition, diagram, vector.try_into().unwrap());
        if diagram == State::E {
            replaced += 1;
        }
        bits.extend(block.header);
        bits.extend(scrambler.scramble(&block.payload));
    }
    Sent { line: bytes(&bits), state: scrambler.state, diagram, replaced }
}

/// "In state E the sent block is type 1e with eight codes 1e, else the vector's own."
pub fn next_block(edition: Edition, diagram: State, vector: &Vector) -> (State, Block) {
    match transmit(diagram, kind_of_vector(edition, vector)) {
        State::E => (State::E, error_block(edition)),
        state => (state, encode(edition, vector).unwrap()),
    }
}

/// "Line bit n is bit n mod 8, least significant first, of line byte n/8."
pub fn bytes(bits: &[bool]) -> Vec<u8> {
    let mut bytes = vec![0; bits.len().div_ceil(8)];
    for (n, bit) in bits.iter().enumerate() {
        bytes[n / 8] |= (*bit as u8) << (n % 8);
    }
    bytes
}
