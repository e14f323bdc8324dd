//! The second program: document 01 and the requests of document 02, bit by bit. It was written from the documents alone, to be
//! obvious and not to be fast, and shares nothing with the library. Comments in quotes are the documents' sentences.
pub mod block;
pub mod counters;
pub mod diagrams;
pub mod edition;
pub mod fault;
pub mod frames;
pub mod index;
pub mod kept;
pub mod receiving;
pub mod records;
pub mod resumed;
pub mod scrambler;
pub mod sending;
pub mod state;
pub mod vector;

/// A refusal: its number and its place.
#[derive(Clone, Copy, PartialEq, Eq, Debug)]
pub struct Refusal {
    pub number: u64,
    pub place: usize,
}

/// A refusal at place 0.
pub fn refused<A>(number: u64) -> Result<A, Refusal> {
    Err(Refusal { number, place: 0 })
}
