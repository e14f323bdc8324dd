//! Request 9/13: "Sender and receiver take an edition, old or new."
use super::{refused, Refusal};

/// The edition of Clause 49, by its number.
#[derive(Clone, Copy, PartialEq, Eq, Debug)]
pub enum Edition {
    Old = 0,
    New = 1,
}

pub const EDITIONS: [Edition; 2] = [Edition::Old, Edition::New];

impl Edition {
    /// "Refusals: 13, edition unknown".
    pub fn numbered(number: u64) -> Result<Edition, Refusal> {
        let known = EDITIONS.into_iter().find(|edition| *edition as u64 == number);
        known.map_or(refused(13), Ok)
    }
}
