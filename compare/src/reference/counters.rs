//! Request 3/13: "One record of counters for the firmware."
/// "Tested, slips, the four reasons, frames begun, vectors replaced."
pub const FIELDS: usize = 8;
pub const COUNTERS_BYTES: usize = 4 * FIELDS;

#[derive(Clone, Copy, PartialEq, Eq, Debug)]
pub struct Counters(pub [u32; FIELDS]);

/// "Stays at 4,294,967,295".
pub const TOP: u32 = 4_294_967_295;

impl Counters {
    /// "Each field becomes its old number plus what this receiving call added, and stays at 4,294,967,295 once it would pass that."
    pub fn add(&mut self, added: [u64; FIELDS]) {
        for (field, added) in self.0.iter_mut().zip(added) {
            *field = (*field as u64 + added).min(TOP as u64) as u32;
        }
    }

    /// The record as it crosses the C boundary.
    pub fn of_bytes(bytes: &[u8; COUNTERS_BYTES]) -> Counters {
        Counters(std::array::from_fn(|i| u32::from_le_bytes(std::array::from_fn(|k| bytes[4 * i + k]))))
    }

    pub fn bytes(&self) -> [u8; COUNTERS_BYTES] {
        std::array::from_fn(|i| self.0[i / 4].to_le_bytes()[i % 4])
    }
}
