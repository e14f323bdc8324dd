//! "Scrambler": only payload bits.

/// The 58 payload bits of the line that came before. "Bit i of the 58-bit start state stands for the payload bit i+1 places before
/// the first."
#[derive(Clone, Copy)]
pub struct Scrambler {
    pub state: u64,
}

impl Scrambler {
    /// The line's payload bit `places` before the next one.
    fn before(&self, places: u32) -> bool {
        (self.state >> (places - 1)) & 1 == 1
    }

    fn passed(&mut self, line_bit: bool) {
        self.state = ((self.state << 1) | line_bit as u64) & ((1 << 58) - 1);
    }

    /// "Sent bit n = input bit n xor sent bit n-39 xor sent bit n-58".
    pub fn scramble(&mut self, payload: &[bool; 64]) -> [bool; 64] {
        payload.map(|input| {
            let sent = input ^ self.before(39) ^ self.before(58);
            self.passed(sent);
            sent
        })
    }

    /// "Received input bit n = line bit n xor line bits n-39 and n-58".
    pub fn descramble(&mut self, payload: &[bool; 64]) -> [bool; 64] {
        payload.map(|line| {
            let input = line ^ self.before(39) ^ self.before(58);
            self.passed(line);
            input
        })
    }
}
