//! Random numbers that a seed fixes (splitmix64).

pub struct Random {
    state: u64,
}

impl Random {
    pub fn new(seed: u64) -> Random {
        Random { state: seed }
    }

    /// 64 random bits.
    pub fn word(&mut self) -> u64 {
        self.state = self.state.wrapping_add(0x9e37_79b9_7f4a_7c15);
        let mut x = self.state;
        x = (x ^ (x >> 30)).wrapping_mul(0xbf58_476d_1ce4_e5b9);
        x = (x ^ (x >> 27)).wrapping_mul(0x94d0_49bb_1331_11eb);
        x ^ (x >> 31)
    }

    /// A number below `n`.
    pub fn below(&mut self, n: usize) -> usize {
        (self.word() % n as u64) as usize
    }

    /// True once in `n` times.
    pub fn once_in(&mut self, n: usize) -> bool {
        self.below(n) == 0
    }

    pub fn byte(&mut self) -> u8 {
        self.word() as u8
    }

    pub fn bytes(&mut self, n: usize) -> Vec<u8> {
        (0..n).map(|_| self.byte()).collect()
    }

    pub fn pick<A: Copy>(&mut self, from: &[A]) -> A {
        from[self.below(from.len())]
    }

    /// A start state, the two ends of the range among them.
    pub fn start_state(&mut self) -> u64 {
        match self.below(8) {
            0 => 0,
            1 => (1 << 58) - 1,
            _ => self.word() >> 6,
        }
    }

    /// A field of counters: anything, or so near the top that a call may take it there.
    fn counter(&mut self) -> u32 {
        match self.below(4) {
            0 => 0,
            1 => self.word() as u32,
            _ => u32::MAX - (self.word() as u32 >> (14 + self.below(18))),
        }
    }

    /// The content of lent counters of any length.
    pub fn counters(&mut self, bytes: usize) -> Vec<u8> {
        (0..bytes.div_ceil(4)).flat_map(|_| self.counter().to_le_bytes()).take(bytes).collect()
    }
}
