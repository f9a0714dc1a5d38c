//! Numbers that look random and are the same for the same seed (splitmix64).

pub struct Rng {
    state: u64,
    /// What the fixed list has had so far stays in it: filters keep all the counts that are drawn for them, no message of a
    /// trace is made to overrun, and the states of a trace are those of a walk without overruns.
    pub is_listing: bool,
}

impl Rng {
    pub fn new(seed: u64) -> Rng {
        Rng { state: seed, is_listing: false }
    }

    pub fn listing(self) -> Rng {
        Rng { is_listing: true, ..self }
    }

    // an iterator's would have an end
    #[allow(clippy::should_implement_trait)]
    pub fn next(&mut self) -> u64 {
        self.state = self.state.wrapping_add(0x9e37_79b9_7f4a_7c15);
        let mut z = self.state;
        z = (z ^ z >> 30).wrapping_mul(0xbf58_476d_1ce4_e5b9);
        z = (z ^ z >> 27).wrapping_mul(0x94d0_49bb_1331_11eb);
        z ^ z >> 31
    }

    /// A number below `limit`.
    pub fn below(&mut self, limit: usize) -> usize {
        (self.next() >> 16) as usize % limit
    }

    /// A number from `low` to `high`, both included.
    pub fn between(&mut self, low: usize, high: usize) -> usize {
        low + self.below(high - low + 1)
    }

    pub fn one_in(&mut self, n: usize) -> bool {
        self.below(n) == 0
    }

    pub fn byte(&mut self) -> u8 {
        (self.next() >> 32) as u8
    }

    pub fn bytes(&mut self, count: usize) -> Vec<u8> {
        (0..count).map(|_| self.byte()).collect()
    }

    pub fn pick<T: Copy>(&mut self, from: &[T]) -> T {
        from[self.below(from.len())]
    }
}
