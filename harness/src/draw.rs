//! Numbers for rearranging and for filling buffers, drawn by xorshift64: not the maker's own.

pub struct Draw {
    state: u64,
}

impl Draw {
    /// The seed is spread over all bits first: xorshift keeps small seeds small for long.
    pub fn new(seed: u64) -> Self {
        let spread = (seed ^ 0x6a09_e667_f3bc_c909).wrapping_mul(0x2545_f491_4f6c_dd1d);
        Draw {
            state: (spread ^ (spread >> 32)) | 1,
        }
    }

    pub fn number(&mut self) -> u64 {
        self.state ^= self.state << 13;
        self.state ^= self.state >> 7;
        self.state ^= self.state << 17;
        self.state
    }

    /// A number from 0 to `count` - 1.
    pub fn below(&mut self, count: usize) -> usize {
        ((self.number() >> 16) % count as u64) as usize
    }

    pub fn shuffle<T>(&mut self, items: &mut [T]) {
        for last in (1..items.len()).rev() {
            items.swap(last, self.below(last + 1));
        }
    }
}
