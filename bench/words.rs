//! Numbers by chance, the same ones for the same seed.

/// The generator PCG-XSH-RR, on stream 0.
pub struct Words {
    state: u64,
}

impl Words {
    pub fn new(seed: u64) -> Words {
        let mut words = Words { state: 0 };
        words.step();
        words.state = words.state.wrapping_add(seed);
        words.step();
        words
    }

    fn step(&mut self) {
        self.state = self.state.wrapping_mul(6_364_136_223_846_793_005).wrapping_add(1);
    }

    pub fn next(&mut self) -> u32 {
        let state = self.state;
        self.step();
        let shifted = ((state >> 18 ^ state) >> 27) as u32;
        shifted.rotate_right((state >> 59) as u32)
    }
}
