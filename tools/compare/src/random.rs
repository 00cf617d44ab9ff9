//! Random numbers (SplitMix64): a seed gives the same cases on every machine.

pub struct Random(u64);

impl Random {
    /// Each area has a sequence of its own, so that a new one leaves the cases of the others alone.
    pub fn new(seed: u64, area: &str) -> Self {
        let mut random = Random(seed);
        for byte in area.bytes() {
            random.0 = random.next() ^ u64::from(byte);
        }
        random
    }

    pub fn next(&mut self) -> u64 {
        self.0 = self.0.wrapping_add(0x9E37_79B9_7F4A_7C15);
        let mut z = self.0;
        z = (z ^ (z >> 30)).wrapping_mul(0xBF58_476D_1CE4_E5B9);
        z = (z ^ (z >> 27)).wrapping_mul(0x94D0_49BB_1331_11EB);
        z ^ (z >> 31)
    }

    /// A number from 0 to `n` − 1.
    pub fn below(&mut self, n: usize) -> usize {
        ((u128::from(self.next()) * n as u128) >> 64) as usize
    }

    pub fn one_in(&mut self, n: usize) -> bool {
        self.below(n) == 0
    }

    pub fn byte(&mut self) -> u8 {
        self.next() as u8
    }

    pub fn pick<T: Copy>(&mut self, choices: &[T]) -> T {
        choices[self.below(choices.len())]
    }

    /// A bit place: mostly up to `end`, else a little or very far behind.
    pub fn place(&mut self, end: usize) -> usize {
        match self.below(64) {
            0 => usize::MAX >> (1 + self.below(32)),
            1..4 => end + self.below(40),
            4..24 => 0,
            _ => self.below(end + 1),
        }
    }

    /// A number of any width from 0 to 32 bits, so that small and large ones are equally likely.
    pub fn value(&mut self) -> u32 {
        (self.next() >> 32 >> self.below(33)) as u32
    }
}
