//! Numbers that look random and are the same on every machine.

/// SplitMix64.
pub struct Prng(u64);

impl Prng {
    /// The numbers of one case of a seed: they do not depend on what other cases drew.
    pub fn new(seed: u64, case: u64) -> Prng {
        let by_seed = Prng(seed).number();
        Prng(Prng(by_seed ^ case).number())
    }

    /// Any number.
    pub fn number(&mut self) -> u64 {
        self.0 = self.0.wrapping_add(0x9E37_79B9_7F4A_7C15);
        let mut z = self.0;
        z = (z ^ (z >> 30)).wrapping_mul(0xBF58_476D_1CE4_E5B9);
        z = (z ^ (z >> 27)).wrapping_mul(0x94D0_49BB_1331_11EB);
        z ^ (z >> 31)
    }

    /// A number from 0 to n - 1.
    pub fn below(&mut self, n: usize) -> usize {
        ((u128::from(self.number()) * n as u128) >> 64) as usize
    }

    /// A number from first to last.
    pub fn between(&mut self, first: usize, last: usize) -> usize {
        first + self.below(last - first + 1)
    }

    /// True once in n times.
    pub fn one_in(&mut self, n: usize) -> bool {
        self.below(n) == 0
    }

    /// True every second time.
    pub fn coin(&mut self) -> bool {
        self.one_in(2)
    }

    /// One of these.
    pub fn pick<T: Copy>(&mut self, from: &[T]) -> T {
        from[self.below(from.len())]
    }

    /// Any octet.
    pub fn octet(&mut self) -> u8 {
        self.below(256) as u8
    }

    /// One bit of an octet.
    pub fn bit(&mut self) -> u8 {
        1 << self.below(8)
    }

    /// Any octets, so many.
    pub fn octets(&mut self, n: usize) -> Vec<u8> {
        let mut octets = vec![0; n];
        for chunk in octets.chunks_mut(8) {
            let number = self.number().to_le_bytes();
            chunk.copy_from_slice(&number[..chunk.len()]);
        }
        octets
    }
}
