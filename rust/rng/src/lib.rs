//! The inputs that are drawn: a xorshift generator, so that every run has the same ones.

pub struct Rng(u64);

impl Rng {
    /// A seed of 0 would only give zeros, so the lowest bit is set.
    pub fn new(seed: u64) -> Self {
        Self(seed | 1)
    }

    /// The generator xorshift64*.
    #[allow(clippy::should_implement_trait)]
    pub fn next(&mut self) -> u64 {
        self.0 ^= self.0 >> 12;
        self.0 ^= self.0 << 25;
        self.0 ^= self.0 >> 27;
        self.0.wrapping_mul(0x2545_F491_4F6C_DD1D)
    }

    /// The high octet, since the low bits of the product are the weakest.
    pub fn byte(&mut self) -> u8 {
        (self.next() >> 56) as u8
    }

    /// A number below `end`, which is not 0.
    pub fn below(&mut self, end: usize) -> usize {
        ((self.next() >> 32) % end as u64) as usize
    }

    pub fn pick<T: Copy>(&mut self, from: &[T]) -> T {
        from[self.below(from.len())]
    }

    pub fn bytes(&mut self, len: usize) -> Vec<u8> {
        (0..len).map(|_| self.byte()).collect()
    }

    /// True once in `times`, on the whole.
    pub fn one_in(&mut self, times: usize) -> bool {
        self.below(times) == 0
    }
}
