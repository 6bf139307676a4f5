//! Numbers that look random and are the same at every run.

/// Marsaglia's xorshift on 64 bits.
#[derive(Clone)]
pub struct Random(u64);

impl Random {
    /// Any seed will do: it is spread first, and the state 0, which would stay, is left out.
    pub fn new(seed: u64) -> Random {
        Random(seed.wrapping_add(1).wrapping_mul(0x9E37_79B9_7F4A_7C15) | 1)
    }

    /// 64 bits.
    #[allow(clippy::should_implement_trait)]
    #[inline]
    pub fn next(&mut self) -> u64 {
        self.0 ^= self.0 << 13;
        self.0 ^= self.0 >> 7;
        self.0 ^= self.0 << 17;
        self.0
    }

    /// A number below n, which is above 0.
    #[inline]
    pub fn below(&mut self, n: usize) -> usize {
        ((self.next() >> 11) % n as u64) as usize
    }

    /// True once in n times.
    #[inline]
    pub fn once_in(&mut self, n: usize) -> bool {
        self.below(n) == 0
    }

    /// Any byte.
    #[inline]
    pub fn byte(&mut self) -> u8 {
        self.below(256) as u8
    }

    /// One of these.
    #[inline]
    pub fn one_of<T: Copy>(&mut self, choices: &[T]) -> T {
        choices[self.below(choices.len())]
    }
}
