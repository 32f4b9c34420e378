//! Numbers by chance, from a seed.

/// A small generator of numbers: the same seed gives the same numbers on every machine.
pub struct Dice(u64);

impl Dice {
    pub fn new(seed: u64, place: u64) -> Dice {
        let mut x = seed.wrapping_mul(0x9e37_79b9_7f4a_7c15).wrapping_add(place.wrapping_mul(0xd1b5_4a32_d192_ed03));
        x = (x ^ (x >> 31)).wrapping_mul(0x7fb5_d329_728e_a185);
        Dice(x ^ (x >> 27))
    }
    /// A number under `n` (n at least 1).
    pub fn below(&mut self, n: usize) -> usize {
        self.0 = self.0.wrapping_mul(6364136223846793005).wrapping_add(1442695040888963407);
        (self.0 >> 33) as usize % n
    }
    pub fn one_in(&mut self, n: usize) -> bool {
        self.below(n) == 0
    }
    pub fn byte(&mut self) -> u8 {
        self.below(256) as u8
    }
    pub fn bytes(&mut self, n: usize) -> Vec<u8> {
        (0..n).map(|_| self.byte()).collect()
    }
    pub fn pick<T: Copy>(&mut self, from: &[T]) -> T {
        from[self.below(from.len())]
    }
    /// Each state below `n` with the chance of one in `odds`.
    pub fn some_states(&mut self, n: usize, odds: usize) -> Vec<usize> {
        (0..n).filter(|_| self.one_in(odds)).collect()
    }
}
