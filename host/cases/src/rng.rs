//! A small generator of numbers, so that a seed gives the same cases anywhere.

/// Steele, Lea and Flood's splitmix64.
pub struct Rng(u64);

impl Rng {
    /// Two seeds that differ in either number give unrelated streams.
    #[must_use]
    pub fn new(seed: u64, index: u64) -> Self {
        let mut ret = Self(seed);
        let stream = ret.next();
        Self(
            stream
                .wrapping_add(index.wrapping_mul(0x9e37_79b9_7f4a_7c15))
                .rotate_left(17),
        )
    }

    fn next(&mut self) -> u64 {
        self.0 = self.0.wrapping_add(0x9e37_79b9_7f4a_7c15);
        let z = (self.0 ^ (self.0 >> 30)).wrapping_mul(0xbf58_476d_1ce4_e5b9);
        let z = (z ^ (z >> 27)).wrapping_mul(0x94d0_49bb_1331_11eb);
        z ^ (z >> 31)
    }

    /// A number below `bound`, which isn't 0.
    pub fn below(&mut self, bound: usize) -> usize {
        (self.next() % bound as u64) as usize
    }

    /// True once in `times`.
    pub fn one_in(&mut self, times: usize) -> bool {
        self.below(times) == 0
    }

    /// One of a list that isn't empty.
    pub fn pick<T: Copy>(&mut self, list: &[T]) -> T {
        list[self.below(list.len())]
    }
}
