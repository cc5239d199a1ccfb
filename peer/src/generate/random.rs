//! A small seeded generator of numbers (xorshift), so that every script can be made again.

pub struct Random(u64);

impl Random {
    pub fn new(seed: u64) -> Random {
        // Spread near seeds apart; xorshift must not start at 0.
        let mut state = seed.wrapping_add(0x9e37_79b9_7f4a_7c15);
        state = (state ^ (state >> 30)).wrapping_mul(0xbf58_476d_1ce4_e5b9);
        state = (state ^ (state >> 27)).wrapping_mul(0x94d0_49bb_1331_11eb);
        Random((state ^ (state >> 31)) | 1)
    }

    pub fn next(&mut self) -> u64 {
        self.0 ^= self.0 >> 12;
        self.0 ^= self.0 << 25;
        self.0 ^= self.0 >> 27;
        self.0.wrapping_mul(0x2545_f491_4f6c_dd1d)
    }

    /// A number below `end`, which is not 0.
    pub fn below(&mut self, end: u64) -> u64 {
        (self.next() >> 16) % end
    }

    /// True so many times in a thousand.
    pub fn chance(&mut self, in_thousand: u64) -> bool {
        self.below(1000) < in_thousand
    }

    /// One of the given values.
    pub fn pick<T: Copy>(&mut self, values: &[T]) -> T {
        values[self.below(values.len() as u64) as usize]
    }

    /// One of the given values, where there are any.
    pub fn pick_any<T: Copy>(&mut self, values: &[T]) -> Option<T> {
        (!values.is_empty()).then(|| self.pick(values))
    }

    /// Takes out one of the given values.
    pub fn take<T>(&mut self, values: &mut Vec<T>) -> T {
        values.swap_remove(self.below(values.len() as u64) as usize)
    }
}
