//! SplitMix64: small, fast, and the same on every machine.

pub struct Rng(u64);

impl Rng {
    pub fn new(seed: u64) -> Self {
        Rng(seed)
    }

    pub fn word(&mut self) -> u64 {
        self.0 = self.0.wrapping_add(0x9e37_79b9_7f4a_7c15);
        let mixed = (self.0 ^ self.0 >> 30).wrapping_mul(0xbf58_476d_1ce4_e5b9);
        let mixed = (mixed ^ mixed >> 27).wrapping_mul(0x94d0_49bb_1331_11eb);
        mixed ^ mixed >> 31
    }

    /// 0 to `bound` - 1; the bias is far below anything that a test could see.
    pub fn below(&mut self, bound: usize) -> usize {
        ((u128::from(self.word()) * bound as u128) >> 64) as usize
    }

    /// `low` to `high`, both included.
    pub fn between(&mut self, low: usize, high: usize) -> usize {
        low + self.below(high - low + 1)
    }

    /// True `times` out of `of`.
    pub fn chance(&mut self, times: usize, of: usize) -> bool {
        self.below(of) < times
    }

    pub fn pick<T: Copy>(&mut self, choices: &[T]) -> T {
        choices[self.below(choices.len())]
    }

    /// Rising members of `from`, each taken `times` out of `of`, at most `most`.
    pub fn sample(&mut self, from: &[u16], times: usize, of: usize, most: usize) -> Vec<u16> {
        from.iter().copied().filter(|_| self.chance(times, of)).take(most).collect()
    }

    /// `count` rising members of `from`, all as likely as others; all of them if there are not so many.
    pub fn choose(&mut self, from: &[u16], count: usize) -> Vec<u16> {
        let mut wanted = count;
        let mut left = from.len();
        let mut taken = |_: &u16| {
            let take = self.chance(wanted, left);
            left -= 1;
            wanted -= usize::from(take);
            take
        };
        from.iter().copied().filter(&mut taken).collect()
    }

    pub fn garbage_u32(&mut self, length: usize) -> Vec<u32> {
        (0..length).map(|_| self.word() as u32).collect()
    }

    pub fn garbage_u64(&mut self, length: usize) -> Vec<u64> {
        (0..length).map(|_| self.word()).collect()
    }

    pub fn garbage_u8(&mut self, length: usize) -> Vec<u8> {
        (0..length).map(|_| self.word() as u8).collect()
    }
}
