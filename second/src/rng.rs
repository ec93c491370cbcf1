//! Random numbers from a seed. Every call has a row of its own, by the seed and the call's number, so that one call
//! can be made again without those before it.

pub struct Rng(u64);

impl Rng {
    pub fn new(seed: u64, row: u64) -> Rng {
        let mut rng = Rng(seed ^ row.wrapping_mul(0xd1b5_4a32_d192_ed03));
        rng.next();
        rng
    }

    /// SplitMix64.
    pub fn next(&mut self) -> u64 {
        self.0 = self.0.wrapping_add(0x9e37_79b9_7f4a_7c15);
        let mut z = self.0;
        z = (z ^ (z >> 30)).wrapping_mul(0xbf58_476d_1ce4_e5b9);
        z = (z ^ (z >> 27)).wrapping_mul(0x94d0_49bb_1331_11eb);
        z ^ (z >> 31)
    }

    pub fn below(&mut self, limit: usize) -> usize {
        (self.next() % limit as u64) as usize
    }

    /// Both ends may be given.
    pub fn between(&mut self, low: usize, high: usize) -> usize {
        low + self.below(high - low + 1)
    }

    pub fn chance(&mut self, percent: usize) -> bool {
        self.below(100) < percent
    }

    pub fn pick<T: Copy>(&mut self, from: &[T]) -> T {
        from[self.below(from.len())]
    }

    /// Each as often, beside the others, as is said; at least one of them at all.
    pub fn pick_by<'a, T>(&mut self, from: &'a [T], often: impl Fn(&T) -> usize) -> &'a T {
        let mut turn = self.below(from.iter().map(&often).sum());
        for one in from {
            match turn.checked_sub(often(one)) {
                Some(rest) => turn = rest,
                None => return one,
            }
        }
        unreachable!("there are as many turns as all have together")
    }

    /// A place in something of this length, the ends more often than the rest.
    pub fn place(&mut self, length: usize) -> usize {
        match self.below(3) {
            0 => 0,
            1 => length - 1,
            _ => self.below(length),
        }
    }

    pub fn shuffle<T>(&mut self, items: &mut [T]) {
        for i in (1..items.len()).rev() {
            items.swap(i, self.below(i + 1));
        }
    }

    pub fn state(&mut self) -> u8 {
        self.below(2) as u8
    }

    pub fn states(&mut self, count: usize) -> Vec<u8> {
        (0..count).map(|_| self.state()).collect()
    }

    pub fn bytes(&mut self, count: usize) -> Vec<u8> {
        (0..count).map(|_| self.below(256) as u8).collect()
    }
}
