//! Numbers that look random and depend on the seed alone.

/// A row of such numbers.
pub struct Random {
    state: u64,
}

impl Random {
    /// The row that belongs to this seed.
    pub fn from_seed(seed: u64) -> Random {
        Random { state: seed }
    }

    /// The next number, over the whole range of 64 bits.
    pub fn bits(&mut self) -> u64 {
        self.state = self.state.wrapping_add(0x9E37_79B9_7F4A_7C15);
        let mut mixed = self.state;
        mixed = (mixed ^ (mixed >> 30)).wrapping_mul(0xBF58_476D_1CE4_E5B9);
        mixed = (mixed ^ (mixed >> 27)).wrapping_mul(0x94D0_49BB_1331_11EB);
        mixed ^ (mixed >> 31)
    }

    /// A number from `low` to `high`, both included.
    pub fn between(&mut self, low: u64, high: u64) -> u64 {
        low + self.bits() % (high - low + 1)
    }

    /// A rank below `count`, which is at least 1.
    pub fn rank(&mut self, count: usize) -> usize {
        (self.bits() % count as u64) as usize
    }

    /// A count from `low` to `high`, both included.
    pub fn count(&mut self, low: usize, high: usize) -> usize {
        low + self.rank(high - low + 1)
    }

    /// A period, offset or other time from `low` to `high`, both included.
    pub fn time(&mut self, low: u32, high: u32) -> u32 {
        self.between(u64::from(low), u64::from(high)) as u32
    }

    /// A number of two bytes from `low` to `high`, both included.
    pub fn short(&mut self, low: u16, high: u16) -> u16 {
        self.between(u64::from(low), u64::from(high)) as u16
    }

    /// Any byte but zero.
    pub fn byte_above_zero(&mut self) -> u8 {
        self.between(1, 255) as u8
    }

    /// True once in `times`, on average.
    pub fn one_in(&mut self, times: u64) -> bool {
        self.bits().is_multiple_of(times)
    }

    /// One of the items.
    pub fn pick<Item: Copy>(&mut self, items: &[Item]) -> Item {
        items[self.rank(items.len())]
    }

    /// A rank below `count` that is often the first or the last.
    pub fn low_or_high_rank(&mut self, count: usize) -> usize {
        match self.rank(4) {
            0 => 0,
            1 => count - 1,
            _ => self.rank(count),
        }
    }

    /// This many bytes.
    pub fn bytes(&mut self, count: usize) -> Vec<u8> {
        (0..count).map(|_| self.bits() as u8).collect()
    }
}
