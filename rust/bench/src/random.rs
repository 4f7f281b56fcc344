//! Numbers that look random, the same in each run: SplitMix64.

pub struct Random(u64);

impl Random {
    /// The generator of every run.
    pub fn new() -> Random {
        Random(7)
    }

    pub fn next(&mut self) -> u64 {
        self.0 = self.0.wrapping_add(0x9e37_79b9_7f4a_7c15);
        let mixed = (self.0 ^ self.0 >> 30).wrapping_mul(0xbf58_476d_1ce4_e5b9);
        let mixed = (mixed ^ mixed >> 27).wrapping_mul(0x94d0_49bb_1331_11eb);
        mixed ^ mixed >> 31
    }

    pub fn next_wide(&mut self) -> u128 {
        u128::from(self.next()) << 64 | u128::from(self.next())
    }

    /// A number from one up to another.
    pub fn within(&mut self, least: u64, most: u64) -> u64 {
        let product = u128::from(self.next()) * (u128::from(most - least) + 1);
        least + (product >> 64) as u64
    }

    pub fn shuffle<T>(&mut self, items: &mut [T]) {
        for last in (1..items.len()).rev() {
            items.swap(last, self.within(0, last as u64) as usize);
        }
    }
}
