//! Random lists, the same in each run.
#![allow(dead_code, reason = "each file of tests uses a part")]

/// A generator of random numbers, by xorshift.
pub struct Random(u64);

impl Random {
    pub fn new(seed: u64) -> Random {
        Random(seed.wrapping_mul(0x9e37_79b9_7f4a_7c15) | 1)
    }
    pub fn next(&mut self) -> u64 {
        self.0 ^= self.0 << 13;
        self.0 ^= self.0 >> 7;
        self.0 ^= self.0 << 17;
        self.0
    }
    /// A number below `end`.
    pub fn below(&mut self, end: usize) -> usize {
        (self.next() >> 16) as usize % end
    }
    /// A list of fewer than `end` items.
    pub fn list<T: From<u8>>(&mut self, end: usize) -> Vec<T> {
        (0..self.below(end)).map(|_| T::from(self.next() as u8)).collect()
    }
    /// A text of fewer than `end` characters, some of them of several bytes.
    pub fn text(&mut self, end: usize) -> String {
        let letters: Vec<char> = "ab\"\\\n\u{1}é€😀/ ".chars().collect();
        (0..self.below(end)).map(|_| letters[self.below(letters.len())]).collect()
    }
}
