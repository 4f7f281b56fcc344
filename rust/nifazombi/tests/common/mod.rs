//! What the tests of all tables share.
#![allow(dead_code, reason = "each file of tests uses some of it")]

use nifazombi::rattle_std::alloc::Global;
use nifazombi::rattle_std::vec::{CollectIn, Vec as List};
use std::hint::black_box;
use std::iter::repeat_n;
use std::time::{Duration, Instant};

/// Numbers that are the same in each run (xorshift).
pub struct Random(u64);

impl Random {
    pub fn new(seed: u64) -> Random {
        Random(0x9e37_79b9_7f4a_7c15 ^ seed)
    }

    pub fn next(&mut self) -> u64 {
        self.0 ^= self.0 << 13;
        self.0 ^= self.0 >> 7;
        self.0 ^= self.0 << 17;
        self.0
    }

    /// A number below another one.
    pub fn below(&mut self, end: usize) -> usize {
        (self.next() % end as u64) as usize
    }
}

/// The bytes with one bit flipped.
pub fn flipped(bytes: &[u8], bit: usize) -> Vec<u8> {
    let mut bytes = bytes.to_vec();
    bytes[bit / 8] ^= 1 << (bit % 8);
    bytes
}

/// The bytes with another one at an index.
pub fn spoilt(bytes: &[u8], at: usize, byte: u8) -> Vec<u8> {
    let mut bytes = bytes.to_vec();
    bytes[at] = byte;
    bytes
}

/// Numbers of 4 bytes.
pub fn bytes_of(numbers: &[u32]) -> Vec<u8> {
    numbers.iter().flat_map(|number| number.to_le_bytes()).collect()
}

/// A head and parts: the mark, and then numbers of 4 bytes.
pub fn image(mark: &[u8; 8], numbers: &[u32]) -> Vec<u8> {
    [&mark[..], &bytes_of(numbers)].concat()
}

/// The library's list of items.
pub fn list<T>(items: impl IntoIterator<Item = T>) -> List<T> {
    items.into_iter().collect_by(Global).unwrap()
}

/// An image of no rows that lists many parts, by its mark and the kinds of those that it needs.
pub fn image_of_many_parts(mark: &[u8; 8], needed: &[u32]) -> Vec<u8> {
    const COUNT: usize = 5_000;
    let kinds = needed.iter().chain(repeat_n(&9, COUNT - needed.len()));
    let parts = kinds.flat_map(|kind| [*kind, 0, 0, 0, 0, 0]);
    image(mark, &[0, COUNT as u32].into_iter().chain(parts).collect::<Vec<_>>())
}

/// How long a hundred calls take, where nothing else is done meanwhile.
fn time_of(call: impl Fn() -> bool) -> Option<Duration> {
    let times = (0..100).map(|_| {
        let start = Instant::now();
        assert!((0..100).all(|_| black_box(call())));
        start.elapsed()
    });
    times.min()
}

/// Asserts that a call returns at once what another one looks for.
pub fn assert_kept(kept: impl Fn() -> bool, looked_for: impl Fn() -> bool) {
    let times = (time_of(kept), time_of(looked_for));
    assert!(times.0 < times.1.map(|it| it / 2), "{times:?}");
}

/// Takes what an iterator gives from both ends in turn, and compares it with what it is to give.
pub fn assert_both_ends<I>(mut iterator: I, expected: &[I::Item])
where
    I: ExactSizeIterator + DoubleEndedIterator + Clone,
    I::Item: PartialEq + Clone + std::fmt::Debug,
{
    assert_eq!(iterator.clone().collect::<Vec<_>>(), expected);
    assert!(iterator.clone().rev().eq(expected.iter().rev().cloned()));
    assert_eq!(iterator.clone().nth(1), expected.get(1).cloned());
    assert_eq!(iterator.clone().nth_back(1), expected.iter().nth_back(1).cloned());
    let mut rest = expected.iter().cloned();
    while rest.len() > 0 {
        assert_eq!(iterator.len(), rest.len());
        assert_eq!(iterator.next(), rest.next());
        assert_eq!(iterator.next_back(), rest.next_back());
    }
    assert_eq!((iterator.len(), iterator.next(), iterator.next_back()), (0, None, None));
}
