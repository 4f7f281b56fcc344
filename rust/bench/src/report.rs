//! Rows of times.

use std::collections::HashMap;
use std::hint::black_box;
use std::time::{Duration, Instant};

/// The rows that answer a line: of each a call and a store, and the nanoseconds of one call. The
/// clock is read before and after the calls of a row and nowhere else, since `tools/measures/bench
/// --instructions` counts what lies between.
pub struct Report<'a> {
    line: &'a str,
    /// Of each call, how many were made and the sum of what they answered.
    known: HashMap<&'static str, (usize, u64)>,
}

impl<'a> Report<'a> {
    pub fn new(line: &'a str) -> Report<'a> {
        Report { line, known: HashMap::new() }
    }

    /// Makes a call of each item in turn, and returns the sum of the answers.
    pub fn each<T>(&mut self, name: &'static str, items: &[T], call: impl FnMut(&T) -> u64) -> u64 {
        let start = Instant::now();
        let sum = black_box(items.iter().map(call).fold(0, u64::wrapping_add));
        self.tell(name, start.elapsed(), items.len(), sum);
        sum
    }

    /// Makes something once of so many pairs, and answers a number.
    pub fn once<T, F>(&mut self, name: &'static str, count: usize, call: F) -> T
    where
        F: FnOnce() -> (T, u64),
    {
        let start = Instant::now();
        let (made, sum) = black_box(call());
        self.tell(name, start.elapsed(), count, sum);
        made
    }

    /// Prints a row. Each store that has a call answers it the same.
    fn tell(&mut self, name: &'static str, took: Duration, count: usize, sum: u64) {
        let each = took.as_nanos().checked_div(count as u128).unwrap_or(0);
        println!("{} {name} {each}", self.line);
        let call = name.split(' ').next().unwrap_or(name);
        let known = *self.known.entry(call).or_insert((count, sum));
        assert_eq!((count, sum), known, "{name} of {}: the answers differ", self.line);
    }
}
