//! Times fst's `Map` over the lines of a file, as bindings/c/bench.c does an image of them.
//!
//! usage: bench_fst FILE ROUNDS
use fst::Map;
use std::hint::black_box;
use std::time::Instant;

/// The value of the longest stored prefix.
fn nearest(map: &Map, key: &[u8]) -> Option<u64> {
    let fst = map.as_fst();
    let (mut node, mut sum, mut found) = (fst.root(), fst::raw::Output::zero(), None);
    for byte in key {
        if node.is_final() {
            found = Some(sum.cat(node.final_output()).value());
        }
        let Some(at) = node.find_input(*byte) else { return found };
        let step = node.transition(at);
        sum = sum.cat(step.out);
        node = fst.node(step.addr);
    }
    if node.is_final() { Some(sum.cat(node.final_output()).value()) } else { found }
}

/// Prints the best of some rounds, in nanoseconds a key.
fn time(name: &str, rounds: usize, keys: &[Vec<u8>], ask: impl Fn(&[u8]) -> Option<u64>) {
    let mut best = f64::INFINITY;
    for _ in 0..rounds {
        let start = Instant::now();
        for key in keys {
            if black_box(ask(key)).is_none() {
                std::process::exit(1);
            }
        }
        best = best.min(start.elapsed().as_nanos() as f64);
    }
    println!("{name:28} {:7.1} ns", best / keys.len() as f64);
}

fn main() {
    let words: Vec<String> = std::env::args().collect();
    let rounds = words[2].parse().expect("a count of rounds");
    let bytes = std::fs::read(&words[1]).expect("a file");
    let mut lines: Vec<Vec<u8>> = bytes.split(|byte| *byte == b'\n').filter(|line| !line.is_empty()).map(<[u8]>::to_vec).collect();
    lines.sort();
    lines.dedup();
    let map = Map::from_iter(lines.iter().zip(0..)).expect("lines in order");
    // Another order of the lines, by xorshift.
    let mut state = 88_172_645_463_325_252_u64;
    for k in (1..lines.len()).rev() {
        state ^= state << 13;
        state ^= state >> 7;
        state ^= state << 17;
        lines.swap(k, (state % (k as u64 + 1)) as usize);
    }
    println!("{:28} {:7} bytes", "fst", map.as_fst().size());
    time("fst get", rounds, &lines, |key| map.get(key));
    for line in &mut lines {
        line.extend_from_slice(b"zzz");
    }
    time("fst nearest", rounds, &lines, |key| nearest(&map, key));
}
