//! All calls of a trie of nested keys, with as many levels as there are keys.

use nifazombi::radix_trie::{Trie, TrieCommon};
use nifazombi::rattle_std::alloc::Global;
use std::error::Error;
use std::time::Instant;

/// Makes each step in turn on keys of one to so many equal bytes, and tells the time that it took.
pub fn answer(line: &str, count: usize) -> Result<(), Box<dyn Error>> {
    let bytes = vec![b'a'; count];
    let keys: Vec<&[u8]> = (1..=count).map(|length| &bytes[..length]).collect();
    let mut nested = Trie::new(Global);
    step(line, "insert", || {
        for key in &keys {
            nested.insert(*key, key.len()).unwrap();
        }
    });
    step(line, "get", || {
        for key in keys.iter().step_by(100) {
            assert_eq!(nested.get(key).unwrap(), Some(&key.len()));
        }
    });
    step(line, "walk", || {
        assert!(TrieCommon::values(&nested).unwrap().copied().eq(1..=count));
    });
    step(line, "len", || {
        let view = nested.subtrie(&b'a').unwrap();
        assert_eq!(view.map_or(0, |view| TrieCommon::len(&view)), count);
    });
    let mut copy = step(line, "clone", || nested.clone()).unwrap();
    step(line, "==", || assert!(copy == nested));
    // The longest key is grafted, below all others.
    if let Some(key) = keys.last() {
        let part = copy.split_off_prefix(key)?;
        step(line, "graft", || copy.graft(part).ok()).unwrap();
        assert_eq!(copy.get(key)?, Some(&count));
    }
    step(line, "remove", || {
        for key in keys.iter().rev() {
            assert_eq!(nested.remove(key).unwrap(), Some(key.len()));
        }
    });
    let another = copy.clone()?;
    step(line, "drop", || drop(another));
    step(line, "for_each_mut", || copy.for_each_mut(|_, length| *length += 1));
    let mut part = step(line, "split_off_prefix", || copy.split_off_prefix(&b'a'))?;
    assert!(copy.is_empty() && part.len() == count);
    let pairs = step(line, "remove_prefix", || part.remove_prefix(&b'a'))?;
    assert!(pairs.iter().all(|(key, value)| *value > key.len()) && pairs.len() == count);
    Ok(())
}

/// Tells how long a step took.
fn step<T>(line: &str, name: &str, made: impl FnOnce() -> T) -> T {
    let start = Instant::now();
    let made = made();
    println!("{line} {name} {} milliseconds", start.elapsed().as_millis());
    made
}
