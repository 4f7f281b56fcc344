//! Times the calls of a trie, of its frozen forms and of a `BTreeMap` on the same keys. A line of
//! standard input names the kind of keys and how many, as `words 10000`, and is answered by a row
//! for each call; a third word holds a store in memory. The keys of the kind `given` are the first
//! ones of lines before, as `key ant`; other kinds are made.
#![forbid(unsafe_code)]

mod held;
mod nested;
mod random;
mod report;
mod routes;
mod sample;
mod stores;

use report::Report;
use sample::{AddressQuery, Text};
use std::error::Error;
use std::io;
use std::net::{Ipv4Addr, Ipv6Addr};

/// Whether a line was answered.
type Answered = Result<(), Box<dyn Error>>;

fn main() -> Answered {
    let mut given = Vec::new();
    for line in io::stdin().lines() {
        let line = line?;
        match line.strip_prefix("key ") {
            Some(key) => given.push(Text::given(key, given.len())),
            None => answer(line.trim(), &given)?,
        }
    }
    Ok(())
}

/// Answers a line.
fn answer(line: &str, given: &[Text]) -> Answered {
    let mut words = line.split_whitespace();
    let kind = words.next().unwrap_or("");
    let count = words.next().unwrap_or("").parse().map_err(|_| "no count of keys")?;
    let (store, mut report) = (words.next(), Report::new(line));
    match kind {
        "words" | "paths" | "numbers" => texts(line, store, &sample::texts(kind, count)),
        "given" => texts(line, store, &given[..given.len().min(count as usize)]),
        "addresses" => addresses(line, store, &mut sample::addresses(count)),
        "ipv4" => routes::answer::<Ipv4Addr>(&mut report, count),
        "ipv6" => routes::answer::<Ipv6Addr>(&mut report, count),
        "pages" => stores::answer_pages(&mut report, count),
        "chain" => nested::answer(line, count as usize),
        _ => Err(format!("no such keys: {kind}").into()),
    }
}

/// Answers a line about texts.
fn texts(line: &str, store: Option<&str>, keys: &[Text]) -> Answered {
    let mut queries: Vec<_> = keys.iter().map(Text::query).collect();
    match store {
        None => stores::answer(&mut Report::new(line), &mut queries, stores::answer_texts),
        Some("list") => print!("{}", sample::list(&queries)),
        Some("texts") => println!("{line} {}", held::texts(&queries)),
        Some(store) => println!("{line} {}", held::pairs(store, &queries)?),
    }
    Ok(())
}

/// Answers a line about addresses.
fn addresses(line: &str, store: Option<&str>, queries: &mut [AddressQuery]) -> Answered {
    match store {
        None => stores::answer(&mut Report::new(line), queries, |_, _, _| ()),
        Some(store) => println!("{line} {}", held::pairs(store, queries)?),
    }
    Ok(())
}
