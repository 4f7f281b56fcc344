//! The calls of what keys are made of: lists of nibbles, bits, networks and lists of parts.
use crate::prelude::*;
use crate::table::CALLS;
use crate::words::digit;
use nifazombi::radix_keys::{Address, Network, PartsError};

/// A call that the next word names, where as many words stand behind it as it has.
pub fn in_family(answer: &mut Answer<'_>) -> Outcome {
    let (family, name) = (answer.words.name, answer.next_word());
    // The calls of networks are told of once.
    let told = if family == "ipv6" { "ipv4" } else { family };
    let row = CALLS.iter().find(|call| {
        let mut words = call.form.split(' ');
        words.next() == Some(told) && words.next() == Some(name)
    });
    let call = row.ok_or(Stop::Said(NOT_HERE))?;
    if call.form.split(' ').count() != answer.words.left + 2 {
        return Err(Stop::Said("another count of words"));
    }
    let does = if family == "ipv6" { call.part6 } else { call.part };
    does.ok_or(Stop::Said(NOT_HERE))?(answer)
}

/// A list, and an index that is at most the count of its nibbles.
pub fn list_and_place(answer: &mut Answer<'_>) -> Result<(Nibblet, usize), Stop> {
    let list = answer.next_list()?;
    let place = answer.next_parsed()?;
    if place <= list.len() { Ok((list, place)) } else { Err(Stop::Said(NO_NUMBER)) }
}

/// A list with the nibble of the next word, a hexadecimal digit, behind it.
pub fn push_nibble(answer: &mut Answer<'_>) -> Outcome {
    let mut list = answer.next_list()?;
    let nibble = match answer.next_word().as_bytes() {
        [byte] => digit(*byte),
        _ => None,
    };
    list.push(nibble.ok_or(Stop::Said(NO_NUMBER))?)?;
    answer.list_line(&list)
}

/// The address that the next word writes.
pub fn next_address<A: Address>(answer: &mut Answer<'_>) -> Result<A, Stop> {
    A::parse(answer.next_word()).ok_or(Stop::Said(NO_KEY))
}

/// A network, or that there is none.
pub fn network_line<A: Address>(answer: &mut Answer<'_>, network: Option<Network<A>>) -> Outcome {
    match network {
        Some(network) => answer.shown_line(&network),
        None => answer.line(NONE),
    }
}

/// A list of parts, as a key is written.
pub fn parts_line(answer: &mut Answer<'_>, parts: &Parts) -> Outcome {
    answer.parts(parts)?;
    answer.end()
}

/// A part as a line.
pub fn part_line(answer: &mut Answer<'_>, part: &[u8]) -> Outcome {
    answer.escaped(part)?;
    answer.end()
}

/// The parts of the text that the next word writes, cut at the character behind it, which is one
/// byte.
pub fn cut(
    answer: &mut Answer<'_>,
    cut: fn(Global, &str, u8) -> Result<Parts, PartsError>,
) -> Outcome {
    let text: String = answer.next()?;
    let separator = u8::try_from(u32::from(answer.next::<char>()?));
    let separator = separator.map_err(|_| Stop::Said(NO_KEY))?;
    parts_line(answer, &cut(Global, &text, separator)?)
}
