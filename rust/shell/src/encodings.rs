//! What keys of each type are encoded as.
use crate::prelude::*;
use nifazombi::radix_keys::{Ascending, BigEndian, LittleEndian};
use std::str::FromStr;

/// The encoding of a key, as nibbles or as bytes: the next words are its type, and the key.
pub fn answer_encoding(answer: &mut Answer<'_>, is_bytes: bool) -> Outcome {
    let name = answer.next_word();
    if let Some(kind) = kind_of(name) {
        let key = answer.next_key_of(kind)?;
        return encoding_line(answer, Some(key), is_bytes);
    }
    match name {
        "BigEndian<u16>" => wrapped_line::<u16, BigEndian<u16>>(answer, is_bytes),
        "BigEndian<u32>" => wrapped_line::<u32, BigEndian<u32>>(answer, is_bytes),
        "BigEndian<u128>" => wrapped_line::<u128, BigEndian<u128>>(answer, is_bytes),
        "LittleEndian<u16>" => wrapped_line::<u16, LittleEndian<u16>>(answer, is_bytes),
        "LittleEndian<u32>" => wrapped_line::<u32, LittleEndian<u32>>(answer, is_bytes),
        "LittleEndian<u128>" => wrapped_line::<u128, LittleEndian<u128>>(answer, is_bytes),
        "Ascending<i8>" => wrapped_line::<i8, Ascending<i8>>(answer, is_bytes),
        "Ascending<i16>" => wrapped_line::<i16, Ascending<i16>>(answer, is_bytes),
        "Ascending<i32>" => wrapped_line::<i32, Ascending<i32>>(answer, is_bytes),
        "Ascending<i64>" => wrapped_line::<i64, Ascending<i64>>(answer, is_bytes),
        "Ascending<i128>" => wrapped_line::<i128, Ascending<i128>>(answer, is_bytes),
        "Ascending<isize>" => wrapped_line::<isize, Ascending<isize>>(answer, is_bytes),
        _ => composed_line(name, answer, is_bytes),
    }
}

/// The type of keys that a type of the library is.
fn kind_of(name: &str) -> Option<Kind> {
    match name {
        "String" => Some(Kind::Text),
        "Vec<u8>" => Some(Kind::Bytes),
        "Nibblet" => Some(Kind::Nibbles),
        "Parts" => Some(Kind::Parts),
        "Bits" => Some(Kind::Bits),
        "Network<Ipv4Addr>" => Some(Kind::Ipv4),
        "Network<Ipv6Addr>" => Some(Kind::Ipv6),
        "text" | "bytes" | "nibbles" | "parts" | "bits" | "ipv4" | "ipv6" => None,
        _ => Kind::of(name),
    }
}

/// The line of a key's encoding, or that there is no key.
fn encoding_line<K: TrieKey>(answer: &mut Answer<'_>, key: Option<K>, is_bytes: bool) -> Outcome {
    let key = key.ok_or(Stop::Said(NO_KEY))?;
    if !is_bytes {
        return answer.list_line(&key.encode(Global)?);
    }
    answer.escaped(&key.encode_bytes(Global)?)?;
    answer.end()
}

/// The encoding of the integer that the next word writes, in its wrapper, which says how.
fn wrapped_line<T: FromStr, K: TrieKey + From<T>>(
    answer: &mut Answer<'_>,
    is_bytes: bool,
) -> Outcome {
    let number: Option<T> = answer.next_word().parse().ok();
    encoding_line(answer, number.map(K::from), is_bytes)
}

/// Texts that are lent, lists of numbers, arrays of bytes, and pairs with a comma between them.
fn composed_line(name: &str, answer: &mut Answer<'_>, is_bytes: bool) -> Outcome {
    match name {
        "&str" | "&[u8]" | "&String" | "&mut&str" => {
            let text: String = answer.next()?;
            match name {
                "&str" => encoding_line(answer, Some(text.as_str()), is_bytes),
                "&[u8]" => encoding_line(answer, Some(text.as_bytes()), is_bytes),
                "&String" => encoding_line(answer, Some(&text), is_bytes),
                _ => encoding_line(answer, Some(&mut text.as_str()), is_bytes),
            }
        }
        "Vec<u16>" => {
            let numbers = answer.next_read::<Vec<u16>>()?;
            encoding_line(answer, numbers, is_bytes)
        }
        "[u8;2]" => array_line::<2>(answer, is_bytes),
        "[u8;16]" => array_line::<16>(answer, is_bytes),
        "[u8;17]" => array_line::<17>(answer, is_bytes),
        "(u8,u16)" => pair_line(answer, is_bytes, parsed::<u8>, parsed::<u16>),
        "(u128,u8)" => pair_line(answer, is_bytes, parsed::<u128>, parsed::<u8>),
        "([u8;17],u8)" => pair_line(answer, is_bytes, array, parsed::<u8>),
        "(u8,[u8;17])" => pair_line(answer, is_bytes, parsed::<u8>, array),
        _ => Err(Stop::Said(NO_TYPE)),
    }
}

/// The array of the bytes that the next word stands for.
fn array_line<const N: usize>(answer: &mut Answer<'_>, is_bytes: bool) -> Outcome
where
    [u8; N]: TrieKey,
{
    let bytes: Vec<u8> = answer.next()?;
    encoding_line(answer, <[u8; N]>::try_from(&*bytes).ok(), is_bytes)
}

fn parsed<T: FromStr>(text: &str) -> Option<T> {
    text.parse().ok()
}

fn array(text: &str) -> Option<[u8; 17]> {
    text.as_bytes().try_into().ok()
}

/// The pair of what the next word writes before its first comma and behind that.
fn pair_line<A, B>(
    answer: &mut Answer<'_>,
    is_bytes: bool,
    first: fn(&str) -> Option<A>,
    second: fn(&str) -> Option<B>,
) -> Outcome
where
    (A, B): TrieKey,
{
    let (before, behind) = answer.next_word().split_once(',').unwrap_or(("", ""));
    encoding_line(answer, first(before).zip(second(behind)), is_bytes)
}
