//! Images of texts, as a tool of another language made one from docs/IMAGES.md, and as they are
//! written.
mod common;

use common::{bytes_of, flipped, image};
use nifazombi::flat_texts::{
    ImageError, Pair, WriteError, above, below, between, check, from_image, get, image_len,
    is_image, len, nearest, nth, payload, place_at, prefixes, rank, to_image, write,
};
use nifazombi::rattle_std::alloc::Global;

const A_ZERO: &[u8] = b"a\0";
const EIGHT_ZERO: &[u8] = b"abcdefgh\0";
const HIGHEST: &[u8] = &[255; 9];

/// Nine keys that share first bytes, go on from one another, and end with zeros.
const KEYS: [&[u8]; 9] =
    [b"", b"a", A_ZERO, b"abc", b"abcdefgh", EIGHT_ZERO, b"abcdefghi", b"abd", HIGHEST];
/// For each the index and one more of the longest one that it goes on from. The values are 10 and
/// more.
const LINKS: [u32; 9] = [0, 1, 2, 2, 4, 5, 5, 2, 1];

/// The mark, the head and what stands before the pairs, and the pairs, with these counts.
fn laid_out(head: &[u32], before: &[u8], counts: &[u32]) -> Vec<u8> {
    let first = |key: &&[u8]| {
        let mut first = [0; 8];
        first[..key.len().min(8)].copy_from_slice(&key[..key.len().min(8)]);
        first.reverse();
        first
    };
    let ends = KEYS.iter().scan(0, |end, key| {
        *end += key.len() as u32;
        Some(*end)
    });
    let pairs = ends.zip(LINKS).zip(10..).flat_map(|((end, link), value)| [end, link, value, 0]);
    let numbers: Vec<_> = pairs.chain(counts.iter().copied()).collect();
    let heads: Vec<_> = KEYS.iter().flat_map(first).collect();
    [image(b"NZTEXT.1", head), before.to_vec(), heads, bytes_of(&numbers), KEYS.concat()].concat()
}

/// The image of the pairs, with three counts, and before them all five bytes of the user's own.
fn stored() -> Vec<u8> {
    let head = [9, 2, 4, 3, 69, 0, 272, 0, 3, 99, 64, 0, 5, 0];
    laid_out(&head, b"hello", &[0, 1, 1])
}

/// The same as it is written, with no counts, and with the same bytes behind all.
fn plain() -> Vec<u8> {
    let head = [9, 2, 4, 0, 64, 0, 260, 0, 3, 0, 324, 0, 5, 0];
    [laid_out(&head, b"", &[]), b"hello".to_vec()].concat()
}

#[test]
fn get_nearest_and_rank_in_stored_images() {
    // The index of the own pair, that of the longest key that begins it, and the rank.
    type Look = (&'static [u8], Option<usize>, Option<usize>, usize);
    const LOOKS: [Look; 21] = [
        (b"", Some(0), Some(0), 0),
        (b"\0", None, Some(0), 1),
        (b"a", Some(1), Some(1), 1),
        (A_ZERO, Some(2), Some(2), 2),
        (b"a\0\0", None, Some(2), 3),
        (b"ab", None, Some(1), 3),
        (b"abc", Some(3), Some(3), 3),
        (b"abc\0", None, Some(3), 4),
        (b"abcdefg", None, Some(3), 4),
        (b"abcdefgh", Some(4), Some(4), 4),
        (EIGHT_ZERO, Some(5), Some(5), 5),
        (b"abcdefgha", None, Some(4), 6),
        (b"abcdefghi", Some(6), Some(6), 6),
        (b"abcdefghijk", None, Some(6), 7),
        (b"abce", None, Some(3), 7),
        (b"abd", Some(7), Some(7), 7),
        (b"abda", None, Some(7), 8),
        (b"b", None, Some(0), 8),
        (&[255, 255], None, Some(0), 8),
        (HIGHEST, Some(8), Some(8), 8),
        (&[255, 255, 255, 255, 255, 255, 255, 255, 255, 0], None, Some(8), 9),
    ];
    for image in [stored(), plain()] {
        assert_eq!((check(&image), is_image(&image), len(&image)), (Ok(()), true, 9));
        for (key, own, longest, place) in LOOKS {
            let found = (get(&image, key), nearest(&image, key), rank(&image, key));
            assert_eq!(found, (own, longest, place), "{key:?}");
        }
    }
}

#[test]
fn nth_and_above_by_the_index() {
    let stored = stored();
    for at in 0..9 {
        let pair = nth(&stored, at).map(|it| (it.key, it.value));
        assert_eq!(pair, Some((KEYS[at], 10 + at as u64)));
        let place = place_at(&stored, at).unwrap();
        assert_eq!(stored[place.first..place.first + place.len], *KEYS[at]);
        assert_eq!(above(&stored, at), (LINKS[at] as usize).checked_sub(1), "{at}");
    }
    assert!(nth(&stored, 9).is_none() && above(&stored, 9).is_none());
}

#[test]
fn below_and_between_count_pairs() {
    const BELOW: [(&[u8], usize, usize); 10] = [
        (b"", 0, 9),
        (b"a", 1, 7),
        (b"ab", 3, 5),
        (b"abc", 3, 4),
        (b"abcdefgh", 4, 3),
        (b"abcdefghi", 6, 1),
        (b"abcdefghij", 7, 0),
        (b"b", 8, 0),
        (&[255], 8, 1),
        (HIGHEST, 8, 1),
    ];
    let stored = stored();
    for (prefix, first, count) in BELOW {
        assert_eq!(below(&stored, prefix), (first, count), "{prefix:?}");
    }
    assert_eq!(between(&stored, b"a", b"abcdefghi"), (1, 5));
    assert_eq!(between(&stored, b"ab", b"abd"), (3, 4));
    assert_eq!(between(&stored, b"", HIGHEST), (0, 8));
    assert_eq!(between(&stored, b"abd", b"a"), (7, 0));
}

#[test]
fn prefixes_from_the_longest_up() {
    let (stored, mut found) = (stored(), [77; 6]);
    assert_eq!(prefixes(&stored, b"abcdefghij", &mut found), 5);
    assert_eq!(found, [6, 4, 3, 1, 0, 77]);
    let mut few = [77; 2];
    assert_eq!((prefixes(&stored, b"abcdefghij", &mut few), few), (2, [6, 4]));
    assert_eq!((prefixes(&stored, b"b", &mut few), few), (1, [0, 4]));
}

/// Whether a byte of the stored image may be another one: of the user's part, of what is listed of
/// it, or of a value; of how many parts are listed, which may be more; or the ninth byte of a key,
/// the last one.
fn is_free(at: usize) -> bool {
    let is_of_a_value = (141..285).contains(&at) && (at - 141) % 16 >= 8;
    [12, 319, 328, 340].contains(&at) || (40..69).contains(&at) || is_of_a_value
}

/// Calls each function that reads, so that each returns, with indices of pairs that there are.
fn assert_answered(image: &[u8]) {
    let all = len(image);
    assert!(prefixes(image, b"abcdefghi", &mut [0; 4]) <= 4);
    for (first, count) in [below(image, b"abc"), between(image, b"a", b"abd")] {
        assert!(count <= all.saturating_sub(first));
    }
    let _pair = nth(image, 4);
    assert!(rank(image, b"abcdefghi") <= all);
    assert!(get(image, b"abcdefghi").is_none_or(|at| at < all));
    assert!(nearest(image, b"abcdefghij").is_none_or(|at| at < all));
    assert!(above(image, 6).is_none_or(|at| at < 6));
}

#[test]
fn check_refuses_each_flipped_bit_that_matters() {
    let stored = stored();
    for bit in 0..8 * stored.len() {
        let image = flipped(&stored, bit);
        assert_answered(&image);
        assert!(is_free(bit / 8) || check(&image).is_err(), "{} {}", bit / 8, bit % 8);
    }
}

#[test]
fn check_refuses_a_truncated_image() {
    let stored = stored();
    for end in 0..stored.len() {
        assert_answered(&stored[..end]);
        assert!(check(&stored[..end]).is_err(), "{end}");
    }
}

#[test]
fn check_tells_what_is_wrong() {
    use ImageError::*;
    const WRONG: [(usize, usize, ImageError); 16] = [
        (0, 0, Mark),
        (7, 0, Version),
        (12, 1, Part(0)),
        (13, 0, Short),
        (16, 0, Part(0)),
        (31, 0, Part(0)),
        (32, 4, Row(6)),
        (33, 0, Part(0)),
        (69, 0, Row(0)),
        (101, 0, Row(4)),
        (141, 0, Row(0)),
        (161, 0, Row(1)),
        (193, 1, Row(3)),
        (285, 0, Cell(0)),
        (293, 0, Cell(2)),
        (339, 0, Row(8)),
    ];
    for (at, bit, error) in WRONG {
        assert_eq!(check(&flipped(&stored(), 8 * at + bit)), Err(error), "{at} {bit}");
    }
    assert_eq!(check(b"NZTEXT.1"), Err(Short));
}

#[test]
fn write_lays_out_pairs_and_a_payload() {
    let mut at = 9;
    let mut pairs = KEYS.map(|key| {
        at += 1;
        Pair { key, value: at }
    });
    let mut out = [7; 333];
    assert_eq!(image_len(&pairs, 5), Some(329));
    assert_eq!(write(&pairs, b"hello", &mut out), Ok(()));
    assert!(out.starts_with(&plain()) && out.ends_with(&[7; 4]));
    assert_eq!(payload(&out), Some((324, 5)));
    assert_eq!(write(&pairs, b"hello", &mut [0; 328]), Err(WriteError::Short));
    pairs[3].key = A_ZERO;
    assert_eq!(write(&pairs, b"", &mut out), Err(WriteError::OutOfOrder(3)));
    pairs[2].key = EIGHT_ZERO;
    assert_eq!(write(&pairs, b"", &mut out), Err(WriteError::OutOfOrder(3)));
}

#[test]
fn write_of_no_pair() {
    let mut out = [7; 65];
    assert_eq!(image_len(&[], 0), Some(64));
    assert_eq!(write(&[], b"", &mut out), Ok(()));
    assert!(is_image(&out) && len(&out) == 0 && out[64] == 7);
    assert_eq!((get(&out, b""), nearest(&out, b"a")), (None, None));
    assert_eq!((rank(&out, b"a"), below(&out, b"")), (0, (0, 0)));
}

/// The number by six digits to the base of 16, as letters from `a` on.
fn letters(number: usize) -> [u8; 6] {
    std::array::from_fn(|at| b'a' + (number >> (20 - 4 * at) & 15) as u8)
}

#[test]
fn write_makes_counts_for_many_pairs() {
    for (count, size) in [(65_535, 64 + 30 * 65_535), (65_536, 64 + 30 * 65_536 + 4 * 65_537)] {
        let keys: Vec<_> = (0..count).map(letters).collect();
        let pairs: Vec<_> = keys.iter().map(|key| Pair { key, value: 1 }).collect();
        assert_eq!(image_len(&pairs, 0), Some(size));
        let mut out = vec![0; size];
        assert_eq!(write(&pairs, b"", &mut out), Ok(()));
        assert!((0..count).all(|at| get(&out, &keys[at]) == Some(at)));
        assert_eq!((get(&out, &letters(count)), below(&out, b"aa")), (None, (0, count)));
    }
}

#[test]
fn from_image_and_to_image_of_a_map() {
    let texts = from_image(Global, &stored()).ok().unwrap();
    assert_eq!((texts.len(), texts.get(b"abc")), (9, Some(&13)));
    assert_eq!(*to_image(Global, &texts, b"hello").unwrap(), *plain());
    assert!(from_image(Global, &stored()[1..]).is_err());
}
