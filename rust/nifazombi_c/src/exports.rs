//! Made by `tools/checks/texts --write` of the sources of crates/nifazombi_c.
//!
//! What C calls, by the declarations of `nifazombi.h`: each export makes slices and references of
//! its pointers, and has the extracted call of its name do the rest.
#![allow(clippy::missing_safety_doc, reason = "the header says it of all")]

use crate::nifazombi_c::results::{NIFAZOMBI_ERROR_FULL, Span};
use crate::nifazombi_c::{ipv4, ipv6, results, texts};
use nifazombi::flat_routes::ipv4::{Change as Ipv4Change, Row as Ipv4Row};
use nifazombi::flat_routes::ipv6::{Change as Ipv6Change, Row as Ipv6Row};
use nifazombi::flat_texts::{Pair, Place as TextsPlace};
use std::slice::{from_raw_parts, from_raw_parts_mut};

/// A slice of C's, whose pointer may be anything where it has no elements.
///
/// # Safety
///
/// So many elements are there, and nobody writes to them meanwhile.
unsafe fn slice<'a, T>(first: *const T, len: usize) -> &'a [T] {
    if len == 0 {
        return &[];
    }
    // SAFETY: the caller's.
    unsafe { from_raw_parts(first, len) }
}

/// A slice of C's that is written to.
///
/// # Safety
///
/// So many elements are there, and nobody else reads or writes them meanwhile. To Rust memory of
/// another language has some bytes, also where nothing was stored there, and any will do for `T`.
unsafe fn slice_mut<'a, T>(first: *mut T, len: usize) -> &'a mut [T] {
    if len == 0 {
        return &mut [];
    }
    // SAFETY: the caller's.
    unsafe { from_raw_parts_mut(first, len) }
}

/// C's pairs as Rust's, in a list of their own, since Rust doesn't say how a slice is laid out, or
/// None where there is no memory for it.
///
/// # Safety
///
/// So many pairs are there, and the key of each, and nobody writes to them meanwhile.
unsafe fn pairs_of<'a>(first: *const TextsPair, len: usize) -> Option<Vec<Pair<'a>>> {
    let mut made = Vec::new();
    made.try_reserve_exact(len).ok()?;
    // SAFETY: the caller's.
    made.extend(unsafe { slice(first, len) }.iter().map(|it| Pair {
        // SAFETY: the caller's.
        key: unsafe { slice(it.key, it.key_len) },
        value: it.value,
    }));
    Some(made)
}

/// A key and its value.
#[repr(C)]
pub struct TextsPair {
    pub key: *const u8,
    pub key_len: usize,
    pub value: u64,
}

/// Checks whether bytes are an image of IPv4 networks, in linear time. Returns 0 of an image, and
/// else why they are none: one of the numbers above; an index that belongs to it is put into `at`.
#[unsafe(no_mangle)]
pub unsafe extern "C" fn nifazombi_ipv4_check(
    image: *const u8,
    image_len: usize,
    at: *mut usize,
) -> u32 {
    // SAFETY: callers pass live memory, and share only what is read, as the header asks.
    unsafe { ipv4::nifazombi_ipv4_check(slice(image, image_len), &mut *at) }
}

/// The count of rows.
#[unsafe(no_mangle)]
pub unsafe extern "C" fn nifazombi_ipv4_len(image: *const u8, image_len: usize) -> usize {
    // SAFETY: callers pass live memory, and share only what is read, as the header asks.
    unsafe { ipv4::nifazombi_ipv4_len(slice(image, image_len)) }
}

/// Puts the row at an index into `row`, and returns whether there is one.
#[unsafe(no_mangle)]
pub unsafe extern "C" fn nifazombi_ipv4_row_at(
    image: *const u8,
    image_len: usize,
    at: usize,
    row: *mut Ipv4Row,
) -> bool {
    // SAFETY: callers pass live memory, and share only what is read, as the header asks.
    unsafe { ipv4::nifazombi_ipv4_row_at(slice(image, image_len), at, &mut *row) }
}

/// The row of the longest network that holds an address, by its index and one more, or 0 where none
/// does.
#[unsafe(no_mangle)]
pub unsafe extern "C" fn nifazombi_ipv4_longest_match(
    image: *const u8,
    image_len: usize,
    address: u32,
) -> usize {
    // SAFETY: callers pass live memory, and share only what is read, as the header asks.
    unsafe { ipv4::nifazombi_ipv4_longest_match(slice(image, image_len), address) }
}

/// Looks up addresses, as many as there are of both, and puts for each what
/// `nifazombi_ipv4_longest_match` returns into `found`. Returns how many.
#[unsafe(no_mangle)]
pub unsafe extern "C" fn nifazombi_ipv4_longest_matches(
    image: *const u8,
    image_len: usize,
    addresses: *const u32,
    addresses_len: usize,
    found: *mut u32,
    found_len: usize,
) -> usize {
    // SAFETY: callers pass live memory, and share only what is read, as the header asks.
    unsafe {
        ipv4::nifazombi_ipv4_longest_matches(
            slice(image, image_len),
            slice(addresses, addresses_len),
            slice_mut(found, found_len),
        )
    }
}

/// Looks up addresses as `nifazombi_ipv4_longest_matches` does, and puts for each the value of its
/// row too, or 0 where no network holds it, into `values`. Goes as far as the shortest of the
/// three, and returns how many.
#[unsafe(no_mangle)]
pub unsafe extern "C" fn nifazombi_ipv4_longest_values(
    image: *const u8,
    image_len: usize,
    addresses: *const u32,
    addresses_len: usize,
    found: *mut u32,
    found_len: usize,
    values: *mut u32,
    values_len: usize,
) -> usize {
    // SAFETY: callers pass live memory, and share only what is read, as the header asks.
    unsafe {
        ipv4::nifazombi_ipv4_longest_values(
            slice(image, image_len),
            slice(addresses, addresses_len),
            slice_mut(found, found_len),
            slice_mut(values, values_len),
        )
    }
}

/// The row of the longest network that holds all of a network, its own where there is one, by its
/// index and one more, or 0 where none does.
#[unsafe(no_mangle)]
pub unsafe extern "C" fn nifazombi_ipv4_longest_around(
    image: *const u8,
    image_len: usize,
    first: u32,
    bits: u32,
) -> usize {
    // SAFETY: callers pass live memory, and share only what is read, as the header asks.
    unsafe { ipv4::nifazombi_ipv4_longest_around(slice(image, image_len), first, bits) }
}

/// The row of this very network, by its index and one more, or 0 where no row is of it.
#[unsafe(no_mangle)]
pub unsafe extern "C" fn nifazombi_ipv4_get(
    image: *const u8,
    image_len: usize,
    first: u32,
    bits: u32,
) -> usize {
    // SAFETY: callers pass live memory, and share only what is read, as the header asks.
    unsafe { ipv4::nifazombi_ipv4_get(slice(image, image_len), first, bits) }
}

/// Puts the rows whose networks lie within a network, itself among them, into `span`: the index of
/// the first, or the one that it would have where there is none, and how many there are.
#[unsafe(no_mangle)]
pub unsafe extern "C" fn nifazombi_ipv4_below(
    image: *const u8,
    image_len: usize,
    first: u32,
    bits: u32,
    span: *mut Span,
) {
    // SAFETY: callers pass live memory, and share only what is read, as the header asks.
    unsafe { ipv4::nifazombi_ipv4_below(slice(image, image_len), first, bits, &mut *span) }
}

/// The row of the network around that of the row at an index, the longest other one that holds it,
/// by its index and one more, or 0 where there is none. It is at most `at`, so a walk upward ends.
#[unsafe(no_mangle)]
pub unsafe extern "C" fn nifazombi_ipv4_above(
    image: *const u8,
    image_len: usize,
    at: usize,
) -> usize {
    // SAFETY: callers pass live memory, and share only what is read, as the header asks.
    unsafe { ipv4::nifazombi_ipv4_above(slice(image, image_len), at) }
}

/// How many bytes the image of so many rows takes at most, with so many bytes of the user's own, or
/// 0 of 2^32 rows or more, and where these are 2^64 bytes or more.
#[unsafe(no_mangle)]
pub unsafe extern "C" fn nifazombi_ipv4_image_len(rows: usize, payload: usize) -> usize {
    ipv4::nifazombi_ipv4_image_len(rows, payload)
}

/// Writes the image of rows in order, by first address and then by bits, whose links count for
/// nothing, and of the user's own bytes into `out`. Returns 0, and puts into `at` how many bytes
/// the image takes; or why it couldn't: one of the numbers above; an index that belongs to it is
/// put into `at`, and `out` is as before then.
#[unsafe(no_mangle)]
pub unsafe extern "C" fn nifazombi_ipv4_write(
    rows: *const Ipv4Row,
    rows_len: usize,
    payload: *const u8,
    payload_len: usize,
    out: *mut u8,
    out_len: usize,
    at: *mut usize,
) -> u32 {
    // SAFETY: callers pass live memory, and share only what is read, as the header asks.
    unsafe {
        ipv4::nifazombi_ipv4_write(
            slice(rows, rows_len),
            slice(payload, payload_len),
            slice_mut(out, out_len),
            &mut *at,
        )
    }
}

/// How many bytes the image takes at most that so many changes make of one, with so many bytes of
/// the user's own, or 0 where all rows and changes are 2^32 or more, and where these are 2^64 bytes
/// or more.
#[unsafe(no_mangle)]
pub unsafe extern "C" fn nifazombi_ipv4_merge_len(
    image: *const u8,
    image_len: usize,
    changes: usize,
    payload: usize,
) -> usize {
    // SAFETY: callers pass live memory, and share only what is read, as the header asks.
    unsafe { ipv4::nifazombi_ipv4_merge_len(slice(image, image_len), changes, payload) }
}

/// Writes the image that changes make of another one, with the user's own bytes, into `out`. The
/// changes are in order as rows are for `nifazombi_ipv4_write`, and no network has two; one that is
/// removed needs no row. Returns 0, and puts into `at` how many bytes the new image takes; or why
/// it couldn't: one of the numbers above; an index that belongs to it is put into `at`, and `out`
/// is as before then. Of bytes that are no image it takes the first rows that are in order.
#[unsafe(no_mangle)]
pub unsafe extern "C" fn nifazombi_ipv4_merge(
    image: *const u8,
    image_len: usize,
    changes: *const Ipv4Change,
    changes_len: usize,
    payload: *const u8,
    payload_len: usize,
    out: *mut u8,
    out_len: usize,
    at: *mut usize,
) -> u32 {
    // SAFETY: callers pass live memory, and share only what is read, as the header asks.
    unsafe {
        ipv4::nifazombi_ipv4_merge(
            slice(image, image_len),
            slice(changes, changes_len),
            slice(payload, payload_len),
            slice_mut(out, out_len),
            &mut *at,
        )
    }
}

/// Checks whether bytes are an image of IPv6 networks, in linear time. Returns 0 of an image, and
/// else why they are none: one of the numbers above; an index that belongs to it is put into `at`.
#[unsafe(no_mangle)]
pub unsafe extern "C" fn nifazombi_ipv6_check(
    image: *const u8,
    image_len: usize,
    at: *mut usize,
) -> u32 {
    // SAFETY: callers pass live memory, and share only what is read, as the header asks.
    unsafe { ipv6::nifazombi_ipv6_check(slice(image, image_len), &mut *at) }
}

/// The count of rows.
#[unsafe(no_mangle)]
pub unsafe extern "C" fn nifazombi_ipv6_len(image: *const u8, image_len: usize) -> usize {
    // SAFETY: callers pass live memory, and share only what is read, as the header asks.
    unsafe { ipv6::nifazombi_ipv6_len(slice(image, image_len)) }
}

/// Puts the row at an index into `row`, and returns whether there is one.
#[unsafe(no_mangle)]
pub unsafe extern "C" fn nifazombi_ipv6_row_at(
    image: *const u8,
    image_len: usize,
    at: usize,
    row: *mut Ipv6Row,
) -> bool {
    // SAFETY: callers pass live memory, and share only what is read, as the header asks.
    unsafe { ipv6::nifazombi_ipv6_row_at(slice(image, image_len), at, &mut *row) }
}

/// The row of the longest network that holds an address, by its index and one more, or 0 where none
/// does.
#[unsafe(no_mangle)]
pub unsafe extern "C" fn nifazombi_ipv6_longest_match(
    image: *const u8,
    image_len: usize,
    address: *const [u8; 16],
) -> usize {
    // SAFETY: callers pass live memory, and share only what is read, as the header asks.
    unsafe { ipv6::nifazombi_ipv6_longest_match(slice(image, image_len), &*address) }
}

/// Looks up addresses, as many as there are of both, and puts for each what
/// `nifazombi_ipv6_longest_match` returns into `found`. Returns how many.
#[unsafe(no_mangle)]
pub unsafe extern "C" fn nifazombi_ipv6_longest_matches(
    image: *const u8,
    image_len: usize,
    addresses: *const [u8; 16],
    addresses_len: usize,
    found: *mut u32,
    found_len: usize,
) -> usize {
    // SAFETY: callers pass live memory, and share only what is read, as the header asks.
    unsafe {
        ipv6::nifazombi_ipv6_longest_matches(
            slice(image, image_len),
            slice(addresses, addresses_len),
            slice_mut(found, found_len),
        )
    }
}

/// Looks up addresses as `nifazombi_ipv6_longest_matches` does, and puts for each the value of its
/// row too, or 0 where no network holds it, into `values`. Goes as far as the shortest of the
/// three, and returns how many.
#[unsafe(no_mangle)]
pub unsafe extern "C" fn nifazombi_ipv6_longest_values(
    image: *const u8,
    image_len: usize,
    addresses: *const [u8; 16],
    addresses_len: usize,
    found: *mut u32,
    found_len: usize,
    values: *mut u64,
    values_len: usize,
) -> usize {
    // SAFETY: callers pass live memory, and share only what is read, as the header asks.
    unsafe {
        ipv6::nifazombi_ipv6_longest_values(
            slice(image, image_len),
            slice(addresses, addresses_len),
            slice_mut(found, found_len),
            slice_mut(values, values_len),
        )
    }
}

/// The row of the longest network that holds all of a network, its own where there is one, by its
/// index and one more, or 0 where none does.
#[unsafe(no_mangle)]
pub unsafe extern "C" fn nifazombi_ipv6_longest_around(
    image: *const u8,
    image_len: usize,
    first: *const [u8; 16],
    bits: u32,
) -> usize {
    // SAFETY: callers pass live memory, and share only what is read, as the header asks.
    unsafe { ipv6::nifazombi_ipv6_longest_around(slice(image, image_len), &*first, bits) }
}

/// The row of this very network, by its index and one more, or 0 where no row is of it.
#[unsafe(no_mangle)]
pub unsafe extern "C" fn nifazombi_ipv6_get(
    image: *const u8,
    image_len: usize,
    first: *const [u8; 16],
    bits: u32,
) -> usize {
    // SAFETY: callers pass live memory, and share only what is read, as the header asks.
    unsafe { ipv6::nifazombi_ipv6_get(slice(image, image_len), &*first, bits) }
}

/// Puts the rows whose networks lie within a network, itself among them, into `span`: the index of
/// the first, or the one that it would have where there is none, and how many there are.
#[unsafe(no_mangle)]
pub unsafe extern "C" fn nifazombi_ipv6_below(
    image: *const u8,
    image_len: usize,
    first: *const [u8; 16],
    bits: u32,
    span: *mut Span,
) {
    // SAFETY: callers pass live memory, and share only what is read, as the header asks.
    unsafe { ipv6::nifazombi_ipv6_below(slice(image, image_len), &*first, bits, &mut *span) }
}

/// The row of the network around that of the row at an index, the longest other one that holds it,
/// by its index and one more, or 0 where there is none. It is at most `at`, so a walk upward ends.
#[unsafe(no_mangle)]
pub unsafe extern "C" fn nifazombi_ipv6_above(
    image: *const u8,
    image_len: usize,
    at: usize,
) -> usize {
    // SAFETY: callers pass live memory, and share only what is read, as the header asks.
    unsafe { ipv6::nifazombi_ipv6_above(slice(image, image_len), at) }
}

/// How many bytes the image of so many rows takes at most, with so many bytes of the user's own, or
/// 0 of 2^32 rows or more, and where these are 2^64 bytes or more.
#[unsafe(no_mangle)]
pub unsafe extern "C" fn nifazombi_ipv6_image_len(rows: usize, payload: usize) -> usize {
    ipv6::nifazombi_ipv6_image_len(rows, payload)
}

/// Writes the image of rows in order, by first address and then by bits, whose links count for
/// nothing, and of the user's own bytes into `out`. Returns 0, and puts into `at` how many bytes
/// the image takes; or why it couldn't: one of the numbers above; an index that belongs to it is
/// put into `at`, and `out` is as before then.
#[unsafe(no_mangle)]
pub unsafe extern "C" fn nifazombi_ipv6_write(
    rows: *const Ipv6Row,
    rows_len: usize,
    payload: *const u8,
    payload_len: usize,
    out: *mut u8,
    out_len: usize,
    at: *mut usize,
) -> u32 {
    // SAFETY: callers pass live memory, and share only what is read, as the header asks.
    unsafe {
        ipv6::nifazombi_ipv6_write(
            slice(rows, rows_len),
            slice(payload, payload_len),
            slice_mut(out, out_len),
            &mut *at,
        )
    }
}

/// How many bytes the image takes at most that so many changes make of one, with so many bytes of
/// the user's own, or 0 where all rows and changes are 2^32 or more, and where these are 2^64 bytes
/// or more.
#[unsafe(no_mangle)]
pub unsafe extern "C" fn nifazombi_ipv6_merge_len(
    image: *const u8,
    image_len: usize,
    changes: usize,
    payload: usize,
) -> usize {
    // SAFETY: callers pass live memory, and share only what is read, as the header asks.
    unsafe { ipv6::nifazombi_ipv6_merge_len(slice(image, image_len), changes, payload) }
}

/// Writes the image that changes make of another one, with the user's own bytes, into `out`. The
/// changes are in order as rows are for `nifazombi_ipv6_write`, and no network has two; one that is
/// removed needs no row. Returns 0, and puts into `at` how many bytes the new image takes; or why
/// it couldn't: one of the numbers above; an index that belongs to it is put into `at`, and `out`
/// is as before then. Of bytes that are no image it takes the first rows that are in order.
#[unsafe(no_mangle)]
pub unsafe extern "C" fn nifazombi_ipv6_merge(
    image: *const u8,
    image_len: usize,
    changes: *const Ipv6Change,
    changes_len: usize,
    payload: *const u8,
    payload_len: usize,
    out: *mut u8,
    out_len: usize,
    at: *mut usize,
) -> u32 {
    // SAFETY: callers pass live memory, and share only what is read, as the header asks.
    unsafe {
        ipv6::nifazombi_ipv6_merge(
            slice(image, image_len),
            slice(changes, changes_len),
            slice(payload, payload_len),
            slice_mut(out, out_len),
            &mut *at,
        )
    }
}

/// Puts where the user's own bytes in an image of any kind lie, and how many they are, into `span`,
/// and returns whether there are any.
#[unsafe(no_mangle)]
pub unsafe extern "C" fn nifazombi_payload(
    image: *const u8,
    image_len: usize,
    span: *mut Span,
) -> bool {
    // SAFETY: callers pass live memory, and share only what is read, as the header asks.
    unsafe { results::nifazombi_payload(slice(image, image_len), &mut *span) }
}

/// Checks whether bytes are an image of texts, in linear time. Returns 0 of an image, and else why
/// they are none: one of the numbers above; an index that belongs to it is put into `at`.
#[unsafe(no_mangle)]
pub unsafe extern "C" fn nifazombi_texts_check(
    image: *const u8,
    image_len: usize,
    at: *mut usize,
) -> u32 {
    // SAFETY: callers pass live memory, and share only what is read, as the header asks.
    unsafe { texts::nifazombi_texts_check(slice(image, image_len), &mut *at) }
}

/// The count of pairs.
#[unsafe(no_mangle)]
pub unsafe extern "C" fn nifazombi_texts_len(image: *const u8, image_len: usize) -> usize {
    // SAFETY: callers pass live memory, and share only what is read, as the header asks.
    unsafe { texts::nifazombi_texts_len(slice(image, image_len)) }
}

/// Puts where the pair at an index lies, in the order of the keys, into `place`, and returns
/// whether there is one.
#[unsafe(no_mangle)]
pub unsafe extern "C" fn nifazombi_texts_pair_at(
    image: *const u8,
    image_len: usize,
    at: usize,
    place: *mut TextsPlace,
) -> bool {
    // SAFETY: callers pass live memory, and share only what is read, as the header asks.
    unsafe { texts::nifazombi_texts_pair_at(slice(image, image_len), at, &mut *place) }
}

/// The pair of a key, by its index and one more, or 0 where it isn't stored.
#[unsafe(no_mangle)]
pub unsafe extern "C" fn nifazombi_texts_get(
    image: *const u8,
    image_len: usize,
    key: *const u8,
    key_len: usize,
) -> usize {
    // SAFETY: callers pass live memory, and share only what is read, as the header asks.
    unsafe { texts::nifazombi_texts_get(slice(image, image_len), slice(key, key_len)) }
}

/// The pair of the longest stored key that is a prefix of some bytes, by its index and one more, or
/// 0 where there is none.
#[unsafe(no_mangle)]
pub unsafe extern "C" fn nifazombi_texts_nearest(
    image: *const u8,
    image_len: usize,
    key: *const u8,
    key_len: usize,
) -> usize {
    // SAFETY: callers pass live memory, and share only what is read, as the header asks.
    unsafe { texts::nifazombi_texts_nearest(slice(image, image_len), slice(key, key_len)) }
}

/// The pair of the longest stored key that is a prefix of the key at an index, and not this one, by
/// its index and one more, or 0 where there is none. It is at most `at`, so a walk upward ends.
#[unsafe(no_mangle)]
pub unsafe extern "C" fn nifazombi_texts_above(
    image: *const u8,
    image_len: usize,
    at: usize,
) -> usize {
    // SAFETY: callers pass live memory, and share only what is read, as the header asks.
    unsafe { texts::nifazombi_texts_above(slice(image, image_len), at) }
}

/// Puts the indices of the pairs whose keys are prefixes of some bytes into `found`, from the
/// longest up, as many as it has room for. Returns how many.
#[unsafe(no_mangle)]
pub unsafe extern "C" fn nifazombi_texts_prefixes(
    image: *const u8,
    image_len: usize,
    key: *const u8,
    key_len: usize,
    found: *mut u32,
    found_len: usize,
) -> usize {
    // SAFETY: callers pass live memory, and share only what is read, as the header asks.
    unsafe {
        texts::nifazombi_texts_prefixes(
            slice(image, image_len),
            slice(key, key_len),
            slice_mut(found, found_len),
        )
    }
}

/// How many of the keys come before some bytes: the index at which these are stored, or would be.
#[unsafe(no_mangle)]
pub unsafe extern "C" fn nifazombi_texts_rank(
    image: *const u8,
    image_len: usize,
    key: *const u8,
    key_len: usize,
) -> usize {
    // SAFETY: callers pass live memory, and share only what is read, as the header asks.
    unsafe { texts::nifazombi_texts_rank(slice(image, image_len), slice(key, key_len)) }
}

/// Puts the pairs whose keys begin with some bytes into `span`.
#[unsafe(no_mangle)]
pub unsafe extern "C" fn nifazombi_texts_below(
    image: *const u8,
    image_len: usize,
    prefix: *const u8,
    prefix_len: usize,
    span: *mut Span,
) {
    // SAFETY: callers pass live memory, and share only what is read, as the header asks.
    unsafe {
        texts::nifazombi_texts_below(slice(image, image_len), slice(prefix, prefix_len), &mut *span)
    }
}

/// Puts the pairs whose keys are `from` or come after it, and come before `to`, into `span`.
#[unsafe(no_mangle)]
pub unsafe extern "C" fn nifazombi_texts_between(
    image: *const u8,
    image_len: usize,
    from: *const u8,
    from_len: usize,
    to: *const u8,
    to_len: usize,
    span: *mut Span,
) {
    // SAFETY: callers pass live memory, and share only what is read, as the header asks.
    unsafe {
        texts::nifazombi_texts_between(
            slice(image, image_len),
            slice(from, from_len),
            slice(to, to_len),
            &mut *span,
        )
    }
}

/// How many bytes the image of pairs takes, with so many bytes of the user's own, or 0 of 2^32
/// pairs or more, or as many bytes of keys, and where these are 2^64 bytes or more.
#[unsafe(no_mangle)]
pub unsafe extern "C" fn nifazombi_texts_image_len(
    pairs: *const TextsPair,
    pairs_len: usize,
    payload: usize,
) -> usize {
    // SAFETY: callers pass live memory, and share only what is read, as the header asks.
    let Some(pairs) = (unsafe { pairs_of(pairs, pairs_len) }) else {
        return 0;
    };
    texts::nifazombi_texts_image_len(&pairs, payload)
}

/// Writes the image of pairs whose keys rise in the order of their bytes, and of the user's own
/// bytes, into `out`. Returns 0, or why it couldn't: one of the numbers above; the index that
/// belongs to it is put into `at`, and `out` is as before then. Bytes behind the image stay as they
/// are.
#[unsafe(no_mangle)]
pub unsafe extern "C" fn nifazombi_texts_write(
    pairs: *const TextsPair,
    pairs_len: usize,
    payload: *const u8,
    payload_len: usize,
    out: *mut u8,
    out_len: usize,
    at: *mut usize,
) -> u32 {
    // SAFETY: callers pass live memory, and share only what is read, as the header asks.
    let Some(pairs) = (unsafe { pairs_of(pairs, pairs_len) }) else {
        return NIFAZOMBI_ERROR_FULL;
    };
    // SAFETY: callers pass live memory, and share only what is read, as the header asks.
    unsafe {
        texts::nifazombi_texts_write(
            &pairs,
            slice(payload, payload_len),
            slice_mut(out, out_len),
            &mut *at,
        )
    }
}
