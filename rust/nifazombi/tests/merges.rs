//! Images of networks and changes merged into new ones, beside a map.
mod common;

use common::{Random, flipped};
use nifazombi::flat_routes::{
    self, ImageError, WriteError, image_len, ipv4, ipv6, merge, merge_len, payload, write,
};
use std::collections::BTreeMap;
use std::hint::black_box;
use std::net::{Ipv4Addr, Ipv6Addr};
use std::time::{Duration, Instant};

/// Networks and values: a network by its first address and its bits.
type Table<A, V> = BTreeMap<(A, u32), V>;

/// What the calls of a family are, under one name.
macro_rules! family {
    ($name:ident, $module:ident, $address:ty, $width:expr, $value:ty, $bytes:expr, $family:ty) => {
        mod $name {
            use super::*;
            use $module::{Change, Row};

            fn checked(image: &[u8]) -> Result<(), ImageError> {
                flat_routes::Table::<$family>::checked(image).map(|_| ())
            }

            pub fn row(&((first, bits), value): &(($address, u32), $value)) -> Row {
                Row { first: $bytes(first), bits, link: 99, value }
            }

            /// A network of few addresses, so that networks lie within one another and come again.
            fn network(random: &mut Random) -> ($address, u32) {
                let bits = [0, 1, 2, 3, 4, 6, $width - 2, $width - 1, $width][random.below(9)];
                let low = (random.next() % 4) as $address;
                let first = (random.below(16) as $address) << ($width - 4) | low;
                if bits == 0 { (0, 0) } else { (first >> ($width - bits) << ($width - bits), bits) }
            }

            pub fn written(table: &Table<$address, $value>, own: &[u8]) -> Vec<u8> {
                let rows: Vec<Row> =
                    table.iter().map(|(&net, &value)| row(&(net, value))).collect();
                let mut image = vec![0; image_len::<Row>(rows.len(), own.len()).unwrap()];
                let len = write(&rows, own, &mut image).unwrap();
                image.truncate(len);
                image
            }

            fn changes(random: &mut Random, most: usize) -> Table<$address, Option<$value>> {
                (0..random.below(most + 1))
                    .map(|_| {
                        let value = random.next() as $value;
                        (network(random), (random.below(3) > 0).then_some(value))
                    })
                    .collect()
            }

            pub fn change((&net, &value): (&($address, u32), &Option<$value>)) -> Change {
                let row = row(&(net, value.unwrap_or(77)));
                Change { row, removes: value.is_none().into() }
            }

            #[test]
            fn is_the_image_of_the_changed_map() {
                let mut random = Random::new(7);
                for round in 0..6000 {
                    let most = if round % 50 == 0 { 600 } else { 12 };
                    let mut table = Table::new();
                    for (net, value) in changes(&mut random, most) {
                        table.insert(net, value.unwrap_or(5));
                    }
                    let image = written(&table, b"old bytes");
                    let changed = changes(&mut random, most);
                    for (&net, &value) in &changed {
                        match value {
                            Some(value) => table.insert(net, value),
                            None => table.remove(&net),
                        };
                    }
                    let list: Vec<Change> = changed.iter().map(change).collect();
                    let own = &b"new"[..random.below(4)];
                    let room = merge_len::<Change>(&image, list.len(), own.len()).unwrap();
                    let mut out = vec![0xaa; room + random.below(3)];
                    let len = merge(&image, &list, own, &mut out).unwrap();
                    assert!(len <= room && out[len..].iter().all(|&byte| byte == 0xaa));
                    assert_eq!(checked(&out), Ok(()));
                    assert_eq!(payload(&out).map(|(at, len)| &out[at..at + len]), Some(own));
                    assert_eq!(out[..len], written(&table, own), "{round}");
                }
            }

            #[test]
            fn errors_leave_the_buffer() {
                let table = Table::from([((1 << ($width - 1), 1), 1), ((1 << ($width - 1), 2), 2)]);
                let image = written(&table, b"own");
                let net = |first, bits| Change {
                    row: row(&((first, bits), 3)),
                    removes: if bits == 2 { 7 } else { 0 },
                };
                let top = 1 << ($width - 1);
                let changes = [net(0, 1), net(top, 1), net(top, 2)];
                let room = merge_len::<Change>(&image, 3, 2).unwrap();
                assert_eq!(room, image_len::<Row>(5, 2).unwrap());
                let mut out = vec![0xaa; room - 1];
                let merged = merge(&image, &changes, b"it", &mut out);
                assert_eq!(merged, Err(WriteError::Short));
                out.push(0xaa);
                for (wrong, at) in [
                    (vec![net(top, 1), net(0, 1)], 1),
                    (vec![net(0, 1), net(0, 1)], 1),
                    (vec![net(0, 0), net(top, 2), net(top, 1)], 2),
                    (vec![net(1, 2)], 0),
                    (vec![net(0, $width + 1)], 0),
                ] {
                    let merged = merge(&image, &wrong, b"it", &mut out);
                    assert_eq!(merged, Err(WriteError::OutOfOrder(at)));
                }
                assert!(out.iter().all(|&byte| byte == 0xaa));
                assert!(merge(&image, &changes, b"it", &mut out).is_ok());
                let table = flat_routes::Table::<$family>::open(&out).unwrap();
                let rows: Vec<_> = (0..3).map_while(|at| table.row_at(at)).collect();
                let rows: Vec<_> =
                    rows.iter().map(|row| (row.first.to_bits(), row.bits, row.value)).collect();
                assert_eq!(rows, [(0, 1, 3), (top, 1, 3)]);
                assert_eq!(merge_len::<Change>(&image, usize::MAX, 0), None);
                assert_eq!(merge_len::<Change>(&image, (1 << 32) - 2, 0), None);
                assert!(merge_len::<Change>(&image, (1 << 32) - 3, 0).is_some());
                assert_eq!(merge_len::<Change>(&image, 2, usize::MAX), None);
            }

            #[test]
            fn bytes_that_are_no_image() {
                let mut random = Random::new(9);
                for _ in 0..3000 {
                    let table: Table<_, _> =
                        changes(&mut random, 9).into_keys().map(|net| (net, 6)).collect();
                    let mut image = written(&table, b"");
                    for _ in 0..1 + random.below(3) {
                        image = flipped(&image, random.below(8 * image.len()));
                    }
                    let list: Vec<Change> = changes(&mut random, 9).iter().map(change).collect();
                    let Some(room) = merge_len::<Change>(&image, list.len(), 2) else {
                        continue;
                    };
                    if room > 1 << 24 {
                        continue;
                    }
                    let mut out = vec![0xaa; room + 8];
                    let len = merge(&image, &list, b"it", &mut out).unwrap();
                    assert!(len <= room && out[len..].iter().all(|&byte| byte == 0xaa));
                    assert_eq!(checked(&out), Ok(()));
                    assert_eq!(payload(&out).map(|(at, len)| &out[at..at + len]), Some(&b"it"[..]));
                }
                let list = [Change { row: row(&((0, 1), 4)), removes: 0 }];
                let mut out = vec![0; 400];
                for none in [&b""[..], b"NZIPV", &[0xff; 200]] {
                    let len = merge(none, &list, b"", &mut out).unwrap();
                    assert_eq!(out[..len], written(&Table::from([((0, 1), 4)]), b""));
                }
            }
        }
    };
}

family!(narrow, ipv4, u32, 32, u32, |first: u32| first, Ipv4Addr);
family!(wide, ipv6, u128, 128, u64, u128::to_be_bytes, Ipv6Addr);

#[test]
fn ipv4_merge_refuses_a_short_buffer_and_changes_out_of_order() {
    let row = |first, value| ipv4::Row { first, bits: 8, link: 0, value };
    let change = |first, value| ipv4::Change { row: row(first, value), removes: 0 };
    let mut image = [0; 200];
    let len = write(&[row(0x0a00_0000, 7)], b"", &mut image).unwrap();
    let changes = [change(0x0b00_0000, 8), change(0x0a00_0000, 9)];
    let most = merge_len::<ipv4::Change>(&image[..len], 2, 0).unwrap();
    let mut out = vec![7; most];
    let short = merge(&image[..len], &changes, b"", &mut out[1..]);
    assert_eq!(short, Err(WriteError::Short));
    let refused = merge(&image[..len], &changes, b"", &mut out);
    assert_eq!((refused, out), (Err(WriteError::OutOfOrder(1)), vec![7; most]));
}

/// The least time of some calls.
fn least(mut call: impl FnMut() -> usize) -> Duration {
    let time = |_| {
        let start = Instant::now();
        black_box(call());
        start.elapsed()
    };
    (0..50).map(time).min().unwrap()
}

/// Prints how long 100 changes of 10^5 rows take, beside `write` of all rows.
#[test]
#[ignore = "it measures"]
fn time_of_few_changes() {
    let table: Table<u32, u32> = (0..100_000).map(|n| ((n * 40_000 & !255, 24), n)).collect();
    let image = narrow::written(&table, b"");
    let changed: Table<u32, Option<u32>> =
        (0..100).map(|n| ((n * 40_000_000, 26), (n % 2 == 0).then_some(n))).collect();
    let list: Vec<ipv4::Change> = changed.iter().map(narrow::change).collect();
    let rows: Vec<ipv4::Row> =
        table.iter().map(|(&network, &value)| narrow::row(&(network, value))).collect();
    let mut out = vec![0; merge_len::<ipv4::Change>(&image, 100, 0).unwrap()];
    let merged = least(|| merge(&image, &list, b"", &mut out).unwrap());
    let wrote = least(|| write(&rows, b"", &mut out).unwrap());
    println!("merge {merged:?}, write {wrote:?}");
}
