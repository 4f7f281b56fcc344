//! Images of networks, as tools of other languages made them from docs/IMAGES.md, and as they are
//! written.
mod common;

use common::{bytes_of, image, list, spoilt};
use nifazombi::flat_routes::{
    ImageError, Table, TableError, WriteError, image_len, ipv4, ipv6, longest_matches, payload,
    write,
};
use nifazombi::frozen_routes::FrozenRoutes;
use nifazombi::radix_keys::Network;
use nifazombi::rattle_std::alloc::Global;
use std::net::{Ipv4Addr, Ipv6Addr};

/// 10.0.0.0/8, 10.0.0.0/16, 10.1.0.0/16, 10.1.2.0/24, 128.0.0.0/2, 192.0.2.0/24 and
/// 255.255.255.255/32: each by its first address, its bits, the index and one more of the row of
/// the network around it, and its value.
const ROWS: [[u32; 4]; 7] = [
    [0x0a00_0000, 8, 0, 100],
    [0x0a00_0000, 16, 1, 101],
    [0x0a01_0000, 16, 1, 102],
    [0x0a01_0200, 24, 3, 103],
    [0x8000_0000, 2, 0, 104],
    [0xc000_0200, 24, 0, 105],
    [0xffff_ffff, 32, 0, 106],
];

/// 2001:db8::/32.
const DOCUMENTS: u128 = 0x2001_0db8 << 96;

/// ::/0, 2001:db8::/32, 2001:db8::/48, 2001:db8:0:1::/64 and fe80::/10.
const WIDE_ROWS: [[u32; 8]; 5] = [
    [0, 0, 0, 0, 0, 0, 100, 0],
    [0, 0, 0, 0x2001_0db8, 32, 1, 101, 0],
    [0, 0, 0, 0x2001_0db8, 48, 2, 102, 0],
    [0, 0, 1, 0x2001_0db8, 64, 3, 103, 0],
    [0, 0, 0, 0xfe80_0000, 10, 1, 104, 0],
];

/// The spans of `ROWS`: where each begins, and the index and one more of the row of the longest
/// network that holds its addresses, or 0.
const SPANS: [[u32; 2]; 12] = [
    [0, 0],
    [0x0a00_0000, 2],
    [0x0a01_0000, 3],
    [0x0a01_0200, 4],
    [0x0a01_0300, 3],
    [0x0a02_0000, 1],
    [0x0b00_0000, 0],
    [0x8000_0000, 5],
    [0xc000_0000, 0],
    [0xc000_0200, 6],
    [0xc000_0300, 0],
    [0xffff_ffff, 7],
];

/// The spans of `WIDE_ROWS`, each by the upper half of the address that it begins with.
const WIDE_SPANS: [[u32; 3]; 8] = [
    [0, 0, 1],
    [0, 0x2001_0db8, 3],
    [1, 0x2001_0db8, 4],
    [2, 0x2001_0db8, 3],
    [0x0001_0000, 0x2001_0db8, 2],
    [0, 0x2001_0db9, 1],
    [0, 0xfe80_0000, 5],
    [0, 0xfec0_0000, 1],
];

/// The image of `ROWS`, with cells of 2^29 addresses from 10.0.0.0 on, and five bytes of the user's
/// own before the rows.
fn stored() -> Vec<u8> {
    let rows = [7, 4, 1, 0, 117, 0, 112, 0];
    let rest = [2, 4, 229, 0, 96, 0, 5, 29, 325, 0, 32, 0, 3, 7, 112, 0, 5, 0];
    let cells = [1, 6, 6, 6, 7, 7, 10, 10];
    let parts = bytes_of(&[ROWS.as_flattened(), SPANS.as_flattened(), &cells].concat());
    [image(b"NZIPV4.2", &[&rows[..], &rest].concat()), b"hello".to_vec(), parts].concat()
}

/// The same with no cells, as `write` lays it out.
fn plain() -> Vec<u8> {
    let rows = [7, 4, 1, 0, 112, 0, 112, 0];
    let rest = [2, 4, 224, 0, 96, 0, 5, 0, 320, 0, 0, 0, 3, 0, 320, 0, 5, 0];
    let numbers = [&rows[..], &rest, ROWS.as_flattened(), SPANS.as_flattened()].concat();
    [image(b"NZIPV4.2", &numbers), b"hello".to_vec()].concat()
}

/// The image of `WIDE_ROWS`, with cells of 2^125 addresses.
fn stored_wide() -> Vec<u8> {
    let head = [5, 3, 1, 0, 88, 0, 160, 0, 2, 8, 248, 0, 96, 0, 5, 125, 344, 0, 32, 0];
    let cells = [0, 0, 5, 5, 5, 5, 5, 5];
    let rows = WIDE_ROWS.as_flattened();
    image(b"NZIPV6.2", &[&head[..], rows, WIDE_SPANS.as_flattened(), &cells].concat())
}

/// The table in an image of IPv4.
fn table4(image: &[u8]) -> Table<'_, Ipv4Addr> {
    Table::checked(image).unwrap()
}

/// The table in one of IPv6.
fn table6(image: &[u8]) -> Table<'_, Ipv6Addr> {
    Table::open(image).unwrap()
}

/// What is wrong with bytes that are to be an image of IPv4.
fn checked4(image: &[u8]) -> Result<(), ImageError> {
    Table::<Ipv4Addr>::checked(image).map(|_| ())
}

/// The same of IPv6.
fn checked6(image: &[u8]) -> Result<(), ImageError> {
    Table::<Ipv6Addr>::checked(image).map(|_| ())
}

/// Why bytes have no head of an image of IPv4.
fn open_error(image: &[u8]) -> Option<ImageError> {
    Table::<Ipv4Addr>::open(image).err()
}

#[test]
fn open_tells_what_is_wrong_with_a_head() {
    let stored = stored();
    let told = [&stored[..87], &stored_wide()].map(open_error);
    assert_eq!(told, [Some(ImageError::Short), Some(ImageError::Mark)]);
    assert_eq!(open_error(&spoilt(&stored, 7, b'1')), Some(ImageError::Version));
    assert_eq!(open_error(&spoilt(&stored, 12, 2)), Some(ImageError::Part(2)));
    // A row that `checked` refuses.
    let wrong = spoilt(&stored, 141, 0);
    assert!(open_error(&wrong).is_none() && Table::<Ipv4Addr>::checked(&wrong).is_err());
}

#[test]
fn longest_match_in_a_stored_image() {
    const LOOKS: [(u32, Option<usize>); 13] = [
        (0x0000_0000, None),
        (0x0a00_ffff, Some(1)),
        (0x0a01_0203, Some(3)),
        (0x0a01_0300, Some(2)),
        (0x0aff_0001, Some(0)),
        (0x0b00_0000, None),
        (0x8000_0000, Some(4)),
        (0xa000_0001, Some(4)),
        (0xbfff_ffff, Some(4)),
        (0xc000_0209, Some(5)),
        (0xc000_0300, None),
        (0xffff_fffe, None),
        (0xffff_ffff, Some(6)),
    ];
    let stored = stored();
    assert_eq!((checked4(&stored), checked6(&stored)), (Ok(()), Err(ImageError::Mark)));
    for (address, index) in LOOKS {
        assert_eq!(table4(&stored).longest_match(address.into()), index, "{address:x}");
    }
}

#[test]
fn row_at_and_above_in_a_stored_image() {
    let stored = stored();
    let table = table4(&stored);
    assert!(table.len() == 7 && !table.is_empty() && table.image() == stored);
    let row = table.row_at(3).unwrap();
    assert_eq!([row.first.to_bits(), row.bits, row.link], ROWS[3][..3]);
    assert_eq!(row.value, ROWS[3][3].into());
    assert!(table.row_at(7).is_none());
    let around = [None, Some(0), Some(0), Some(2), None, None, None, None];
    for (at, up) in around.into_iter().enumerate() {
        assert_eq!(table.above(at), up, "{at}");
    }
}

#[test]
fn longest_match_in_a_stored_image_of_ipv6() {
    const LOOKS: [(u128, Option<usize>); 8] = [
        (0, Some(0)),
        (0x2001_0db7 << 96, Some(0)),
        (DOCUMENTS + 1, Some(2)),
        (DOCUMENTS + (1 << 64) + 1, Some(3)),
        (DOCUMENTS + (1 << 80), Some(1)),
        (1 << 126, Some(0)),
        ((0xfe80 << 112) + 1, Some(4)),
        (0xffff << 112, Some(0)),
    ];
    let stored = stored_wide();
    let table = table6(&stored);
    assert!(checked6(&stored).is_ok() && table.len() == 5);
    for (address, index) in LOOKS {
        assert_eq!(table.longest_match(address.into()), index, "{address:x}");
    }
    let row = table.row_at(4).unwrap();
    assert_eq!(row.first.to_bits(), 0xfe80 << 112);
    assert_eq!((row.bits, row.link, row.value), (10, 1, 104));
    assert_eq!(table.get(DOCUMENTS.into(), 48), Some(2));
    assert_eq!([3, 0].map(|at| table.above(at)), [Some(2), None]);
    assert_eq!(table.below(DOCUMENTS.into(), 32), (1, 3));
}

#[test]
fn check_tells_what_a_spoilt_byte_breaks() {
    use ImageError::*;
    const SPOILT: [(usize, u8, ImageError); 47] = [
        (0, 79, Mark),
        (6, 0, Mark),
        (7, b'1', Version),
        (7, b'3', Version),
        (8, 6, Part(0)),
        (12, 0, Part(0)),
        (12, 1, Part(1)),
        (12, 2, Part(2)),
        (12, 255, Short),
        (16, 2, Part(0)),
        (20, 1, Part(0)),
        (24, 118, Row(0)),
        (31, 1, Part(0)),
        (32, 113, Part(0)),
        (40, 3, Part(1)),
        (44, 8, Part(1)),
        (49, 1, Part(1)),
        (56, 0, Part(1)),
        (56, 88, Span(10)),
        (56, 95, Part(1)),
        (63, 255, Part(1)),
        (64, 2, Part(2)),
        (68, 28, Cell(4)),
        (68, 128, Part(2)),
        (72, 70, Part(2)),
        (80, 31, Part(2)),
        (87, 255, Part(2)),
        (117, 1, Row(0)),
        (121, 33, Row(0)),
        (137, 8, Row(1)),
        (141, 0, Row(1)),
        (141, 2, Row(1)),
        (157, 3, Row(2)),
        (229, 1, Span(0)),
        (233, 1, Span(0)),
        (237, 1, Span(0)),
        (240, 9, Span(1)),
        (240, 11, Span(0)),
        (241, 3, Span(1)),
        (248, 9, Span(1)),
        (321, 6, Span(11)),
        (321, 8, Span(11)),
        (325, 0, Cell(0)),
        (325, 2, Cell(0)),
        (329, 5, Cell(1)),
        (353, 11, Cell(7)),
        (353, 12, Cell(7)),
    ];
    for (at, byte, error) in SPOILT {
        let spoilt = spoilt(&stored(), at, byte);
        assert_eq!(checked4(&spoilt), Err(error), "{at} {byte}");
    }
}

#[test]
fn check_tells_where_an_image_is_cut() {
    let stored = stored();
    // The list ends at 112, the rows at 229, the spans at 325, and the cells with the image.
    for end in 0..stored.len() {
        let error = match end {
            0..112 => ImageError::Short,
            112..229 => ImageError::Part(0),
            229..325 => ImageError::Part(1),
            _ => ImageError::Part(2),
        };
        assert_eq!(checked4(&stored[..end]), Err(error), "{end}");
    }
}

#[test]
fn payload_is_the_first_part_of_the_users_own() {
    let stored = stored();
    assert_eq!(payload(&stored), Some((112, 5)));
    assert_eq!(payload(&stored[..117]), Some((112, 5)));
    assert_eq!([&stored[..116], &stored_wide(), &[]].map(payload), [None; 3]);
    assert_eq!(payload(&spoilt(&stored, 40, 3)), Some((229, 96)));
    assert_eq!(payload(&spoilt(&stored, 103, 1)), None);
    // Of 65 listed parts, none with a byte, the last alone is of kind 3, and then the one before it
    // too.
    let mut many = [0; 16 + 24 * 65];
    many[12] = 65;
    many[16 + 24 * 64] = 3;
    assert_eq!(payload(&many), None);
    many[16 + 24 * 63] = 3;
    assert_eq!(payload(&many), Some((0, 0)));
}

#[test]
fn longest_around_in_stored_images() {
    const AROUND: [(u32, u32, Option<usize>); 15] = [
        (0x0000_0000, 0, None),
        (0x0a00_0000, 7, None),
        (0x0a00_0000, 8, Some(0)),
        (0x0a00_0000, 15, Some(0)),
        (0x0a00_0000, 16, Some(1)),
        (0x0a01_0000, 17, Some(2)),
        (0x0a01_0200, 23, Some(2)),
        (0x0a01_0200, 24, Some(3)),
        (0x0a01_0203, 32, Some(3)),
        (0x0a02_0000, 16, Some(0)),
        (0x8000_0000, 1, None),
        (0x8000_0000, 2, Some(4)),
        (0xa000_0000, 3, Some(4)),
        (0xffff_fffe, 31, None),
        (0xffff_ffff, 32, Some(6)),
    ];
    const WIDE_AROUND: [(u128, u32, usize); 7] = [
        (0, 0, 0),
        (DOCUMENTS, 31, 0),
        (DOCUMENTS, 40, 1),
        (DOCUMENTS, 64, 2),
        (DOCUMENTS + (1 << 64), 64, 3),
        (0xfe80 << 112, 9, 0),
        (0xfe80 << 112, 10, 4),
    ];
    for (first, bits, index) in AROUND {
        let found = table4(&stored()).longest_around(first.into(), bits);
        assert_eq!(found, index, "{first:x} {bits}");
    }
    for (first, bits, index) in WIDE_AROUND {
        let found = table6(&stored_wide()).longest_around(first.into(), bits);
        assert_eq!(found, Some(index), "{first:x} {bits}");
    }
    // The link of 10.1.2.0/24 leads to itself.
    let wrong = spoilt(&stored(), 173, 4);
    let table = Table::<Ipv4Addr>::open(&wrong).unwrap();
    assert_eq!(table.longest_around(Ipv4Addr::from(0x0a01_0200), 23), None);
}

#[test]
fn get_below_and_longest_matches_in_a_stored_image() {
    let stored = stored();
    let (table, first) = (table4(&stored), Ipv4Addr::new(10, 0, 0, 0));
    let found = [8, 16, 9].map(|bits| table.get(first, bits));
    assert_eq!(found, [Some(0), Some(1), None]);
    assert_eq!(table.below(first, 8), (0, 4));
    assert_eq!(table.below(first, 15), (1, 3));
    assert_eq!(table.below(Ipv4Addr::UNSPECIFIED, 0), (0, 7));
    let mut found = [9; 4];
    let count = longest_matches(&stored, &[0xffff_ffff, 1, 0x0a01_0203], &mut found);
    assert_eq!((count, found), (3, [7, 0, 4, 9]));
}

#[test]
fn longest_values_go_as_far_as_the_shortest() {
    let (mut found, mut values) = ([9; 3], [9; 4]);
    let asked = [0xffff_ffff, 1, 0x0a01_0203];
    let count = ipv4::longest_values(&stored(), &asked, &mut found, &mut values);
    assert_eq!((count, found, values), (3, [7, 0, 4], [ROWS[6][3], 0, ROWS[3][3], 9]));
    assert_eq!(ipv4::longest_values(&stored(), &asked, &mut found, &mut values[..1]), 1);
    assert_eq!(ipv4::longest_values(&[], &asked, &mut found, &mut values), 0);
}

/// A row that is to be written.
fn row(first: u32, bits: u32, value: u32) -> ipv4::Row {
    ipv4::Row { first, bits, link: 0, value }
}

fn rows() -> [ipv4::Row; 7] {
    ROWS.map(|[first, bits, _, value]| row(first, bits, value))
}

#[test]
fn write_lays_out_rows_and_a_payload() {
    let mut out = [7; 353];
    assert_eq!(write(&rows(), b"hello", &mut out), Ok(325));
    assert!(out.starts_with(&plain()) && out[325..] == [7; 28]);
    assert_eq!(payload(&out), Some((320, 5)));
    assert!([&out[..], &out[..325]].iter().all(|it| checked4(it).is_ok()));
    assert_eq!(write(&rows(), b"hello", &mut [0; 348]), Err(WriteError::Short));
    let mut whole = [0; 344];
    assert_eq!(write(&rows(), b"", &mut whole), Ok(320));
    assert!(payload(&whole) == Some((320, 0)) && checked4(&whole[..320]).is_ok());
}

#[test]
fn write_of_no_row() {
    let mut out = [0; 120];
    assert_eq!(write::<ipv4::Row>(&[], b"", &mut out), Ok(120));
    assert!(checked4(&out) == Ok(()) && table4(&out).is_empty());
    assert_eq!(table4(&out).longest_match(Ipv4Addr::UNSPECIFIED), None);
    assert_eq!(checked6(&out), Err(ImageError::Mark));
    let mut out = [0; 132];
    assert_eq!(write::<ipv6::Row>(&[], b"", &mut out), Ok(124));
    assert_eq!(checked6(&out[..124]), Ok(()));
    assert_eq!(table6(&out).longest_match(Ipv6Addr::UNSPECIFIED), None);
}

/// The most bytes that so many rows of IPv4 take: those of the head, a row, two spans for each and
/// one more, and the cells.
#[test]
fn image_len_by_rows_and_payload() {
    const MOST: usize = usize::MAX;
    const LENGTHS: [(usize, usize, Option<usize>); 15] = [
        (0, 0, Some(120)),
        (7, 5, Some(349)),
        (255, 0, Some(8_280)),
        (256, 0, Some(8_824)),
        (511, 0, Some(16_984)),
        (512, 0, Some(17_528)),
        (600, 3, Some(20_347)),
        (2_097_152, 0, Some(71_303_288)),
        (4_194_304, 0, Some(142_606_456)),
        (2_147_483_647, 0, Some(68_727_865_432)),
        (2_147_483_648, 0, Some(68_719_476_856)),
        (4_294_967_295, 0, Some(137_438_953_560)),
        (4_294_967_296, 0, None),
        (0, MOST - 120, Some(MOST)),
        (0, MOST - 119, None),
    ];
    for (rows, own, len) in LENGTHS {
        assert_eq!(image_len::<ipv4::Row>(rows, own), len, "{rows} {own}");
    }
    assert_eq!(image_len::<ipv6::Row>(5, 1), Some(493));
}

#[test]
fn write_refuses_rows_out_of_order() {
    const CHANGED: [(usize, u32, u32); 6] = [
        (0, 0x0a00_0000, 33),
        (0, 0x0a00_0001, 8),
        (1, 0x0a00_0000, 8),
        (2, 0x0a00_0000, 15),
        (3, 0x0901_0200, 24),
        (6, 0xffff_ffff, 31),
    ];
    let mut out = [7; 349];
    for (at, first, bits) in CHANGED {
        let mut rows = rows();
        rows[at] = row(first, bits, 0);
        let refused = Err(WriteError::OutOfOrder(at));
        assert_eq!(write(&rows, b"hello", &mut out), refused, "{at}");
    }
    assert_eq!(out, [7; 349]);
}

#[test]
fn write_of_ipv6_rows() {
    let rows = [
        (0, 0),
        (DOCUMENTS, 32),
        (DOCUMENTS, 48),
        (DOCUMENTS + (1 << 64), 64),
        (0xfe80 << 112, 10),
    ];
    let rows = std::array::from_fn::<_, 5, _>(|at| {
        let (first, bits) = rows[at];
        ipv6::Row { first: u128::to_be_bytes(first), bits, link: 0, value: 100 + at as u64 }
    });
    let mut out = [0; 492];
    assert_eq!(write(&rows, b"", &mut out), Ok(368));
    assert_eq!(out[112..368], stored_wide()[88..344]);
    let addresses = [0, DOCUMENTS + (1 << 64)].map(u128::to_be_bytes);
    let mut found = [9; 2];
    let count = longest_matches(&out, &addresses, &mut found);
    assert_eq!((count, found), (2, [1, 4]));
    let (mut again, mut values) = ([9; 2], [9; 2]);
    let count = ipv6::longest_values(&out, &addresses, &mut again, &mut values);
    assert_eq!((count, again, values), (2, found, [100, 103]));
}

#[test]
fn write_of_ipv6_rows_of_more_than_64_bits() {
    let host = (DOCUMENTS + 1).to_be_bytes();
    let rows = [ipv6::Row { first: host, bits: 128, link: 0, value: 9 }];
    let mut out = [0; 204];
    assert_eq!(write(&rows, b"", &mut out), Ok(204));
    // Three spans, of whole addresses: up to the host, itself, and behind it.
    let spans = [0, 0, 0, 0, 0, 1, 0, 0, 0x2001_0db8, 1, 2, 0, 0, 0x2001_0db8, 0];
    assert_eq!((&out[44..45], &out[144..]), (&[16][..], &bytes_of(&spans)[..]));
    let asked = [DOCUMENTS, DOCUMENTS + 1, DOCUMENTS + 2].map(Ipv6Addr::from);
    let found = asked.map(|address| table6(&out).longest_match(address));
    assert_eq!(found, [None, Some(0), None]);
    assert_eq!(checked6(&spoilt(&out, 44, 4)), Err(ImageError::Part(1)));
}

#[test]
fn write_makes_cells_for_many_rows() {
    let rows: Vec<_> = (0..600).map(|at| row(at << 8, 24, at)).collect();
    let mut out = vec![0; image_len::<ipv4::Row>(600, 3).unwrap()];
    let len = write(&rows, b"end", &mut out).unwrap();
    assert!(checked4(&out).is_ok() && out[..len].ends_with(b"end"));
    assert_eq!(payload(&out), Some((len - 3, 3)));
    // A span for each row and one behind, and cells of 2^10 addresses: what 8 bits leave of 18.
    assert_eq!(len, 112 + 16 * 600 + 8 * 601 + 4 * 151 + 3);
    let table = table4(&out);
    for at in 0..600u32 {
        assert_eq!(table.longest_match(((at << 8) + 255).into()), Some(at as usize));
    }
    assert_eq!(table.longest_match((600 << 8).into()), None);
}

/// The cells begin with 10.0.0.0, and the last one's block holds all that lies behind.
#[test]
fn addresses_in_front_of_the_cells_and_behind_them() {
    const FOUND: [(u32, u32); 9] = [
        (0, 0),
        (0x09ff_ffff, 0),
        (0x0a00_0000, 1),
        (0x0a00_01ff, 2),
        (0x0a02_57ff, 600),
        (0x0a02_5800, 0),
        (0x0aff_ffff, 0),
        (0x8000_0000, 0),
        (u32::MAX, 0),
    ];
    let rows: Vec<_> = (0..600).map(|at| row(0x0a00_0000 + (at << 8), 24, at)).collect();
    let mut out = vec![0; image_len::<ipv4::Row>(600, 0).unwrap()];
    let len = write(&rows, b"", &mut out).unwrap();
    let table = table4(&out[..len]);
    for (address, found) in FOUND {
        let index = table.longest_match(address.into());
        assert_eq!(index, found.checked_sub(1).map(|at| at as usize), "{address:x}");
    }
    let mut found = [9; 9];
    assert_eq!(longest_matches(&out[..len], &FOUND.map(|it| it.0), &mut found), 9);
    assert_eq!(found, FOUND.map(|it| it.1));
}

#[test]
fn to_image_and_from_image_of_a_table() {
    let row = |[first, bits, _, value]: [u32; 4]| {
        (Network::new(first.into(), bits as u8).unwrap(), value)
    };
    let table = FrozenRoutes::from_sorted(list(ROWS.map(row))).unwrap();
    let image = ipv4::to_image(Global, &table, b"hello").unwrap();
    assert_eq!(*image, *plain());
    let again = ipv4::from_image(Global, &image).ok().unwrap();
    assert!(again.rows() == table.rows());
    let refused = ipv4::from_image(Global, &spoilt(&stored(), 141, 0)).err();
    assert_eq!(refused, Some(TableError::Image(ImageError::Row(1))));
}

#[test]
fn from_image_and_to_image_of_a_table_of_ipv6() {
    let table = ipv6::from_image(Global, &stored_wide()).ok().unwrap();
    let found = table.longest_match(&Ipv6Addr::from_bits((0xfe80 << 112) + 1));
    assert!(table.len() == 5 && found.is_some_and(|(_, value)| *value == 104));
    let image = ipv6::to_image(Global, &table, b"").unwrap();
    assert_eq!((image.len(), &image[112..]), (368, &stored_wide()[88..344]));
    let refused = ipv6::from_image(Global, &stored()).err();
    assert_eq!(refused, Some(TableError::Image(ImageError::Mark)));
}
