//! Routing tables: by hand, and beside a search through all rows.
mod common;

use common::{Random, assert_both_ends, assert_kept, flipped, image, image_of_many_parts, spoilt};
use nifazombi::{Address, Change, ImageError, Route, Routes, WriteError, routes_image};
use std::net::{Ipv4Addr, Ipv6Addr};

/// 10.0.0.0/8, 10.1.0.0/16 and 192.0.2.0/24: each by its first address, its bits, the index and one
/// more of the row of the network around it, and its value.
const ROWS: [[u32; 4]; 3] =
    [[0x0a00_0000, 8, 0, 100], [0x0a01_0000, 16, 1, 101], [0xc000_0200, 24, 0, 102]];

/// Whether a row's network holds an address.
fn is_in([first, bits, ..]: &[u32; 4], address: u32) -> bool {
    *bits == 0 || *bits <= 32 && (first ^ address) >> (32 - bits) == 0
}

/// The spans of rows: where another network from then on is the longest, and the index and one more
/// of its row, or 0.
fn spans_of(rows: &[[u32; 4]]) -> Vec<u32> {
    let ends = rows.iter().map(|row| u64::from(row[0]) + (1u64 << (32 - row[1].min(32))));
    let firsts = rows.iter().map(|row| row[0].into());
    let mut edges: Vec<_> = ends.chain(firsts).chain([0]).flat_map(u32::try_from).collect();
    edges.sort();
    edges.dedup();
    let answer = |edge| rows.iter().rposition(|row| is_in(row, edge)).map_or(0, |at| at as u32 + 1);
    let mut spans: Vec<_> = edges.into_iter().map(|edge| [edge, answer(edge)]).collect();
    spans.dedup_by_key(|span| span[1]);
    spans.concat()
}

/// The image of rows, with these cells of 2^31 addresses.
fn image_of(rows: &[[u32; 4]], cells: &[u32]) -> Vec<u8> {
    let spans = spans_of(rows);
    let sizes = [16 * rows.len() as u32, 4 * spans.len() as u32, 4 * cells.len() as u32];
    let (spans_at, cells_at) = (88 + sizes[0], 88 + sizes[0] + sizes[1]);
    let head = [rows.len() as u32, 3, 1, 0, 88, 0, sizes[0], 0];
    let rest = [2, 4, spans_at, 0, sizes[1], 0, 5, 31, cells_at, 0, sizes[2], 0];
    image(b"NZIPV4.2", &[&head[..], &rest, rows.as_flattened(), &spans, cells].concat())
}

/// The image of rows, with no cells and nothing else.
fn image_by_hand(rows: &[[u32; 4]]) -> Vec<u8> {
    image_of(rows, &[])
}

/// That of `ROWS` with two cells: 10.0.0.0 lies in the second span, and the address 2^31 behind it
/// in the fifth.
fn image_with_cells() -> Vec<u8> {
    image_of(&ROWS, &[1, 4])
}

/// ::/0 and 2001:db8::/32.
fn wide_image_by_hand() -> Vec<u8> {
    let head = [2, 3, 1, 0, 88, 0, 64, 0, 2, 8, 152, 0, 36, 0, 5, 0, 188, 0, 0, 0];
    let rows = [[0, 0, 0, 0, 0, 0, 7, 0], [0, 0, 0, 0x2001_0db8, 32, 1, 8, 1]];
    let spans = [0, 0, 1, 0, 0x2001_0db8, 2, 0, 0x2001_0db9, 1];
    image(b"NZIPV6.2", &[&head[..], rows.as_flattened(), &spans].concat())
}

fn route(network: &str, bits: u8, value: u64) -> Route<Ipv4Addr> {
    Route::new(network.parse().unwrap(), bits, value)
}

/// Why bytes are no image of IPv4 networks.
fn fault(bytes: &[u8]) -> Option<ImageError> {
    Routes::<Ipv4Addr>::new(bytes).err()
}

#[test]
fn payload_is_kept_from_the_check_on() {
    // One span, of twelve bytes of the list that are 0.
    let mut image = image_of_many_parts(b"NZIPV6.2", &[1, 2, 5]);
    (image[44], image[48], image[56]) = (8, 20, 12);
    let routes = Routes::<Ipv6Addr>::new(&image).unwrap();
    let unchecked = Routes::<Ipv6Addr>::unchecked(&image);
    assert_kept(|| routes.payload().is_empty(), || unchecked.payload().is_empty());
}

#[test]
fn longest_match_index_by_hand() {
    const LOOKS: [(&str, Option<usize>); 8] = [
        ("0.0.0.0", None),
        ("10.0.255.255", Some(0)),
        ("10.1.0.0", Some(1)),
        ("10.1.255.255", Some(1)),
        ("10.2.0.0", Some(0)),
        ("11.0.0.0", None),
        ("192.0.2.255", Some(2)),
        ("255.255.255.255", None),
    ];
    for image in [image_by_hand(&ROWS), image_with_cells()] {
        let routes = Routes::<Ipv4Addr>::new(&image).unwrap();
        for (address, index) in LOOKS {
            let found = routes.longest_match_index(address.parse().unwrap());
            assert_eq!(found, index, "{address}");
        }
    }
}

#[test]
fn get_and_all_other_calls_by_hand() {
    let image = image_by_hand(&ROWS);
    let routes = Routes::<Ipv4Addr>::new(&image).unwrap();
    let wide = route("10.0.0.0", 8, 100);
    let long = route("10.1.0.0", 16, 101);
    let other = route("192.0.2.0", 24, 102);
    assert_eq!(routes.longest_match(Ipv4Addr::new(10, 1, 2, 3)), Some(long));
    assert_eq!(
        [0, 1, 2, 3].map(|at| routes.route_at(at)),
        [Some(wide), Some(long), Some(other), None]
    );
    assert_eq!(routes.get(long.network, 16), Some(long));
    assert_eq!(routes.get(long.network, 17), None);
    assert_eq!(routes.get(Ipv4Addr::new(10, 1, 0, 1), 16), None);
    let around = [7, 8, 15, 16, 32].map(|bits| routes.longest_around(long.network, bits));
    assert_eq!(around, [None, Some(wide), Some(wide), Some(long), Some(long)]);
    assert_both_ends(routes.common_prefixes(Ipv4Addr::new(10, 1, 2, 3)), &[wide, long]);
    assert_both_ends(routes.common_prefixes(Ipv4Addr::new(11, 0, 0, 0)), &[]);
    assert_eq!([0, 1, 2, 3].map(|at| routes.above(at)), [None, Some(0), None, None]);
    assert_both_ends(routes.below(Ipv4Addr::new(10, 0, 0, 0), 8), &[wide, long]);
    assert_both_ends(routes.below(Ipv4Addr::new(10, 1, 2, 3), 9), &[long]);
    assert_both_ends(routes.below(Ipv4Addr::new(10, 1, 0, 0), 17), &[]);
    assert_both_ends(routes.iter(), &[wide, long, other]);
    assert!(routes.into_iter().eq(&routes));
    assert_eq!((routes.len(), routes.is_empty(), routes.payload()), (3, false, &b""[..]));
    assert_eq!(format!("{wide} {other}"), "10.0.0.0/8 192.0.2.0/24");
}

#[test]
fn common_prefixes_end_in_bytes_whose_links_are_too_many() {
    let rows: Vec<_> = (0..200).map(|at| [0, 0, at, at]).collect();
    let image = image_by_hand(&rows);
    assert_eq!(fault(&image), Some(ImageError::Row(1)));
    let around = Routes::<Ipv4Addr>::unchecked(&image).common_prefixes(Ipv4Addr::UNSPECIFIED);
    let values: Vec<_> = around.clone().map(|it| it.value).collect();
    assert_eq!(values, (71..200).collect::<Vec<_>>());
    assert!(around.rev().map(|it| it.value).eq((71..200).rev()));
}

#[test]
fn longest_matches_and_other_calls_of_ipv6_by_hand() {
    let image = wide_image_by_hand();
    assert_eq!(fault(&image), Some(ImageError::Mark));
    let routes = Routes::<Ipv6Addr>::new(&image).unwrap();
    let all = Route::new(Ipv6Addr::UNSPECIFIED, 0, 7);
    let documents = Route::new("2001:db8::".parse().unwrap(), 32, (1 << 32) + 8);
    assert_both_ends(routes.into_iter(), &[all, documents]);
    assert_eq!(routes.longest_match(Ipv6Addr::LOCALHOST), Some(all));
    let address = "2001:db8::1".parse().unwrap();
    assert_both_ends(routes.common_prefixes(address), &[all, documents]);
    assert_eq!([0, 1].map(|at| routes.above(at)), [None, Some(0)]);
    assert_eq!(routes.get(documents.network, 32), Some(documents));
    let addresses = [address, Ipv6Addr::LOCALHOST].map(|it| it.octets());
    let mut found = [9; 3];
    assert_eq!(routes.longest_matches(&addresses, &mut found), 2);
    assert_eq!(found, [2, 1, 9]);
}

#[test]
fn new_tells_what_another_byte_breaks() {
    use ImageError::*;
    const SPOILT: [(usize, u8, ImageError); 28] = [
        (0, b'M', Mark),
        (5, b'6', Mark),
        (7, b'1', Version),
        (8, 4, Part(0)),
        (12, 0, Part(0)),
        (12, 1, Part(1)),
        (12, 2, Part(2)),
        (12, 200, Short),
        (16, 2, Part(0)),
        (20, 1, Part(0)),
        (24, 145, Part(0)),
        (31, 255, Part(0)),
        (32, 47, Part(0)),
        (40, 1, Part(1)),
        (44, 16, Part(1)),
        (48, 137, Part(1)),
        (56, 55, Part(1)),
        (64, 2, Part(2)),
        (68, 128, Part(2)),
        (72, 193, Part(2)),
        (88, 1, Row(0)),
        (92, 33, Row(0)),
        (107, 9, Row(1)),
        (112, 0, Row(1)),
        (128, 2, Row(2)),
        (136, 1, Span(0)),
        (147, 9, Span(1)),
        (148, 2, Span(1)),
    ];
    for (at, byte, error) in SPOILT {
        assert_eq!(fault(&spoilt(&image_by_hand(&ROWS), at, byte)), Some(error), "{at}");
    }
    for (at, cell) in [(192, 0), (196, 1)] {
        assert_eq!(fault(&spoilt(&image_with_cells(), at, 9)), Some(Cell(cell)), "{at}");
    }
    assert_eq!(Part(1).to_string(), "no image: part 1 is missing or out of place");
}

#[test]
fn new_tells_where_an_image_ends_early() {
    let image = image_by_hand(&ROWS);
    for end in 0..image.len() {
        let error = match end {
            0..88 => ImageError::Short,
            88..136 => ImageError::Part(0),
            _ => ImageError::Part(1),
        };
        assert_eq!(fault(&image[..end]), Some(error), "{end}");
    }
}

#[test]
fn route_at_of_more_bits_than_a_byte_tells() {
    let spoilt = spoilt(&image_by_hand(&ROWS), 93, 1);
    let routes = Routes::<Ipv4Addr>::unchecked(&spoilt);
    assert_eq!(routes.route_at(0), Some(route("10.0.0.0", u8::MAX, 100)));
}

/// The first of these rows that is no network, doesn't come after the one before it, or has another
/// link.
fn first_wrong(rows: &[[u32; 4]; 3]) -> Option<usize> {
    (0..rows.len()).find(|&at| {
        let [first, bits, link, _] = rows[at];
        let is_network = bits <= 32 && (u64::from(first) << bits) as u32 == 0;
        let is_next = at == 0 || (rows[at - 1][0], rows[at - 1][1]) < (first, bits);
        let around = rows[..at].iter().rposition(|row| is_in(row, first));
        !is_network || !is_next || link as usize != around.map_or(0, |it| it + 1)
    })
}

#[test]
fn new_tells_each_flipped_bit_of_the_rows() {
    for bit in 0..8 * 48 {
        let mut rows = ROWS;
        rows.as_flattened_mut()[bit / 32] ^= 1 << (bit % 32);
        let wrong = first_wrong(&rows).map(ImageError::Row);
        assert_eq!(fault(&image_by_hand(&rows)), wrong, "{bit}");
    }
}

/// An address as a number.
trait Number: Address {
    const WIDTH: u32;
    fn of(number: u128) -> Self;
    fn number(self) -> u128;
}

impl Number for Ipv4Addr {
    const WIDTH: u32 = 32;

    fn of(number: u128) -> Ipv4Addr {
        (number as u32).into()
    }

    fn number(self) -> u128 {
        u32::from(self).into()
    }
}

impl Number for Ipv6Addr {
    const WIDTH: u32 = 128;

    fn of(number: u128) -> Ipv6Addr {
        number.into()
    }

    fn number(self) -> u128 {
        self.into()
    }
}

/// The first address of the network of so many bits that holds an address.
fn network_of<A: Number>(address: A, bits: u8) -> A {
    let first_bits = u128::MAX.checked_shl(A::WIDTH - u32::from(bits)).unwrap_or(0);
    A::of(address.number() & first_bits)
}

fn holds<A: Number>(route: &Route<A>, address: A) -> bool {
    network_of(address, route.bits) == route.network
}

/// An address near one of few, so that networks lie within each other.
fn random_address<A: Number>(random: &mut Random) -> A {
    let near = [0, u128::MAX, 0xc0a8 << 112, 0x2001_0db8 << 96][random.below(4)];
    let number = u128::from(random.next()) << 64 | u128::from(random.next());
    A::of((near ^ number >> random.below(128)) >> (128 - A::WIDTH))
}

fn random_bits<A: Number>(random: &mut Random) -> u8 {
    random.below(A::WIDTH as usize + 1) as u8
}

/// So many routes of random networks, or somewhat fewer, in order.
fn random_table<A: Number>(random: &mut Random, count: usize) -> Vec<Route<A>> {
    let mut table: Vec<_> = (0..count)
        .map(|value| {
            let bits = random_bits::<A>(random);
            Route::new(network_of(random_address(random), bits), bits, value as u64)
        })
        .collect();
    table.sort();
    table.dedup_by_key(|route| (route.network, route.bits));
    table
}

fn compare_lookups<A: Number>(routes: Routes<A>, table: &[Route<A>], address: A) {
    let mut around = table.to_vec();
    around.retain(|it| holds(it, address));
    let longest = around.last().copied();
    assert_eq!(routes.longest_match(address), longest);
    let index = routes.longest_match_index(address);
    assert_eq!(index.and_then(|at| routes.route_at(at)), longest);
    let climb = std::iter::successors(index, |at| routes.above(*at));
    assert!(climb.map(|at| routes.route_at(at)).eq(around.iter().rev().copied().map(Some)));
    assert_both_ends(routes.common_prefixes(address), &around);
}

fn compare_networks<A: Number>(routes: Routes<A>, table: &[Route<A>], address: A, bits: u8) {
    let network = Route::new(network_of(address, bits), bits, 0);
    let mut below = table.to_vec();
    below.retain(|it| it.bits >= bits && holds(&network, it.network));
    assert_both_ends(routes.below(address, bits), &below);
    below.retain(|it| it.bits == bits);
    assert_eq!(routes.get(network.network, bits), below.first().copied());
    let mut around = table.to_vec();
    around.retain(|it| it.bits <= bits && holds(it, address));
    assert_eq!(routes.longest_around(address, bits), around.last().copied());
}

fn compare_with_a_search_through_all<A: Number>(count: usize) {
    let mut random = Random::new(count as u64);
    let table = random_table::<A>(&mut random, count);
    let image = routes_image(&table, b"payload").unwrap();
    let routes = Routes::<A>::new(&image).unwrap();
    assert_both_ends(routes.iter(), &table);
    assert_eq!(routes.payload(), b"payload");
    for _ in 0..500 {
        let address = random_address(&mut random);
        compare_lookups(routes, &table, address);
        compare_networks(routes, &table, address, random_bits::<A>(&mut random));
    }
    for route in &table {
        compare_networks(routes, &table, route.network, route.bits);
    }
}

#[test]
fn longest_match_and_all_other_calls_beside_a_search_through_all() {
    for count in [0, 1, 7, 60, 200, 400] {
        compare_with_a_search_through_all::<Ipv4Addr>(count);
        compare_with_a_search_through_all::<Ipv6Addr>(count);
    }
}

#[test]
fn longest_matches_of_many_addresses() {
    let mut random = Random::new(1);
    let image = routes_image(&random_table::<Ipv4Addr>(&mut random, 300), b"").unwrap();
    let routes = Routes::<Ipv4Addr>::new(&image).unwrap();
    let addresses: Vec<u32> =
        (0..500).map(|_| random_address::<Ipv4Addr>(&mut random).into()).collect();
    let mut found = vec![0; 500];
    assert_eq!(routes.longest_matches(&addresses, &mut found), 500);
    let (mut again, mut values) = (vec![0; 500], vec![0; 500]);
    assert_eq!(routes.longest_values(&addresses, &mut again, &mut values), 500);
    assert_eq!(again, found);
    for (address, (found, value)) in addresses.iter().zip(found.into_iter().zip(values)) {
        let index = routes.longest_match_index((*address).into());
        assert_eq!(found as usize, index.map_or(0, |at| at + 1));
        let route = routes.longest_match((*address).into());
        assert_eq!(u64::from(value), route.map_or(0, |route| route.value));
    }
    assert_eq!(routes.longest_matches(&addresses, &mut [0; 3]), 3);
    assert_eq!(routes.longest_matches(&[], &mut [0; 3]), 0);
}

/// Calls everything on bytes that may be no image. The answers may be any.
fn call_all<A: Number>(bytes: &[u8], random: &mut Random) {
    let routes = Routes::<A>::unchecked(bytes);
    let is_image = Routes::<A>::new(bytes).is_ok();
    for _ in 0..4 {
        let address = random_address(random);
        let bits = random.below(256) as u8;
        let index = routes.longest_match_index(address);
        assert_eq!(routes.longest_match(address), index.and_then(|at| routes.route_at(at)));
        assert!(index.is_none_or(|at| at < routes.len()));
        let around = routes.common_prefixes(address);
        assert!(around.len() <= routes.len().min(129));
        assert!(around.clone().rev().eq(around.collect::<Vec<_>>().into_iter().rev()));
        assert!(index.is_none_or(|at| routes.above(at).is_none_or(|up| up < at)));
        assert!(routes.longest_around(address, bits).is_none() || !routes.is_empty());
        let own = routes.get(address, bits);
        assert!(own.is_none_or(|it| (it.network, it.bits) == (address, bits)));
        let below = routes.below(address, bits);
        assert_eq!(below.len(), below.rev().count());
    }
    assert_eq!(routes.iter().count(), routes.len());
    assert!(!is_image || routes.iter().is_sorted());
    assert!(routes.payload().len() <= bytes.len());
    assert!(format!("{routes:?}").starts_with('['));
}

fn call_all_on_what_is_nearly_an_image<A: Number>() {
    let mut random = Random::new(2);
    let small = routes_image(&random_table::<A>(&mut random, 5), b"seven").unwrap();
    for bit in 0..8 * small.len() {
        call_all::<A>(&flipped(&small, bit), &mut random);
    }
    let own_at = small.len() - b"seven".len();
    for end in 0..small.len() {
        call_all::<A>(&small[..end], &mut random);
        assert_eq!(Routes::<A>::new(&small[..end]).is_ok(), end >= own_at);
        assert_eq!(Routes::<A>::unchecked(&small[..end]).payload(), b"");
    }
    let large = routes_image(&random_table::<A>(&mut random, 300), b"").unwrap();
    for _ in 0..300 {
        call_all::<A>(&flipped(&large, random.below(8 * large.len())), &mut random);
        call_all::<A>(&large[..random.below(large.len())], &mut random);
    }
    for _ in 0..300 {
        let mut bytes: Vec<u8> = (0..random.below(400)).map(|_| random.next() as u8).collect();
        let kept = random.below(65).min(bytes.len());
        bytes[..kept].copy_from_slice(&small[..kept]);
        call_all::<A>(&bytes, &mut random);
    }
}

#[test]
fn unchecked_takes_any_bytes() {
    call_all_on_what_is_nearly_an_image::<Ipv4Addr>();
    call_all_on_what_is_nearly_an_image::<Ipv6Addr>();
}

#[test]
fn routes_image_refuses_what_is_no_table() {
    use WriteError::*;
    let (wide, long) = (route("10.0.0.0", 8, 1), route("10.0.0.0", 16, 2));
    let refused = |table: &[_]| routes_image(table, b"").err();
    assert_eq!(refused(&[]), None);
    assert_eq!(refused(&[wide, long]), None);
    assert_eq!(refused(&[long, wide]), Some(OutOfOrder(1)));
    assert_eq!(refused(&[wide, wide]), Some(OutOfOrder(1)));
    assert_eq!(refused(&[wide, route("10.0.0.1", 31, 1)]), Some(OutOfOrder(1)));
    assert_eq!(refused(&[route("10.0.0.0", 33, 1)]), Some(OutOfOrder(0)));
    assert_eq!(refused(&[route("10.0.0.0", 8, u32::MAX.into())]), None);
    assert_eq!(refused(&[wide, route("10.0.0.0", 9, 1 << 32)]), Some(Value(1)));
    let far = Route::new(Ipv6Addr::UNSPECIFIED, 129, u64::MAX);
    assert_eq!(routes_image(&[far], b"").err(), Some(OutOfOrder(0)));
}

#[test]
fn merge_inserts_replaces_and_removes() {
    let change = |route: Route<Ipv4Addr>, value| Change { value, ..at(route) };
    let [wide, long, last] =
        [("10.0.0.0", 8), ("10.0.0.0", 16), ("10.1.0.0", 16)].map(|(it, bits)| route(it, bits, 1));
    let image = routes_image(&[wide, long], b"old").unwrap();
    let changes = [change(wide, None), change(long, Some(2)), change(last, Some(3))];
    let merged = Routes::new(&image).unwrap().merge(&changes, b"new").unwrap();
    let table = [Route { value: 2, ..long }, Route { value: 3, ..last }];
    assert_eq!(merged, routes_image(&table, b"new").unwrap());
    let none = Routes::unchecked(b"no image").merge(&changes, b"new");
    assert_eq!(none, Ok(merged));

    let all = Change { network: Ipv6Addr::UNSPECIFIED, bits: 0, value: Some(u64::MAX) };
    let image = Routes::unchecked(b"").merge(&[all], b"").unwrap();
    assert!(Routes::new(&image).unwrap().iter().eq([Route::new(all.network, 0, u64::MAX)]));
}

#[test]
fn merge_refuses_what_are_no_changes() {
    use WriteError::*;
    let (wide, long) = (at(route("10.0.0.0", 8, 0)), at(route("10.0.0.0", 16, 0)));
    let image = routes_image::<Ipv4Addr>(&[], b"").unwrap();
    let refused = |changes: &[_]| Routes::new(&image).unwrap().merge(changes, b"").err();
    assert_eq!(refused(&[]), None);
    assert_eq!(refused(&[wide, long]), None);
    assert_eq!(refused(&[long, wide]), Some(OutOfOrder(1)));
    assert_eq!(refused(&[wide, wide]), Some(OutOfOrder(1)));
    assert_eq!(refused(&[Change { bits: 33, ..wide }]), Some(OutOfOrder(0)));
    assert_eq!(refused(&[wide, Change { value: Some(1 << 32), ..long }]), Some(Value(1)));
}

/// The change that removes a route.
fn at(route: Route<Ipv4Addr>) -> Change<Ipv4Addr> {
    Change { network: route.network, bits: route.bits, value: None }
}
