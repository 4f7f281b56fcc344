//! Ranges of addresses: the networks that another program makes of them, those of all ranges of few
//! addresses, and rows for a routing table.
use nifazombi::address_ranges::{RangesError, networks_of, rows_of_ranges};
use nifazombi::frozen_routes::FrozenRoutes;
use nifazombi::radix_keys::{Address, Network};
use nifazombi::rattle_std::alloc::Global;
use std::fmt::Debug;
use std::net::{Ipv4Addr, Ipv6Addr};
use std::str::FromStr;

/// Ranges with the networks that `ipaddress.summarize_address_range` of Python makes of them.
const IPV4: &str = "\
10.0.0.1 10.0.0.6 = 10.0.0.1/32 10.0.0.2/31 10.0.0.4/31 10.0.0.6/32
0.0.0.0 255.255.255.255 = 0.0.0.0/0
0.0.0.0 0.0.0.0 = 0.0.0.0/32
255.255.255.255 255.255.255.255 = 255.255.255.255/32
255.255.255.254 255.255.255.255 = 255.255.255.254/31
192.0.2.0 192.0.2.130 = 192.0.2.0/25 192.0.2.128/31 192.0.2.130/32
10.0.0.255 10.0.1.0 = 10.0.0.255/32 10.0.1.0/32
127.255.255.255 128.0.0.0 = 127.255.255.255/32 128.0.0.0/32
1.0.16.0 1.0.31.255 = 1.0.16.0/20
1.0.0.0 1.0.2.255 = 1.0.0.0/23 1.0.2.0/24
203.0.113.3 203.0.113.70 = 203.0.113.3/32 203.0.113.4/30 203.0.113.8/29 203.0.113.16/28 203.0.113.32/27 203.0.113.64/30 203.0.113.68/31 203.0.113.70/32
";

/// Those of IPv6.
const IPV6: &str = "\
:: ffff:ffff:ffff:ffff:ffff:ffff:ffff:ffff = ::/0
:: :: = ::/128
2001:db8::1 2001:db8::6 = 2001:db8::1/128 2001:db8::2/127 2001:db8::4/127 2001:db8::6/128
2001:db8:: 2001:db8::1:ffff = 2001:db8::/111
2001:200:: 2001:200:ffff:ffff:ffff:ffff:ffff:ffff = 2001:200::/32
8000:: ffff:ffff:ffff:ffff:ffff:ffff:ffff:ffff = 8000::/1
ffff:ffff:ffff:ffff:ffff:ffff:ffff:ffff ffff:ffff:ffff:ffff:ffff:ffff:ffff:ffff = ffff:ffff:ffff:ffff:ffff:ffff:ffff:ffff/128
7fff:ffff:ffff:ffff:ffff:ffff:ffff:ffff 8000:: = 7fff:ffff:ffff:ffff:ffff:ffff:ffff:ffff/128 8000::/128
";

/// Compares the networks of ranges with those beside them.
fn compare<A: Address + FromStr<Err: Debug>>(lines: &str) {
    for line in lines.lines() {
        let (range, networks) = line.split_once(" = ").unwrap();
        let (first, last) = range.split_once(' ').unwrap();
        let made = networks_of::<A>(first.parse().unwrap(), last.parse().unwrap());
        let texts: Vec<String> = made.map(|network| network.to_string()).collect();
        assert_eq!(texts.join(" "), networks, "{range}");
    }
}

#[test]
fn networks_are_those_of_another_program() {
    compare::<Ipv4Addr>(IPV4);
    compare::<Ipv6Addr>(IPV6);
}

#[test]
fn no_range_has_more_networks_than_told() {
    assert_eq!(networks_of(Ipv4Addr::from(1), Ipv4Addr::from(u32::MAX - 1)).count(), 62);
    assert_eq!(networks_of(Ipv6Addr::from(1), Ipv6Addr::from(u128::MAX - 1)).count(), 254);
}

/// The first and the last address of a network, as numbers.
fn first_and_last(network: &Network<Ipv4Addr>) -> (u64, u64) {
    let first = network.base().to_number() as u64;
    (first, first + (1 << (32 - network.bits())) - 1)
}

#[test]
fn networks_follow_one_another_through_each_range() {
    for start in [0, 0x0a00_00c0, u32::MAX - 63] {
        for (first, last) in (0..64).flat_map(|first| (0..64).map(move |last| (first, last))) {
            let (first, last) = (start + first, start + last);
            let mut next = u64::from(first);
            let mut walk = networks_of(Ipv4Addr::from(first), Ipv4Addr::from(last));
            for (begin, end) in walk.by_ref().map(|network| first_and_last(&network)) {
                assert_eq!(begin, next, "{first} {last}");
                next = end + 1;
            }
            assert_eq!(next, u64::from(first).max(u64::from(last) + 1), "{first} {last}");
            assert!(walk.next().is_none());
        }
    }
}

/// Ranges of IPv4 from numbers.
fn ranges<const N: usize>(numbers: [(u32, u32); N]) -> [(Ipv4Addr, Ipv4Addr, usize); N] {
    let mut index = 0;
    numbers.map(|(first, last)| {
        index += 1;
        (first.into(), last.into(), index)
    })
}

/// The number of the range of an address, by a table of the ranges.
fn value_of(table: &FrozenRoutes<Ipv4Addr, usize>, address: u32) -> Option<usize> {
    table.longest_match(&Ipv4Addr::from(address)).map(|(_, value)| *value)
}

#[test]
fn a_table_of_ranges_answers_as_they_do() {
    let given = ranges([(3, 3), (5, 17), (18, 40), (100, 355), (1 << 31, u32::MAX)]);
    let table = FrozenRoutes::from_sorted(rows_of_ranges(Global, &given).unwrap()).ok().unwrap();
    for address in (0..400).chain([(1 << 31) - 1, 1 << 31, u32::MAX]) {
        let by_ranges = given
            .iter()
            .find(|(first, last, _)| (*first..=*last).contains(&Ipv4Addr::from(address)));
        assert_eq!(value_of(&table, address), by_ranges.map(|range| range.2), "{address}");
    }
}

/// What is told of ranges of which no rows are made.
fn error_of<const N: usize>(numbers: [(u32, u32); N]) -> Option<RangesError> {
    rows_of_ranges(Global, &ranges(numbers)).err()
}

#[test]
fn the_first_fault_is_told() {
    assert_eq!(error_of([]), None);
    assert_eq!(error_of([(1, 1), (2, 2)]), None);
    assert_eq!(error_of([(2, 1)]), Some(RangesError::Reversed(0)));
    assert_eq!(error_of([(1, 2), (2, 3)]), Some(RangesError::OutOfOrder(1)));
    assert_eq!(error_of([(5, 6), (1, 2)]), Some(RangesError::OutOfOrder(1)));
    assert_eq!(error_of([(1, 5), (7, 6), (7, 7)]), Some(RangesError::Reversed(1)));
    assert_eq!(error_of([(1, 5), (5, 4)]), Some(RangesError::Reversed(1)));
    assert_eq!(error_of([(1, 5), (6, 9), (9, 9), (3, 2)]), Some(RangesError::OutOfOrder(2)));
}

#[test]
fn errors_have_texts() {
    let texts = [
        (RangesError::Memory, "out of memory"),
        (RangesError::Reversed(1), "the range ends before it begins"),
        (RangesError::OutOfOrder(1), "the range doesn't come after the one before it"),
    ];
    for (error, text) in texts {
        assert_eq!(error.to_string(), text);
    }
}
