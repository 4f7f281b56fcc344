//! Tables of networks for reading: answers by hand, tables of many, and tries there and back.
mod common;

use common::list;
use nifazombi::frozen_networks::{freeze, frozen_copy, thaw, thawed_copy};
use nifazombi::frozen_routes::{FrozenRoutes, Room, RouteQuery, SortedWhy};
use nifazombi::radix_keys::{Address, Ipv4Network, Network};
use nifazombi::radix_trie::{BuildError, Trie, TrieCommon};
use nifazombi::rattle_std::alloc::{AllocError, Global};
use nifazombi::rattle_std::clone::Clone as RattleClone;
use nifazombi::rattle_std::vec::Vec as List;
use std::fmt::Write;
use std::net::{Ipv4Addr, Ipv6Addr};

/// The rows of the networks in a text, each with its index.
fn rows_of<A: Address>(networks: &str) -> List<(Network<A>, usize)> {
    let parsed = networks.split_whitespace().map(|text| text.parse().ok().unwrap());
    list(parsed.zip(0..))
}

/// The table of rows that are pushed one by one, or none where one is refused.
fn pushed<A: Address>(
    rows: impl IntoIterator<Item = (Network<A>, usize)>,
) -> Option<FrozenRoutes<A, usize>> {
    let mut table = FrozenRoutes::new(Global);
    for (network, value) in rows {
        table.push(network, value).ok()?;
    }
    table.finish().unwrap();
    Some(table)
}

/// The index of the longest network that holds all of a query.
fn index_of<A: Address, Q: RouteQuery<A>>(
    table: &FrozenRoutes<A, usize>,
    query: &Q,
) -> Option<usize> {
    table.longest_match(query).map(|(_, index)| *index)
}

/// The networks of tables, each known by its index, and what a table answers of a query: of an
/// address the networks that hold it, the shortest first; of a network those that hold all of it,
/// and those within it.
const IPV4: &str = "\
table
10.0.0.0 =
10.0.0.0/8 = /
table 10.0.0.0/8 10.0.0.0/16 10.1.0.0/16 10.1.2.0/24 10.1.2.3/32 255.255.255.255/32
0.0.0.0 =
9.255.255.255 =
10.0.0.0 = 0 1
10.0.255.255 = 0 1
10.1.0.0 = 0 2
10.1.2.2 = 0 2 3
10.1.2.3 = 0 2 3 4
10.1.2.4 = 0 2 3
10.1.3.0 = 0 2
10.2.0.0 = 0
10.255.255.255 = 0
11.0.0.0 =
255.255.255.254 =
255.255.255.255 = 5
table 0.0.0.0/0 10.0.0.0/8 10.0.0.0/16 10.0.1.0/24 10.0.2.0/24 10.1.0.0/16
9.0.0.0 = 0
10.0.1.7 = 0 1 2 3
10.0.2.0 = 0 1 2 4
10.0.3.0 = 0 1 2
10.1.0.1 = 0 1 5
10.2.0.1 = 0 1
table 10.0.0.0/8 10.0.0.0/16 10.1.0.0/16 10.1.2.0/24 11.0.0.0/8
0.0.0.0/0 = / 0 1 2 3 4
10.0.0.0/8 = 0 / 0 1 2 3
10.0.0.0/16 = 0 1 / 1
10.1.0.0/16 = 0 2 / 2 3
10.1.2.0/23 = 0 2 / 3
10.1.2.3/32 = 0 2 3 /
12.0.0.0/8 = /
table 10.0.0.0/8 10.0.0.0/16 10.0.1.0/24 11.0.0.0/8
10.0.0.0/8 = 0 / 0 1 2
10.0.0.0/16 = 0 1 / 1 2
10.0.1.0/24 = 0 1 2 / 2
11.0.0.0/8 = 3 / 3
0.0.0.0/0 = / 0 1 2 3
10.0.0.0/7 = / 0 1 2 3
10.0.0.0/12 = 0 / 1 2
10.0.0.0/24 = 0 1 /
10.0.1.0/32 = 0 1 2 /
12.0.0.0/8 = /
table 10.0.0.0/8 10.1.0.0/16 10.1.2.0/24
0.0.0.0/0 = / 0 1 2
10.0.0.0/7 = / 0 1 2
10.0.0.0/8 = 0 / 0 1 2
10.0.0.0/16 = 0 /
10.1.0.0/16 = 0 1 / 1 2
10.1.2.0/23 = 0 1 / 2
10.1.2.0/24 = 0 1 2 / 2
10.1.2.0/25 = 0 1 2 /
10.1.2.3/32 = 0 1 2 /
11.0.0.0/8 = /
table 0.0.0.0/0 10.0.0.0/8 10.0.0.0/16 10.0.0.0/24 10.0.0.0/32
0.0.0.0/0 = 0 / 0 1 2 3 4
10.0.0.0/7 = 0 / 1 2 3 4
10.0.0.0/12 = 0 1 / 2 3 4
10.0.0.0/16 = 0 1 2 / 2 3 4
10.0.0.0/31 = 0 1 2 3 / 4
10.0.0.0/32 = 0 1 2 3 4 / 4
";

const IPV6: &str = "\
table ::/0 2001:db8::/32 2001:db8::1/128
:: = 0
2001:db8:: = 0 1
2001:db8::1 = 0 1 2
2001:db8::2 = 0 1
2001:db9:: = 0
ffff:ffff:ffff:ffff:ffff:ffff:ffff:ffff = 0
table 2001:db8::/32 2001:db8::/48 2001:db8::1/128
:: =
2001:db8::1 = 0 1 2
2001:db8::2 = 0 1
2001:db8:1:: = 0
";

/// The indices of the networks that hold all of a query, a space before each.
fn around<A: Address, Q: RouteQuery<A>>(table: &FrozenRoutes<A, usize>, query: &Q) -> String {
    let around: Vec<_> = table.common_prefixes(query).map(|(_, index)| *index).collect();
    let back = table.common_prefixes(query).rev().map(|(_, index)| index);
    assert!(back.eq(around.iter().rev()));
    assert_eq!(index_of(table, query), around.last().copied());
    spaced(around)
}

/// The same of those within a network, of whose own row each other call tells the same.
fn within<A: Address>(table: &FrozenRoutes<A, usize>, network: &Network<A>) -> String {
    let rows = table.below(network);
    let own = rows.first().filter(|row| row.0 == *network).map(|row| &row.1);
    assert_eq!(table.get(network), own);
    assert_eq!(table.get_key_value(network).map(|row| row.1), own);
    assert_eq!(table.contains_key(network), own.is_some());
    assert_eq!(table.count_below(network), rows.len());
    spaced(rows.iter().map(|row| row.1))
}

fn spaced(numbers: impl IntoIterator<Item = usize>) -> String {
    numbers.into_iter().fold(String::new(), |mut text, number| {
        write!(text, " {number}").unwrap();
        text
    })
}

/// Asserts that the tables, each of the networks of its first line, answer so of the queries of the
/// others, and have their rows from the first to the last one.
fn assert_answers<A: Address>(tables: &str) {
    for lines in tables.split("table").skip(1) {
        let (networks, queries) = lines.split_once('\n').unwrap();
        let table = pushed(rows_of::<A>(networks)).unwrap();
        let (first, last) = (table.first_key_value(), table.last_key_value());
        assert_eq!(last.map(|row| *row.1), table.len().checked_sub(1));
        assert_eq!(first.map(|row| *row.1), last.map(|_| 0));
        for line in queries.lines() {
            let (query, wanted) = line.split_once(" =").unwrap();
            let answer = match query.parse::<Network<A>>() {
                Ok(network) => around(&table, &network) + " /" + &within(&table, &network),
                Err(_) => around(&table, &A::parse(query).unwrap()),
            };
            assert_eq!(answer, wanted, "{query} of{networks}");
        }
    }
}

#[test]
fn longest_match_and_all_other_calls_of_small_tables() {
    assert_answers::<Ipv4Addr>(IPV4);
    assert_answers::<Ipv6Addr>(IPV6);
}

#[test]
fn from_sorted_and_push_refuse_rows() {
    use SortedWhy::{Full, OutOfOrder};
    const RISING: &str = "9.0.0.0/8 10.0.0.0/8 10.0.0.0/16";
    const TWICE: &str = "9.0.0.0/8 10.0.0.0/8 10.0.0.0/8";
    const FALLING: &str = "10.0.0.0/8 10.1.0.0/16 9.0.0.0/8 8.0.0.0/8";
    const INSIDE_OUT: &str = "10.0.0.0/16 10.0.0.0/8";
    // For how many rows there is room, the networks, and how many rows the table has, or why it
    // isn't made and how many come back.
    type Made = Result<usize, (SortedWhy, usize)>;
    const MADE: [(Option<usize>, &str, Made); 8] = [
        (Some(3), RISING, Ok(3)),
        (Some(300), RISING, Ok(3)),
        (Some(2), RISING, Err((Full, 3))),
        (Some(0), "", Ok(0)),
        (Some(4), FALLING, Err((OutOfOrder(2), 4))),
        (None, INSIDE_OUT, Err((OutOfOrder(1), 2))),
        (None, TWICE, Err((OutOfOrder(2), 3))),
        (None, FALLING, Err((OutOfOrder(2), 4))),
    ];
    for (room, networks, wanted) in MADE {
        let rows = rows_of::<Ipv4Addr>(networks);
        let made = match room {
            Some(room) => FrozenRoutes::from_sorted_in(Room::new(Global, room).unwrap(), rows),
            None => FrozenRoutes::from_sorted(rows),
        };
        let made = made.map(|table| table.len()).map_err(|error| (error.why, error.back.len()));
        assert_eq!(made, wanted, "{networks}");
    }
    for networks in [INSIDE_OUT, TWICE, FALLING] {
        assert!(pushed(rows_of::<Ipv4Addr>(networks)).is_none(), "{networks}");
    }
}

#[test]
fn longest_match_by_a_table_of_first_bits() {
    for (count, apart) in [(300, 1 << 23), (70_000, 1 << 15)] {
        let base = |at: usize| (at as u32).wrapping_mul(apart);
        let rows = (0..count).map(|at| (Network::new(base(at).into(), 24).unwrap(), at));
        let at_once = FrozenRoutes::from_sorted(list(rows.clone())).unwrap();
        for table in [at_once, pushed(rows).unwrap()] {
            for at in 0..count {
                let last = base(at).wrapping_add(255);
                assert_eq!(index_of(&table, &Ipv4Addr::from(last)), Some(at), "{count}");
                let behind = Ipv4Addr::from(last.wrapping_add(1));
                assert_eq!(index_of(&table, &behind), None, "{count}");
            }
        }
    }
}

/// The first address of `2000::/3`, of the networks within it, and of `4000::/3`.
const WIDE: u128 = 0x2000 << 112;
const WITHIN: u128 = 0x2001_0db8 << 96;
const BEHIND: u128 = 0x4000 << 112;

/// What is found at an address by its bits, or of the network around it that has fewer than 128.
const EDGES: [(u128, u8, Option<usize>); 8] = [
    (WIDE - 1, 128, None),
    (WIDE, 128, Some(0)),
    (WIDE, 2, None),
    (WITHIN, 128, Some(0)),
    (WITHIN + (1 << 64), 128, Some(0)),
    (WITHIN + 512, 120, Some(2)),
    (WITHIN + 512, 119, Some(0)),
    (BEHIND - 1, 128, Some(0)),
];

/// Asserts that a table finds `2000::/3`, the networks of 120 bits side by side within it, so many
/// in all, and this one behind them.
fn assert_side_by_side(table: &FrozenRoutes<Ipv6Addr, usize>, count: usize, last: Option<usize>) {
    let found = |number, bits| match bits {
        128 => index_of(table, &Ipv6Addr::from_bits(number)),
        _ => index_of(table, &Network::around(Ipv6Addr::from_bits(number), bits).unwrap()),
    };
    for at in 1..count {
        let first = WITHIN + ((at as u128) << 8);
        assert_eq!([first, first + 255].map(|number| found(number, 128)), [Some(at); 2]);
    }
    for (number, bits, index) in EDGES {
        assert_eq!(found(number, bits), index, "{number:x} {bits}");
    }
    assert_eq!(found(BEHIND, 128), last);
}

#[test]
fn longest_match_where_upper_halves_are_equal() {
    const COUNT: usize = 300;
    let network = |number, bits| Network::new(Ipv6Addr::from_bits(number), bits).unwrap();
    let within = (1..COUNT).map(|at| (network(WITHIN + ((at as u128) << 8), 120), at));
    let rows = [(network(WIDE, 3), 0)].into_iter().chain(within);
    let mut table = pushed(rows).unwrap();
    assert_side_by_side(&table, COUNT, None);
    table.push(network(BEHIND, 3), COUNT).unwrap();
    assert_side_by_side(&table, COUNT, Some(COUNT));
    table.finish().unwrap();
    assert_side_by_side(&table, COUNT, Some(COUNT));
}

/// The trie of networks, stored one after the other, each with its index.
fn trie_of<A: Address>(networks: &str) -> Trie<Network<A>, usize> {
    let mut trie = Trie::new(Global);
    for (network, index) in rows_of(networks) {
        assert!(trie.insert(network, index).is_ok());
    }
    trie
}

/// Asserts that the tables of their trie have these indices in order, a copy and the one that a
/// trie becomes, and that the tries of these tables are the same.
fn assert_back<A: Address>(networks: &str, order: &[usize]) {
    let trie = trie_of::<A>(networks);
    let copied = frozen_copy(&trie).unwrap();
    let moved = freeze(trie_of::<A>(networks)).ok().unwrap();
    for routes in [&copied, &moved] {
        assert!(routes.rows().iter().map(|row| row.1).eq(order.iter().copied()), "{networks}");
        for (network, index) in routes.rows() {
            assert_eq!(trie.get(network).unwrap(), Some(index));
        }
    }
    for back in [thawed_copy(Global, &copied).unwrap(), thaw(Global, moved).ok().unwrap()] {
        assert!(back.len() == trie.len() && back == trie, "{networks}");
    }
}

#[test]
fn thaw_gives_what_freeze_was_given() {
    const FOUR: [(&str, &[usize]); 5] = [
        ("", &[]),
        ("0.0.0.0/0", &[0]),
        ("255.255.255.255/32 10.0.0.0/8", &[1, 0]),
        ("10.0.0.0/16 10.0.0.0/8 10.0.0.0/24", &[1, 0, 2]),
        ("11.0.0.0/8 10.1.0.0/16 10.0.0.0/8 128.0.0.0/1 10.0.255.0/24", &[2, 4, 1, 0, 3]),
    ];
    const SIX: [(&str, &[usize]); 2] = [
        ("2001:db8::1/128 ::/0 2001:db8::/32", &[1, 2, 0]),
        ("ffff::/16 2001:db8:0:1::/64 2001:db8::/64", &[2, 1, 0]),
    ];
    for (networks, order) in FOUR {
        assert_back::<Ipv4Addr>(networks, order);
    }
    for (networks, order) in SIX {
        assert_back::<Ipv6Addr>(networks, order);
    }
}

/// A number whose clone fails where it is 18.
struct Fussy(u32);

impl RattleClone for Fussy {
    fn clone(&self) -> Result<Fussy, AllocError> {
        if self.0 == 18 { Err(AllocError) } else { Ok(Fussy(self.0)) }
    }
}

#[test]
fn frozen_copy_and_thawed_copy_fail_where_a_clone_does() {
    let rows = (15..20).map(|number| (Ipv4Network::host(number.into()), number));
    let pairs = || rows.clone().map(|(network, number)| (network, Fussy(number)));
    let trie = Trie::from_iter(Global, pairs()).ok().unwrap();
    let routes = FrozenRoutes::from_sorted(list(pairs())).ok().unwrap();
    assert!(matches!(frozen_copy(&trie), Err(BuildError::Memory)));
    assert!(thawed_copy(Global, &routes).is_err());
    assert_eq!((trie.len(), routes.len()), (5, 5));
    // What is moved isn't cloned.
    let moved = freeze(trie).ok().unwrap();
    assert_eq!(moved.len(), 5);
    assert_eq!(thaw(Global, moved).ok().unwrap().len(), 5);
}

#[test]
fn from_sorted_takes_the_rows_of_a_trie() {
    let rows = [("10.1.2.0/24", 3), ("10.0.0.0/8", 1), ("10.1.0.0/16", 2)];
    let mut trie = Trie::new(Global);
    for (network, hop) in rows {
        assert!(trie.insert(network.parse::<Ipv4Network>().unwrap(), hop).is_ok());
    }
    let pairs = (&trie).iter().unwrap().map(|(network, hop)| (*network, *hop));
    let routes = FrozenRoutes::from_sorted(list(pairs)).unwrap();
    let found = ["10.1.2.3", "10.1.3.3", "10.2.2.3", "11.1.2.3"]
        .map(|text| routes.longest_match(&text.parse::<Ipv4Addr>().unwrap()).map(|row| *row.1));
    assert_eq!(found, [Some(3), Some(2), Some(1), None]);
    assert!(routes.into_rows().into_iter().map(|row| row.1).eq([1, 2, 3]));
}

#[test]
fn push_takes_as_many_networks_as_are_given() {
    const COUNT: u32 = 100_100;
    let network = |number: u32| Ipv4Network::new((number << 8).into(), 24).unwrap();
    let routes = pushed((0..COUNT).map(|number| (network(number), number as usize))).unwrap();
    let last = Ipv4Addr::from((COUNT - 1) << 8);
    assert_eq!(index_of(&routes, &last), Some(COUNT as usize - 1));
}
