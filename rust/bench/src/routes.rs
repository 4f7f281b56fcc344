//! A table of networks, in which the longest one that holds an address is looked up.

use crate::random::Random;
use crate::report::Report;
use nifazombi::frozen_routes::FrozenRoutes;
use nifazombi::radix_trie::{Address, Network, Trie, TrieCommon, TrieKey};
use nifazombi::rattle_std::alloc::Global;
use nifazombi::{Route, Routes, routes_image};
use std::collections::BTreeMap;
use std::error::Error;
use std::net::{Ipv4Addr, Ipv6Addr};

/// How many addresses are looked up for each network.
const LOOKED_UP: usize = 10;

/// A family of addresses, whose networks are near to what the tables of the internet's routers
/// have.
pub trait Family: Address + nifazombi::Address {
    /// Up to which percent of the networks have from so many bits to so many.
    const SHARES: &'static [(u64, u8, u8)];

    /// The address that begins with these bits.
    fn of(bits: u128) -> Self;
}

impl Family for Ipv4Addr {
    const SHARES: &'static [(u64, u8, u8)] =
        &[(60, 24, 24), (92, 16, 23), (94, 8, 15), (100, 25, 32)];

    fn of(bits: u128) -> Ipv4Addr {
        Ipv4Addr::from_bits((bits >> 96) as u32)
    }
}

impl Family for Ipv6Addr {
    const SHARES: &'static [(u64, u8, u8)] =
        &[(45, 48, 48), (65, 32, 32), (80, 40, 40), (90, 44, 44), (100, 29, 64)];

    /// The same within 2000::/3, where routers know addresses.
    fn of(bits: u128) -> Ipv6Addr {
        Ipv6Addr::from_bits(bits >> 3 | 1 << 125)
    }
}

/// A network, its hop, and the bits that its base was made of.
struct Drawn<A: Address> {
    network: Network<A>,
    hop: u32,
    bits: u128,
}

/// The network of so many bits around an address.
fn around<A: Address>(address: A, bits: u8) -> Network<A> {
    Network::around(address, bits).expect("an address has as many bits")
}

/// The rows in which a trie, a frozen table, its image and a map store the networks, and find the
/// longest ones that hold addresses.
pub fn answer<A: Family>(report: &mut Report, count: u32) -> Result<(), Box<dyn Error>> {
    let networks = networks::<A>(count);
    let addresses = addresses(&networks);
    let mut trie = Trie::new(Global);
    report.each("insert trie", &networks, |drawn| {
        trie.insert(drawn.network, drawn.hop).unwrap().unwrap_or(0).into()
    });
    report.each("look trie", &addresses, |address| {
        let bits = Network::host(*address).encode(Global).unwrap();
        trie.nearest(&bits).map_or(0, |(_, hop)| (*hop).into())
    });

    let frozen = report.once("freeze frozen", trie.len(), || {
        let mut frozen = FrozenRoutes::new(Global);
        for (network, hop) in TrieCommon::iter(&trie).unwrap() {
            frozen.push(*network, *hop).unwrap();
        }
        frozen.finish().unwrap();
        (frozen, 0)
    });
    report.each("look frozen", &addresses, |address| {
        frozen.longest_match(address).map_or(0, |(_, hop)| (*hop).into())
    });
    let rows = frozen.rows().iter();
    let routes: Vec<_> = rows
        .map(|(network, hop)| Route::new(network.base(), network.bits(), (*hop).into()))
        .collect();
    let image = routes_image(&routes, &[])?;
    let image = Routes::new(&image)?;
    report.each("look image", &addresses, |address| {
        image.longest_match(*address).map_or(0, |route| route.value)
    });

    let mut map = BTreeMap::new();
    report.each("insert map", &networks, |drawn| {
        map.insert(drawn.network, drawn.hop).unwrap_or(0).into()
    });
    // The map is asked for each length, the longest first.
    let lengths = A::SHARES.iter().flat_map(|(_, least, most)| [*least, *most]);
    let (shortest, longest) = (lengths.clone().min().unwrap_or(0), lengths.max().unwrap_or(0));
    report.each("look map", &addresses, |address| {
        let mut around = (shortest..=longest).rev().map(|bits| around(*address, bits));
        around.find_map(|network| map.get(&network)).map_or(0, |hop| (*hop).into())
    });
    Ok(())
}

/// So many networks.
fn networks<A: Family>(count: u32) -> Vec<Drawn<A>> {
    let mut random = Random::new();
    let network = |hop| {
        let percent = random.within(0, 99);
        let share = A::SHARES.iter().find(|share| percent < share.0).expect("100 percent");
        let length = random.within(share.1.into(), share.2.into()) as u8;
        let bits = random.next_wide();
        Drawn { network: around(A::of(bits), length), hop, bits }
    };
    (0..count).map(network).collect()
}

/// Addresses, in a random order: every second one lies in one of the networks, the others anywhere.
fn addresses<A: Family>(networks: &[Drawn<A>]) -> Vec<A> {
    let mut random = Random::new();
    let mut addresses = Vec::new();
    for drawn in networks {
        for at in 0..LOOKED_UP {
            let other = random.next_wide();
            let inside = other.checked_shr(drawn.network.bits().into()).unwrap_or(0);
            addresses.push(A::of(if at % 2 == 0 { drawn.bits ^ inside } else { other }));
        }
    }
    random.shuffle(&mut addresses);
    addresses
}
