//! Routing tables.

use crate::family::{self, Address};
use crate::flat_routes::{self, Table, ipv4, ipv6};
use crate::image::{payload, range};
use crate::{ImageError, WriteError};
use std::fmt;
use std::iter::{FusedIterator, successors};
use std::net::{Ipv4Addr, Ipv6Addr};
use std::ops::Range;

/// A network and its value.
///
/// Routes are ordered as the rows of an image are: by the networks' first addresses, and of one
/// first address the wider network comes first.
#[derive(Clone, Copy, Debug, PartialEq, Eq, PartialOrd, Ord, Hash)]
pub struct Route<A> {
    /// The network's first address.
    pub network: A,
    /// How many first bits its addresses share.
    pub bits: u8,
    /// The network's value: a number, or a place in the user's own bytes. Below 2^32 for IPv4.
    pub value: u64,
}

impl<A: Address> From<flat_routes::Route<A>> for Route<A> {
    fn from(row: flat_routes::Route<A>) -> Route<A> {
        // Where the bytes are no image there may be any number of bits.
        Route::new(row.first, row.bits.try_into().unwrap_or(u8::MAX), row.value)
    }
}

impl<A> Route<A> {
    /// A network, by its first address and how many first bits its addresses share, and its value.
    pub const fn new(network: A, bits: u8, value: u64) -> Route<A> {
        Route { network, bits, value }
    }
}

/// Writes the network, as `10.0.0.0/8`.
impl<A: fmt::Display> fmt::Display for Route<A> {
    fn fmt(&self, f: &mut fmt::Formatter<'_>) -> fmt::Result {
        write!(f, "{}/{}", self.network, self.bits)
    }
}

/// A change of a table: the value that a network has from then on, or none. Changes are ordered as
/// routes are.
#[derive(Clone, Copy, Debug, PartialEq, Eq, PartialOrd, Ord, Hash)]
pub struct Change<A> {
    /// The network's first address.
    pub network: A,
    /// How many first bits its addresses share.
    pub bits: u8,
    /// The network's value from then on, or `None` where its route goes, if it has one.
    pub value: Option<u64>,
}

/// A routing table in an image, searched in place. `A` is `Ipv4Addr` or `Ipv6Addr`.
///
/// ```
/// use nifazombi::{Route, Routes, routes_image};
/// use std::net::Ipv6Addr;
///
/// let documents: Ipv6Addr = "2001:db8::".parse()?;
/// let image = routes_image(&[Route::new(documents, 32, 7)], b"")?;
/// let routes = Routes::new(&image)?;
/// assert_eq!(routes.longest_match("2001:db8::1".parse()?), Some(Route::new(documents, 32, 7)));
/// assert_eq!(routes.longest_match(Ipv6Addr::LOCALHOST), None);
/// # Ok::<(), Box<dyn std::error::Error>>(())
/// ```
#[derive(Clone, Copy)]
pub struct Routes<'a, A: Address> {
    image: &'a [u8],
    /// What `payload` returns, where the bytes were checked.
    own: Option<&'a [u8]>,
    /// The table, where the bytes were checked.
    table: Option<Table<'a, A>>,
}

// In Rattle a struct with a lifetime that contracts see by its model can't be `Copy` yet.
impl<A: flat_routes::Family> Clone for Table<'_, A> {
    fn clone(&self) -> Self {
        *self
    }
}

impl<A: flat_routes::Family> Copy for Table<'_, A> {}

impl<'a, A: Address> Routes<'a, A> {
    /// The table in an image, which is checked whole. It takes linear time and allocates nothing.
    ///
    /// # Errors
    ///
    /// The bytes are no image of such a table.
    pub fn new(image: &'a [u8]) -> Result<Self, ImageError> {
        let table = Table::checked(image)?;
        Ok(Routes { image, own: Some(payload(image)), table: Some(table) })
    }

    /// The table in bytes that were checked before. It reads nothing, and each call reads the head
    /// anew, which `new` does once. Whatever the bytes are, each call is safe and returns; but what
    /// it returns means nothing where they are no image.
    ///
    /// A struct that keeps its image checks it once, and has its table so:
    ///
    /// ```
    /// # use nifazombi::{ImageError, Routes, routes_image};
    /// # use std::net::Ipv4Addr;
    /// struct Table(Vec<u8>);
    ///
    /// impl Table {
    ///     fn new(image: Vec<u8>) -> Result<Table, ImageError> {
    ///         Routes::<Ipv4Addr>::new(&image)?;
    ///         Ok(Table(image))
    ///     }
    ///
    ///     fn routes(&self) -> Routes<'_, Ipv4Addr> {
    ///         Routes::unchecked(&self.0)
    ///     }
    /// }
    /// # let image = routes_image::<Ipv4Addr>(&[], b"")?;
    /// # assert!(Table::new(image)?.routes().is_empty());
    /// # Ok::<(), Box<dyn std::error::Error>>(())
    /// ```
    pub const fn unchecked(image: &'a [u8]) -> Self {
        Routes { image, own: None, table: None }
    }

    /// What a call finds in the table, which is none where the bytes weren't checked and have no
    /// head of one.
    #[inline]
    fn find<T>(&self, call: impl FnOnce(&Table<'a, A>) -> Option<T>) -> Option<T> {
        match &self.table {
            Some(table) => call(table),
            None => call(&Table::open(self.image).ok()?),
        }
    }

    /// The count of routes.
    pub fn len(&self) -> usize {
        self.find(|table| Some(table.len())).unwrap_or(0)
    }

    /// Whether there is no route.
    pub fn is_empty(&self) -> bool {
        self.len() == 0
    }

    /// The route of the longest network that holds an address.
    #[inline]
    pub fn longest_match(&self, address: A) -> Option<Route<A>> {
        self.find(|table| table.row_at(table.longest_match(address)?)).map(Route::from)
    }

    /// The index of the route that `longest_match` returns.
    #[inline]
    pub fn longest_match_index(&self, address: A) -> Option<usize> {
        self.find(|table| table.longest_match(address))
    }

    /// The route at an index.
    #[inline]
    pub fn route_at(&self, index: usize) -> Option<Route<A>> {
        self.find(|table| table.row_at(index)).map(Route::from)
    }

    /// The route of the longest network that holds all of a network: its own, where there is one.
    /// Bits of its address behind the shared ones don't count.
    pub fn longest_around(&self, network: A, bits: u8) -> Option<Route<A>> {
        self.find(|table| table.row_at(table.longest_around(network, bits.into())?))
            .map(Route::from)
    }

    /// The route of this very network.
    pub fn get(&self, network: A, bits: u8) -> Option<Route<A>> {
        self.find(|table| table.row_at(table.get(network, bits.into())?)).map(Route::from)
    }

    /// The routes of the networks within a network, itself among them, in order. Bits of its
    /// address behind the shared ones don't count.
    pub fn below(&self, network: A, bits: u8) -> Rows<'a, A> {
        let within = self.find(|table| Some(table.below(network, bits.into())));
        Rows { routes: *self, rest: range(within.unwrap_or_default()) }
    }

    /// The routes of all networks that hold an address, the shortest first; from the other end, by
    /// `rev`, the longest first. Whatever the bytes are, there are 129 at most.
    ///
    /// ```
    /// # use nifazombi::{Route, Routes, routes_image};
    /// # use std::net::Ipv4Addr;
    /// let [wide, long] = [8, 16].map(|bits| Route::new(Ipv4Addr::new(10, 0, 0, 0), bits, 1));
    /// let image = routes_image(&[wide, long], b"")?;
    /// let around = Routes::new(&image)?.common_prefixes(Ipv4Addr::new(10, 0, 2, 3));
    /// assert!(around.clone().eq([wide, long]));
    /// assert!(around.rev().eq([long, wide]));
    /// # Ok::<(), Box<dyn std::error::Error>>(())
    /// ```
    pub fn common_prefixes(&self, address: A) -> CommonPrefixes<'a, A> {
        let last = self.longest_match_index(address);
        let left = self.climb(last).take(MOST_AROUND).count();
        CommonPrefixes { routes: *self, last, left }
    }

    /// The index of the route of the longest other network around that of the route at an index, or
    /// `None` where there is none. It is less than the index, whatever the bytes are.
    #[inline]
    pub fn above(&self, index: usize) -> Option<usize> {
        self.find(|table| table.above(index))
    }

    /// The indices from one up, by the links.
    fn climb(&self, last: Option<usize>) -> impl Iterator<Item = usize> {
        successors(last, |at| self.above(*at))
    }

    /// All routes, in order.
    pub fn iter(&self) -> Rows<'a, A> {
        Rows { routes: *self, rest: 0..self.len() }
    }

    /// The image of the table after changes in order, no two of one network, with bytes of the
    /// user's own in place of those that it has. It takes the time of `routes_image`.
    ///
    /// # Errors
    ///
    /// A change is of no network or out of order, a value of an IPv4 network is too large, or there
    /// may be 2^32 routes or more: as many as routes and changes together.
    ///
    /// ```
    /// # use nifazombi::{Change, Route, Routes, routes_image};
    /// # use std::net::Ipv4Addr;
    /// let [wide, long] = [8, 16].map(|bits| Route::new(Ipv4Addr::new(10, 0, 0, 0), bits, 1));
    /// let image = routes_image(&[wide, long], b"")?;
    /// let changes = [
    ///     Change { network: wide.network, bits: 8, value: None },
    ///     Change { network: wide.network, bits: 24, value: Some(2) },
    /// ];
    /// let image = Routes::new(&image)?.merge(&changes, b"")?;
    /// assert!(Routes::new(&image)?.iter().eq([long, Route::new(wide.network, 24, 2)]));
    /// # Ok::<(), Box<dyn std::error::Error>>(())
    /// ```
    pub fn merge(&self, changes: &[Change<A>], payload: &[u8]) -> Result<Vec<u8>, WriteError> {
        family::merge(self.image, changes, payload)
    }

    /// The user's own bytes in the image: those that were passed to [`routes_image`]. In bytes that
    /// weren't checked each call looks for them.
    pub fn payload(&self) -> &'a [u8] {
        self.own.unwrap_or_else(|| payload(self.image))
    }
}

impl Routes<'_, Ipv4Addr> {
    /// Looks up addresses by their numbers (`u32::from` of an `Ipv4Addr`), as many as there are of
    /// both, and puts for each the index of its route and one more, or 0, into `found`. Returns how
    /// many.
    ///
    /// ```
    /// # use nifazombi::{Route, Routes, routes_image};
    /// # use std::net::Ipv4Addr;
    /// let image = routes_image(&[Route::new(Ipv4Addr::new(10, 0, 0, 0), 8, 7)], b"")?;
    /// let mut found = [0; 2];
    /// let routes = Routes::<Ipv4Addr>::new(&image)?;
    /// assert_eq!(routes.longest_matches(&[0x0a00_0001, 0x0b00_0001], &mut found), 2);
    /// assert_eq!(found, [1, 0]);
    /// # Ok::<(), Box<dyn std::error::Error>>(())
    /// ```
    #[inline]
    pub fn longest_matches(&self, addresses: &[u32], found: &mut [u32]) -> usize {
        flat_routes::longest_matches(self.image, addresses, found)
    }

    /// Looks up addresses as `longest_matches` does, and puts for each its value too, or 0 where no
    /// network holds it. It goes as far as the shortest of the three, and returns how many.
    #[inline]
    pub fn longest_values(
        &self,
        addresses: &[u32],
        found: &mut [u32],
        values: &mut [u32],
    ) -> usize {
        ipv4::longest_values(self.image, addresses, found, values)
    }
}

impl Routes<'_, Ipv6Addr> {
    /// Looks up addresses by their octets, as many as there are of both, and puts for each the
    /// index of its route and one more, or 0, into `found`. Returns how many.
    #[inline]
    pub fn longest_matches(&self, addresses: &[[u8; 16]], found: &mut [u32]) -> usize {
        flat_routes::longest_matches(self.image, addresses, found)
    }

    /// Looks up addresses as `longest_matches` does, and puts for each its value too, or 0 where no
    /// network holds it. It goes as far as the shortest of the three, and returns how many.
    #[inline]
    pub fn longest_values(
        &self,
        addresses: &[[u8; 16]],
        found: &mut [u32],
        values: &mut [u64],
    ) -> usize {
        ipv6::longest_values(self.image, addresses, found, values)
    }
}

impl<A: Address> fmt::Debug for Routes<'_, A> {
    fn fmt(&self, f: &mut fmt::Formatter<'_>) -> fmt::Result {
        f.debug_list().entries(*self).finish()
    }
}

impl<'a, A: Address> IntoIterator for Routes<'a, A> {
    type Item = Route<A>;
    type IntoIter = Rows<'a, A>;

    fn into_iter(self) -> Rows<'a, A> {
        self.iter()
    }
}

impl<'a, A: Address> IntoIterator for &Routes<'a, A> {
    type Item = Route<A>;
    type IntoIter = Rows<'a, A>;

    fn into_iter(self) -> Rows<'a, A> {
        self.iter()
    }
}

/// Routes that stand one behind the other, in order.
#[derive(Clone, Debug)]
pub struct Rows<'a, A: Address> {
    routes: Routes<'a, A>,
    rest: Range<usize>,
}

impl<A: Address> Iterator for Rows<'_, A> {
    type Item = Route<A>;

    #[inline]
    fn next(&mut self) -> Option<Route<A>> {
        self.nth(0)
    }

    #[inline]
    fn nth(&mut self, count: usize) -> Option<Route<A>> {
        self.rest.nth(count).and_then(|at| self.routes.route_at(at))
    }

    fn size_hint(&self) -> (usize, Option<usize>) {
        self.rest.size_hint()
    }
}

impl<A: Address> DoubleEndedIterator for Rows<'_, A> {
    #[inline]
    fn next_back(&mut self) -> Option<Route<A>> {
        self.nth_back(0)
    }

    #[inline]
    fn nth_back(&mut self, count: usize) -> Option<Route<A>> {
        self.rest.nth_back(count).and_then(|at| self.routes.route_at(at))
    }
}

impl<A: Address> ExactSizeIterator for Rows<'_, A> {}

impl<A: Address> FusedIterator for Rows<'_, A> {}

/// The most networks that hold one address: one for each count of bits of an IPv6 address.
const MOST_AROUND: usize = 129;

/// The routes of the networks that hold an address, the shortest first. A step from the front takes
/// the time of as many links as routes are left, and one from the back that of one.
#[derive(Clone, Debug)]
pub struct CommonPrefixes<'a, A: Address> {
    routes: Routes<'a, A>,
    /// The index of the longest one that is left.
    last: Option<usize>,
    /// How many are left.
    left: usize,
}

impl<A: Address> Iterator for CommonPrefixes<'_, A> {
    type Item = Route<A>;

    #[inline]
    fn next(&mut self) -> Option<Route<A>> {
        self.left = self.left.checked_sub(1)?;
        let first = self.routes.climb(self.last).nth(self.left)?;
        self.routes.route_at(first)
    }

    fn size_hint(&self) -> (usize, Option<usize>) {
        (self.left, Some(self.left))
    }
}

impl<A: Address> DoubleEndedIterator for CommonPrefixes<'_, A> {
    #[inline]
    fn next_back(&mut self) -> Option<Route<A>> {
        self.left = self.left.checked_sub(1)?;
        let last = self.last?;
        self.last = self.routes.above(last);
        self.routes.route_at(last)
    }
}

impl<A: Address> ExactSizeIterator for CommonPrefixes<'_, A> {}

impl<A: Address> FusedIterator for CommonPrefixes<'_, A> {}

/// The image of a table, by its routes in order, with bytes of the user's own, which may be none.
/// Sorted routes are in order where no network has two.
///
/// # Errors
///
/// A route is of no network or out of order, a value of an IPv4 network is too large, or there are
/// 2^32 routes or more.
///
/// ```
/// use nifazombi::{Route, WriteError, routes_image};
/// use std::net::Ipv4Addr;
///
/// let [wide, long] = [8, 16].map(|bits| Route::new(Ipv4Addr::new(10, 0, 0, 0), bits, 1));
/// assert!(routes_image(&[wide, long], b"").is_ok());
/// assert_eq!(routes_image(&[long, wide], b""), Err(WriteError::OutOfOrder(1)));
/// ```
pub fn routes_image<A: Address>(
    routes: &[Route<A>],
    payload: &[u8],
) -> Result<Vec<u8>, WriteError> {
    family::write(routes, payload)
}
