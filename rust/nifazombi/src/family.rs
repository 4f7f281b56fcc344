//! The two families of addresses.

use crate::flat_routes::{self, FlatChange, FlatRow, ipv4, ipv6};
use crate::image::written;
use crate::{Change, Route, WriteError};
use std::fmt::{Debug, Display};
use std::net::{Ipv4Addr, Ipv6Addr};

/// An address of one of the two families: [`Ipv4Addr`] or [`Ipv6Addr`], and no other type.
pub trait Address: Family + Copy + Ord + Debug + Display {}

/// The rows and the changes of a family, as images are written of them.
pub trait Family: flat_routes::Family {
    type Row: FlatRow;
    type Change: FlatChange;

    /// The row of a route, which is at an index of a list.
    fn row(route: &Route<Self>, at: usize) -> Result<Self::Row, WriteError>;

    /// The change that stores a row, or removes that of its network.
    fn change(row: Self::Row, is_removed: bool) -> Self::Change;
}

/// Writes the image of routes.
pub(crate) fn write<A: Address>(
    routes: &[Route<A>],
    payload: &[u8],
) -> Result<Vec<u8>, WriteError> {
    let rows = routes.iter().enumerate().map(|(at, route)| A::row(route, at));
    let rows = rows.collect::<Result<Vec<_>, WriteError>>()?;
    let len = flat_routes::image_len::<A::Row>(rows.len(), payload.len());
    written(len, |out| flat_routes::write(&rows, payload, out))
}

/// Writes the image that changes make of another one.
pub(crate) fn merge<A: Address>(
    image: &[u8],
    changes: &[Change<A>],
    payload: &[u8],
) -> Result<Vec<u8>, WriteError> {
    let change = |(at, change): (usize, &Change<A>)| {
        let value = change.value.unwrap_or(0);
        let row = A::row(&Route::new(change.network, change.bits, value), at)?;
        Ok(A::change(row, change.value.is_none()))
    };
    let changes = changes.iter().enumerate().map(change);
    let changes = changes.collect::<Result<Vec<_>, WriteError>>()?;
    let len = flat_routes::merge_len::<A::Change>(image, changes.len(), payload.len());
    written(len, |out| flat_routes::merge(image, &changes, payload, out))
}

/// Has a type of addresses the rows of a module, which have addresses by their call `$first`.
macro_rules! family {
    ($address:ident, $module:ident, $first:ident) => {
        impl Address for $address {}

        impl Family for $address {
            type Row = $module::Row;
            type Change = $module::Change;

            fn row(route: &Route<$address>, at: usize) -> Result<$module::Row, WriteError> {
                Ok($module::Row {
                    first: route.network.$first(),
                    bits: route.bits.into(),
                    link: 0,
                    value: route.value.try_into().map_err(|_| WriteError::Value(at))?,
                })
            }

            fn change(row: $module::Row, is_removed: bool) -> $module::Change {
                $module::Change { row, removes: is_removed.into() }
            }
        }
    };
}

family!(Ipv4Addr, ipv4, to_bits);
family!(Ipv6Addr, ipv6, octets);
