//! Calls that no session makes: each of their allocations is refused in turn, and all from each on.
mod refusing;
use nifazombi::address_ranges::{RangesError, rows_of_ranges};
use nifazombi::flat_routes::{TableError, ipv4};
use nifazombi::frozen_routes::FrozenRoutes;
use nifazombi::rattle_std::alloc::Global;
use refusing::each_refused;
use std::net::Ipv4Addr;

/// Ranges of which networks are made by tens, and of each its number.
fn ranges() -> [(Ipv4Addr, Ipv4Addr, u32); 40] {
    std::array::from_fn(|at| {
        let start = (at as u32) << 16;
        (Ipv4Addr::from(start + 1), Ipv4Addr::from(start + 0xfffe), at as u32)
    })
}

#[test]
fn rows_of_ranges_without_memory() {
    let given = ranges();
    let most = each_refused(|refusal| match refusal.fails(|| rows_of_ranges(Global, &given)) {
        Ok(rows) => assert_eq!(rows.len(), 30 * given.len()),
        Err(why) => assert_eq!(why, RangesError::Memory),
    });
    assert!(most > 1);
}

#[test]
fn images_without_memory() {
    let rows = rows_of_ranges(Global, &ranges()).unwrap();
    let table = FrozenRoutes::from_sorted(rows).ok().unwrap();
    let image = ipv4::to_image(Global, &table, b"own").unwrap();
    let most = each_refused(|refusal| {
        if let Ok(made) = refusal.fails(|| ipv4::to_image(Global, &table, b"own")) {
            assert_eq!(made[..], image[..]);
        }
        match refusal.fails(|| ipv4::from_image(Global, &image)) {
            Ok(made) => assert_eq!(made.rows(), table.rows()),
            Err(why) => assert_eq!(why, TableError::Memory),
        }
    });
    assert!(most > 1);
}
