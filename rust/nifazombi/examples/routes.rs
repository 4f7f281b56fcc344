use nifazombi::{Route, Routes, routes_image};
use std::error::Error;
use std::net::Ipv4Addr;

fn main() -> Result<(), Box<dyn Error>> {
    let mut table = [
        Route::new(Ipv4Addr::new(10, 1, 0, 0), 16, 200),
        Route::new(Ipv4Addr::new(10, 0, 0, 0), 8, 100),
        Route::new(Ipv4Addr::new(192, 0, 2, 0), 24, 300),
    ];
    table.sort();
    let path = std::env::temp_dir().join("nifazombi.routes");
    std::fs::write(&path, routes_image(&table, b"")?)?;

    let image = std::fs::read(&path)?;
    let routes = Routes::new(&image)?;
    for address in ["10.1.2.3", "10.9.9.9", "11.0.0.1"] {
        match routes.longest_match(address.parse::<Ipv4Addr>()?) {
            Some(route) => println!("{address}: value {}, by {route}", route.value),
            None => println!("{address}: no network holds it"),
        }
    }
    std::fs::remove_file(&path)?;
    Ok(())
}
