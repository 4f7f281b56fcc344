use nifazombi::frozen_routes::FrozenRoutes;
use nifazombi::frozen_trie::freeze;
use nifazombi::radix_keys::Network;
use nifazombi::radix_trie::Trie;
use nifazombi::rattle_std::alloc::Global;
use std::error::Error;
use std::net::Ipv4Addr;

fn main() -> Result<(), Box<dyn Error>> {
    let mut limits: Trie<&str, u64> = Trie::new(Global);
    for (path, limit) in [("/home/ann/", 30), ("/", 10), ("/home/", 20)] {
        limits.insert(path, limit)?;
    }
    println!("{:?}", limits.get_ancestor_value(&"/home/ann/letters")?);

    let frozen = freeze(limits)?;
    for (path, limit) in frozen.below(&"/home/")? {
        println!("{path} {limit}");
    }

    let mut routes: FrozenRoutes<Ipv4Addr, u32> = FrozenRoutes::new(Global);
    routes.push("10.0.0.0/8".parse()?, 100)?;
    routes.push("10.1.0.0/16".parse()?, 200)?;
    routes.finish()?;
    let address = Network::host(Ipv4Addr::new(10, 1, 2, 3));
    println!("{:?}", routes.longest_match(&address).map(|(_, hop)| hop));
    Ok(())
}
