//! Where modules are written, and what of an earlier run goes.
use extract::crates::Checkout;
use extract::package::Package;
use extract::published::write_crate;
use std::fs;
use std::path::{Path, PathBuf};

fn root() -> &'static Path {
    Path::new(env!("CARGO_MANIFEST_DIR")).ancestors().nth(2).expect("the checkout")
}

fn room(name: &str) -> PathBuf {
    let room = Path::new(env!("CARGO_TARGET_TMPDIR")).join(name);
    let _ = fs::remove_dir_all(&room);
    fs::create_dir_all(&room).expect("a folder");
    room
}

#[test]
fn a_module_goes_with_its_source() {
    let (room, checkout) = (room("modules"), Checkout::read(root()).expect("crates.txt"));
    let package = Package::library(&checkout);
    let made = package.write_modules(&room, false).expect("modules");
    let gone = ["radix_trie/gone.rs", "rattle_std/gone/mod.rs"].map(|it| room.join(it));
    for path in &gone {
        fs::create_dir_all(path.parent().expect("a folder")).expect("a folder");
        fs::write(path, "fn gone() {}").expect("a file");
    }
    assert_eq!(package.write_modules(&room, false).expect("modules"), made);
    assert!(gone.iter().all(|path| !path.exists()) && room.join("radix_trie/mod.rs").exists());
}

#[test]
fn the_crate_is_written_over_itself_and_over_nothing_else() {
    let room = room("published");
    write_crate(root(), &room).expect("the crate");
    fs::write(room.join("src/gone.rs"), "").expect("a file");
    write_crate(root(), &room).expect("the crate again");
    assert!(!room.join("src/gone.rs").exists() && room.join("src/lib.rs").exists());

    // The package of the checkout has the same name.
    let own = root().join("rust/nifazombi/Cargo.toml");
    fs::copy(own, room.join("Cargo.toml")).expect("its manifest");
    let refused = write_crate(root(), &room).expect_err("a folder of something else");
    assert!(refused.ends_with("it holds something else: nothing was touched"));
    assert!(room.join("src/lib.rs").exists());
}
