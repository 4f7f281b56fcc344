//! The crate `nifazombi` as it is published: the same modules, written out.
use std::fs;
use std::path::Path;

use crate::crates::{Checkout, Problem, files_below, text_of, write};
use crate::package::{LIBRARY, Package};

/// The folders of its sources.
const PARTS: [&str; 3] = ["src", "tests", "examples"];
/// What its manifest has for the build script, which isn't published.
const BUILD: [&str; 2] = ["build = ", "[build-dependencies]"];
/// How what is published ends, and the package of this checkout doesn't.
const OWN_WORKSPACE: &str = "\n[workspace]\n";
/// Where its first file takes the modules that the build script writes.
const INCLUDED: &str = "include!(concat!(env!(\"OUT_DIR\"), \"/modules.rs\"));\n";

/// Writes the crate into a folder. What an earlier run has written there is replaced once all of it
/// is there anew.
///
/// # Errors
/// What isn't understood, read or written, with its place.
pub fn write_crate(root: &Path, folder: &Path) -> Result<(), Problem> {
    let told = |error| format!("{}: {error}", folder.display());
    let own = root.join("rust").join(LIBRARY);
    let text = manifest(&text_of(&own.join("Cargo.toml"))?);
    make_ready(root, folder, &text)?;
    let room = folder.join(".new");
    if room.exists() {
        fs::remove_dir_all(&room).map_err(told)?;
    }
    write_parts(root, &own, &room)?;
    for part in PARTS {
        let old = folder.join(part);
        if old.exists() {
            fs::remove_dir_all(&old).map_err(told)?;
        }
        fs::rename(room.join(part), old).map_err(told)?;
    }
    fs::remove_dir(room).map_err(told)?;
    write(&folder.join("Cargo.toml"), &text)?;
    write(&folder.join("README.md"), &text_of(&own.join("README.md"))?)?;
    for name in ["LICENSE", "NOTICE"] {
        write(&folder.join(name), &text_of(&root.join(name))?)?;
    }
    Ok(())
}

/// Writes the folders of sources.
fn write_parts(root: &Path, own: &Path, room: &Path) -> Result<(), Problem> {
    let checkout = Checkout::read(root)?;
    let modules = Package::library(&checkout).write_modules(&room.join("src"), true)?;
    for part in PARTS {
        for path in files_below(&own.join(part), "rs")? {
            let place = path.strip_prefix(own).map_err(|error| error.to_string())?;
            write(&room.join(place), &text_of(&path)?.replace(INCLUDED, &modules))?;
        }
    }
    Ok(())
}

/// Makes the folder, or refuses one of anything else than what an earlier run has written.
fn make_ready(root: &Path, folder: &Path, manifest: &str) -> Result<(), Problem> {
    let told = |error| format!("{}: {error}", folder.display());
    let is_empty = !folder.exists() || fs::read_dir(folder).map_err(told)?.next().is_none();
    let name =
        |text: &str| text.lines().find(|line| line.starts_with("name = ")).map(str::to_string);
    let held = fs::read_to_string(folder.join("Cargo.toml")).unwrap_or_default();
    let packages = root.join("rust").canonicalize().map_err(told)?;
    if folder.ancestors().skip(1).any(|above| above.canonicalize().is_ok_and(|it| it == packages)) {
        return Err(format!("{}: it would be a package of this checkout", folder.display()));
    }
    let is_earlier = name(&held) == name(manifest) && held.ends_with(OWN_WORKSPACE);
    if !is_empty && !is_earlier {
        return Err(format!("{}: it holds something else: nothing was touched", folder.display()));
    }
    fs::create_dir_all(folder).map_err(told)
}

/// The manifest without the build script, and as the root of a workspace of its own.
fn manifest(text: &str) -> String {
    let mut is_kept = true;
    let mut made = String::new();
    for line in text.lines() {
        if line.starts_with('[') {
            is_kept = !line.starts_with(BUILD[1]);
        }
        if is_kept && !line.starts_with(BUILD[0]) {
            made += line;
            made.push('\n');
        }
    }
    made + OWN_WORKSPACE
}
