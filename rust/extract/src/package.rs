//! Crates as the modules of a Cargo package.
use std::path::{Path, PathBuf};

use crate::crates::{Checkout, Problem, files_below, sweep, text_of, write};
use crate::extract;
use crate::rules::{Place, destructors, of_traits};
use crate::tokens::tokens;

/// What stands for Rattle's own library.
pub const STD: &str = "rattle_std";
/// The package of the libraries, which all others name.
pub const LIBRARY: &str = "nifazombi";
/// The libraries that users' programs don't name.
pub const INNER: [&str; 6] =
    ["nibble_map", "masked_tree", "radix_nodes", "sorted_tables", "sorted_columns", "encoded_keys"];
/// The libraries that they name.
pub const PUBLIC: [&str; 15] = [
    "radix_keys",
    "radix_trie",
    "trie_set",
    "topic_filters",
    "keyed_maps",
    "prefix_maps",
    "least_routes",
    "address_ranges",
    "frozen_trie",
    "frozen_routes",
    "frozen_networks",
    "image_parts",
    "flat_routes",
    "flat_texts",
    "flat_tries",
];
/// The programs, and the libraries that they alone name.
pub const PROGRAMS: [&str; 4] = ["line_sessions", "whole_files", "trie_tool", "route_tool"];
/// The proved tests and examples.
pub const TESTS: [&str; 2] = ["trie_tests", "trie_examples"];
/// What rustc may not say of text that is proved, and what it has to: that a call is too new, or
/// that something is unsafe.
const LINTS: &str =
    "#[allow(clippy::all, dead_code, unused_imports, unused_labels, unused_mut, unused_variables)]
#[warn(clippy::incompatible_msrv)]
#[forbid(unsafe_code)]
";

/// Crates that become modules of one package.
pub struct Package<'a> {
    checkout: &'a Checkout,
    crates: Vec<&'a str>,
    is_library: bool,
}

impl<'a> Package<'a> {
    /// The package of the libraries.
    pub fn library(checkout: &'a Checkout) -> Package<'a> {
        let crates = INNER.into_iter().chain(PUBLIC).collect();
        Package { checkout, crates, is_library: true }
    }

    /// A package over that one, of other crates.
    pub fn over_library(checkout: &'a Checkout, crates: &[&'a str]) -> Package<'a> {
        Package { checkout, crates: crates.to_vec(), is_library: false }
    }

    /// Its crates.
    pub fn crates(&self) -> &[&'a str] {
        &self.crates
    }

    /// The folders that it is made of.
    pub fn folders(&self) -> Vec<PathBuf> {
        let own = self.is_library.then(|| std_folder(self.checkout));
        self.crates.iter().map(|name| self.checkout.folder(name)).chain(own).collect()
    }

    /// Writes the modules into a folder, and returns the lines that declare them there.
    ///
    /// # Errors
    /// What isn't understood, read or written, with its place.
    pub fn write_modules(&self, folder: &Path, is_published: bool) -> Result<String, Problem> {
        let mut lines = Vec::new();
        for name in &self.crates {
            self.write_crate(name, folder)?;
            let is_inner = self.is_library && INNER.contains(name);
            lines.push(declared(name, is_inner, folder, is_published));
        }
        if self.is_library {
            write_std(self.checkout, folder)?;
            lines.push(declared(STD, false, folder, is_published));
        }
        Ok(lines.concat())
    }

    /// What a crate of the package is told of where it stands.
    ///
    /// # Errors
    /// Where a source can't be read, or has a destructor that isn't understood.
    pub fn place(&self, name: &str) -> Result<Place, Problem> {
        let std =
            if self.is_library { format!("crate::{STD}") } else { format!("::{LIBRARY}::{STD}") };
        let home = |used: &str| match used {
            _ if self.crates.contains(&used) => format!("crate::{used}"),
            _ if INNER.contains(&used) || PUBLIC.contains(&used) => format!("::{LIBRARY}::{used}"),
            _ => format!("{std}::{used}"),
        };
        let uses = self.checkout.uses(name)?.iter();
        let mut place = Place {
            own: format!("crate::{name}"),
            homes: uses.map(|used| (used.clone(), home(used))).collect(),
            is_inner: INNER.contains(&name),
            is_exported: self.checkout.is_exported(name),
            ..Place::default()
        };
        place.homes.insert("std".to_string(), std);
        for path in files_below(&self.checkout.folder(name), "rt")? {
            let (text, told) = (text_of(&path)?, |it| told(&path, &it));
            place.destructors.extend(destructors(&text).map_err(told)?);
        }
        let own = self.checkout.uses(name)?.iter().filter(|used| self.checkout.uses(used).is_ok());
        for used in own.map(String::as_str).chain([name]) {
            for path in files_below(&self.checkout.folder(used), "rt")? {
                let found = of_traits(&text_of(&path)?).map_err(|it| told(&path, &it))?;
                place.requirements.extend(found);
            }
        }
        Ok(place)
    }

    fn write_crate(&self, name: &str, folder: &Path) -> Result<(), Problem> {
        let (place, sources) = (self.place(name)?, self.checkout.folder(name));
        write_module(&sources, "rt", &folder.join(name), |path, source| {
            Ok(extract(source, &place).map_err(|it| told(path, &it))?.text())
        })
    }
}

/// Writes the files of a module, each as it is made of a source, and takes away what an earlier run
/// has written of sources that are gone.
fn write_module(
    sources: &Path,
    ending: &str,
    folder: &Path,
    made: impl Fn(&Path, &str) -> Result<String, Problem>,
) -> Result<(), Problem> {
    let mut written = Vec::new();
    for path in files_below(sources, ending)? {
        let place = path.strip_prefix(sources).map_err(|error| error.to_string())?;
        let file = module_file(folder, place);
        write(&file, &made(&path, &text_of(&path)?)?)?;
        written.push(file);
    }
    sweep(folder, &written)
}

/// What isn't understood, with its file and line.
fn told(path: &Path, it: &crate::edit::Unknown) -> Problem {
    format!("{}:{}: extraction doesn't understand {}", path.display(), it.line, it.what)
}

/// Where a source stands below its module's folder: the crate's first file is the module's own.
fn module_file(folder: &Path, place: &Path) -> PathBuf {
    let is_first = ["lib.rt", "main.rt", "lib.rs"].iter().any(|it| place == Path::new(it));
    folder.join(if is_first { Path::new("mod.rs") } else { place }).with_extension("rs")
}

/// The line that declares a module.
fn declared(name: &str, is_inner: bool, folder: &Path, is_published: bool) -> String {
    let prelude = if name == STD { "" } else { "#[no_implicit_prelude]\n" };
    let head = format!("{prelude}{LINTS}");
    let path = folder.join(name).join("mod.rs");
    let path = if is_published { String::new() } else { format!("#[path = {:?}]\n", path) };
    if is_inner {
        let inner = "#[cfg(feature = \"inner\")]\n#[doc(hidden)]\n".to_string();
        let own = "#[cfg(not(feature = \"inner\"))]\n";
        return format!("{inner}{head}{path}pub mod {name};\n{own}{head}{path}mod {name};\n");
    }
    format!("{head}{path}pub mod {name};\n")
}

/// The sources of what stands for Rattle's library.
fn std_folder(checkout: &Checkout) -> PathBuf {
    checkout.root.join("rust").join(STD).join("src")
}

/// Writes `rattle_std` as a module.
fn write_std(checkout: &Checkout, folder: &Path) -> Result<(), Problem> {
    let sources = std_folder(checkout);
    write_module(&sources, "rs", &folder.join(STD), |_, source| Ok(as_module(source, STD)))
}

/// The text of a Rust crate as that of a module: `crate::` is that module.
pub fn as_module(source: &str, name: &str) -> String {
    let given = tokens(source);
    let mut made = String::with_capacity(source.len());
    for (at, token) in given.iter().enumerate() {
        made += &token.text;
        if token.text == "crate" && given.get(at + 1).is_some_and(|next| next.text == "::") {
            made += "::";
            made += name;
        }
    }
    made
}

/// What a build script does: writes a package's modules where Cargo wants them, and `modules.rs`,
/// which declares them. What isn't understood ends the build with its place.
pub fn build(crates: Option<&[&str]>) {
    let folder = |name: &str| {
        std::env::var_os(name).map(PathBuf::from).ok_or_else(|| format!("Cargo gives no {name}"))
    };
    let done = (|| -> Result<(), Problem> {
        let (manifest, out) = (folder("CARGO_MANIFEST_DIR")?, folder("OUT_DIR")?);
        let root = manifest.ancestors().nth(2).unwrap_or(&manifest);
        let checkout = Checkout::read(root)?;
        let package = match crates {
            Some(crates) => Package::over_library(&checkout, crates),
            None => Package::library(&checkout),
        };
        write(&out.join("modules.rs"), &package.write_modules(&out, false)?)?;
        // Cargo shows all lines of a build that fails, and runs that again whatever has changed.
        println!("cargo::rerun-if-changed={}", root.join("crates.txt").display());
        for folder in package.folders() {
            println!("cargo::rerun-if-changed={}", folder.display());
        }
        Ok(())
    })();
    if let Err(problem) = done {
        println!("cargo::error={problem}");
        std::process::exit(1);
    }
}
