//! The crates of a checkout.
use std::collections::BTreeMap;
use std::fs;
use std::path::{Path, PathBuf};

/// What went wrong, with the place of it.
pub type Problem = String;

/// A checkout: what `crates.txt` says of each crate.
pub struct Checkout {
    pub root: PathBuf,
    rows: BTreeMap<String, Row>,
}

struct Row {
    uses: Vec<String>,
    is_exported: bool,
}

impl Checkout {
    /// The checkout at a folder.
    ///
    /// # Errors
    /// Where there is no `crates.txt` that can be read.
    pub fn read(root: &Path) -> Result<Checkout, Problem> {
        let mut rows = BTreeMap::new();
        for line in text_of(&root.join("crates.txt"))?.lines() {
            let line = line.split('#').next().unwrap_or_default();
            if let Some((head, uses)) = line.split_once(':') {
                let mut words = head.split_whitespace();
                let name = words.next().unwrap_or_default().to_string();
                let uses = uses.split_whitespace().map(str::to_string).collect();
                rows.insert(name, Row { uses, is_exported: words.next() == Some("staticlib") });
            }
        }
        Ok(Checkout { root: root.to_path_buf(), rows })
    }

    /// The crates that a crate names.
    ///
    /// # Errors
    /// Where there is no such crate.
    pub fn uses(&self, name: &str) -> Result<&[String], Problem> {
        let row =
            self.rows.get(name).ok_or_else(|| format!("crates.txt: there is no crate {name}"))?;
        Ok(&row.uses)
    }

    /// Whether programs in other languages call a crate.
    pub fn is_exported(&self, name: &str) -> bool {
        self.rows.get(name).is_some_and(|row| row.is_exported)
    }

    /// The folder of a crate's sources.
    pub fn folder(&self, name: &str) -> PathBuf {
        self.root.join("crates").join(name).join("src")
    }
}

/// A file's text.
///
/// # Errors
/// What a file that can't be read is told by, with its name.
pub fn text_of(path: &Path) -> Result<String, Problem> {
    fs::read_to_string(path).map_err(|error| format!("{}: {error}", path.display()))
}

/// The files below a folder with such an ending, in order.
///
/// # Errors
/// What a folder that can't be read is told by, with its name.
pub fn files_below(folder: &Path, ending: &str) -> Result<Vec<PathBuf>, Problem> {
    let told = |error| format!("{}: {error}", folder.display());
    let mut found = Vec::new();
    for entry in fs::read_dir(folder).map_err(told)? {
        let path = entry.map_err(told)?.path();
        if path.is_dir() {
            found.append(&mut files_below(&path, ending)?);
        } else if path.extension().is_some_and(|it| it == ending) {
            found.push(path);
        }
    }
    found.sort();
    Ok(found)
}

/// Writes a file, and the folders above it, unless it holds that text.
///
/// # Errors
/// What a file that can't be written is told by, with its name.
pub fn write(path: &Path, text: &str) -> Result<(), Problem> {
    let told = |error| format!("{}: {error}", path.display());
    if fs::read_to_string(path).is_ok_and(|held| held == text) {
        return Ok(());
    }
    if let Some(folder) = path.parent() {
        fs::create_dir_all(folder).map_err(told)?;
    }
    fs::write(path, text).map_err(told)
}

/// Removes what an earlier run wrote below a folder, and this one hasn't: a module of a source that
/// is gone would still be compiled.
///
/// # Errors
/// What a file that can't be removed is told by, with its name.
pub fn sweep(folder: &Path, written: &[PathBuf]) -> Result<(), Problem> {
    for path in files_below(folder, "rs")? {
        if !written.contains(&path) {
            fs::remove_file(&path).map_err(|error| format!("{}: {error}", path.display()))?;
        }
    }
    Ok(())
}
