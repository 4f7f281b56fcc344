//! Where things are found.
use super::Place;
use crate::edit::{Edit, Unknown};

const PRELUDE: &str = "#[allow(unused_imports)]\nuse std::prelude::*;\n";

/// What a file begins with is its own documentation; the prelude comes behind that.
pub(super) fn begin(edit: &mut Edit<'_>) {
    while edit.text(edit.at()).starts_with("//!") || edit.text(edit.at()).trim().is_empty() {
        if edit.is_at_end() {
            break;
        }
        edit.keep();
    }
    edit.put(PRELUDE);
}

/// A module inside a file.
pub(super) fn preludes(edit: &mut Edit<'_>, _: &Place) -> Result<bool, Unknown> {
    let at = edit.at();
    let brace = edit.after(edit.after(at));
    if edit.text(at) != "mod" || edit.text(brace) != "{" {
        return Ok(false);
    }
    edit.keep_to(brace + 1);
    edit.put(&format!("\n{PRELUDE}"));
    Ok(true)
}

/// A public function that returns nothing, and is lent nothing to change: callers' proofs cite it.
pub(super) fn laws(edit: &mut Edit<'_>, place: &Place) -> Result<bool, Unknown> {
    let at = edit.at();
    if place.is_inner || edit.text(at) != "pub" || !edit.reads(at, &["pub", "fn"]) {
        return Ok(false);
    }
    let end = edit.find(at, &["{", ";"])?;
    if edit.words(at, end).iter().any(|word| matches!(*word, "->" | "mut" | "self" | "rt")) {
        return Ok(false);
    }
    edit.put("#[doc(hidden)]\n");
    edit.keep();
    Ok(true)
}

/// `#[unsafe(no_mangle)] pub extern "C" fn`, and the modules that such functions stand in.
pub(super) fn exports(edit: &mut Edit<'_>, place: &Place) -> Result<bool, Unknown> {
    let at = edit.at();
    if !place.is_exported {
        return Ok(false);
    }
    if edit.reads(at, &["#", "[", "unsafe", "("]) && edit.text(at) == "#" {
        edit.leave_to(edit.next(edit.close(edit.after(at))?));
        return Ok(true);
    }
    if edit.text(at) == "extern" {
        if !edit.reads(at, &["extern", "\"C\"", "fn"]) {
            return Err(edit.unknown(at, "extern that is no function's"));
        }
        edit.leave_to(edit.find(at, &["fn"])?);
        return Ok(true);
    }
    if edit.text(at) == "mod" && edit.text(edit.after(edit.after(at))) == ";" {
        edit.put("pub ");
        edit.keep();
        return Ok(true);
    }
    Ok(false)
}

pub(super) fn paths(edit: &mut Edit<'_>, place: &Place) -> Result<bool, Unknown> {
    let at = edit.at();
    let is_path = edit.text(edit.after(at)) == "::" || edit.before(at) == "use";
    if !is_path || matches!(edit.before(at), "::" | ".") {
        return Ok(false);
    }
    let word = edit.text(at);
    let home = if word == "crate" { Some(&place.own) } else { place.homes.get(word) };
    match home {
        Some(home) if home != word => {
            edit.leave_to(at + 1);
            edit.put(home);
            Ok(true)
        }
        _ => Ok(false),
    }
}
