//! What Rust spells otherwise.
use super::Place;
use crate::edit::{Edit, Unknown};
use crate::tokens::Kind;

/// Macros whose first argument is the runtime or an allocator.
const HANDED: [&str; 8] =
    ["assert", "assert_eq", "assert_ne", "print", "println", "eprintln", "format", "vec"];
/// Macros that are the same in both.
const SHARED: [&str; 6] = ["bail", "ensure", "matches", "panic", "unreachable", "write"];

/// Words behind which a `!` says no, and a path begins.
const BEFORE: [&str; 12] =
    ["as", "break", "dyn", "else", "for", "if", "impl", "in", "match", "return", "use", "while"];

/// Calls that take a range as bounds, and don't go through it.
const BOUNDED: [&str; 4] = ["get", "get_mut", "range", "range_back"];

/// What both languages have, and Rust means otherwise.
pub(super) fn differences(edit: &mut Edit<'_>, _: &Place) -> Result<bool, Unknown> {
    let at = edit.at();
    match edit.text(at) {
        _ if edit.is_put(at) => Ok(false),
        "." if is_endless_range(edit, at) => Err(edit.unknown(at, "a range without end")),
        "::" if !is_behind(edit, at, &[">"]) => Err(edit.unknown(at, "a path that begins with ::")),
        "extern" if edit.reads(at, &["extern", "crate"]) => Err(edit.unknown(at, "extern crate")),
        _ => Ok(false),
    }
}

/// Whether a token stands behind a name, a literal or one of these signs.
fn is_behind(edit: &Edit<'_>, at: usize, signs: &[&str]) -> bool {
    edit.last(at).is_some_and(|last| match edit.kind(last) {
        Some(Kind::Word | Kind::Literal) => !BEFORE.contains(&edit.text(last)),
        _ => signs.contains(&edit.text(last)),
    })
}

/// Whether `..` is a range without end that may be gone through: Rattle's ends below the greatest
/// number, where Rust's overflows.
fn is_endless_range(edit: &Edit<'_>, at: usize) -> bool {
    let is_range = edit.text(at + 1) == "." && is_behind(edit, at, &[")", "]", "?"]);
    if !is_range || !matches!(edit.text(edit.after(at + 1)), ")" | "," | ";" | "{" | "}") {
        return false;
    }
    !edit.opening(at).is_some_and(|open| BOUNDED.contains(&edit.before(open)))
}

/// `fn main(rt: HostRuntime)`, and a test's.
pub(super) fn runtimes(edit: &mut Edit<'_>, _: &Place) -> Result<bool, Unknown> {
    let at = edit.at();
    if edit.text(at) != "fn" {
        return Ok(false);
    }
    let named = edit.after(at);
    let is_main = edit.text(named) == "main";
    let open = edit.after(named);
    let name = edit.text(edit.after(open)).to_string();
    let is_test = edit.before(at) == "]";
    if !edit.reads(open, &["(", &name, ":", "HostRuntime", ")"]) || !(is_main || is_test) {
        return Ok(false);
    }
    let end = edit.close(open)?;
    let body = edit.find(end, &["{"])?;
    let result = edit.joined(end, body);
    if is_main {
        edit.put("pub ");
    }
    edit.keep_to(open + 1);
    edit.leave_to(end - 1);
    edit.keep();
    let made = format!("let {name} = std::rt::host();");
    if result.contains("Fail") {
        // An error from any other can't be `Debug`, as rustc's tests ask for.
        edit.leave_to(body);
        edit.put(&format!(" {{ {made} if let Err(fail) = (|| {result} "));
        edit.keep_to(edit.close(body)?);
        edit.put(")() { panic!(\"{}\", fail.0) } }");
    } else {
        edit.keep_to(body + 1);
        edit.put(&format!(" {made}"));
    }
    Ok(true)
}

pub(super) fn formatters(edit: &mut Edit<'_>, _: &Place) -> Result<bool, Unknown> {
    let at = edit.at();
    let parameter = edit.after(at);
    let bounded = [edit.text(parameter), ":", "fmt", "::", "Write", ">"].map(str::to_string);
    let bounded: Vec<&str> = bounded.iter().map(String::as_str).collect();
    if edit.text(at) == "<" && edit.reads(parameter, &bounded) {
        edit.leave_to(edit.find(parameter, &[">"])? + 1);
        return Ok(true);
    }
    if edit.text(at) == "," && edit.reads(parameter, &bounded) {
        edit.leave_to(edit.find(parameter, &[">"])?);
        return Ok(true);
    }
    if edit.text(at) != "fmt" || !edit.reads(at, &["fmt", "::"]) {
        return Ok(false);
    }
    let name = edit.after(edit.after(at));
    let open = edit.after(name);
    let is_builder = edit.text(name).starts_with("Debug") && edit.reads(open, &["<", "'_", ","]);
    let is_formatter = edit.text(name) == "Formatter" && edit.text(open) == "<";
    if is_formatter && edit.text(edit.after(open)) != "'_" || is_builder {
        let writer = if is_builder { edit.find(open, &[","])? + 1 } else { open + 1 };
        edit.keep_to(writer);
        edit.leave_to(edit.find(writer, &[">"])?);
        edit.put("'_");
        return Ok(true);
    }
    Ok(false)
}

pub(super) fn sizes(edit: &mut Edit<'_>, _: &Place) -> Result<bool, Unknown> {
    if edit.text(edit.at()) != "trait" {
        return Ok(false);
    }
    let mut behind = edit.after(edit.after(edit.at()));
    if edit.text(behind) == "<" {
        behind = edit.next(edit.close(behind)?);
    }
    if edit.text(behind) != "{" {
        return Ok(false);
    }
    edit.keep_to(behind);
    edit.trim();
    edit.put(": Sized ");
    Ok(true)
}

pub(super) fn macros(edit: &mut Edit<'_>, _: &Place) -> Result<bool, Unknown> {
    let at = edit.at();
    let bang = edit.after(at);
    let name = edit.text(at);
    let is_call = name == "macro_rules" || matches!(edit.text(edit.after(bang)), "(" | "[" | "{");
    let is_word = edit.kind(at) == Some(Kind::Word) && !BEFORE.contains(&name);
    if !is_word || edit.text(bang) != "!" || !is_call || edit.is_put(at) {
        return Ok(false);
    }
    if edit.before(at) == "::" {
        return Err(edit.unknown(at, "a macro by its path"));
    }
    if HANDED.contains(&name) {
        edit.put("std::macros::");
    } else if !SHARED.contains(&name) {
        return Err(edit.unknown(at, &format!("the macro {name}")));
    }
    edit.keep_to(bang);
    Ok(true)
}

pub(super) fn allocations(edit: &mut Edit<'_>, _: &Place) -> Result<bool, Unknown> {
    let at = edit.at();
    let open = edit.after(at);
    if edit.before(at) != "." || edit.text(open) != "(" {
        return Ok(false);
    }
    let first = edit.text(edit.after(open));
    let name = match edit.text(at) {
        "collect" if first != ")" => "collect_by",
        "to_vec" if first != ")" => "to_vec_by",
        "replace" if first == "alloc" => "replace_by",
        _ => return Ok(false),
    };
    edit.leave_to(at + 1);
    edit.put(name);
    Ok(true)
}

/// `text.write_fmt(value)`: Rattle takes any value that can be shown.
pub(super) fn written(edit: &mut Edit<'_>, _: &Place) -> Result<bool, Unknown> {
    let at = edit.at();
    let open = edit.after(at);
    let is_call = edit.text(at) == "write_fmt" && edit.before(at) == "." && edit.text(open) == "(";
    if !is_call || edit.reads(open, &["(", "format_args", "!"]) {
        return Ok(false);
    }
    edit.keep_to(open + 1);
    edit.put("::core::format_args!(\"{}\", ");
    edit.keep_to(edit.close(open)? - 1);
    edit.put(")");
    Ok(true)
}
