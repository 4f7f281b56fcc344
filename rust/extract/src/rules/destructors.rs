//! Destructors. Rattle's `drop` is given the value; Rust's is lent it, and nothing moves out of a
//! type that has one. So the fields are replaced by empty ones, and the proved body runs on what
//! was there. A value without another one of its type below it is dropped field by field.
use super::Place;
use super::contracts::{body_of, header, is_impl_of};
use crate::edit::{Edit, Unknown};
use crate::tokens::tokens;

/// A type whose destructor does something.
#[derive(Clone, Debug, PartialEq, Eq)]
pub struct Destructor {
    /// Its name.
    pub name: String,
    /// The names and types of its fields, in their order.
    pub fields: Vec<(String, String)>,
}

/// The destructors that a source has which do something.
///
/// # Errors
/// One whose type isn't a struct of the same source.
pub fn destructors(source: &str) -> Result<Vec<Destructor>, Unknown> {
    let mut edit = Edit::new("destructors", tokens(source));
    let mut found = Vec::new();
    while !edit.is_at_end() {
        if is_impl_of(&edit, "Drop")? && !is_empty(&edit)? {
            let name = type_of(&edit)?;
            let fields = fields_of(source, &name)
                .ok_or_else(|| edit.unknown(edit.at(), "a destructor away from its struct"))?;
            found.push(Destructor { name, fields });
        }
        edit.keep();
    }
    Ok(found)
}

/// The name of the type that an impl here is for.
fn type_of(edit: &Edit<'_>) -> Result<String, Unknown> {
    let words = header(edit)?.1;
    let name = words.iter().skip_while(|word| **word != "for").nth(1);
    Ok(name.copied().unwrap_or_default().to_string())
}

/// Whether the `drop` here only takes its value apart, which Rust does by itself.
fn is_empty(edit: &Edit<'_>) -> Result<bool, Unknown> {
    let brace = header(edit)?.0;
    let open = body_of(edit, edit.after(brace))?.0;
    let (word, end) = (edit.after(open), edit.close(open)?);
    let pattern = edit.after(edit.after(word));
    if edit.text(word) != "let" || edit.text(pattern) != "{" {
        return Ok(false);
    }
    Ok(edit.words(edit.close(pattern)?, end) == ["=", "self", ";", "}"])
}

/// The fields of a struct of a source.
fn fields_of(source: &str, name: &str) -> Option<Vec<(String, String)>> {
    let edit = Edit::new("destructors", tokens(source));
    let mut at = 0;
    while !edit.reads(at, &["struct", name]) || edit.text(at) != "struct" {
        at += 1;
        edit.kind(at)?;
    }
    let open = edit.find(at, &["{"]).ok()?;
    let (end, mut fields) = (edit.close(open).ok()? - 1, Vec::new());
    let mut here = edit.after(open);
    while here < end {
        let colon = edit.find(here, &[":"]).ok()?;
        let comma = end_of_type(&edit, colon, end);
        let name = edit.words(here, colon).last()?.to_string();
        fields.push((name, edit.joined(colon + 1, comma)));
        here = edit.after(comma);
    }
    Some(fields)
}

/// Where the type behind a colon ends.
fn end_of_type(edit: &Edit<'_>, colon: usize, end: usize) -> usize {
    let mut depth = 0;
    (colon..end)
        .find(|at| {
            depth += i32::from(edit.text(*at) == "<") - i32::from(edit.text(*at) == ">");
            depth == 0 && edit.text(*at) == ","
        })
        .unwrap_or(end)
}

pub(super) fn rewrite(edit: &mut Edit<'_>, place: &Place) -> Result<bool, Unknown> {
    if is_impl_of(edit, "Drop")? {
        drop_of(edit, place)?;
        return Ok(true);
    }
    let at = edit.at();
    let name = edit.text(edit.after(at)).to_string();
    let known = place.destructors.iter().find(|known| known.name == name);
    match known {
        Some(known) if edit.text(at) == "let" && edit.reads(at, &["let", &name, "{"]) => {
            take_apart(edit, known)?;
            Ok(true)
        }
        _ => Ok(false),
    }
}

/// An `impl Drop`.
fn drop_of(edit: &mut Edit<'_>, place: &Place) -> Result<(), Unknown> {
    let brace = header(edit)?.0;
    if is_empty(edit)? {
        edit.leave_to(edit.close(brace)?);
        edit.trim_documentation();
        return Ok(());
    }
    let name = type_of(edit)?;
    let known = place.destructors.iter().find(|known| known.name == name);
    let taken = ["{", "fn", "drop", "(", "mut", "self", ")", "{"];
    let (Some(known), true) = (known, edit.reads(brace, &taken)) else {
        return Err(edit.unknown(edit.at(), "a destructor of another form"));
    };
    let below = known.fields.iter().filter(|(_, it)| it.starts_with("Vec<") && it.contains(&name));
    let [(below, _)] = below.collect::<Vec<_>>()[..] else {
        return Err(edit.unknown(edit.at(), "a destructor of a type without one list of its own"));
    };
    let body = edit.find(edit.after(brace), &["{"])?;
    if !goes_down(edit, body, &name, below)? {
        return Err(edit.unknown(body, "a destructor that does more than go down its list"));
    }
    let at = edit.find(edit.at(), &["for"])?;
    let whole = edit.joined(at + 1, brace);
    let parameters = whole.find('<').map_or("", |open| &whole[open..]);
    let text = lent(known, &whole, parameters, below);
    edit.leave_to(body);
    edit.put(&text);
    Ok(())
}

/// Whether the body of a `drop` returns at once from a value with nothing below it, so that Rust
/// may drop that field by field.
fn goes_down(edit: &Edit<'_>, body: usize, name: &str, below: &str) -> Result<bool, Unknown> {
    let begin = ["{", "loop", "{", "let", name, "{"];
    if !edit.reads(body, &begin) {
        return Ok(false);
    }
    let inner = edit.find(edit.after(body), &["{"])?;
    let pattern = edit.find(inner + 1, &["{"])?;
    let ends =
        ["=", "self", ";", "match", below, ".", "pop", "(", ")", "{", "None", "=>", "return", ","];
    Ok(edit.reads(edit.close(pattern)?, &ends))
}

/// What stands in front of the body of a proved `drop`.
fn lent(known: &Destructor, whole: &str, parameters: &str, below: &str) -> String {
    let names: Vec<&str> = known.fields.iter().map(|(name, _)| &**name).collect();
    let types: Vec<&str> = known.fields.iter().map(|(_, it)| &**it).collect();
    let taken: Vec<String> = known.fields.iter().map(|(name, it)| taken(name, it)).collect();
    let (names, types, taken) = (names.join(", "), types.join(", "), taken.join(", "));
    let own = &known.name;
    format!(
        "impl{parameters} ::core::ops::Drop for {whole} {{
    #[inline]
    fn drop(&mut self) {{
        if !self.{below}.is_empty() {{
            let ({names}) = self.take_fields();
            {own} {{ {names} }}.drop_all();
        }}
    }}
}}

impl{parameters} {whole} {{
    /// Its fields, and leaves empty ones.
    #[inline]
    fn take_fields(&mut self) -> ({types}) {{
        ({taken})
    }}

    /// Its fields, of a value that no one borrows.
    #[inline]
    fn into_fields(mut self) -> ({types}) {{
        self.take_fields()
    }}

    #[inline(never)]
    fn drop_all(mut self) "
    )
}

/// A field that is taken, and an empty one left.
fn taken(name: &str, of: &str) -> String {
    match of {
        "bool" | "u8" | "u16" | "u32" | "u64" | "usize" => format!("self.{name}"),
        _ if of.starts_with("Option") => format!("self.{name}.take()"),
        _ => format!("::core::mem::replace(&mut self.{name}, <{of}>::new(std::alloc::Global))"),
    }
}

/// `let T { a, b: c } = value;`, of a type with a destructor.
fn take_apart(edit: &mut Edit<'_>, known: &Destructor) -> Result<(), Unknown> {
    let at = edit.at();
    let open = edit.find(at, &["{"])?;
    let end = edit.close(open)?;
    let (assign, semicolon) = (edit.next(end), edit.find(end, &[";"])?);
    let mut bound = Vec::new();
    for part in edit.joined(open + 1, end - 1).split(',').filter(|part| !part.trim().is_empty()) {
        let (name, pattern) = part.split_once(':').unwrap_or((part, part));
        bound
            .push((name.trim().trim_start_matches("mut ").to_string(), pattern.trim().to_string()));
    }
    let is_whole = bound.iter().map(|(name, _)| name).eq(known.fields.iter().map(|(name, _)| name));
    if edit.text(assign) != "=" || !is_whole {
        return Err(edit.unknown(at, "a pattern without all fields in their order"));
    }
    let patterns: Vec<&str> = bound.iter().map(|(_, pattern)| &**pattern).collect();
    let text = format!("let ({}) = {}::into_fields(", patterns.join(", "), known.name);
    edit.leave_to(edit.after(assign));
    edit.put(&text);
    edit.keep_to(semicolon);
    edit.put(")");
    Ok(())
}
