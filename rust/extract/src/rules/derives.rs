//! Derived impls.
use super::Place;
use super::contracts::{header, is_impl_of};
use crate::edit::{Edit, Unknown};

pub(super) fn derives(edit: &mut Edit<'_>, _: &Place) -> Result<bool, Unknown> {
    let at = edit.at();
    if edit.text(at) != "#" || !edit.reads(at, &["#", "[", "derive", "("]) {
        return Ok(false);
    }
    let open = edit.after(at);
    let end = edit.close(open)?;
    let is_name = |word: &&str| !matches!(*word, "(" | ")" | "," | "]");
    let words: Vec<&str> = edit.words(open, end).into_iter().skip(2).filter(is_name).collect();
    let (is_clone, is_copy) = (words.contains(&"Clone"), words.contains(&"Copy"));
    let is_rust = |word: &&&str| **word != "Drop" && (**word != "Clone" || is_copy);
    let kept: Vec<&str> = words.iter().filter(is_rust).copied().collect();
    let attribute =
        if kept.is_empty() { String::new() } else { format!("#[derive({})]", kept.join(", ")) };
    let item = Item::at(edit, end)?;
    let clone = match (is_clone, is_copy) {
        (false, _) => String::new(),
        (true, true) => item.copied_clone(),
        (true, false) => item.derived_clone(edit)?,
    };
    if kept.len() == words.len() {
        edit.keep_to(end);
    } else {
        edit.leave_to(end);
        edit.put(&attribute);
        if attribute.is_empty() {
            edit.trim();
        }
    }
    edit.keep_to(item.end);
    edit.put(&clone);
    Ok(true)
}

/// The struct or enum behind an attribute.
struct Item {
    name: String,
    /// Its parameters with their bounds, without the brackets.
    parameters: Vec<String>,
    /// Where its body or what it has of one begins, and behind its end.
    body: usize,
    end: usize,
}

impl Item {
    fn at(edit: &Edit<'_>, from: usize) -> Result<Item, Unknown> {
        let word = edit.find(from, &["struct", "enum"])?;
        let named = edit.after(word);
        let mut body = edit.after(named);
        let mut parameters = Vec::new();
        if edit.text(body) == "<" {
            let close = edit.close(body)?;
            let inner = edit.joined(body + 1, close - 1);
            parameters = inner.split(',').map(|it| it.trim().to_string()).collect();
            parameters.retain(|it| !it.is_empty());
            body = edit.next(close);
        }
        let end = edit.find(body, &["{", ";"])?;
        let end = if edit.text(end) == "{" { edit.close(end)? } else { end + 1 };
        Ok(Item { name: edit.text(named).to_string(), parameters, body, end })
    }

    /// Rattle's `clone` of a type that is `Copy`.
    fn copied_clone(&self) -> String {
        let bounded = |it: &String| match it {
            _ if it.starts_with(['\'']) || it.starts_with("const ") => it.clone(),
            _ if it.contains(':') => format!("{it} + Copy"),
            _ => format!("{it}: Copy"),
        };
        let named = |it: &String| {
            let it = it.trim_start_matches("const ");
            it.split(':').next().unwrap_or(it).trim().to_string()
        };
        let here: Vec<String> = self.parameters.iter().map(bounded).collect();
        let there: Vec<String> = self.parameters.iter().map(named).collect();
        let bracketed = |list: Vec<String>| match list.is_empty() {
            true => String::new(),
            false => format!("<{}>", list.join(", ")),
        };
        let (here, there) = (bracketed(here), bracketed(there));
        format!(
            "\n\nimpl{here} Clone for {}{there} {{
    fn clone(&self) -> Result<Self, std::alloc::AllocError> {{
        Ok(*self)
    }}
}}",
            self.name
        )
    }

    /// Rattle's `clone` of another type, by the macro of `rattle_std`.
    fn derived_clone(&self, edit: &Edit<'_>) -> Result<String, Unknown> {
        if !self.parameters.is_empty() {
            return Err(edit.unknown(self.body, "a derived Clone of a type with parameters"));
        }
        let body = edit.joined(self.body, self.end);
        Ok(format!("\n\nstd::macros::derived_clone! {{ {} {body} }}", self.name))
    }
}

pub(super) fn copies(edit: &mut Edit<'_>, _: &Place) -> Result<bool, Unknown> {
    if !is_impl_of(edit, "Copy")? {
        return Ok(false);
    }
    let (at, brace) = (edit.at(), header(edit)?.0);
    let word = edit.find(at, &["Copy"])?;
    let (parameters, of) = (edit.joined(at + 1, word), edit.joined(word + 1, brace));
    edit.keep_to(edit.close(brace)?);
    edit.put(&format!(
        "\nimpl{parameters} ::core::clone::Clone {of} {{
    fn clone(&self) -> Self {{
        *self
    }}
}}"
    ));
    Ok(true)
}
