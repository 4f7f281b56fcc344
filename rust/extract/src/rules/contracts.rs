//! What only a proof reads.
use super::Place;
use crate::edit::{Edit, Unknown};

/// The attributes that say something to rustc.
const KEPT: [&str; 6] = ["derive", "test", "inline", "cfg", "repr", "unsafe"];

/// The brace of a clause, if the word at an index begins one: a star and its name may
/// stand between.
pub(super) fn clause_at(edit: &Edit<'_>, at: usize) -> Result<Option<usize>, Unknown> {
    if !matches!(edit.text(at), "requires" | "ensures") {
        return Ok(None);
    }
    let starred = edit.after(at);
    let named = if edit.text(starred) == "*" { edit.after(starred) } else { starred };
    let brace = if edit.text(named) == "{" { named } else { edit.after(named) };
    if edit.text(brace) == "{" {
        Ok(Some(brace))
    } else {
        Err(edit.unknown(at, "a clause without a brace"))
    }
}

/// The brace of the body of a function at an index, or the `;` of one without a body, and what its
/// `requires` clauses say.
pub(super) fn body_of(
    edit: &Edit<'_>,
    mut at: usize,
) -> Result<(usize, Vec<Vec<String>>), Unknown> {
    let mut found = Vec::new();
    loop {
        at = edit.find(at, &["requires", "ensures", "{", ";"])?;
        let Some(brace) = clause_at(edit, at)? else {
            return Ok((at, found));
        };
        let end = edit.close(brace)?;
        if edit.text(at) == "requires" {
            let words = edit.words(brace + 1, end - 1);
            found.push(words.into_iter().map(str::to_string).collect());
        }
        at = edit.next(end);
    }
}

pub(super) fn contracts(edit: &mut Edit<'_>, _: &Place) -> Result<bool, Unknown> {
    let Some(brace) = clause_at(edit, edit.at())? else {
        return Ok(false);
    };
    edit.leave_to(edit.close(brace)?);
    edit.trim();
    Ok(true)
}

pub(super) fn ghosts(edit: &mut Edit<'_>, _: &Place) -> Result<bool, Unknown> {
    let at = edit.at();
    let is_public = edit.text(at) == "pub" && edit.reads(at, &["pub", "ghost"]);
    if edit.text(at) != "ghost" && !is_public {
        return Ok(false);
    }
    let end = edit.find(at, &[";", ",", "}"])?;
    let is_last = edit.text(end) == "}";
    edit.leave_to(if is_last { end } else { end + 1 });
    edit.trim();
    Ok(true)
}

/// The brace that opens an impl's block, and the words in front of it.
pub(super) fn header<'e>(edit: &'e Edit<'_>) -> Result<(usize, Vec<&'e str>), Unknown> {
    let brace = edit.find(edit.at(), &["{"])?;
    Ok((brace, edit.words(edit.at(), brace)))
}

/// Whether an impl of a trait begins here.
pub(super) fn is_impl_of(edit: &Edit<'_>, name: &str) -> Result<bool, Unknown> {
    let is_item = matches!(edit.before(edit.at()), "" | ";" | "}" | "]" | "{");
    if edit.text(edit.at()) != "impl" || !is_item {
        return Ok(false);
    }
    let words = header(edit)?.1;
    Ok(words.windows(2).any(|pair| pair == [name, "for"]))
}

pub(super) fn models(edit: &mut Edit<'_>, _: &Place) -> Result<bool, Unknown> {
    if !is_impl_of(edit, "Model")? {
        return Ok(false);
    }
    let brace = header(edit)?.0;
    if edit.text(edit.after(brace)) != "}" {
        return Err(edit.unknown(brace, "a model with more than ghost members"));
    }
    edit.leave_to(edit.close(brace)?);
    edit.trim_documentation();
    Ok(true)
}

pub(super) fn attributes(edit: &mut Edit<'_>, _: &Place) -> Result<bool, Unknown> {
    let at = edit.at();
    if edit.text(at) != "#" {
        return Ok(false);
    }
    let bang = edit.after(at);
    let open = if edit.text(bang) == "!" { edit.after(bang) } else { bang };
    if edit.text(open) != "[" {
        return Ok(false);
    }
    let end = edit.close(open)?;
    match edit.text(edit.after(open)) {
        "tactic" | "cycle" => {
            edit.leave_to(end);
            edit.trim();
        }
        "cfg" if !edit.reads(open, &["[", "cfg", "(", "test", ")", "]"]) => {
            return Err(edit.unknown(at, "a cfg other than of tests"));
        }
        name if KEPT.contains(&name) => edit.keep_to(end),
        name => return Err(edit.unknown(at, &format!("the attribute {name}"))),
    }
    Ok(true)
}
