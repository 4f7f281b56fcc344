//! What a public function requires of its caller. A proof sees to it; rustc doesn't.
use super::Place;
use super::contracts::{body_of, header, is_impl_of};
use crate::edit::{Edit, Unknown};
use crate::tokens::{Kind, tokens};

/// How a requirement begins that every caller in Rust meets, and what else it names: closures may
/// be called, iterators be asked and come to an end, and a clone of a key is that key, as its type
/// promises.
const GIVEN: [(&[&str], &str); 7] = [
    (&["All", "(", "Takes"], "Takes"),
    (&["ForSome"], "FnOnceTakes"),
    (&["ForNone"], "pre"),
    (&["IsFinite"], "remaining"),
    (&["I", ".", "can_next"], "iter"),
    (&["(", "key", "copy", ":"], "is_clone"),
    (&["(", "value", "copy", ":"], "is_clone"),
];

/// What a method of a trait requires of its caller, wherever it is implemented.
#[derive(Clone, Debug, PartialEq, Eq)]
pub struct Requirement {
    owner: String,
    method: String,
    asserts: String,
}

/// What the methods of a source's traits require.
///
/// # Errors
/// A clause or a bracket that isn't understood.
pub fn of_traits(source: &str) -> Result<Vec<Requirement>, Unknown> {
    let edit = Edit::new("requirements", tokens(source));
    let mut found = Vec::new();
    for at in
        (0..edit.len()).filter(|at| edit.text(*at) == "trait" && edit.kind(*at) == Some(Kind::Word))
    {
        let (owner, brace) = (edit.text(edit.after(at)), edit.find(at, &["{"])?);
        for method in methods(&edit, brace)? {
            let asserts = asserts(&edit, &body_of(&edit, method)?.1).unwrap_or_default();
            if !asserts.is_empty() {
                let (owner, method) =
                    (owner.to_string(), edit.text(edit.after(method)).to_string());
                found.push(Requirement { owner, method, asserts });
            }
        }
    }
    Ok(found)
}

/// The `fn` of each method of a block.
fn methods(edit: &Edit<'_>, brace: usize) -> Result<Vec<usize>, Unknown> {
    let (mut found, mut at, end) = (Vec::new(), edit.after(brace), edit.close(brace)? - 1);
    while at < end {
        if edit.text(at) == "fn" {
            found.push(at);
        }
        at = if edit.text(at) == "{" { edit.next(edit.close(at)?) } else { edit.after(at) };
    }
    Ok(found)
}

pub(super) fn requirements(edit: &mut Edit<'_>, place: &Place) -> Result<bool, Unknown> {
    let at = edit.at();
    let is_trait = edit.text(at) == "trait" && edit.kind(at) == Some(Kind::Word);
    if is_trait && edit.before(at) == "pub" && !place.is_inner {
        see_that_all_are_tested(edit)?;
    }
    let mut known = Vec::new();
    for it in &place.requirements {
        if is_trait && edit.text(edit.after(at)) == it.owner || is_impl_of(edit, &it.owner)? {
            known.push(it);
        }
    }
    if !known.is_empty() {
        assert_in_block(edit, &known)?;
        return Ok(true);
    }
    if edit.text(at) != "pub" || !is_function(edit, edit.after(at)) || place.is_inner {
        return Ok(false);
    }
    let (body, clauses) = body_of(edit, at)?;
    match asserts(edit, &clauses) {
        Some(asserts) => {
            edit.keep_to(body + 1);
            edit.put(&asserts);
        }
        None => {
            edit.leave_to(at + 1);
            edit.put("pub(crate)");
        }
    }
    Ok(true)
}

/// Whether a `fn` and what may stand in front of it begin at an index.
fn is_function(edit: &Edit<'_>, mut at: usize) -> bool {
    while matches!(edit.text(at), "const" | "unsafe" | "extern" | "\"C\"") {
        at = edit.after(at);
    }
    edit.text(at) == "fn"
}

/// Fails where a trait here requires what can't be tested: its methods are public with it.
fn see_that_all_are_tested(edit: &Edit<'_>) -> Result<(), Unknown> {
    for method in methods(edit, header(edit)?.0)? {
        if asserts(edit, &body_of(edit, method)?.1).is_none() {
            return Err(edit.unknown(method, "what a method of a public trait requires"));
        }
    }
    Ok(())
}

/// Puts asserts into the bodies of a trait's methods, in the trait or an impl of it. What a method
/// of the impl says itself counts in place of what the trait says.
fn assert_in_block(edit: &mut Edit<'_>, known: &[&Requirement]) -> Result<(), Unknown> {
    let brace = header(edit)?.0;
    for method in methods(edit, brace)? {
        let (body, own) = body_of(edit, method)?;
        let name = edit.text(edit.after(method));
        let known = known.iter().find(|it| it.method == name && edit.text(body) == "{");
        let Some(known) = known else { continue };
        let words = edit.words(method, body);
        let asserts = if words.contains(&"requires") || words.contains(&"ensures") {
            asserts(edit, &own).ok_or_else(|| edit.unknown(method, "what this method requires"))?
        } else {
            known.asserts.clone()
        };
        edit.keep_to(body + 1);
        edit.put(&asserts);
    }
    edit.keep_to(edit.close(brace)?);
    Ok(())
}

/// What tests clauses, of no character where all are given; none where one can't be tested.
fn asserts(edit: &Edit<'_>, clauses: &[Vec<String>]) -> Option<String> {
    let tests: Option<Vec<String>> = clauses.iter().map(|words| test_of(edit, words)).collect();
    let tests = tests?.into_iter().filter(|test| !test.is_empty());
    Some(tests.map(|test| format!(" ::core::assert!({test});")).collect())
}

/// The test of a requirement, of no character where it is given; none where there isn't any.
fn test_of(edit: &Edit<'_>, words: &[String]) -> Option<String> {
    let is_given = |(given, named): &(&[&str], &str)| {
        let is_named = words.iter().any(|word| word.starts_with(named));
        let mut pairs = given.iter().zip(words);
        is_named && given.len() <= words.len() && pairs.all(|(it, word)| word.starts_with(it))
    };
    let is_one = !words.iter().any(|word| matches!(word.as_str(), "×" | "∧"));
    if is_one && GIVEN.iter().any(is_given) {
        return Some(String::new());
    }
    let signs = ["<", "≤", "≡"];
    let is_relation = words.iter().filter(|word| signs.contains(&word.as_str())).count() == 1;
    if is_relation { comparison(words) } else { predicate(edit, words) }
}

/// A comparison of lengths and numbers.
fn comparison(words: &[String]) -> Option<String> {
    if let [number, sign, two, power, bits] = words
        && [sign, two, power] == ["<", "2", "^"]
    {
        let bits = self::number(std::slice::from_ref(bits))?;
        return Some(format!("{number}.checked_shr({bits} as u32).unwrap_or(0) == 0"));
    }
    if let [place, plus, bytes, sign, length @ ..] = words
        && [plus, sign] == ["+", "≤"]
        && bytes.parse::<usize>().is_ok()
    {
        // What reads so many bytes at a place asks nothing more then.
        let (place, len) = (self::number(std::slice::from_ref(place))?, self::number(length)?);
        return Some(format!("{len} >= {bytes} && {place} <= {len} - {bytes}"));
    }
    let at = words.iter().position(|word| matches!(word.as_str(), "<" | "≤" | "≡"))?;
    let sign = match words[at].as_str() {
        "<" => "<",
        "≤" => "<=",
        _ => "==",
    };
    let (left, right) = (&words[..at], &words[at + 1..]);
    // No length is the greatest number, at which a sum stops.
    let is_below_length = sign != "==" && right.first().is_some_and(|word| word == "length");
    let left = if is_below_length { sum(left)? } else { number(left)? };
    Some(format!("{left} {sign} {}", number(right)?))
}

/// A length or a number, or such a one and another.
fn sum(words: &[String]) -> Option<String> {
    match words.iter().position(|word| word == "+") {
        Some(at) => {
            Some(format!("{}.saturating_add({})", sum(&words[..at])?, sum(&words[at + 1..])?))
        }
        None => number(words),
    }
}

/// A length or a number.
fn number(words: &[String]) -> Option<String> {
    match words {
        [one] if one.bytes().all(|byte| byte.is_ascii_uppercase()) => Some(format!("Self::{one}")),
        [one] => is_name_or_number(one).then(|| one.clone()),
        [length, list, dot, _] if length == "length" && dot == "." => Some(format!("{list}.len()")),
        _ => None,
    }
}

fn is_name_or_number(word: &str) -> bool {
    word.bytes().all(|byte| matches!(byte, b'a'..=b'z' | b'_' | b'0'..=b'9'))
}

/// A predicate that the source decides by a function of that name.
fn predicate(edit: &Edit<'_>, words: &[String]) -> Option<String> {
    let (name, passed) = words.split_first()?;
    let function: String = name
        .char_indices()
        .flat_map(|(at, c)| {
            let line = (at > 0 && c.is_ascii_uppercase()).then_some('_');
            line.into_iter().chain(c.to_lowercase())
        })
        .collect();
    let is_there = (0..edit.len())
        .any(|at| edit.kind(at) == Some(Kind::Word) && edit.reads(at, &["fn", &function, "("]));
    let is_part = |word: &&String| !matches!(word.as_str(), "." | "now" | "old");
    let passed: Vec<&str> = passed.iter().filter(is_part).map(String::as_str).collect();
    let is_plain = passed.iter().all(|word| is_name_or_number(word));
    (is_there && is_plain).then(|| format!("{function}({})", passed.join(", ")))
}
