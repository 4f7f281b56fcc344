//! The rules, in the order in which a source goes through them.
mod contracts;
mod derives;
mod destructors;
mod places;
mod requirements;
mod spelling;

use std::collections::BTreeMap;

pub use destructors::{Destructor, destructors};
pub use requirements::{Requirement, of_traits};

use crate::edit::{Edit, Unknown};

/// A rule: it is asked at each significant token, and says whether it has handed on, left out or
/// put something there.
pub struct Rule {
    pub name: &'static str,
    /// What it does, for the page on extraction.
    pub what: &'static str,
    /// What it does in front of the first token.
    pub begin: Option<fn(&mut Edit<'_>)>,
    pub apply: Apply,
}

type Apply = fn(&mut Edit<'_>, &Place) -> Result<bool, Unknown>;

const fn rule(name: &'static str, what: &'static str, apply: Apply) -> Rule {
    Rule { name, what, begin: None, apply }
}

/// What a source is told of the crate that it belongs to.
#[derive(Clone, Debug, Default)]
pub struct Place {
    /// What `crate` is called where it is a module.
    pub own: String,
    /// What `std` and each crate that it names are called there.
    pub homes: BTreeMap<String, String>,
    /// Its types with a destructor that does something.
    pub destructors: Vec<Destructor>,
    /// What the methods of its traits require.
    pub requirements: Vec<Requirement>,
    /// Whether no user's program names it: its functions are called by what is proved alone.
    pub is_inner: bool,
    /// Whether programs in other languages call it.
    pub is_exported: bool,
}

/// All rules, in their order.
pub const RULES: &[Rule] = &[
    rule(
        "requirements",
        "what a public function requires becomes an `assert!`, or it is public no more",
        requirements::requirements,
    ),
    rule("contracts", "`requires` and `ensures` clauses are left out", contracts::contracts),
    rule("ghosts", "ghost imports, fields and members are left out", contracts::ghosts),
    rule("models", "an `impl Model`, what a type stands for, is left out", contracts::models),
    rule(
        "attributes",
        "attributes of proofs are left out, others are known",
        contracts::attributes,
    ),
    rule(
        "destructors",
        "a `drop` runs on what is taken out of the value that Rust lends, where it does something",
        destructors::rewrite,
    ),
    rule(
        "derives",
        "a derived `Clone` is Rattle's, which may fail; a derived `Drop` is Rust's own",
        derives::derives,
    ),
    rule("copies", "a type that is `Copy` is Rust's `Clone` too", derives::copies),
    rule(
        "runtimes",
        "`main` and a test make the runtime that Rattle hands to them",
        spelling::runtimes,
    ),
    rule(
        "differences",
        "a range without end and a path that begins with `::` are refused: Rust means others",
        spelling::differences,
    ),
    rule(
        "formatters",
        "a formatter has a lifetime, where Rattle's has a writer",
        spelling::formatters,
    ),
    rule("sizes", "a trait's types have a size, as all in Rattle", spelling::sizes),
    rule(
        "macros",
        "a macro that is handed the runtime or an allocator is `rattle_std`'s; others are known",
        spelling::macros,
    ),
    rule(
        "allocations",
        "`collect`, `replace` and `to_vec` with an allocator are calls of `rattle_std`",
        spelling::allocations,
    ),
    rule("written", "`write_fmt` of a value is given its format arguments", spelling::written),
    rule("laws", "a law, which does nothing, is not in the documentation", places::laws),
    rule(
        "exports",
        "what other languages call is a plain function, for `nifazombi_c` to call",
        places::exports,
    ),
    Rule {
        begin: Some(places::begin),
        ..rule(
            "preludes",
            "each module begins with `rattle_std`'s prelude, and has none of Rust's",
            places::preludes,
        )
    },
    rule(
        "paths",
        "crates are modules of one crate, and Rattle's libraries modules of `rattle_std`",
        places::paths,
    ),
];
