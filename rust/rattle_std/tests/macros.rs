//! The macros, from a crate that has no prelude of Rust's, as extracted code has none.
#![no_implicit_prelude]
use ::rattle_std::anyhow;
use ::rattle_std::macros;
use ::rattle_std::prelude::*;
use ::std::panic::catch_unwind;

#[test]
fn assertions_pass_where_they_hold_and_panic_where_not() {
    let rt = ::rattle_std::rt::host();
    macros::assert!(rt; 1 < 2);
    macros::assert!(rt; 1 < 2, "{} is less", 1);
    macros::assert_eq!(rt; 2, 2);
    macros::assert_eq!(rt; 2, 2, "{}", "equal");
    ::std::assert!(catch_unwind(|| macros::assert!(rt; 2 < 1)).is_err());
    ::std::assert!(catch_unwind(|| macros::assert_eq!(rt; 2, 1)).is_err());
}

#[test]
fn format_and_vec_make_texts_and_lists() {
    let rt = ::rattle_std::rt::host();
    let text = macros::format!(in rt.alloc(); "{}{:>3}", "a", 5).unwrap();
    ::std::assert_eq!(text.as_str(), "a  5");
    let list = macros::vec![in rt.alloc(); 1, 2, 3].unwrap();
    ::std::assert_eq!(list.as_slice(), [1, 2, 3]);
    let list: Vec<u8> = macros::vec![in rt.alloc(); 4; 3].unwrap();
    ::std::assert_eq!(list.as_slice(), [4, 4, 4]);
    let list: Vec<u8> = macros::vec![in rt.alloc();].unwrap();
    ::std::assert!(list.is_empty());
}

#[test]
fn bail_returns_an_error_of_its_text() {
    fn fails(number: u8) -> anyhow::Result<u8> {
        if number > 1 {
            macros::bail!("{number} is too much");
        }
        Ok(number)
    }
    ::std::assert!(::std::matches!(fails(1), Ok(1)));
    let error = fails(2).unwrap_err();
    ::std::assert_eq!(::std::format!("{error} {error:?}"), "2 is too much 2 is too much");
}

#[test]
fn an_error_of_any_kind_becomes_one_of_its_text() {
    fn fails() -> anyhow::Result<()> {
        "x".parse::<u8>()?;
        Ok(())
    }
    ::std::assert_eq!(::std::format!("{}", fails().unwrap_err()), "invalid digit found in string");
    fn tells() -> Result<(), ::rattle_std::test::Fail> {
        Err(::rattle_std::alloc::AllocError)?
    }
    ::std::assert_eq!(tells().err().map(|fail| fail.0.len()), Some("AllocError".len()));
}

#[test]
fn lines_are_printed() {
    let rt = ::rattle_std::rt::host();
    ::std::assert!(macros::println!(rt; "a line of {}", "a test").is_ok());
    ::std::assert!(macros::eprintln!(rt; "a line of {}", "a test").is_ok());
}

#[test]
fn a_clone_is_the_one_that_may_fail() {
    let text = String::from_str(::rattle_std::alloc::Global, "text").unwrap();
    let copy: Result<String, ::rattle_std::alloc::AllocError> = text.clone();
    ::std::assert!(copy.unwrap() == text);
}
