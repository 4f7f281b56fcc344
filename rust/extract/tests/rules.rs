//! Each rule by sources and what they become. White space isn't compared.
use std::collections::BTreeMap;

use extract::rules::{Place, RULES, destructors, of_traits};
use extract::tokens::tokens;

/// A rule's name, a source, and what it becomes. Where a rule refuses, what it says, behind `!`.
const ROWS: &[(&str, &str, &str)] = &[
    ("requirements", "pub fn get(&self, i: usize) -> u8 requires { i < length self.now } { 1 }",
     "pub fn get(&self, i: usize) -> u8 { ::core::assert!(i < self.len()); 1 }"),
    ("requirements", "pub fn u32_at(bytes: &[u8], at: usize) -> u32 requires { at + 4 ≤ length bytes.now } {}",
     "pub fn u32_at(bytes: &[u8], at: usize) -> u32 { ::core::assert!(bytes.len() >= 4 && at <= bytes.len() - 4); }"),
    ("requirements",
     "fn is_table(r: &[u8]) -> bool { true } pub fn least(r: &[u8]) -> u8 requires rows { IsTable r.now } {}",
     "fn is_table(r: &[u8]) -> bool { true } pub fn least(r: &[u8]) -> u8 { ::core::assert!(is_table(r)); }"),
    ("requirements", "pub fn part(b: &[u8]) requires { IsPadded b.now } {}", "pub(crate) fn part(b: &[u8]) {}"),
    ("requirements", "pub fn keep<F: Fn()>(f: F) -> u8 requires { All (TakesPairAt F.Fn f) [] } {}",
     "pub fn keep<F: Fn()>(f: F) -> u8 {}"),
    ("requirements", "fn own(b: &[u8]) requires { IsPadded b.now } {}", "fn own(b: &[u8]) {}"),
    (
        "requirements",
        "trait A { fn byte(&self, i: usize) -> u8 requires { i < WIDTH } ensures { x }; fn other();
          fn of(n: u128) requires { n < 2 ^ BITS }; }
         impl A for B { fn other() {} fn byte(&self, i: usize) -> u8 { 0 } }",
        "trait A: Sized { fn byte(&self, i: usize) -> u8; fn other(); fn of(n: u128); }
         impl A for B { fn other() {} fn byte(&self, i: usize) -> u8 { ::core::assert!(i < Self::WIDTH); 0 } }",
    ),
    (
        "requirements",
        "trait A { fn of(n: u128) requires { n < 2 ^ BITS }; } impl A for B { fn of(n: u128) { 0 } }",
        "trait A: Sized { fn of(n: u128); } impl A for B { fn of(n: u128) {
             ::core::assert!(n.checked_shr(Self::BITS as u32).unwrap_or(0) == 0); 0 } }",
    ),
    (
        "requirements",
        "pub trait A { fn a(i: u8) requires { i < 3 } { 1 } fn b(i: u8) requires { i < 4 }; fn c(i: u8); }
         impl A for B { fn c(i: u8) {} fn b(i: u8) { 2 } fn a(i: u8) requires { i < 5 } { 3 } }
         impl A for C { fn b(i: u8) ensures { result ≡ i } { 4 } }",
        "pub trait A: Sized { fn a(i: u8) { ::core::assert!(i < 3); 1 } fn b(i: u8); fn c(i: u8); }
         impl A for B { fn c(i: u8) {} fn b(i: u8) { ::core::assert!(i < 4); 2 } fn a(i: u8) { ::core::assert!(i < 5); 3 } }
         impl A for C { fn b(i: u8) { 4 } }",
    ),
    ("requirements", "pub trait A { fn a(i: u8);\nfn b(i: u8) requires { IsOdd i }; }",
     "!line 2: what a method of a public trait requires"),
    ("requirements", "pub(super) trait A { fn b(i: u8) requires { IsOdd i }; }", "pub(super) trait A: Sized { fn b(i: u8); }"),
    ("requirements", "pub unsafe fn f(n: u8) requires { n < 255 } {}", "pub unsafe fn f(n: u8) { ::core::assert!(n < 255); }"),
    ("requirements", "pub fn f(a: u8, b: u8) requires { a + b ≤ 255 } {}", "pub(crate) fn f(a: u8, b: u8) {}"),
    ("requirements", "pub fn f(a: &[u8], b: usize) requires { b + 1 ≡ length a.now } {}", "pub(crate) fn f(a: &[u8], b: usize) {}"),
    ("requirements", "pub fn f(o: Option<u8>) requires { ForSome o (λ x. x < 255) } {}", "pub(crate) fn f(o: Option<u8>) {}"),
    ("requirements", "pub fn f(i: I, n: u8) requires { IsFinite (I.remaining i) × n < 255 } {}", "pub(crate) fn f(i: I, n: u8) {}"),
    ("contracts", "fn f() -> u8 requires { a { b } } ensures* c { d '{' } { 0 }", "fn f() -> u8 { 0 }"),
    ("contracts", "fn requires(ensures: u8) {}", "!line 1: a clause without a brace"),
    ("ghosts", "ghost use Rattle.std.{◌≡◌, ℕ}; use std::io;", "use crate::rattle_std::io;"),
    ("ghosts", "struct S { a: u8, pub ghost b: { List (K × V) }, c: u8 }", "struct S { a: u8, c: u8 }"),
    ("ghosts", "impl T for S { ghost laws = { λ _. refl }; fn f() {} }", "impl T for S { fn f() {} }"),
    ("models", "/// What it stands for.\nimpl<K> Model for S<K> { ghost Value = { ℕ }; } struct T;", "struct T;"),
    ("attributes", "#![tactic(auto)] #[cycle(a)] #[inline] fn f() {}", "#[inline] fn f() {}"),
    ("models", "impl Model for S { ghost Value = { ℕ }; fn f() {} }", "!line 1: a model with more than ghost members"),
    ("attributes", "#[cfg(test)] mod a;", "#[cfg(test)] mod a;"),
    ("attributes", "#[cfg(not(test))] fn f() {}", "!line 1: a cfg other than of tests"),
    ("attributes", "#[global_allocator] static A: B = B;", "!line 1: the attribute global_allocator"),
    ("destructors", "impl Drop for S { fn drop(self) ensures { x } { let S { a: _ } = self; } } struct S;", "struct S;"),
    ("destructors",
     "pub struct Node<K> { key: Option<K>, mask: u16, children: Vec<Box<Node<K>>> }
      impl<K: Drop> Drop for Node<K> { fn drop(mut self) { loop { let Node { key, mask, mut children } = self; match children.pop() { None => return, Some(it) => {} } } } }
      impl<K> Node<K> { fn parts(self) { let Node { key: k, mask: _, children } = self; } }",
     "pub struct Node<K> { key: Option<K>, mask: u16, children: Vec<Box<Node<K>>> }
      impl<K> ::core::ops::Drop for Node<K> { #[inline] fn drop(&mut self) {
          if !self.children.is_empty() {
              let (key, mask, children) = self.take_fields(); Node { key, mask, children }.drop_all();
          }
      } }
      impl<K> Node<K> {
          #[inline] fn take_fields(&mut self) -> (Option<K>, u16, Vec<Box<Node<K>>>) {
              (self.key.take(), self.mask,
               ::core::mem::replace(&mut self.children, <Vec<Box<Node<K>>>>::new(crate::rattle_std::alloc::Global)))
          }
          #[inline] fn into_fields(mut self) -> (Option<K>, u16, Vec<Box<Node<K>>>) { self.take_fields() }
          #[inline(never)] fn drop_all(mut self) { loop {
              let (key, mask, mut children) = Node::into_fields(self); match children.pop() { None => return, Some(it) => {} } } }
      }
      impl<K> Node<K> { fn parts(self) { let (k, _, children) = Node::into_fields(self); } }"),
    ("destructors",
     "struct S { a: u8 } impl Drop for S { fn drop(mut self) { let S { a } = &mut self; f(a); let S { a: _ } = self; } }",
     "!line 1: a destructor of a type without one list of its own"),
    ("destructors", "struct S { a: u8 } impl Drop for S { fn drop(mut self) { f(self.a) } }",
     "!line 1: a destructor of a type without one list of its own"),
    ("destructors",
     "struct S { a: Vec<S> }\nimpl Drop for S { fn drop(mut self) { f(); loop { let S { mut a } = self; match a.pop() { None => return, _ => {} } } } }",
     "!line 2: a destructor that does more than go down its list"),
    ("destructors",
     "struct S { a: Vec<S> } impl Drop for S { fn drop(mut self) { loop { let S { mut a } = self; match a.pop() { None => { f(); return } _ => {} } } } }",
     "!line 1: a destructor that does more than go down its list"),
    ("destructors", "struct S { a: Vec<S> } impl Drop for S { fn drop(self) { f(self.a) } }",
     "!line 1: a destructor of another form"),
    ("destructors", "struct S { a: Vec<S>, b: u8 } impl Drop for S { fn drop(mut self) { loop {
         let S { b, mut a } = self; match a.pop() { None => return, _ => {} } } } }",
     "!line 2: a pattern without all fields in their order"),
    ("derives", "#[derive(Debug, Drop)] struct S;", "#[derive(Debug)] struct S;"),
    ("derives", "#[derive(Drop)] struct S;", "struct S;"),
    ("derives", "#[derive(Clone, Copy)] pub struct S<'a, T: Eq, const N: usize> { a: &'a [T; N] }",
     "#[derive(Clone, Copy)] pub struct S<'a, T: Eq, const N: usize> { a: &'a [T; N] }
      impl<'a, T: Eq + Copy, const N: usize> Clone for S<'a, T, N> {
          fn clone(&self) -> Result<Self, crate::rattle_std::alloc::AllocError> { Ok(*self) }
      }"),
    ("derives", "#[derive(Clone, Drop)] enum E { A, B(u8) }",
     "enum E { A, B(u8) } crate::rattle_std::macros::derived_clone! { E { A, B(u8) } }"),
    ("derives", "#[derive(Clone)] struct S<T> { a: T }",
     "!line 1: a derived Clone of a type with parameters"),
    ("copies", "impl<A: Eq> Copy for S<A> {}",
     "impl<A: Eq> Copy for S<A> {} impl<A: Eq> ::core::clone::Clone for S<A> { fn clone(&self) -> Self { *self } }"),
    ("runtimes", "fn main(rt: HostRuntime) -> ExitCode { f(rt) }",
     "pub fn main() -> ExitCode { let rt = crate::rattle_std::rt::host(); f(rt) }"),
    ("runtimes", "#[test] fn t(rt: HostRuntime) -> Result<(), Memory> { f(rt) }",
     "#[test] fn t() -> Result<(), Memory> { let rt = crate::rattle_std::rt::host(); f(rt) }"),
    ("runtimes", "#[test] fn t(rt: HostRuntime) -> Result<(), Fail> { f(rt) }",
     "#[test] fn t() { let rt = crate::rattle_std::rt::host();
          if let Err(fail) = (|| -> Result<(), Fail> { f(rt) })() { panic!(\"{}\", fail.0) } }"),
    ("runtimes", "fn f(rt: HostRuntime) {}", "fn f(rt: HostRuntime) {}"),
    ("formatters", "fn fmt<W: fmt::Write>(&self, f: &mut fmt::Formatter<W>) -> fmt::Result { g() }",
     "fn fmt(&self, f: &mut fmt::Formatter<'_>) -> fmt::Result { g() }"),
    ("formatters", "fn f<K: Eq, W: fmt::Write>(m: &mut fmt::DebugMap<'_, W>) {}",
     "fn f<K: Eq>(m: &mut fmt::DebugMap<'_, '_>) {}"),
    ("sizes", "trait A<'a, T: Eq> { fn f(&self); } trait B: Eq {}",
     "trait A<'a, T: Eq>: Sized { fn f(&self); } trait B: Eq {}"),
    ("macros", "fn f() { assert!(rt; a != b); matches!(a, b); }",
     "fn f() { crate::rattle_std::macros::assert!(rt; a != b); matches!(a, b); }"),
    ("macros", "fn f() { if !(a) { return !{ b }; } }", "fn f() { if !(a) { return !{ b }; } }"),
    ("macros", "fn f() { include!(\"a\") }", "!line 1: the macro include"),
    ("macros", "macro_rules! vec { ($a:expr) => { $a.collect(b) } }", "!line 1: the macro macro_rules"),
    ("macros", "fn f() {\ncrate::m!(a) }", "!line 2: a macro by its path"),
    ("differences", "fn f(a: &[u8], b: &mut B) { a[1..]; a.get(n + 1..); b.range(k..); let [c, ..] = a; g(n..m, ..) }",
     "fn f(a: &[u8], b: &mut B) { a[1..]; a.get(n + 1..); b.range(k..); let [c, ..] = a; g(n..m, ..) }"),
    ("differences", "fn f() { for a in (250u8..).take(9) {} }", "!line 1: a range without end"),
    ("differences", "fn f() { for a in n.len().. {} }", "!line 1: a range without end"),
    ("differences", "fn f() {\na.iter().zip(0..) }", "!line 2: a range without end"),
    ("differences", "fn f() { let a = ::std::mem::take(b); }", "!line 1: a path that begins with ::"),
    ("differences", "use ::std::mem;", "!line 1: a path that begins with ::"),
    ("differences", "extern crate std as a;", "!line 1: extern crate"),
    ("allocations", "fn f() { a.collect(alloc); a.collect(); b.to_vec(alloc); c.replace(alloc, d); e.replace(0) }",
     "fn f() { a.collect_by(alloc); a.collect(); b.to_vec_by(alloc); c.replace_by(alloc, d); e.replace(0) }"),
    ("written", "fn f() { text.write_fmt(*network) }",
     "fn f() { text.write_fmt(::core::format_args!(\"{}\", *network)) }"),
    ("laws", "/// A law.\npub fn a<K>(k: &K) {} pub fn b(k: &K) -> u8 { 0 } pub fn c(k: &mut K) {} fn d() {}",
     "#[doc(hidden)] pub fn a<K>(k: &K) {} pub fn b(k: &K) -> u8 { 0 } pub fn c(k: &mut K) {} fn d() {}"),
    ("preludes", "//! A file.\n\nmod a { fn f() {} }",
     "mod a { #[allow(unused_imports)] use crate::rattle_std::prelude::*; fn f() {} }"),
    ("paths", "use std::io; use radix_keys::{a}; fn f() { crate::g(std::mem::swap); x.std() }",
     "use crate::rattle_std::io; use crate::radix_keys::{a};
      fn f() { crate::own::g(crate::rattle_std::mem::swap); x.std() }"),
];

fn place() -> Place {
    let homes = [("std", "crate::rattle_std"), ("radix_keys", "crate::radix_keys")];
    let homes = homes.map(|(name, home)| (name.to_string(), home.to_string()));
    Place { own: "crate::own".to_string(), homes: BTreeMap::from(homes), ..Place::default() }
}

/// What a source becomes, or what is said of it.
fn made(source: &str, mut place: Place) -> String {
    let told = |it: extract::edit::Unknown| format!("!line {}: {}", it.line, it.what);
    match destructors(source).and_then(|found| Ok((found, of_traits(source)?))) {
        Ok(found) => (place.destructors, place.requirements) = found,
        Err(it) => return told(it),
    }
    match extract::extract(source, &place) {
        Ok(made) => made.text(),
        Err(it) => told(it),
    }
}

/// The significant tokens of a text, behind the prelude of its file.
fn significant(text: &str) -> Vec<String> {
    let prelude = "#[allow(unused_imports)]\nuse crate::rattle_std::prelude::*;\n";
    let text = text.replacen(prelude, "", 1);
    let found = tokens(&text).into_iter().filter(|token| token.is_significant());
    found.map(|token| token.text.into_owned()).collect()
}

#[test]
fn each_row_becomes_what_it_says() {
    for (rule, source, wanted) in ROWS {
        let made = made(source, place());
        if wanted.starts_with('!') {
            assert_eq!(made, *wanted, "{rule}: {source}");
        } else {
            assert_eq!(significant(&made), significant(wanted), "{rule}: {source}\n{made}");
        }
    }
}

#[test]
fn each_rule_has_a_row() {
    for rule in RULES.iter().filter(|rule| rule.name != "exports") {
        assert!(ROWS.iter().any(|row| row.0 == rule.name), "{} has none", rule.name);
    }
}

#[test]
fn exports_become_plain_functions() {
    let source = "mod ipv4; #[unsafe(no_mangle)] pub extern \"C\" fn f(image: &[u8]) -> u32 { 0 }";
    let made = made(source, Place { is_exported: true, ..place() });
    assert_eq!(
        significant(&made),
        significant("pub mod ipv4; pub fn f(image: &[u8]) -> u32 { 0 }")
    );
}

#[test]
fn exports_of_another_form_are_refused() {
    let source = "extern \"C\" { fn g(); } const A: u8 = 1; fn f() {}";
    let made = made(source, Place { is_exported: true, ..place() });
    assert_eq!(made, "!line 1: extern that is no function's");
}

#[test]
fn functions_of_inner_crates_are_as_they_stand() {
    let made = made("pub fn f(i: u8) requires { i < 2 } {}", Place { is_inner: true, ..place() });
    assert_eq!(significant(&made), significant("pub fn f(i: u8) {}"));
}

#[test]
fn comments_stand_in_comments() {
    for text in ["/* { /* } */ /**/ ' */", "/**/", "/*/ */", "/***/", "/* /* */"] {
        assert_eq!(tokens(text).len(), 1, "{text}");
    }
    assert_eq!(significant("a /* /* } */ b */ c /**/ d"), ["a", "c", "d"]);
}

#[test]
fn a_text_is_its_tokens() {
    let text =
        "a\u{3bb} 'a' '\\'' 'life b\"\\\"\" br#\"\"#\"# /* c */ // d\n1.5e3 -> => :: \u{2261}";
    let found = tokens(text);
    assert_eq!(found.iter().map(|token| &*token.text).collect::<String>(), text);
    let significant: Vec<&str> =
        found.iter().filter(|token| token.is_significant()).map(|token| &*token.text).collect();
    let wanted = [
        "a\u{3bb}",
        "'a'",
        "'\\''",
        "'life",
        "b\"\\\"\"",
        "br#\"\"#",
        "\"# /* c */ // d\n1.5e3 -> => :: \u{2261}",
    ];
    assert_eq!(significant[..6], wanted[..6]);
}
