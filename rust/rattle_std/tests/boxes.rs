//! What the proofs rely on of `Box`, `Rc` and `Clone`.
use rattle_std::alloc::{AllocError, Global};
use rattle_std::boxed::Box as Boxed;
use rattle_std::clone::Clone;
use rattle_std::macros;
use rattle_std::rc::Rc;
use rattle_std::string::String as Text;
use std::net::{Ipv4Addr, Ipv6Addr};

/// A value that counts the drops of its kind.
struct Counted<'a>(&'a std::cell::Cell<usize>);

impl std::ops::Drop for Counted<'_> {
    fn drop(&mut self) {
        self.0.set(self.0.get() + 1);
    }
}

#[test]
fn new_holds_the_value_and_into_inner_gives_it_back() {
    let boxed = Boxed::new(Global, (1, Text::from_str(Global, "one").unwrap())).unwrap();
    assert_eq!((boxed.0, boxed.1.as_str()), (1, "one"));
    let (number, text) = Boxed::into_inner(boxed);
    assert_eq!((number, text.as_str()), (1, "one"));
}

#[test]
fn a_box_takes_what_is_written() {
    let mut boxed = Boxed::new(Global, [1, 2, 3]).unwrap();
    boxed[1] = 5;
    assert_eq!(*boxed, [1, 5, 3]);
    *boxed = [7; 3];
    assert_eq!(Boxed::into_inner(boxed), [7; 3]);
}

#[test]
fn a_box_drops_its_value_once_and_into_inner_does_not() {
    let count = std::cell::Cell::new(0);
    drop(Boxed::new(Global, Counted(&count)).unwrap_or_else(|_| panic!("memory")));
    assert_eq!(count.get(), 1);
    let boxed = Boxed::new(Global, Counted(&count)).unwrap_or_else(|_| panic!("memory"));
    let value = Boxed::into_inner(boxed);
    assert_eq!(count.get(), 1);
    drop(value);
    assert_eq!(count.get(), 2);
}

#[test]
fn a_list_of_boxes_is_taken_apart_in_a_loop() {
    struct Link(Option<Boxed<Link>>);
    let mut list = Link(None);
    for _ in 0..100_000 {
        list = Link(Some(Boxed::new(Global, list).unwrap_or_else(|_| panic!("memory"))));
    }
    let mut count = 0;
    while let Some(next) = list.0.take() {
        list = Boxed::into_inner(next);
        count += 1;
    }
    assert_eq!(count, 100_000);
}

#[test]
fn clones_of_a_box_and_of_a_shared_value_equal_it() {
    let text = || Text::from_str(Global, "a text that is shared").unwrap();
    let boxed = Boxed::new(Global, text()).unwrap();
    let mut copy = Clone::clone(&boxed).unwrap();
    copy.push('!').unwrap();
    assert_eq!((boxed.as_str().len() + 1, &*boxed), (copy.as_str().len(), &text()));
    let shared = Rc::new(Global, text()).unwrap();
    let other = Clone::clone(&shared).unwrap();
    drop(shared);
    assert_eq!(*other, text());
    assert!(std::ptr::eq(&*other, &*Clone::clone(&other).unwrap()));
}

fn cloned<T: Clone>(value: T) -> T {
    Clone::clone(&value).unwrap()
}

#[test]
fn clones_of_plain_values_equal_them() {
    assert_eq!((cloned(1u8), cloned(2u16), cloned(3u32), cloned(4u64)), (1, 2, 3, 4));
    assert_eq!((cloned(-1i8), cloned(-2i16), cloned(-3i32), cloned(-4i64)), (-1, -2, -3, -4));
    assert_eq!((cloned(u128::MAX), cloned(i128::MIN)), (u128::MAX, i128::MIN));
    assert_eq!((cloned(5usize), cloned(-5isize), cloned('c'), cloned(true)), (5, -5, 'c', true));
    assert_eq!((cloned(()), cloned("text"), cloned((6u8, "pair"))), ((), "text", (6, "pair")));
    assert_eq!(cloned(Ipv4Addr::new(1, 2, 3, 4)), Ipv4Addr::new(1, 2, 3, 4));
    assert_eq!(cloned(Ipv6Addr::LOCALHOST), Ipv6Addr::LOCALHOST);
    assert_eq!((cloned(Global), cloned(AllocError)), (Global, AllocError));
}

#[derive(Debug, PartialEq)]
enum Choice {
    None,
    Number(u64),
    Text(Text),
    Fussy(Fussy),
}

macros::derived_clone! { Choice { None, Number(u64), Text(Text), Fussy(Fussy) } }

#[derive(Debug, PartialEq)]
struct Fussy;

impl Clone for Fussy {
    fn clone(&self) -> Result<Fussy, AllocError> {
        Err(AllocError)
    }
}

#[test]
fn derived_clone_gives_the_same_variant_or_the_error_of_its_field() {
    let text = || Text::from_str(Global, "text").unwrap();
    for choice in [Choice::None, Choice::Number(7), Choice::Text(text())] {
        assert_eq!(Clone::clone(&choice).unwrap(), choice);
    }
    assert_eq!(Clone::clone(&Choice::Fussy(Fussy)), Err(AllocError));
}
