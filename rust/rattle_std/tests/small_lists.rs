//! What the proofs rely on of `SmallVec` and `ArrayVec`, against Rust's own list.
mod common;
use common::Random;
use rattle_std::alloc::{AllocError, Global};
use rattle_std::arrayvec::ArrayVec;
use rattle_std::smallvec::SmallVec;
use std::rc::Rc;

type Small = SmallVec<u8, 16>;

/// Runs a check on random lists, about as many inline as not.
fn with_lists(mut check: impl FnMut(&mut Random, Vec<u8>)) {
    for seed in 1..600 {
        let mut random = Random::new(seed);
        let items = random.list(34);
        check(&mut random, items);
    }
}

fn small(items: &[u8]) -> Small {
    Small::from_slice(Global, items).unwrap()
}

/// Checks the items of a list, and where they are: its room, and what that says of `spilled`.
fn assert_has(list: &Small, items: &[u8]) {
    assert_eq!(list.as_slice(), items);
    assert_eq!((list.len(), list.is_empty()), (items.len(), items.is_empty()));
    assert!(list.capacity() >= items.len().max(16));
    assert_eq!(list.spilled(), list.capacity() > 16);
}

#[test]
fn new_is_empty_and_inline() {
    let list = Small::new(Global);
    assert_has(&list, &[]);
    assert!(!list.spilled());
    assert_eq!(*list.allocator(), Global);
}

#[test]
fn with_capacity_has_the_room_exactly_but_what_is_inline() {
    for count in 0..60 {
        let list = Small::with_capacity(Global, count).unwrap();
        assert_has(&list, &[]);
        assert_eq!(list.capacity(), count.max(16));
    }
    assert!(matches!(Small::with_capacity(Global, usize::MAX), Err(AllocError)));
}

#[test]
fn from_slice_has_the_items_inline_if_they_fit() {
    with_lists(|_, items| {
        let list = small(&items);
        assert_has(&list, &items);
        assert_eq!(list.spilled(), items.len() > 16);
    });
}

#[test]
fn push_appends_and_changes_the_room_only_where_there_was_none() {
    with_lists(|_, items| {
        let mut list = Small::new(Global);
        for (place, item) in items.iter().enumerate() {
            let room = list.capacity();
            list.push(*item).unwrap();
            assert_has(&list, &items[..=place]);
            assert!(list.capacity() == room || place == room && list.capacity() > room);
        }
    });
}

#[test]
fn push_reserved_appends_and_keeps_the_room() {
    with_lists(|random, items| {
        let (mut list, more) = (small(&items), random.below(40));
        list.reserve(more).unwrap();
        let (room, mut wanted) = (list.capacity(), items);
        for _ in 0..more {
            let item = random.next() as u8;
            list.push_reserved(item);
            wanted.push(item);
        }
        assert_has(&list, &wanted);
        assert_eq!(list.capacity(), room);
    });
}

#[test]
fn reserve_makes_room_and_keeps_the_items() {
    with_lists(|random, items| {
        let (mut list, more) = (small(&items), random.below(100));
        let room = list.capacity();
        list.reserve(more).unwrap();
        assert_has(&list, &items);
        assert!(list.capacity() >= room && list.capacity() >= items.len() + more);
        if room - items.len() >= more {
            assert_eq!(list.capacity(), room, "where there is room nothing changes");
        }
    });
}

#[test]
fn reserve_of_more_than_memory_is_refused_and_changes_nothing() {
    with_lists(|_, items| {
        let mut list = small(&items);
        let room = list.capacity();
        for more in [usize::MAX, usize::MAX / 2, usize::MAX / 2 - items.len()] {
            assert_eq!(list.reserve(more), Err(AllocError));
            assert_has(&list, &items);
            assert_eq!(list.capacity(), room);
        }
    });
}

#[test]
fn extend_from_slice_appends_in_order() {
    with_lists(|random, mut items| {
        let (mut list, more) = (small(&items), random.list(34));
        list.extend_from_slice(&more).unwrap();
        items.extend(more);
        assert_has(&list, &items);
    });
}

#[test]
fn truncate_keeps_the_first_items_and_the_room() {
    with_lists(|random, mut items| {
        let (mut list, to) = (small(&items), random.below(40));
        let room = list.capacity();
        list.truncate(to);
        items.truncate(to);
        assert_has(&list, &items);
        assert_eq!(list.capacity(), room);
    });
}

#[test]
fn shrink_to_fit_moves_inline_what_fits() {
    with_lists(|random, items| {
        let mut list = small(&items);
        list.reserve(random.below(80)).unwrap();
        let room = list.capacity();
        list.shrink_to_fit();
        assert_has(&list, &items);
        assert!(list.capacity() <= room);
        assert_eq!(list.spilled(), items.len() > 16);
    });
}

#[test]
fn a_list_takes_what_is_written() {
    with_lists(|random, mut items| {
        let mut list = small(&items);
        for at in 0..items.len() {
            items[at] = random.next() as u8;
            list[at] = items[at];
        }
        assert_has(&list, &items);
    });
}

#[test]
fn a_list_of_other_items_does_so_too() {
    let mut list = SmallVec::<u64, 3>::new(Global);
    for item in 0..10 {
        assert_eq!(list.spilled(), item > 3);
        list.push(item << 40).unwrap();
    }
    assert!(list.iter().copied().eq((0..10).map(|item| item << 40)));
}

#[test]
fn a_list_of_bytes_is_as_large_as_a_vector_and_a_word() {
    assert_eq!(size_of::<Small>(), size_of::<Vec<u8>>() + size_of::<usize>());
}

#[test]
fn array_push_appends_and_into_iter_gives_in_order() {
    for seed in 1..200 {
        let items: Vec<u32> = Random::new(seed).list(9);
        let mut list = ArrayVec::<u32, 8>::new();
        items.iter().for_each(|item| list.push(*item));
        assert!(list.into_iter().eq(items));
    }
}

#[test]
fn array_pop_at_closes_the_gap_or_is_none() {
    for seed in 1..200 {
        let mut random = Random::new(seed);
        let mut items: Vec<u32> = random.list(9);
        let mut list = ArrayVec::<u32, 8>::new();
        items.iter().for_each(|item| list.push(*item));
        while !items.is_empty() {
            assert_eq!(list.pop_at(items.len()), None);
            let at = random.below(items.len());
            assert_eq!(list.pop_at(at), Some(items.remove(at)));
        }
        assert_eq!(list.pop_at(0), None);
    }
}

#[test]
fn array_items_are_dropped_once() {
    let one = Rc::new(());
    let mut list = ArrayVec::<Rc<()>, 4>::new();
    (0..4).for_each(|_| list.push(Rc::clone(&one)));
    drop(list.pop_at(1));
    assert_eq!(Rc::strong_count(&one), 4);
    let mut items = list.into_iter();
    drop(items.next());
    assert_eq!(Rc::strong_count(&one), 3);
    drop(items);
    assert_eq!(Rc::strong_count(&one), 1);
}
