//! What the proofs rely on of `Vec`, against Rust's own list: a test for each call and clause.
mod common;
use common::Random;
use rattle_std::alloc::{AllocError, Global};
use rattle_std::clone::Clone as _;
use rattle_std::vec::{CollectIn, ToVecIn, Vec};
use std::vec::Vec as Plain;

const ROUNDS: u64 = 300;

fn listed(items: &[u32]) -> Vec<u32> {
    Vec::from_slice(Global, items).unwrap()
}

/// Runs a check on random lists.
fn with_lists(mut check: impl FnMut(&mut Random, Plain<u32>)) {
    for seed in 1..ROUNDS {
        let mut random = Random::new(seed);
        let items = random.list(40);
        check(&mut random, items);
    }
}

#[test]
fn new_is_empty_and_has_no_room() {
    let list = Vec::<u32>::new(Global);
    assert!(list.as_slice().is_empty());
    assert_eq!((list.len(), list.capacity()), (0, 0));
    assert_eq!(*list.allocator(), Global);
}

#[test]
fn with_capacity_is_empty_and_has_the_room_exactly() {
    for count in [0, 1, 2, 3, 7, 100, 4097] {
        let list = Vec::<u32>::with_capacity(Global, count).unwrap();
        assert!(list.is_empty());
        assert_eq!(list.capacity(), count);
    }
    assert_eq!(Vec::<u32>::with_capacity(Global, usize::MAX), Err(AllocError));
}

#[test]
fn from_slice_has_the_items() {
    with_lists(|_, items| assert_eq!(listed(&items).as_slice(), items));
}

#[test]
fn from_elem_has_the_item_so_often() {
    for count in [0, 1, 5, 100] {
        let list = Vec::from_elem(Global, 7u8, count).unwrap();
        assert_eq!(list.as_slice(), vec![7; count]);
    }
    assert!(Vec::from_elem(Global, 7u64, usize::MAX).is_err());
}

#[test]
fn push_appends_and_never_takes_room_away() {
    with_lists(|_, items| {
        let mut list = Vec::new(Global);
        for (place, item) in items.iter().enumerate() {
            let room = list.capacity();
            list.push(*item).unwrap();
            assert_eq!(list.as_slice(), &items[..=place]);
            assert!(list.capacity() >= room.max(list.len()));
        }
    });
}

#[test]
fn push_reserved_appends_and_keeps_the_room() {
    with_lists(|_, items| {
        let mut list = Vec::with_capacity(Global, items.len()).unwrap();
        for item in &items {
            list.push_reserved(*item);
        }
        assert_eq!(list.as_slice(), items);
        assert_eq!(list.capacity(), items.len());
    });
}

#[test]
fn reserve_makes_room_and_keeps_the_items() {
    with_lists(|random, items| {
        let (mut list, more) = (listed(&items), random.below(200));
        let room = list.capacity();
        list.reserve(more).unwrap();
        assert_eq!(list.as_slice(), items);
        assert!(list.capacity() >= room.max(items.len() + more));
        let room = list.capacity();
        list.reserve(room - list.len()).unwrap();
        assert_eq!(list.capacity(), room, "where there is room nothing changes");
    });
}

#[test]
fn reserve_of_more_than_memory_is_refused_and_changes_nothing() {
    let mut list = listed(&[1, 2, 3]);
    let room = list.capacity();
    assert_eq!(list.reserve(usize::MAX), Err(AllocError));
    assert_eq!(list.reserve(usize::MAX / 4), Err(AllocError));
    assert_eq!((list.as_slice(), list.capacity()), (&[1, 2, 3][..], room));
}

#[test]
fn insert_moves_the_later_items_up() {
    with_lists(|random, mut items| {
        let mut list = listed(&items);
        let (at, item) = (random.below(items.len() + 1), random.next() as u32);
        items.insert(at, item);
        list.insert(at, item).unwrap();
        assert_eq!(list.as_slice(), items);
    });
}

#[test]
fn extend_from_slice_appends_in_order() {
    with_lists(|random, mut items| {
        let (mut list, more) = (listed(&items), random.list(40));
        list.extend_from_slice(&more).unwrap();
        items.extend(more);
        assert_eq!(list.as_slice(), items);
    });
}

#[test]
fn pop_takes_the_last_and_keeps_the_room() {
    with_lists(|_, mut items| {
        let mut list = listed(&items);
        let room = list.capacity();
        for _ in 0..=items.len() {
            assert_eq!(list.pop(), items.pop());
            assert_eq!(list.as_slice(), items);
        }
        assert_eq!(list.capacity(), room);
    });
}

#[test]
fn remove_closes_the_gap_and_keeps_the_room() {
    with_lists(|random, mut items| {
        let mut list = listed(&items);
        let room = list.capacity();
        while !items.is_empty() {
            let at = random.below(items.len());
            assert_eq!(list.remove(at), items.remove(at));
            assert_eq!(list.as_slice(), items);
        }
        assert_eq!(list.capacity(), room);
    });
}

#[test]
fn truncate_keeps_the_first_items_and_the_room() {
    with_lists(|random, mut items| {
        let (mut list, to) = (listed(&items), random.below(50));
        let room = list.capacity();
        items.truncate(to);
        list.truncate(to);
        assert_eq!((list.as_slice(), list.capacity()), (items.as_slice(), room));
    });
}

#[test]
fn clear_drops_all_and_keeps_the_room() {
    with_lists(|_, items| {
        let mut list = listed(&items);
        let room = list.capacity();
        list.clear();
        assert_eq!((list.len(), list.capacity()), (0, room));
    });
}

#[test]
fn retain_keeps_what_passes_in_order_and_the_room() {
    with_lists(|random, mut items| {
        let (mut list, bit) = (listed(&items), 1 << random.below(4));
        let room = list.capacity();
        let mut seen = Vec::new(Global);
        list.retain(|item| {
            seen.push(*item).unwrap();
            item & bit == 0
        });
        assert_eq!(seen.as_slice(), items, "each item is asked for once, in order");
        items.retain(|item| item & bit == 0);
        assert_eq!((list.as_slice(), list.capacity()), (items.as_slice(), room));
    });
}

#[test]
fn shrink_to_fit_keeps_the_items_and_gives_room_back() {
    with_lists(|random, items| {
        let mut list = listed(&items);
        list.reserve(random.below(60)).unwrap();
        let room = list.capacity();
        list.shrink_to_fit();
        assert_eq!(list.as_slice(), items);
        assert!(list.capacity() <= room);
        list.clear();
        list.shrink_to_fit();
        assert_eq!(list.capacity(), 0, "an empty list keeps no memory");
    });
}

#[test]
fn slices_show_and_take_what_is_written() {
    with_lists(|random, mut items| {
        let mut list = listed(&items);
        for at in 0..items.len() {
            let item = random.next() as u32;
            items[at] = item;
            if at < 9 {
                list[at] = item;
            } else {
                list.as_mut_slice()[at] = item;
            }
        }
        assert_eq!((&list[..], list.as_slice()), (&items[..], &items[..]));
    });
}

#[test]
fn into_iter_gives_the_items_in_order_from_both_ends() {
    with_lists(|random, items| {
        assert!((&listed(&items)).into_iter().eq(&items));
        let (mut given, mut wanted) = (listed(&items).into_iter(), items.into_iter());
        loop {
            assert_eq!(given.len(), wanted.len());
            let is_front = random.below(2) == 0;
            let next = if is_front { given.next() } else { given.next_back() };
            assert_eq!(next, if is_front { wanted.next() } else { wanted.next_back() });
            if next.is_none() {
                break;
            }
        }
    });
}

#[test]
fn collect_by_has_the_items_in_order_whatever_the_hint() {
    with_lists(|_, items| {
        let hinted: Vec<u32> = items.iter().copied().collect_by(Global).unwrap();
        assert_eq!(hinted.as_slice(), items);
        let unknown = items.iter().copied().filter(|_| true);
        let list: Vec<u32> = unknown.collect_by(Global).unwrap();
        assert_eq!(list.as_slice(), items);
    });
    struct Boastful(u8, usize);
    impl Iterator for Boastful {
        type Item = u8;
        fn next(&mut self) -> Option<u8> {
            self.0 = self.0.checked_sub(1)?;
            Some(self.0)
        }
        fn size_hint(&self) -> (usize, Option<usize>) {
            (self.1, None)
        }
    }
    for hint in [usize::MAX, usize::MAX / 2, isize::MAX as usize] {
        let list: Vec<u8> = Boastful(20, hint).collect_by(Global).unwrap();
        assert!(list.iter().copied().eq((0..20).rev()), "a hint that is refused isn't an error");
    }
}

#[test]
fn clone_and_to_vec_have_the_clones_in_order() {
    with_lists(|_, items| {
        assert_eq!(items[..].to_vec_by(Global).unwrap().as_slice(), items);
        let list = listed(&items);
        let mut copy = list.clone().unwrap();
        assert_eq!(copy, list);
        copy.push(1).unwrap();
        assert_eq!(list.as_slice(), items, "a clone has memory of its own");
    });
}

#[test]
fn clone_gives_the_error_of_an_item() {
    #[derive(Debug)]
    struct Fussy(bool);
    impl rattle_std::clone::Clone for Fussy {
        fn clone(&self) -> Result<Fussy, AllocError> {
            if self.0 { Ok(Fussy(true)) } else { Err(AllocError) }
        }
    }
    let items = [Fussy(true), Fussy(true)].into_iter();
    let mut list: Vec<Fussy> = items.collect_by(Global).unwrap();
    assert_eq!(list.clone().unwrap().len(), 2);
    list.insert(1, Fussy(false)).unwrap();
    assert_eq!(list.clone().unwrap_err(), AllocError);
}

#[test]
fn lists_compare_and_show_as_slices_do() {
    with_lists(|random, items| {
        let other: Plain<u32> = random.list(4);
        let (list, right) = (listed(&items[..items.len().min(3)]), listed(&other));
        let (left, other) = (&items[..items.len().min(3)], &other[..]);
        assert_eq!(list == right, left == other);
        assert_eq!(list.cmp(&right), left.cmp(other));
        assert_eq!(format!("{list:?}"), format!("{left:?}"));
    });
}

#[test]
fn items_are_dropped_once() {
    use std::rc::Rc;
    let one = Rc::new(());
    let mut list = Vec::new(Global);
    for _ in 0..20 {
        list.push(Rc::clone(&one)).unwrap();
    }
    list.truncate(15);
    assert_eq!(Rc::strong_count(&one), 16);
    drop(list.remove(3));
    list.retain(|_| Rc::strong_count(&one) > 10);
    assert_eq!(Rc::strong_count(&one), 1 + list.len());
    list.shrink_to_fit();
    let mut rest = list.into_iter();
    drop(rest.next());
    drop(rest);
    assert_eq!(Rc::strong_count(&one), 1);
}
