//! Nodes that are dropped: each key and each value once, the key first, in a small stack.
use nifazombi::radix_nodes::trie_node::{KeyValue, TrieNode};
use nifazombi::rattle_std::alloc::Global;
use nifazombi::rattle_std::boxed::Box as OneBox;
use std::cell::{Cell, RefCell};
use std::panic::{AssertUnwindSafe, catch_unwind};
use std::rc::Rc;

/// A part of a pair, which tells that it is dropped, and panics where it is told to.
struct Part {
    name: (u32, bool),
    log: Rc<Log>,
}

#[derive(Default)]
struct Log {
    dropped: RefCell<Vec<(u32, bool)>>,
    /// The part whose drop panics.
    bad: Cell<Option<(u32, bool)>>,
    count: Cell<u32>,
}

impl Drop for Part {
    fn drop(&mut self) {
        self.log.dropped.borrow_mut().push(self.name);
        if self.log.bad.get() == Some(self.name) {
            panic!("a drop that panics");
        }
    }
}

type Node = TrieNode<Part, Part>;

/// A node with a pair of the next number, and no child.
fn node(log: &Rc<Log>) -> Node {
    let number = log.count.replace(log.count.get() + 1);
    let part = |is_value| Part { name: (number, is_value), log: Rc::clone(log) };
    let pair = KeyValue { key: part(false), value: part(true) };
    let mut made = Node::new(Global);
    made.pair = Some(OneBox::new(Global, pair).ok().unwrap());
    made
}

fn put<K, V>(below: TrieNode<K, V>, above: &mut TrieNode<K, V>) {
    let below = OneBox::new(Global, below).ok().unwrap();
    above.children.push(below).ok().unwrap();
}

/// Trees of all forms: node by node, the child of the node at one of the last places.
fn tree(log: &Rc<Log>, form: u32, count: u32) -> Node {
    let mut drawn = form;
    let mut open = vec![node(log)];
    for _ in 1..count {
        drawn = drawn.wrapping_mul(1_664_525).wrapping_add(1_013_904_223);
        while open.len() > 1 && drawn >> 30 > form % 4 {
            let below = open.pop().unwrap();
            put(below, open.last_mut().unwrap());
            drawn <<= 2;
        }
        open.push(node(log));
    }
    while open.len() > 1 {
        let below = open.pop().unwrap();
        put(below, open.last_mut().unwrap());
    }
    open.pop().unwrap()
}

/// What was dropped: each part once.
fn check(log: &Log, what: &str) {
    let mut dropped = log.dropped.borrow().clone();
    dropped.sort_unstable();
    let all = (0..log.count.get()).flat_map(|number| [(number, false), (number, true)]);
    assert!(dropped.into_iter().eq(all), "{what}");
}

#[test]
fn drop_of_a_tree_takes_each_key_and_then_its_value_once() {
    for form in 0..64 {
        for count in [1, 2, 3, 4, 5, 8, 30, 300] {
            let log = Rc::new(Log::default());
            drop(tree(&log, form, count));
            check(&log, &format!("form {form}, {count} nodes"));
            let dropped = log.dropped.borrow();
            let is_pair = |two: &[(u32, bool)]| two[1] == (two[0].0, true) && !two[0].1;
            assert!(dropped.chunks(2).all(is_pair), "form {form}, {count} nodes");
        }
    }
}

#[test]
fn drop_that_panics_leaves_no_other_one_out() {
    for form in 0..16 {
        for bad in (0..20).flat_map(|number| [(number, false), (number, true)]) {
            let log = Rc::new(Log::default());
            log.bad.set(Some(bad));
            let whole = tree(&log, form, 20);
            assert!(catch_unwind(AssertUnwindSafe(|| drop(whole))).is_err());
            check(&log, &format!("form {form}, {bad:?} panics"));
        }
    }
}

#[test]
fn drop_of_a_chain_of_a_million_nodes_needs_no_deep_stack() {
    for leaves in [0, 2] {
        let mut top = TrieNode::<u8, u8>::new(Global);
        for _ in 0..1_000_000 {
            let mut above = TrieNode::new(Global);
            put(top, &mut above);
            for _ in 0..leaves {
                put(TrieNode::new(Global), &mut above);
            }
            top = above;
        }
        let small = std::thread::Builder::new().stack_size(64 * 1024);
        small.spawn(move || drop(top)).unwrap().join().unwrap();
    }
}
