//! The table of the calls: the group, the words and the help of each, and what it does at each
//! place where it may be made. Help, completion, the count of words and the answers come from it.
use crate::lines::next_bounds;
use crate::parts::in_family;
use crate::prelude::*;
use crate::shell::{Shell, read_call};
use crate::words::Words;
use crate::{commands, draw, edits, encodings, help, json, parts, reads, views};
use nifazombi::radix_keys::{Bits, Network};
use nifazombi::topic_filters::{is_filter, is_topic};
use std::fmt::Write as _;
use std::net::{Ipv4Addr, Ipv6Addr};

/// A call, and what it does to each thing that it may be made of.
#[derive(Clone, Copy)]
pub struct Call {
    pub name: &'static str,
    /// Its name, and a word for each of its words, those that may be left out in brackets. Two dots
    /// stand for any number of words.
    pub form: &'static str,
    pub group: &'static str,
    /// What it answers. A call that answers nothing else answers `ok`.
    pub help: &'static [&'static str],
    /// As a line of its own.
    pub shell: Option<fn(&mut Shell, &mut Answer<'_>) -> Outcome>,
    /// There, and behind `save` and `load`.
    pub tries: Option<fn(&mut Shell, &mut Answer<'_>) -> Outcome>,
    pub trie: Option<fn(&mut Table, &mut Answer<'_>) -> Outcome>,
    /// Of a trie, but not behind `into_trie`.
    pub whole: Option<fn(&mut Table, &mut Answer<'_>) -> Outcome>,
    pub view: Option<fn(&View<'_>, &mut Answer<'_>) -> Outcome>,
    pub write: Option<fn(&mut ViewMut<'_>, &mut Answer<'_>) -> Outcome>,
    /// Of a view for writing that the call takes, by its own name or behind `spend`.
    pub taken: Option<fn(ViewMut<'_>, &mut Answer<'_>) -> Outcome>,
    pub spent: Option<fn(ViewMut<'_>, &mut Answer<'_>) -> Outcome>,
    pub frozen: Option<fn(&mut Frozen, &mut Answer<'_>) -> Outcome>,
    /// Of what keys are made of, by a second name; and the same of networks of IPv6 addresses.
    pub part: Option<fn(&mut Answer<'_>) -> Outcome>,
    pub part6: Option<fn(&mut Answer<'_>) -> Outcome>,
}

impl Call {
    /// A call that does nothing yet.
    const fn new(form: &'static str, group: &'static str, help: &'static [&'static str]) -> Call {
        let (bytes, mut end) = (form.as_bytes(), 0);
        while end < bytes.len() && !matches!(bytes[end], b' ' | b'[') {
            end += 1;
        }
        Call {
            name: form.split_at(end).0,
            form,
            group,
            help,
            shell: None,
            tries: None,
            trie: None,
            whole: None,
            view: None,
            write: None,
            taken: None,
            spent: None,
            frozen: None,
            part: None,
            part6: None,
        }
    }

    /// Whether it may have so many words.
    fn has_count(&self, count: usize) -> bool {
        let needed = self.form.split('[').next().unwrap_or(self.form);
        let count_of = |text: &str| text.bytes().filter(|byte| *byte == b' ').count();
        count_of(needed) <= count && (count <= count_of(self.form) || self.form.contains('.'))
    }
}

/// The call that a text asks for, and its words. None: there is no such call; or, of one that has
/// other words, its form.
pub fn called(text: &str) -> Result<(&'static Call, Words<'_>), Option<&'static str>> {
    let words = Words::of(text);
    let mut named = CALLS.iter().filter(|call| call.name == words.name).peekable();
    let form = named.peek().map(|call| call.form);
    match named.find(|call| call.has_count(words.left)) {
        Some(call) => Ok((call, words)),
        None => Err(form),
    }
}

/// The groups of calls, and what each is for.
pub const GROUPS: &[(&str, &str)] = &[
    ("pairs", "one pair: lookups, insertions, removals, and the entry of a key."),
    ("prefixes", "the longest stored prefix of a key, and the pairs below one."),
    ("walks", "pairs, keys and values in order, ranges of them, the first and the last."),
    ("changes", "many pairs at once."),
    ("views", "the part of a trie below a key as a trie of its own."),
    ("whole", "the whole trie: counts and pictures; several tries, and sets of their keys."),
    ("freezing", "frozen tries, and files and images of them."),
    ("types", "keys of each type, lists of nibbles, bits, networks, lists of parts."),
    ("session", "files of answers and words, refused memory, and the shell itself."),
];

/// What a call does: to a thing of the kind, by the name that stands for it, and the answer's.
macro_rules! set {
    ($call:ident, common($it:ident, $a:ident) $does:expr) => {
        $call.trie = Some(|$it, $a| { let $it = &*$it; $does });
        $call.view = Some(|$it, $a| $does);
        $call.write = Some(|$it, $a| { let $it = &*$it; $does });
        $call.spent = Some(|$it, $a| $does);
    };
    ($call:ident, edit($it:ident, $a:ident) $does:expr) => {
        $call.trie = Some(|$it, $a| $does);
        $call.write = Some(|$it, $a| $does);
    };
    ($call:ident, kept($it:ident, $a:ident) $does:expr) => {
        $call.trie = Some(|$it, $a| $does);
        $call.frozen = Some(|$it, $a| $does);
    };
    ($call:ident, map($it:ident, $a:ident) $does:expr) => {
        $call.trie = Some(|$it, $a| { let $it = &*$it; $does });
        $call.frozen = Some(|$it, $a| { let $it = &*$it; $does });
    };
    ($call:ident, network($it:ident, $a:ident) $does:expr) => {
        set!($call, part($a) { type $it = Ipv4Addr; $does });
        $call.part6 = Some(|$a| { type $it = Ipv6Addr; $does });
    };
    ($call:ident, part($a:ident) $does:expr) => {
        $call.shell = Some(|_, a| in_family(a));
        $call.part = Some(|$a| $does);
    };
    ($call:ident, $kind:ident($it:ident, $a:ident) $does:expr) => {
        $call.$kind = Some(|$it, $a| $does);
    };
}

/// A row for each call: its group, its form, its help, and what it does.
macro_rules! calls {
    ($($group:ident $form:literal $($help:literal)+ $($kind:ident $of:tt $does:expr),+;)+) => {
        pub static CALLS: &[Call] = &[$({
            let mut call = Call::new($form, stringify!($group), &[$($help),+]);
            $(set!(call, $kind $of $does);)+
            call
        }),+];
    };
}

calls! {
    pairs "insert KEY VALUE"
        "stores a pair. The old value, or none; outside, in a view."
        edit(it, a) { let (key, value) = a.next_pair()?; a.value_line(it.insert(key, value)?) };
    pairs "try_insert KEY VALUE"
        "stores a pair where none is stored at the key; occupied, where one is."
        trie(it, a) {
            let (key, value) = a.next_pair()?;
            it.try_insert(key, value)?;
            a.line("ok")
        };
    pairs "get_or_insert KEY DEFAULT VALUE"
        "writes the value at the key, or the default that is stored first."
        "The old value, or the default."
        trie(it, a) {
            let (key, value) = a.next_pair()?;
            let number = a.next_number()?;
            a.written_line(Some(it.get_or_insert(key, value)?), number)
        };
    pairs "entry KEY"
        "the key's entry: the key, the value that is stored there or none, and whether one is."
        trie(it, a) {
            let entry = it.entry(a.next_key()?)?;
            a.key(entry.key())?;
            a.value(entry.get().copied())?;
            a.truth_line(entry.is_occupied())
        };
    pairs "entry_into_key KEY"
        "the key's entry gives its key back."
        trie(it, a) { let key = it.entry(a.next_key()?)?.into_key(); a.key_line(Some(&key)) };
    pairs "entry_get_mut KEY VALUE"
        "writes the value at the key's entry, if one is stored. The old value, or none."
        trie(it, a) {
            let (key, number) = a.next_pair()?;
            a.written_line(it.entry(key)?.get_mut(), number)
        };
    pairs "entry_insert KEY VALUE"
        "stores the value by the key's entry. The old value, or none."
        trie(it, a) {
            let (key, value) = a.next_pair()?;
            a.value_line(it.entry(key)?.insert(value)?)
        };
    pairs "entry_or_insert KEY DEFAULT VALUE"
        "as get_or_insert, by the key's entry."
        trie(it, a) {
            let (key, value) = a.next_pair()?;
            let number = a.next_number()?;
            a.written_line(Some(it.entry(key)?.or_insert(value)?), number)
        };
    pairs "entry_or_insert_with KEY DEFAULT VALUE"
        "the same; a closure makes the default."
        trie(it, a) {
            let (key, value) = a.next_pair()?;
            let number = a.next_number()?;
            a.written_line(Some(it.entry(key)?.or_insert_with(move || value)?), number)
        };
    pairs "entry_and_modify KEY NUMBER"
        "adds the number to the value at the key's entry, if one is stored."
        trie(it, a) {
            let (key, added) = a.next_pair()?;
            let _ = it.entry(key)?.and_modify(|value: &mut u64| *value = value.wrapping_add(added));
            a.line("ok")
        };
    pairs "entry_remove KEY"
        "removes the pair at the key's entry: the pair, or none."
        trie(it, a) {
            let entry = it.entry(a.next_key()?)?;
            a.rehearse(|a| a.pair_line(entry.get().map(|value| (entry.key(), value))))?;
            a.taken_line(entry.remove()?.as_ref())
        };
    pairs "get KEY"
        "the value at the key, or none; outside, in a view."
        map(it, a) { let key = a.next_query()?; a.value_line(reads::get(it, &key)?.copied()) },
        view(it, a) { let key = a.next_query()?; a.value_line(it.get(&key)?.copied()) },
        edit(it, a) { let key = a.next_query()?; a.value_line(it.get(&key)?.copied()) };
    pairs "get_counted KEY"
        "the value, or none, and how many nibbles were compared."
        trie(it, a) {
            let key = a.next_query()?;
            let (found, count) = it.get_counted(&key)?;
            a.value(found.copied())?;
            a.count_line(count)
        };
    pairs "get_with_cost KEY"
        "the value, or none, how many nodes were visited, and how many nibbles compared."
        trie(it, a) {
            let key = a.next_query()?;
            let (found, cost) = it.get_with_cost(&key)?;
            a.value(found.copied())?;
            a.counts_line([cost.nodes, cost.nibbles as u128])
        };
    pairs "contains_key KEY"
        "true where the key is stored, else false."
        map(it, a) { let key = a.next_query()?; a.truth_line(reads::contains_key(it, &key)?) };
    pairs "get_key_value KEY"
        "the stored pair, or none."
        map(it, a) { let key = a.next_query()?; a.pair_line(reads::get_key_value(it, &key)?) };
    pairs "get_mut KEY VALUE"
        "writes a stored value. The old one, or none."
        kept(it, a) {
            let (key, number) = a.next_target()?;
            a.written_line(it.get_mut(&key)?, number)
        };
    pairs "find_mut KEY VALUE"
        "writes a stored value. The old one, or absent."
        kept(it, a) {
            let (key, number) = a.next_target()?;
            a.written_line(Some(it.find_mut(&key)?), number)
        };
    prefixes "find_ancestor_mut KEY VALUE"
        "writes the value of the longest stored prefix. The old one, or absent."
        trie(it, a) {
            let (key, number) = a.next_target()?;
            a.written_line(Some(it.find_ancestor_mut(&key)?), number)
        };
    pairs "at LIST"
        "the value at the list of nibbles, or none."
        trie(it, a) { let list = a.next_list()?; a.value_line(it.at(&list).copied()) };
    pairs "at_mut LIST VALUE"
        "writes the value at the list. The old one, or none."
        trie(it, a) {
            let (list, number) = (a.next_list()?, a.next_number()?);
            a.written_line(it.at_mut(&list), number)
        };
    pairs "contains LIST"
        "true where the list is stored, else false."
        trie(it, a) { let list = a.next_list()?; a.truth_line(it.contains(&list)) };
    prefixes "nearest LIST"
        "the pair at its longest stored prefix, or none."
        trie(it, a) { let list = a.next_list()?; a.pair_line(it.nearest(&list)) };
    prefixes "nearest_value LIST"
        "the value of that pair, or none."
        trie(it, a) { let list = a.next_list()?; a.value_line(it.nearest_value(&list).copied()) };
    prefixes "nearest_with_cost LIST"
        "that pair, or none, how many nodes were visited, and nibbles compared."
        trie(it, a) reads::nearest_with_cost(it, a);
    pairs "remove KEY"
        "removes a pair. Its value, or none; outside, in a view."
        edit(it, a) { let key = a.next_query()?; a.value_line(it.remove(&key)?) };
    pairs "remove_entry KEY"
        "removes a pair. The pair, or none."
        trie(it, a) {
            let key = a.next_query()?;
            a.rehearse(|a| a.pair_line(it.get_key_value(&key)?))?;
            a.taken_line(it.remove_entry(&key)?.as_ref())
        };
    prefixes "remove_prefix KEY"
        "removes all pairs at and below the key. The pairs, or none; outside, in a view."
        edit(it, a) {
            let key = a.next_query()?;
            a.rehearse(|a| edits::lines_below(&*it, &key, a))?;
            a.listed_lines(it.remove_prefix(&key)?.as_slice())
        };
    prefixes "split_off_prefix KEY NAME"
        "the same as a trie of this name."
        tries(it, a) it.split_off_prefix(a);
    changes "graft NAME"
        "takes all pairs of the trie of this name, which is empty then; overlapping; full."
        tries(it, a) it.graft(a);
    changes "merge NAME"
        "stores the pairs of the trie of this name too; full."
        tries(it, a) it.merge(a);
    pairs "map_with_default KEY NUMBER VALUE"
        "adds the number to a stored value, or stores the value."
        trie(it, a) {
            let (key, added) = a.next_pair()?;
            let value = a.next_number()?;
            it.map_with_default(key, |value: &mut u64| *value = value.wrapping_add(added), value)?;
            a.line("ok")
        };
    changes "for_each_mut OTHER NUMBER"
        "adds the number to each value but that at the key OTHER."
        edit(it, a) {
            let (other, added) = a.next_pair()?;
            it.for_each_mut(edits::adder(&other, added));
            a.line("ok")
        },
        frozen(it, a) {
            let (other, added) = a.next_pair()?;
            it.for_each_mut(edits::adder(&other, added));
            a.line("ok")
        };
    prefixes "for_each_mut_below KEY OTHER NUMBER"
        "so at and below the key."
        trie(it, a) {
            let key = a.next_query()?;
            let (other, added) = a.next_pair()?;
            it.for_each_mut_below(&key, edits::adder(&other, added))?;
            a.line("ok")
        };
    changes "retain NUMBER"
        "removes the pairs whose values are less than the number."
        edit(it, a) {
            let least = a.next_number()?;
            it.retain(|_: &Key, value: &u64| *value >= least)?;
            a.line("ok")
        };
    prefixes "retain_below KEY NUMBER"
        "removes such pairs at and below the key."
        trie(it, a) {
            let (key, least) = a.next_target()?;
            it.retain_below(&key, |_: &Key, value: &u64| *value >= least)?;
            a.line("ok")
        };
    changes "extend[ KEY VALUE ..]"
        "stores pairs."
        trie(it, a) { let pairs = edits::next_pairs(a)?; edits::extend(it, pairs, a) };
    changes "from_iter[ KEY VALUE ..]"
        "the trie of these pairs, in place of the current one."
        trie(it, a) {
            let pairs = edits::next_pairs(a)?;
            *it = Trie::from_iter(Global, pairs.into_iter())?;
            a.line("ok")
        };
    walks "pop_first"
        "removes the first pair. The pair, or none."
        trie(it, a) {
            a.rehearse(|a| a.pair_line(it.first_key_value()))?;
            a.taken_line(it.pop_first()?.as_ref())
        };
    walks "pop_last"
        "removes the last pair. The pair, or none."
        trie(it, a) {
            a.rehearse(|a| a.pair_line(it.last_key_value()))?;
            a.taken_line(it.pop_last()?.as_ref())
        };
    changes "into_pairs"
        "all pairs, or none. The trie is empty then."
        trie(it, a) edits::into_pairs(it, a);
    changes "clear"
        "removes all pairs."
        trie(it, a) { it.clear(); a.line("ok") };
    changes "compact"
        "lays the nodes anew, in the order of walks."
        trie(it, a) { it.compact()?; a.line("ok") };
    walks "iter"
        "the pairs in order, or none."
        common(it, a) a.pair_lines(it.iter()?),
        frozen(it, a) a.listed_lines(it.pairs());
    walks "keys"
        "their keys, or none."
        common(it, a) a.key_lines(it.keys()?),
        frozen(it, a) a.key_lines(it.pairs().iter().map(|(key, _)| key));
    walks "keys TYPE"
        "the same as begin where no trie holds a pair; tries hold pairs, where one does."
        shell(it, a) it.begin(a, false);
    whole "begin TYPE"
        "drops all tries, and begins with one of this type of keys: text, bytes, nibbles, u8,"
        "u16, u32, u64, u128, usize, i8, i16, i32, i64, i128, isize, bool, char, bits, ipv4,"
        "ipv6, parts. A network is 10.0.0.0/8, or an address alone; parts each stand behind /."
        shell(it, a) it.begin(a, true);
    walks "values"
        "their values, or none."
        common(it, a) a.value_lines(it.values()?),
        frozen(it, a) a.value_lines(it.pairs().iter().map(|(_, value)| value));
    walks "cursor"
        "the pairs in order, or none."
        common(it, a) a.cursor_lines(it.cursor());
    walks "cursor_back"
        "the pairs from the last to the first, or none."
        common(it, a) a.back_lines(it.cursor_back());
    walks "range[ FROM][ TO]"
        "the pairs within the bounds, or none. FROM is >=KEY or >KEY, TO is <=KEY or"
        "<KEY; no range."
        common(it, a) {
            let bounds = next_bounds(a)?;
            a.cursor_lines(it.range::<Key, _>(bounds)?)
        },
        map(it, a) reads::range(it, a);
    walks "range_back[ FROM][ TO]"
        "the same pairs from the last to the first."
        common(it, a) {
            let bounds = next_bounds(a)?;
            a.back_lines(it.range_back::<Key, _>(bounds)?)
        },
        map(it, a) reads::range_back(it, a);
    walks "reserved[ FROM][ TO]"
        "the pairs of range, by a walk whose memory is allocated first."
        common(it, a) {
            let bounds = next_bounds(a)?;
            a.pair_lines(it.range::<Key, _>(bounds)?.reserved()?)
        };
    prefixes "below KEY"
        "the pairs at and below the key, or none."
        map(it, a) reads::below(it, a, false);
    prefixes "count_below KEY"
        "the count of pairs at and below the key; outside, in a view."
        map(it, a) { let key = a.next_query()?; a.count_line(reads::count_below(it, &key)?) },
        view(it, a) { let key = a.next_query()?; a.count_line(it.count_below(&key)?) },
        write(it, a) { let key = a.next_query()?; a.count_line(it.count_below(&key)?) };
    prefixes "first_below KEY COUNT"
        "the first pairs at and below the key, so many at most, or none; outside, in a view."
        map(it, a) reads::below(it, a, true),
        view(it, a) {
            let (key, most) = (a.next_query()?, a.next_parsed()?);
            a.pair_lines(it.first_below(&key, most)?.into_iter())
        },
        trie(it, a) {
            let (key, most) = (a.next_query()?, a.next_parsed()?);
            a.pair_lines(it.first_below(&key, most)?.into_iter())
        };
    prefixes "first_after KEY LAST COUNT"
        "the same of those after the key LAST."
        trie(it, a) {
            let (key, last) = (a.next_query()?, a.next_query()?);
            let most = a.next_parsed()?;
            a.pair_lines(it.first_after(&key, &last, most)?.into_iter())
        };
    prefixes "common_prefixes KEY"
        "the pairs at prefixes of the key, the shortest first, or none."
        map(it, a) reads::common_prefixes(it, a);
    walks "first_key_value"
        "the first pair, or none."
        common(it, a) a.pair_line(it.first_key_value()),
        map(it, a) a.pair_line(reads::first_key_value(it));
    walks "last_key_value"
        "the last pair, or none."
        common(it, a) a.pair_line(it.last_key_value()),
        map(it, a) a.pair_line(reads::last_key_value(it));
    views "children"
        "the views at the nearest points below, each by its path and its value, or none."
        trie(it, a) a.child_lines(it.children()?),
        view(it, a) a.child_lines(it.children()?),
        write(it, a) a.child_lines(it.children()?);
    views "key"
        "the key that is stored here, or none."
        common(it, a) a.key_line(it.key());
    views "value"
        "its value, or none."
        common(it, a) a.value_line(it.value().copied());
    views "value_mut VALUE"
        "writes the value that is stored here. The old one, or none."
        trie(it, a) { let number = a.next_number()?; a.written_line(it.value_mut(), number) },
        write(it, a) { let number = a.next_number()?; a.written_line(it.value_mut(), number) };
    whole "len"
        "the count of pairs."
        map(it, a) a.count_line(reads::len(it)),
        common(it, a) a.count_line(it.len());
    whole "is_empty"
        "true where there is no pair, else false."
        common(it, a) a.truth_line(it.is_empty()),
        map(it, a) a.truth_line(reads::is_empty(it));
    whole "is_leaf"
        "true where no pair is below, else false."
        common(it, a) a.truth_line(it.is_leaf());
    views "prefix"
        "the fragment here."
        common(it, a) { let prefix = it.prefix()?; a.list_line(&prefix) };
    views "path"
        "the path of the open view."
        view(it, a) a.list_line(it.path()),
        write(it, a) a.list_line(it.path());
    whole "footprint"
        "the counts of nodes and of nibbles in their fragments."
        trie(it, a) { let (nodes, nibbles) = it.footprint(); a.counts_line([nodes, nibbles]) };
    whole "check_integrity"
        "true."
        trie(it, a) a.truth_line(it.check_integrity()?);
    views "subtrie KEY"
        "the view at the key's point, by its path and its value, or none; outside, in a view."
        trie(it, a) { let key = a.next_query()?; a.view_line(it.subtrie(&key)?.as_ref()) },
        view(it, a) { let key = a.next_query()?; a.view_line(it.subtrie(&key)?.as_ref()) };
    prefixes "longest_match KEY"
        "the pair at the longest stored prefix of the key, or none."
        map(it, a) { let key = a.next_query()?; a.pair_line(reads::longest_match(it, &key)?) };
    prefixes "get_ancestor KEY"
        "the view of the longest stored prefix, or none."
        trie(it, a) { let key = a.next_query()?; a.view_line(it.get_ancestor(&key)?.as_ref()) };
    prefixes "get_ancestor_value KEY"
        "the value of the longest stored prefix, or none."
        trie(it, a) {
            let key = a.next_query()?; a.value_line(it.get_ancestor_value(&key)?.copied())
        };
    prefixes "get_raw_ancestor KEY"
        "the view of the nearest point at or above the key."
        trie(it, a) { let key = a.next_query()?; a.view_line(Some(&it.get_raw_ancestor(&key)?)) };
    prefixes "get_raw_descendant KEY"
        "the view of the nearest point at or below the key, or none."
        trie(it, a) {
            let key = a.next_query()?; a.view_line(it.get_raw_descendant(&key)?.as_ref())
        };
    walks "to_ascending"
        "the keys of the trie of ascending keys, each with the value that is found at it."
        trie(it, a) reads::to_ascending(it, a);
    prefixes "matching KEY"
        "the pairs of all filters that match the topic, where the keys are lists of parts; none."
        trie(it, a) reads::matching(it, a);
    whole "debug"
        "the trie or the view as a map, as a log has it."
        trie(it, a) { write!(a, "{it:?}").map_err(|_| Memory)?; a.end() },
        view(it, a) { write!(a, "{it:?}").map_err(|_| Memory)?; a.end() },
        write(it, a) { write!(a, "{it:?}").map_err(|_| Memory)?; a.end() };
    views "open KEY"
        "opens a view for reading. Its path and its value, or none."
        tries(it, a) it.open(a);
    views "open_mut KEY"
        "opens a view for writing. Its path and its value, or closed."
        tries(it, a) it.open_mut(a);
    views "subtrie_mut KEY"
        "the same by the other call. Its path and its value, or none."
        tries(it, a) it.subtrie_mut(a);
    views "with KEY CALL[ ; CALL ..]"
        "the answers of calls of one view that open_mut opens, or closed."
        "the last call may take the view: spend, into_children, into_trie."
        whole(it, a) views::with(it, a, |trie, key| Ok(Some(trie.open_mut(key)?)));
    views "with_subtrie_mut KEY CALL[ ; CALL ..]"
        "the same of a view that subtrie_mut opens, or none."
        whole(it, a) views::with(it, a, |trie, key| Ok(trie.subtrie_mut(key)?));
    views "into_children"
        "the children of the open view, which the call takes."
        taken(it, a) a.child_lines(it.into_children()?);
    views "into_trie CALL[ ..]"
        "what the whole trie answers, which is handed back for the open view."
        taken(it, a) read_call(a)?.trie.ok_or(Stop::Said(NOT_HERE))?(it.into_trie(), a);
    views "spend CALL[ ..]"
        "what the call answers that takes the open view."
        taken(it, a) read_call(a)?.spent.ok_or(Stop::Said(NOT_HERE))?(it, a);
    views "close"
        "leaves the open view."
        tries(it, a) {
            let left = it.view_paths.pop(); a.line(if left.is_some() { "ok" } else { NONE })
        };
    changes "run[ COMMAND ..]"
        "the replies to a list of commands; within KEY COMMAND .. end runs some in a view."
        trie(it, a) commands::run_commands(it, a, false);
    changes "run_once[ COMMAND ..]"
        "the same, but a command that fails is answered refused, and isn't run again."
        trie(it, a) commands::run_commands(it, a, true);
    changes "json TEXT[ ..]"
        "the counts of an object's trie, and the object that it is written as; kind; float."
        shell(_it, a) json::answer_json(a);
    session "error NAME"
        "the text of an error: memory, full, outside, occupied, overlapping, absent, closed,"
        "kind, float, odd or zero; none."
        shell(_it, a) json::answer_error(a);
    types "encode TYPE KEY"
        "the key's encoding, in nibbles. The types are those of integers,"
        "BigEndian<u16>, <u32>, <u128>, LittleEndian of these, Ascending<i8> to <isize>,"
        "String, &str, &String, &mut&str, Vec<u8>, &[u8], Vec<u16>, Nibblet, bool, char,"
        "Bits, Network<Ipv4Addr>, Network<Ipv6Addr>, Parts, [u8;2], [u8;16], [u8;17],"
        "(u8,u16), (u128,u8), ([u8;17],u8), (u8,[u8;17]). A comma parts numbers, and"
        "two halves."
        shell(_it, a) encodings::answer_encoding(a, false);
    types "encode_bytes TYPE KEY"
        "the encoding in bytes, or odd."
        shell(_it, a) encodings::answer_encoding(a, true);
    types "nibblet from_byte_vec BYTES"
        "the list of the bytes' nibbles, the high half of each byte first."
        part(a) { let bytes = a.next()?; a.list_line(&Nibblet::from_byte_vec(Global, bytes)?) };
    types "nibblet from_hex TEXT"
        "the list of the text's hexadecimal digits, or none."
        part(a) {
            let text: String = a.next()?;
            match Nibblet::from_hex(Global, &text)? { Some(list) => a.list_line(&list), None => a.line(NONE) }
        };
    types "nibblet clone LIST"
        "a copy of the list."
        part(a) { let list = a.next_list()?; a.list_line(&list.clone()?) };
    types "nibblet len LIST"
        "the count of its nibbles."
        part(a) { let list = a.next_list()?; a.count_line(list.len()) };
    types "nibblet get LIST PLACE"
        "the nibble at the place, from 0 on, in decimal."
        part(a) {
            let (list, i) = parts::list_and_place(a)?;
            if i < list.len() { a.count_line(list.get(i).into()) } else { Err(Stop::Said(NO_NUMBER)) }
        };
    types "nibblet push LIST DIGIT"
        "the list with this nibble at its end."
        part(a) parts::push_nibble(a);
    types "nibblet turn_over LIST"
        "the list with the highest bit of its first nibble turned over."
        part(a) {
            let mut list = a.next_list()?;
            if !list.is_empty() { list.turn_over(); }
            a.list_line(&list)
        };
    types "nibblet join LIST LIST"
        "the two lists as one."
        part(a) {
            let (list, other) = (a.next_list()?, a.next_list()?);
            a.list_line(&list.join(&other).map_err(|_| Memory)?)
        };
    types "nibblet agreement LIST OTHER PLACE"
        "how many first nibbles are those of OTHER from PLACE on."
        part(a) {
            let list = a.next_list()?;
            let (other, depth) = parts::list_and_place(a)?;
            a.count_line(list.agreement(&other, depth))
        };
    types "nibblet split LIST COUNT"
        "the first nibbles, so many, and the others."
        part(a) {
            let (mut list, i) = parts::list_and_place(a)?;
            let rest = list.split(i)?;
            a.list(&list)?;
            a.list_line(&rest)
        };
    types "nibblet head LIST COUNT"
        "the first nibbles, so many."
        part(a) { let (list, i) = parts::list_and_place(a)?; a.list_line(&list.head(i)?) };
    types "nibblet tail LIST COUNT"
        "the list without the first nibbles."
        part(a) { let (list, i) = parts::list_and_place(a)?; a.list_line(&list.tail(i)?) };
    types "nibblet truncate LIST COUNT"
        "the first nibbles alone."
        part(a) {
            let (mut list, i) = parts::list_and_place(a)?; list.truncate(i); a.list_line(&list)
        };
    types "bits first_of BYTES COUNT"
        "the first bits of the bytes, at most all of them."
        part(a) {
            let (bytes, count) = (a.next::<Vec<u8>>()?, a.next_parsed()?);
            a.list_line(Bits::first_of(Global, &bytes, count)?.as_list())
        };
    types "bits first_of_u32 NUMBER COUNT"
        "the first bits of a number of 32 bits, at most all of them."
        part(a) {
            let (number, count) = (a.next_parsed()?, a.next_parsed()?);
            a.list_line(Bits::first_of_u32(Global, number, count)?.as_list())
        };
    types "bits first_of_u128 NUMBER COUNT"
        "the first bits of a number of 128 bits, at most all of them."
        part(a) {
            let (number, count) = (a.next_parsed()?, a.next_parsed()?);
            a.list_line(Bits::first_of_u128(Global, number, count)?.as_list())
        };
    types "bits clone BITS"
        "a copy of the bits."
        part(a) { let bits: Bits = a.next()?; a.list_line(bits.clone()?.as_list()) };
    types "ipv4 from_str NETWORK"
        "the network that the text writes, or none."
        network(A, a) {
            let network = a.next_read::<Network<A>>()?; parts::network_line(a, network)
        };
    types "ipv4 new ADDRESS COUNT"
        "the network of so many bits that begins at the address, or none."
        network(A, a) {
            let (base, bits) = (parts::next_address::<A>(a)?, a.next_parsed()?);
            parts::network_line(a, Network::new(base, bits))
        };
    types "ipv4 around ADDRESS COUNT"
        "the network of so many bits that holds the address, or none."
        network(A, a) {
            let (address, bits) = (parts::next_address::<A>(a)?, a.next_parsed()?);
            parts::network_line(a, Network::around(address, bits))
        };
    types "ipv4 host ADDRESS"
        "the network of the address alone."
        network(A, a) {
            let address = parts::next_address::<A>(a)?; a.shown_line(&Network::host(address))
        };
    types "ipv4 base NETWORK"
        "its first address."
        network(A, a) { let network: Network<A> = a.next()?; a.shown_line(&network.base()) };
    types "ipv4 bits NETWORK"
        "the count of its bits."
        network(A, a) { let network: Network<A> = a.next()?; a.shown_line(&network.bits()) };
    types "ipv4 clone NETWORK"
        "a copy of the network."
        network(A, a) {
            let network: Network<A> = a.next()?; a.shown_line(&Clone::clone(&network)?)
        };
    types "ipv4 holds NETWORK ADDRESS"
        "true where it holds the address, else false."
        network(A, a) {
            let network: Network<A> = a.next()?;
            let address = parts::next_address(a)?;
            a.truth_line(network.holds(address))
        };
    types "ipv4 cmp NETWORK NETWORK"
        "less, equal or greater, by their bits."
        network(A, a) {
            let (network, other): (Network<A>, Network<A>) = (a.next()?, a.next()?);
            a.order_line(network.cmp(&other))
        };
    types "ipv6 CALL WORD[ WORD]"
        "the same calls of networks of IPv6 addresses."
        shell(_it, a) in_family(a);
    types "parts split TEXT BYTE"
        "the parts of the text, cut at this byte, or zero where the text has a byte 0."
        part(a) parts::cut(a, Parts::split);
    types "parts of_path TEXT BYTE"
        "the same without empty parts."
        part(a) parts::cut(a, Parts::of_path);
    types "parts reversed TEXT BYTE"
        "the same as split, the last part first."
        part(a) parts::cut(a, Parts::reversed);
    types "parts push PARTS TEXT"
        "the list with this part at its end, or zero where that has a byte 0."
        part(a) {
            let (mut parts, text): (Parts, String) = (a.next()?, a.next()?);
            parts.push(&text)?;
            parts::parts_line(a, &parts)
        };
    types "parts push_bytes PARTS BYTES"
        "the same with a part of any bytes."
        part(a) {
            let (mut parts, bytes): (Parts, Vec<u8>) = (a.next()?, a.next()?);
            parts.push_bytes(&bytes)?;
            parts::parts_line(a, &parts)
        };
    types "parts clone PARTS"
        "a copy of the list."
        part(a) { let parts: Parts = a.next()?; parts::parts_line(a, &parts.clone()?) };
    types "parts len PARTS"
        "the count of its parts."
        part(a) { let parts: Parts = a.next()?; a.count_line(parts.len()) };
    types "parts iter PARTS"
        "the parts, one a line, or none."
        part(a) { let parts: Parts = a.next()?; a.lines(parts.iter(), parts::part_line) };
    types "parts rev PARTS"
        "the same, the last part first."
        part(a) { let parts: Parts = a.next()?; a.lines(parts.iter().rev(), parts::part_line) };
    types "parts cmp PARTS PARTS"
        "less, equal or greater, part by part."
        part(a) {
            let (parts, other): (Parts, Parts) = (a.next()?, a.next()?);
            a.order_line(parts.cmp(&other))
        };
    types "parts is_filter PARTS"
        "whether it is a filter of topics."
        part(a) { let parts: Parts = a.next()?; a.truth_line(is_filter(&parts)) };
    types "parts is_topic PARTS"
        "whether it is a topic."
        part(a) { let parts: Parts = a.next()?; a.truth_line(is_topic(&parts)) };
    whole "use NAME"
        "makes the trie of this name the current one."
        tries(it, a) it.use_trie(a);
    whole "tries"
        "the names of all tries, the current one first."
        tries(it, a) it.answer_tries(a);
    whole "clone NAME"
        "a copy of the current trie, under this name."
        tries(it, a) it.clone_trie(a);
    whole "== NAME"
        "true where the two tries are equal, else false."
        tries(it, a) {
            let is_equal = it.current.trie == *it.named(a.next_name()?)?; a.truth_line(is_equal)
        };
    whole "intersection NAME"
        "the keys that the trie of this name has too, or none."
        tries(it, a) {
            let (keys, others) = it.key_sets(a)?; a.selected_lines(keys.intersection(&others)?)
        };
    whole "difference NAME"
        "the keys that it hasn't, or none."
        tries(it, a) {
            let (keys, others) = it.key_sets(a)?; a.selected_lines(keys.difference(&others)?)
        };
    whole "union NAME"
        "the keys of both tries, or none."
        tries(it, a) {
            let (keys, others) = it.key_sets(a)?; a.selected_lines(keys.union(&others)?)
        };
    whole "symmetric_difference NAME"
        "the keys that one of the two has, or none."
        tries(it, a) {
            let (keys, others) = it.key_sets(a)?; a.selected_lines(keys.symmetric_difference(&others)?)
        };
    whole "is_subset NAME"
        "true where it has all keys, else false."
        tries(it, a) {
            let (keys, others) = it.key_sets(a)?; a.truth_line(keys.is_subset(&others)?)
        };
    whole "is_superset NAME"
        "true where all its keys are here, else false."
        tries(it, a) {
            let (keys, others) = it.key_sets(a)?; a.truth_line(keys.is_superset(&others)?)
        };
    whole "is_disjoint NAME"
        "true where no key is in both, else false."
        tries(it, a) {
            let (keys, others) = it.key_sets(a)?; a.truth_line(keys.is_disjoint(&others)?)
        };
    freezing "freeze NAME"
        "moves all pairs to a frozen trie of this name; full."
        tries(it, a) it.freeze(a);
    freezing "frozen_copy NAME"
        "a frozen copy of the current trie, under this name; full."
        tries(it, a) it.frozen_copy(a);
    freezing "from_sorted NAME[ KEY VALUE ..]"
        "the frozen trie of these pairs, under this name; full;"
        "unsorted PLACE, where that pair isn't above the one before."
        tries(it, a) it.from_sorted(a);
    freezing "thaw NAME"
        "moves all pairs of the frozen trie of this name to the current trie, which has none;"
        "occupied, where it has. The frozen trie is gone then."
        tries(it, a) it.thaw(a);
    freezing "frozen NAME CALL[ ..]"
        "what the frozen trie of this name answers, as a trie does: len, is_empty,"
        "get, get_key_value, contains_key, first_key_value, last_key_value,"
        "longest_match, common_prefixes, range, range_back, below, first_below,"
        "count_below, iter, keys, values, get_mut, find_mut, for_each_mut; nth, rank,"
        "push, finish."
        tries(it, a) it.ask_frozen(a);
    freezing "nth PLACE"
        "the pair at this place in their order, from 0 on, or none: of a frozen trie."
        frozen(it, a) { let place = a.next_parsed()?; a.pair_line(it.nth(place)) };
    freezing "rank KEY"
        "how many stored keys come before this one: of a frozen trie."
        frozen(it, a) { let key = a.next_query()?; a.count_line(it.rank(&key)?) };
    freezing "push KEY VALUE"
        "appends a pair whose key comes after all others; unsorted; full: of a frozen trie."
        frozen(it, a) {
            let (key, value) = a.next_pair()?;
            it.push(key, value).map_err(|refused| refused.why)?;
            a.line("ok")
        };
    freezing "finish"
        "gives back the room that the pairs don't need: of a frozen trie."
        frozen(it, a) { it.finish()?; a.line("ok") };
    freezing "write NAME FILE"
        "writes the frozen trie of this name to the file, anew; not text; no file."
        shell(it, a) it.write(a, false);
    freezing "read NAME FILE"
        "the frozen trie of the file, under this name; not text; no file; magic, version,"
        "short, value, unsorted, long or full, at pair NUMBER, byte NUMBER."
        shell(it, a) it.read(a, false);
    freezing "write_image NAME FILE"
        "writes the frozen trie's image to the file, anew; not text; no file."
        shell(it, a) it.write(a, true);
    freezing "read_image NAME FILE"
        "the frozen trie of the image in the file, under this name; not text; no file;"
        "short, mark, version, part, pair or count PLACE."
        shell(it, a) it.read(a, true);
    session "save FILE CALL[ ..]"
        "writes what the call of a trie or a view answers to the file, anew; no file."
        shell(it, a) it.save(a);
    session "load FILE CALL"
        "makes the call with the words of the file behind it; no file."
        shell(it, a) it.load(a);
    session "load FILE lines"
        "stores each line of the file as a key, with the line's number, from 1 on, as its"
        "value, and skips empty lines; no file; no key at line NUMBER."
        shell(it, a) it.load(a);
    whole "draw"
        "the tree, a point on each line: its fragment, and its pair, or a star where none is stored."
        trie(it, a) draw::draw(it, a);
    whole "draw KEY"
        "the same from the key's point on, or none."
        trie(it, a) draw::draw(it, a);
    whole "dot"
        "the tree as a graph for graphviz: a box for each pair, a circle where keys part."
        trie(it, a) draw::dot(it, a);
    whole "stats"
        "the counts of pairs, nodes and nibbles, and how many points stand above the lowest one."
        trie(it, a) draw::stats(it, a);
    session "help"
        "the groups of calls."
        shell(_it, a) help::answer_groups(a);
    session "help GROUP"
        "a line for each call of the group, or of all: where GROUP is all."
        shell(_it, a) help::answer_help(a);
    session "help CALL"
        "the lines of this call."
        shell(_it, a) help::answer_help(a);
    session ".help[ CALL]"
        "the same as help."
        shell(_it, a) if a.words.left == 0 { help::answer_groups(a) } else { help::answer_help(a) };
    session "quit"
        "ends the session at a terminal; elsewhere, not at a terminal: the end of the input ends the session."
        shell(_it, _a) Err(Stop::Said(help::NO_TERMINAL));
    session "exit"
        "the same as quit."
        shell(_it, _a) Err(Stop::Said(help::NO_TERMINAL));
    session "complete BEGINNING"
        "the names of the calls that begin so, or none."
        shell(_it, a) help::answer_complete(a);
}
