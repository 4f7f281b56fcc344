//! The examples of `crates/trie_examples`, of which it is proved what they answer, on small tries.
use nifazombi::frozen_trie::{FrozenTexts, frozen_copy};
use nifazombi::prefix_maps::{PrefixMap, RangeMap};
use nifazombi::radix_trie::{
    Bits, Ipv4Network, Memory, Nibblet, OpenError, Parts, Trie, TrieCommon, TrieKey,
};
use nifazombi::rattle_std::alloc::Global;
use nifazombi::rattle_std::string::String as Text;
use nifazombi::rattle_std::vec::{CollectIn, Vec as List};
use nifazombi::trie_set::TrieSet;
use std::collections::HashMap;
use std::error::Error;
use std::ops::Bound;
use tests::trie_examples::by_keys::{costs, edits, parts, values};
use tests::trie_examples::*;
use tests::trie_tests::samples::{SAMPLE, texts};

type Done = Result<(), Box<dyn Error>>;

fn text(characters: &str) -> Text {
    Text::from_str(Global, characters).unwrap()
}

#[test]
fn get_ancestor_finds_the_longest_network_of_an_address() -> Done {
    // Networks inside one another. The last one is all addresses.
    const NETWORKS: [(u32, usize, u32); 6] = [
        (0x0a00_0000, 8, 1),
        (0x0a01_0000, 16, 2),
        (0x0a01_0200, 24, 3),
        (0xc000_0200, 31, 4),
        (0xc000_0201, 32, 5),
        (0x0000_0000, 0, 6),
    ];
    // An address, and the count of bits and the hop of its network.
    type Row = (u32, Option<(usize, u32)>);
    const WITH_ALL: [Row; 8] = [
        (0x0a01_0203, Some((24, 3))),
        (0x0a01_0303, Some((16, 2))),
        (0x0a02_0203, Some((8, 1))),
        (0x0b01_0203, Some((0, 6))),
        (0xc000_0200, Some((31, 4))),
        (0xc000_0201, Some((32, 5))),
        (0xc000_0202, Some((0, 6))),
        (0xffff_ffff, Some((0, 6))),
    ];
    const WITHOUT: [Row; 5] = [
        (0x0a01_0203, Some((24, 3))),
        (0x0a01_0303, Some((16, 2))),
        (0x0a02_0203, Some((8, 1))),
        (0x0aff_ffff, Some((8, 1))),
        (0x0b01_0203, None),
    ];
    for (count, rows) in [(6, &WITH_ALL[..]), (5, &WITHOUT), (0, &[(0x0a01_0203, None)])] {
        let mut table = Trie::new(Global);
        for (network, bits, hop) in &NETWORKS[..count] {
            table.insert(Bits::first_of_u32(Global, *network, *bits)?, *hop)?;
        }
        for (address, wanted) in rows {
            let view = answers::route(Global, &table, *address)?;
            let found = view.and_then(|it| Some((it.path().len(), *TrieCommon::value(&it)?)));
            assert_eq!(found, *wanted, "{address:x}");
            let bits = Bits::first_of_u32(Global, *address, 32)?;
            assert_eq!(uses::next_hop(&table, &bits)?, wanted.map(|row| row.1), "{address:x}");
        }
    }
    Ok(())
}

#[test]
fn insert_makes_so_many_nodes_and_nibbles() -> Done {
    let mut words: Trie<&str, u64> = Trie::new(Global);
    for (word, value, more) in [("ab", 1, (1, 4)), ("ac", 2, (2, 1)), ("ac", 3, (0, 0))] {
        assert_eq!(costs::insert_measured(&mut words, word, value)?, more);
    }
    Ok(())
}

#[test]
fn insert_and_remove_move_a_value_by_keys() -> Done {
    let (mut first, mut second) = (Trie::new(Global), Trie::new(Global));
    edits::insert_in_either_order(&mut first, &mut second, ("tea", 1), ("ten", 2))?;
    assert!(first == second && first.len() == 2);
    assert!(edits::move_value(&mut first, &"tea", "inn")?);
    assert!(!edits::move_value(&mut first, &"tea", "to")?);
    assert_eq!((first.get(&"inn")?, first.len()), (Some(&1), 2));
    let mut texts = Trie::new(Global);
    edits::insert_text(&mut texts, text("tea"), 3)?;
    assert_eq!(texts.get(&"tea")?, Some(&3));
    Ok(())
}

#[test]
fn split_off_prefix_and_merge_take_and_give_back() -> Done {
    let mut words = texts(Global, &[("inn", 5), ("tea", 1), ("ten", 2)])?;
    let taken = parts::take_below(&mut words, &"te")?;
    assert_eq!((taken.len(), words.len()), (2, 1));
    parts::absorb(&mut words, taken)?;
    assert_eq!((words.len(), words.get(&"ten")?), (3, Some(&2)));
    Ok(())
}

#[test]
fn retain_drops_rare_words_of_counts_but_not_of_their_clone() -> Done {
    let mut counts = texts(Global, &[("inn", 5), ("tea", 1), ("ten", 2)])?;
    let copy = values::copy_counts(&counts)?;
    values::forget_rare(&mut counts, 2)?;
    assert_eq!((counts.len(), counts.get(&"tea")?), (2, None));
    assert_eq!((copy.len(), copy.get(&"tea")?), (3, Some(&1)));
    Ok(())
}

#[test]
fn get_after_insert_and_remove() -> Done {
    let mut words = texts(Global, &[("tea", 1), ("team", 3)])?;
    assert_eq!(cited::stored(&mut words, "ten", 2)?, Some(2));
    assert_eq!(cited::taken_away(&mut words, &"tea")?, None);
    assert_eq!(words.get(&"team")?, Some(&3));
    Ok(())
}

#[test]
fn map_with_default_counts_words() -> Done {
    let mut counts = Trie::new(Global);
    for word in ["tea", "ten", "tea"] {
        counters::count(&mut counts, text(word))?;
    }
    assert_eq!((counts.get(&"tea")?, counts.get(&"ten")?), (Some(&2), Some(&1)));
    Ok(())
}

#[test]
fn entry_counts_words_and_takes_counts_back() -> Done {
    let mut counts = Trie::new(Global);
    for word in ["tea", "ten", "tea"] {
        tallies::count(&mut counts, text(word))?;
    }
    assert_eq!((counts.get(&"tea")?, counts.get(&"ten")?), (Some(&2), Some(&1)));
    for word in ["ten", "tea", "toe"] {
        tallies::discount(&mut counts, text(word))?;
    }
    assert_eq!((counts.get(&"tea")?, counts.len()), (Some(&1), 1));
    Ok(())
}

#[test]
fn from_sorted_reads_a_dictionary_and_below_completes() {
    const ROWS: [(&str, &[(&str, u64)]); 3] = [
        ("ten", &[("ten", 4), ("tenor", 5)]),
        ("te", &[("tea", 2), ("team", 3), ("ten", 4), ("tenor", 5)]),
        ("to", &[]),
    ];
    let words = dictionary::dictionary(Global, "inn\ntea\nteam\nten\ntenor\n").unwrap();
    for (typed, wanted) in ROWS {
        assert_eq!(dictionary::completions(&words, typed), wanted, "{typed}");
    }
    let error = dictionary::dictionary(Global, "tea\nten\nteam\n").err().unwrap();
    assert_eq!(error.to_string(), "the word at 2 isn't above the one before it");
}

#[test]
fn insert_stores_once_in_a_trie_and_in_a_view() -> Done {
    let mut names = Trie::new(Global);
    assert!(either::stored_once(&mut names, text("tea"), 1)?);
    let mut view = names.open_mut(&"tea")?;
    assert!(either::stored_once(&mut view, text("teapot"), 2)?);
    assert!(!either::stored_once(&mut view, text("tea"), 3)?);
    assert!(either::stored_once(&mut view, text("ten"), 4).is_err());
    drop(view);
    assert_eq!((names.get(&"tea")?, names.len()), (Some(&1), 2));
    Ok(())
}

/// The values that a walk gives.
fn values_of<'a, M: PrefixMap<'a, &'static str, Value = u64>>(mut walk: M::Walk) -> Vec<u64> {
    std::iter::from_fn(|| M::next(&mut walk).unwrap().map(|pair| *pair.1)).collect()
}

/// Asserts what the same calls give of any map of the words tea, team, ten and inn.
fn assert_given<'a, M: RangeMap<'a, &'static str, Value = u64>>(map: M) -> Result<(), Memory> {
    let range = (Bound::Included("j"), Bound::Excluded("team"));
    assert_eq!(given::first_page(Global, map, &"te", 2)?.len(), 2);
    assert_eq!(values_of::<M>(given::inherited_from(map, &"teams")?), [1, 3]);
    assert_eq!(values_of::<M>(given::in_range(map, range)?), [1]);
    assert_eq!(given::inherited(map, &"inns")?, Some(&5));
    assert_eq!(given::inherited(map, &"i")?, None);
    Ok(())
}

#[test]
fn first_below_and_other_calls_give_pairs_of_any_map() -> Done {
    let words = texts(Global, &[("tea", 1), ("team", 3), ("ten", 2), ("inn", 5)])?;
    assert_eq!(*given::next_page(&words, &"te", &"team", 2)?, [(&"ten", &2)]);
    assert_given(&words)?;
    let frozen = frozen_copy(&words)?;
    assert_given(&frozen)?;
    let mut packed = FrozenTexts::new(Global);
    for (word, value) in frozen.pairs() {
        packed.push(word.as_bytes(), *value).unwrap();
    }
    Ok(assert_given(&packed)?)
}

#[test]
fn difference_gives_the_first_missing_word() -> Done {
    let set = |words: [&'static str; 3]| {
        let mut set = TrieSet::new(Global);
        assert!(words.into_iter().all(|word| set.insert(word).unwrap()));
        set
    };
    let (wanted, stored) = (set(["tea", "ten", "inn"]), set(["inn", "tea", "team"]));
    assert_eq!(key_sets::first_missing(&wanted, &stored)?, Some(&"ten"));
    assert_eq!(key_sets::first_missing(&stored, &wanted)?, Some(&"team"));
    assert_eq!(key_sets::first_missing(&stored, &stored)?, None);
    Ok(())
}

#[test]
fn retain_below_ends_the_leases_of_one_network() -> Done {
    // Three of these are over at 200.
    let rows =
        [("10.1.0.7/32", 100), ("10.1.0.9/32", 300), ("10.1.8.0/24", 200), ("10.2.0.7/32", 100)];
    let mut all = Trie::new(Global);
    for (network, end) in rows {
        all.insert(network.parse::<Ipv4Network>()?, end)?;
    }
    let first: Ipv4Network = "10.1.0.0/16".parse()?;
    leases::remove_ended(&mut all, &first, 200)?;
    assert_eq!((all.len(), all.count_below(&first)?), (2, 1));
    Ok(())
}

#[test]
fn encode_and_push_make_the_list_below_a_text() -> Done {
    assert_eq!(lists::list_below(Global, "a", 6)?.len(), 3);
    Ok(())
}

#[test]
fn range_gives_the_lines_of_a_while() -> Done {
    const LINES: [(u64, &str); 4] =
        [(1_200, "opened"), (70_000, "closed"), (1_300, "asked"), (1_250, "read")];
    // A time, another one, how many lines at most, and those from the one on and before the other.
    type Row = (u64, u64, usize, &'static [(u64, &'static str)]);
    const ROWS: [Row; 4] = [
        (1_201, 70_000, 10, &[(1_250, "read"), (1_300, "asked")]),
        (0, 70_001, 1, &[(1_200, "opened")]),
        (1_300, 1_200, 10, &[]),
        (1_300, 1_300, 10, &[]),
    ];
    let log = Trie::from_iter(Global, LINES.into_iter())?;
    for (from, to, most, wanted) in ROWS {
        let page = log_lines::lines_between(Global, &log, from, to, most)?;
        assert!(page.iter().map(|pair| (*pair.0, *pair.1)).eq(wanted.iter().copied()), "{from}");
    }
    Ok(())
}

#[test]
fn nearest_value_decides_who_made_a_card() -> Done {
    // A block of 24 bits, and another one of which others have parts of 28 and of 36 bits.
    const LINES: &str = "0A1B2C Alder Radios\n\
        0A1B3C Birch Registry\n\
        0A1B3C4 Cedar Meters\n\
        0A1B3C456 Elm Sensors\n";
    const ROWS: [(&str, Option<&str>); 6] = [
        ("0a:1b:2c:34:56:78", Some("Alder Radios")),
        ("0A-1B-3C-12-34-56", Some("Birch Registry")),
        ("0a1b3c40f001", Some("Cedar Meters")),
        ("0a:1b:3c:45:6f:ff", Some("Elm Sensors")),
        ("0a-1b-4c-00-00-00", None),
        ("no address", None),
    ];
    let table = makers::makers(Global, LINES)?;
    for (address, name) in ROWS {
        let digits = makers::digits(Global, address)?;
        assert_eq!(digits.and_then(|it| makers::maker(&table, &it)), name, "{address}");
    }
    Ok(())
}

#[test]
fn remove_prefix_and_insert_move_a_folder() -> Done {
    let mut all = Trie::new(Global);
    for (name, value) in [("/home/ann/", 1), ("/home/ann/letters", 2), ("/home/bob/", 3)] {
        all.insert(text(name), value)?;
    }
    moves::move_below(Global, &mut all, "/home/ann/", "/old/ann/")?;
    let found: HashMap<_, _> =
        TrieCommon::iter(&all)?.map(|(name, value)| (name.as_str(), *value)).collect();
    assert_eq!(found, [("/old/ann/", 1), ("/old/ann/letters", 2), ("/home/bob/", 3)].into());
    Ok(())
}

#[test]
fn first_below_and_first_after_make_pages() -> Done {
    let words = texts(Global, &[("team", 3), ("ten", 2), ("inn", 4), ("tea", 1), ("tenor", 5)])?;
    assert_eq!(*pages::page(&words, "te", 2)?, [(&"tea", &1), (&"team", &3)]);
    let (first, second) = pages::two_pages(Global, &words, "te", 3)?;
    assert_eq!((first.len(), &*second), (3, &[(&"tenor", &5)][..]));
    let (first, second) = pages::two_pages(Global, &words, "to", 3)?;
    assert!(first.is_empty() && second.is_empty());
    Ok(())
}

#[test]
fn keys_of_texts_and_of_numbers_rise() -> Done {
    let wanted = ["a", "ab", "abcd", "abcdef", "abcdefgh", "acbdef", "bcdefgh"];
    assert!(rising::words(&texts(Global, SAMPLE)?)?.eq(&wanted));
    let mut trie: Trie<u32, u64> = Trie::from_iter(Global, [(300, 2), (7, 1)].into_iter())?;
    trie.extend([(70_000, 3)].into_iter())?;
    assert!(rising::numbers(&trie)?.eq(&[7, 300, 70_000]));
    Ok(())
}

#[test]
fn from_hex_to_ascending_and_thaw_give_all_back() -> Done {
    let mut numbers: Trie<i32, u64> = Trie::new(Global);
    for (number, value) in [(-5, 1), (0, 2), (70_000, 3)] {
        let list: Nibblet = number.encode(Global)?;
        assert_eq!(round_trips::there_and_back(Global, &list)?, Some(list));
        numbers.insert(number, value)?;
        assert_eq!(round_trips::risen_value(Global, &numbers, number)?, Some(value));
    }
    let thawed = round_trips::frozen_and_thawed(numbers)?;
    assert_eq!((thawed.len(), thawed.get(&-5)?), (3, Some(&1)));
    Ok(())
}

#[test]
fn matching_gives_the_same_level_first() -> Done {
    let mut filters: Trie<Parts, u64> = Trie::new(Global);
    for (filter, subscriber) in [("sport/#", 1), ("sport/+/score", 2), ("sport/chess/score", 3)] {
        filters.insert(Parts::split(Global, filter, b'/')?, subscriber)?;
    }
    let rows = [("sport/chess/score", Some(&3)), ("sport/tennis/score", Some(&2)), ("news", None)];
    for (topic, subscriber) in rows {
        let topic = Parts::split(Global, topic, b'/')?;
        assert_eq!(subscribers::first_subscriber(Global, &filters, &topic)?, subscriber);
    }
    Ok(())
}

#[test]
fn common_prefixes_decide_the_suffix_of_a_host() -> Done {
    const ROWS: [(&str, &str); 7] = [
        ("www.anna.north", "north"),
        ("www.anna.port.north", "port.north"),
        ("airport.north", "north"),
        ("www.anna.shop.isle", "shop.isle"),
        ("www.harbour.isle", "isle"),
        ("isle", "isle"),
        ("www.anna.unlisted", "unlisted"),
    ];
    let mut all = Trie::new(Global);
    for rule in ["north", "port.north", "*.isle", "!harbour.isle"] {
        suffixes::add_rule(Global, &mut all, rule)?;
    }
    for (host, wanted) in ROWS {
        assert_eq!(suffixes::suffix(Global, &all, host)?, wanted, "{host}");
    }
    Ok(())
}

#[test]
fn encode_of_pairs_keeps_their_order() -> Done {
    for (x, y) in [((1, 300), (2, 0)), ((1, 255), (1, 256))] {
        let (first, second) = told::encoded(Global, x, y)?;
        assert!(first < second);
    }
    Ok(())
}

#[test]
fn open_mut_closes_topics_and_children_have_sizes() -> Done {
    // Topics of a forum, each with its count of messages.
    const FORUM: &[(&str, u64)] = &[
        ("music", 4),
        ("music/rock", 20),
        ("music/rock/live", 7),
        ("music/jazz", 9),
        ("sport/chess", 3),
    ];
    // One branch is closed topic by topic, and the others stay.
    const ROWS: [(&str, Result<usize, OpenError>); 4] = [
        ("music/rock", Ok(1)),
        ("music", Ok(2)),
        ("sport", Err(OpenError::Closed)),
        ("sport/chess", Ok(0)),
    ];
    let mut forum = texts(Global, FORUM)?;
    assert_eq!(*topics::sizes(Global, forum.children()?)?, [4, 1]);
    for (topic, left) in ROWS {
        assert_eq!(topics::close(&mut forum, &topic), left, "{topic}");
    }
    assert_eq!(forum.len(), 2);
    Ok(())
}

/// Five words, four of which begin with `t`.
const WORDS: &[(&str, u64)] = &[("tea", 1), ("ten", 2), ("team", 3), ("to", 4), ("inn", 5)];

#[test]
fn get_raw_descendant_completes_what_is_typed() -> Done {
    // What is typed, and the words that it may become.
    const ROWS: [(&str, &[&str]); 4] =
        [("te", &["tea", "team", "ten"]), ("tea", &["tea", "team"]), ("i", &["inn"]), ("x", &[])];
    let words = texts(Global, WORDS)?;
    for (typed, wanted) in ROWS {
        let found: List<&str> = match typed::completed(&words, typed)? {
            Some(keys) => keys.copied().collect_by(Global)?,
            None => List::new(Global),
        };
        assert_eq!(*found, *wanted, "{typed}");
    }
    Ok(())
}

#[test]
fn get_raw_descendant_gives_the_values_of_words_with_a_beginning() -> Done {
    let words = texts(Global, WORDS)?;
    assert_eq!(*uses::completions(Global, &words, &"te")?, [1, 3, 2]);
    assert!(uses::completions(Global, &words, &"x")?.is_empty());
    Ok(())
}

#[test]
fn get_ancestor_value_is_the_setting_of_the_nearest_folder() -> Done {
    const ROWS: [(&str, u64); 4] =
        [("/home/ada/notes", 120), ("/home/bob/notes", 100), ("/etc/passwd", 80), ("relative", 72)];
    let settings = texts(Global, &[("/", 80), ("/home/", 100), ("/home/ada/", 120)])?;
    for (path, width) in ROWS {
        assert_eq!(uses::inherited(&settings, &path, 72)?, width, "{path}");
    }
    Ok(())
}
