//! Frozen tries there and back, keys that have no image, and bytes that are of no key or no value.
mod common;

use common::list;
use nifazombi::flat_texts;
use nifazombi::flat_tries::{
    FileItem, ImageError, ImageKey, TrieError, bytes_at, from_image, from_image_of_values,
    own_bytes, to_image, to_image_of_values,
};
use nifazombi::frozen_trie::FrozenTrie;
use nifazombi::radix_keys::{BytesError, Nibblet, TrieKey};
use nifazombi::rattle_std::alloc::Global;
use nifazombi::rattle_std::string::String as Text;
use nifazombi::rattle_std::vec::Vec as List;

fn text(characters: &str) -> Text {
    Text::from_str(Global, characters).unwrap()
}

/// The frozen trie of keys in order, each with its value.
fn trie_of<K: TrieKey, V>(pairs: impl IntoIterator<Item = (K, V)>) -> FrozenTrie<K, V> {
    let mut trie = FrozenTrie::new(Global);
    for (key, value) in pairs {
        assert!(trie.push(key, value).is_ok());
    }
    trie
}

/// Asserts that the trie of keys in order, each with its index, is that of its image again.
fn assert_back<K: ImageKey + PartialEq>(keys: impl IntoIterator<Item = K>) {
    let trie = trie_of(keys.into_iter().zip(0u64..));
    let image = to_image(Global, &trie, b"own").unwrap();
    let again = from_image::<K>(Global, &image).ok().unwrap();
    assert_eq!(flat_texts::payload(&image).map(|place| place.1), Some(3));
    assert!(again.pairs() == trie.pairs());
}

#[test]
fn from_image_gives_what_to_image_was_given() {
    assert_back(["", "a", "ab", "b", "é"].map(text));
    assert_back([0, 9, 255].map(|end| list([0u8, end])));
    assert_back([0u8, 9, 255]);
    assert_back([0u16, 255, 256]);
    assert_back([1u32, 65_536, u32::MAX]);
    assert_back([1u64, 4_294_967_296, u64::MAX]);
    assert_back([1u128, 1 << 64, u128::MAX]);
}

#[test]
fn from_image_tells_bytes_of_no_key() {
    // Both keys have two bytes, and the first alone is UTF-8.
    let keys = [b"ab", &[255, 254]].map(|key| list(*key));
    let image = to_image(Global, &trie_of(keys.into_iter().zip(0..)), b"").unwrap();
    assert!(from_image::<u16>(Global, &image).is_ok());
    assert_eq!(from_image::<Text>(Global, &image).err(), Some(TrieError::Key(1)));
    assert_eq!(from_image::<u32>(Global, &image).err(), Some(TrieError::Key(0)));
    // There is no room for a head.
    let short = from_image::<u16>(Global, &image[..39]).err();
    assert_eq!(short, Some(TrieError::Image(ImageError::Short)));
}

#[test]
fn to_image_refuses_a_list_of_an_odd_count() {
    let keys = ["12", "123"].map(|digits| Nibblet::from_hex(Global, digits).unwrap().unwrap());
    let refused = to_image(Global, &trie_of(keys.into_iter().zip(0..)), b"").err();
    assert_eq!(refused, Some(BytesError::Odd));
}

#[test]
fn from_image_of_values_gives_what_to_image_of_values_was_given() {
    for pairs in [&[][..], &[("", "one"), ("a", ""), ("ab", "three"), ("é", "ü")]] {
        let trie = trie_of(pairs.iter().map(|(key, value)| (text(key), text(value))));
        let image = to_image_of_values(Global, &trie).unwrap();
        let again = from_image_of_values::<Text, Text>(Global, &image).ok().unwrap();
        assert!(again.pairs() == trie.pairs());
        // They are read where they stand in the image, too.
        for (at, (_, value)) in pairs.iter().enumerate() {
            let place = flat_texts::nth(&image, at).unwrap().value;
            assert_eq!(bytes_at(own_bytes(&image), place), Some(value.as_bytes()));
        }
    }
}

/// The error of the image of texts that all have one number, with these bytes of its own.
fn fault_of<V: FileItem>(keys: &[&str], number: u64, own: &[u8]) -> Option<TrieError> {
    let trie = trie_of(keys.iter().map(|key| (text(key), number)));
    let image = to_image(Global, &trie, own).unwrap();
    from_image_of_values::<Text, V>(Global, &image).err()
}

#[test]
fn from_image_of_values_tells_bytes_of_no_value() {
    let lacking = Some(TrieError::Value(0));
    let faults: [&[u8]; 5] = [b"", b".", b".\x01\0\0", b".\x02\0\0\0a", b".\x01\0\0\x80a"];
    for own in faults {
        assert_eq!(fault_of::<Text>(&["a"], 1, own), lacking);
        assert_eq!(fault_of::<List<u8>>(&["a"], 1, own), lacking);
    }
    assert_eq!(fault_of::<Text>(&["a"], 1, b".\x01\0\0\0\xFF"), lacking);
    assert_eq!(fault_of::<List<u8>>(&["a"], 1, b".\x01\0\0\0\xFF"), None);
    assert_eq!(fault_of::<Text>(&["a"], 1, b".\x01\0\0\0a"), None);
}

#[test]
fn from_image_of_values_tells_values_that_are_shared() {
    // The image of two pairs takes 114 bytes and those of the value, of which two may be no more.
    let shared = Some(TrieError::Shared(1));
    let rows: [(&[&str], u8, _); 4] = [
        (&["a", "b"], 110, None),
        (&["a", "b"], 111, shared),
        (&["a", "b", "c"], 16, None),
        (&["a", "b", "c"], 255, shared),
    ];
    for (keys, len, fault) in rows {
        let own = [&u32::from(len).to_le_bytes()[..], &vec![b'a'; len.into()]].concat();
        assert_eq!(fault_of::<Text>(keys, 0, &own), fault, "{keys:?} {len}");
    }
}
