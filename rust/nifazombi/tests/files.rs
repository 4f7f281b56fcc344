//! Files and JSON of frozen maps: written, read back, and damaged.
mod common;

use common::spoilt;
use nifazombi::frozen_trie::{FileError, FileWhy, FrozenTexts, FrozenTrie};
use nifazombi::radix_trie::Ipv4Network;
use nifazombi::rattle_std::alloc::Global;
use nifazombi::rattle_std::serde_json::{from_str, to_string};
use nifazombi::rattle_std::string::String as Text;
use nifazombi::rattle_std::vec::Vec as List;

/// The file of `a` with 1 and `ab` with 258.
const FILE: &[u8; 55] = b"FROZENTX\x02\0\0\0\x02\0\0\0\0\0\0\0\
    \x01\0\0\0a\x08\0\0\0\x01\0\0\0\0\0\0\0\
    \x02\0\0\0ab\x08\0\0\0\x02\x01\0\0\0\0\0\0";

/// The file of the network 10.0.0.0/8 with the text `ab`.
const NETWORKS: &[u8; 35] = b"FROZENTX\x02\0\0\0\x01\0\0\0\0\0\0\0\
    \x05\0\0\0\x08\x0a\0\0\0\x02\0\0\0ab";

fn read(mut file: &[u8]) -> Result<FrozenTexts<u64>, FileError> {
    FrozenTexts::read(Global, &mut file)
}

fn read_networks(mut file: &[u8]) -> Result<FrozenTrie<Ipv4Network, Text>, FileError> {
    FrozenTrie::read(Global, &mut file)
}

#[test]
fn write_and_read_of_texts() {
    let (mut texts, mut file) = (FrozenTexts::new(Global), List::new(Global));
    texts.push(b"a", 1u64).unwrap();
    texts.push(b"ab", 258).unwrap();
    texts.write(&mut file).unwrap();
    assert_eq!(*file, FILE[..]);
    let texts = read(FILE).ok().unwrap();
    assert_eq!((texts.len(), texts.get(b"ab")), (2, Some(&258)));
    assert_eq!(texts.longest_match(b"abc"), Some((&b"ab"[..], &258)));
}

#[test]
fn read_tells_what_is_damaged() {
    use FileWhy::*;
    // How many bytes there are, which one is another one, what that is, why the file isn't read,
    // how many rows stand before the fault, and how many bytes before its row or its part of the
    // head.
    const DAMAGED: [(usize, usize, u8, FileWhy, u64, u64); 19] = [
        (0, 0, b'F', Short, 0, 0),
        (7, 0, b'F', Short, 0, 0),
        (9, 0, b'F', Short, 0, 8),
        (19, 0, b'F', Short, 0, 12),
        (23, 0, b'F', Short, 0, 20),
        (24, 0, b'F', Short, 0, 20),
        (28, 0, b'F', Short, 0, 20),
        (36, 0, b'F', Short, 0, 20),
        (41, 0, b'F', Short, 1, 37),
        (54, 0, b'F', Short, 1, 37),
        (55, 0, b'f', Magic, 0, 0),
        (55, 8, 1, Version, 0, 8),
        (55, 12, 1, Long, 1, 37),
        (55, 12, 3, Short, 2, 55),
        (55, 19, 128, Short, 2, 55),
        (55, 23, 255, Short, 0, 20),
        (55, 25, 7, Value, 0, 20),
        (55, 28, 1, Short, 0, 20),
        (55, 41, b'`', OutOfOrder, 1, 37),
    ];
    for (count, at, byte, why, pair, place) in DAMAGED {
        let error = read(&spoilt(FILE, at, byte)[..count]).err();
        assert_eq!(error, Some(FileError { why, pair, place }), "the byte {at} of {count}");
    }
}

#[test]
fn read_tells_more_behind_a_file() {
    let error = read(&[&FILE[..], &[0]].concat()).err();
    assert_eq!(error, Some(FileError { why: FileWhy::Long, pair: 2, place: 55 }));
}

#[test]
fn write_and_read_of_networks() {
    let (mut names, mut file) = (FrozenTrie::new(Global), List::new(Global));
    let network: Ipv4Network = "10.0.0.0/8".parse().unwrap();
    names.push(network, Text::from_str(Global, "ab").unwrap()).unwrap();
    names.write(&mut file).unwrap();
    assert_eq!(*file, NETWORKS[..]);
    let names = read_networks(NETWORKS).ok().unwrap();
    let (network, name) = names.first_key_value().unwrap();
    assert_eq!((names.len(), network.bits(), name.as_str()), (1, 8, "ab"));
}

#[test]
fn read_tells_a_bad_key_and_a_bad_value() {
    use FileWhy::*;
    for (at, byte, why) in [(20, 4, Short), (24, 33, Key), (28, 1, Key), (34, 200, Value)] {
        let error = read_networks(&spoilt(NETWORKS, at, byte)).err();
        assert_eq!(error, Some(FileError { why, pair: 0, place: 20 }), "the byte {at}");
    }
}

/// Settings by their names.
type Settings = FrozenTrie<Text, u64>;

#[test]
fn serialize_and_deserialize_of_settings() {
    for text in ["{}", r#"{"disk":3,"disk.size":80,"net":1}"#] {
        let settings: Settings = from_str(Global, text).unwrap();
        assert_eq!(to_string(Global, &settings).unwrap().as_str(), text);
        if !settings.is_empty() {
            let nearest = settings.longest_match(&"disk.name").unwrap();
            assert_eq!(nearest.map(|pair| *pair.1), Some(3));
            assert_eq!(settings.get(&"disk.size").unwrap(), Some(&80));
        }
    }
}

#[test]
fn deserialize_reads_as_many_as_were_written() {
    for count in [4, 2_000] {
        let mut written = Settings::new(Global);
        for number in 0..count {
            let name = Text::from_str(Global, &format!("{number:04}")).unwrap();
            written.push(name, number).unwrap();
        }
        let text = to_string(Global, &written).unwrap();
        let read: Settings = from_str(Global, &text).unwrap();
        assert_eq!(read.len() as u64, count);
        assert!(read.pairs() == written.pairs());
    }
}

#[test]
fn deserialize_refuses_names_that_do_not_rise() {
    for text in [r#"{"net":1,"disk":3}"#, r#"{"net":1,"net":1}"#, "[1]"] {
        assert!(from_str::<Settings>(Global, text).is_err(), "{text}");
    }
}
