//! What is left where memory is refused: for each call, each of its allocations is refused in turn,
//! and all from each on. It answers `Err`, and leaves what was as it was.
mod common;
#[path = "../../nifazombi/tests/refusing/mod.rs"]
mod refusing;
use common::Random;
use rattle_std::alloc::{AllocError, Global};
use rattle_std::boxed::Box as Boxed;
use rattle_std::clone::Clone as _;
use rattle_std::io::{BufReader, ErrorKind, Read as _, Write as _};
use rattle_std::macros;
use rattle_std::rc::Rc;
use rattle_std::serde_json::{self, Value};
use rattle_std::smallvec::SmallVec;
use rattle_std::string::{String as Text, ToString};
use rattle_std::texts::ReplaceIn as _;
use rattle_std::vec::{CollectIn as _, ToVecIn as _, Vec as List};
use refusing::{Refusal, each_refused, without_memory};

/// The lengths of lists that are grown: about the places where there is no more room.
const LENGTHS: [usize; 8] = [0, 1, 4, 7, 8, 15, 16, 40];

/// A value that is neither copied nor dropped unseen.
#[derive(Debug, PartialEq)]
struct Own(usize);

fn owned(count: usize) -> List<Own> {
    let mut list = List::with_capacity(Global, count).unwrap();
    (0..count).for_each(|number| list.push_reserved(Own(number)));
    list
}

fn is_owned(list: &List<Own>, count: usize) -> bool {
    list.len() == count && list.iter().enumerate().all(|(place, own)| own.0 == place)
}

#[test]
fn what_needs_no_memory_takes_none() {
    without_memory(|| {
        assert!(List::<Own>::new(Global).is_empty());
        assert!(List::<Own>::with_capacity(Global, 0).is_ok());
        assert!(List::<u8>::from_slice(Global, &[]).is_ok());
        assert!(Text::new(Global).is_empty());
        assert!(Text::from_str(Global, "").is_ok());
        assert!(SmallVec::<u8, 16>::with_capacity(Global, 16).is_ok());
        assert!(SmallVec::<u8, 16>::from_slice(Global, &[7; 16]).is_ok());
        assert!(serde_json::Map::<Text, Value>::new(Global).len() == 0);
        assert!(Boxed::new(Global, ()).is_ok());
    });
}

#[test]
fn vec_push_refused_hands_the_value_back_and_changes_nothing() {
    for count in LENGTHS {
        let allocations = each_refused(|refusal| {
            let mut list = owned(count);
            match refusal.fails(|| list.push(Own(99))) {
                Ok(()) => assert_eq!(list.pop(), Some(Own(99))),
                Err(failed) => {
                    assert_eq!(failed.value, Own(99));
                    assert_eq!(list.capacity(), count);
                }
            }
            assert!(is_owned(&list, count));
        });
        assert_eq!(allocations, 1);
    }
}

#[test]
fn vec_insert_refused_hands_the_value_back_and_changes_nothing() {
    for count in LENGTHS {
        each_refused(|refusal| {
            let mut list = owned(count);
            match refusal.fails(|| list.insert(count / 2, Own(99))) {
                Ok(()) => assert_eq!(list.remove(count / 2), Own(99)),
                Err(failed) => {
                    assert_eq!(failed.value, Own(99));
                    assert_eq!(list.capacity(), count);
                }
            }
            assert!(is_owned(&list, count));
        });
    }
}

#[test]
fn vec_calls_with_room_take_no_memory() {
    for count in LENGTHS {
        let mut list = owned(count);
        list.reserve(5).unwrap();
        let room = list.capacity();
        without_memory(|| {
            list.reserve(5).unwrap();
            list.push(Own(count)).unwrap();
            list.push_reserved(Own(count + 1));
            list.insert(0, Own(7)).unwrap();
            list.remove(0);
            list.retain(|own| own.0 < count);
            list.truncate(count);
            assert!(list.pop().is_none_or(|own| own.0 == count - 1));
        });
        assert_eq!(list.capacity(), room);
    }
}

#[test]
fn vec_reserve_and_extend_refused_change_nothing() {
    for count in LENGTHS {
        each_refused(|refusal| {
            let mut list = List::from_elem(Global, 3u8, count).unwrap();
            if refusal.fails(|| list.reserve(20)).is_err() {
                assert_eq!(list.capacity(), count);
            }
            assert_eq!(list.as_slice(), vec![3; count]);
        });
        each_refused(|refusal| {
            let mut list = List::from_elem(Global, 3u8, count).unwrap();
            let (more, room) = ([4; 20], list.capacity());
            match refusal.fails(|| list.extend_from_slice(&more)) {
                Ok(()) => assert_eq!(list[count..], more),
                Err(AllocError) => assert_eq!((list.len(), list.capacity()), (count, room)),
            }
            assert_eq!(list[..count], vec![3; count]);
        });
    }
}

#[test]
fn vec_write_refused_changes_nothing() {
    each_refused(|refusal| {
        let mut list = List::from_elem(Global, 3u8, 9).unwrap();
        if let Err(error) = refusal.fails(|| list.write(b"abc")) {
            assert_eq!(error.kind(), ErrorKind::OutOfMemory);
            assert_eq!(list.as_slice(), [3; 9]);
        }
    });
}

#[test]
fn vec_shrink_to_fit_refused_keeps_the_items() {
    for count in LENGTHS {
        each_refused(|refusal| {
            let mut list = owned(count);
            list.reserve(30).unwrap();
            let room = list.capacity();
            refusal.run(|| list.shrink_to_fit());
            assert!(is_owned(&list, count) && list.capacity() <= room);
        });
    }
}

#[test]
fn vec_made_of_items_is_refused_each_allocation() {
    let items: Vec<u32> = (0..30).collect();
    for count in [1, 5, 30] {
        let items = &items[..count];
        each_refused(|refusal| {
            let _ = refusal.fails(|| List::<u32>::with_capacity(Global, count));
            let _ = refusal.fails(|| List::from_slice(Global, items));
            let _ = refusal.fails(|| List::from_elem(Global, 9u64, count));
            let _ = refusal.fails(|| items.to_vec_by(Global));
            let list = List::from_slice(Global, items).unwrap();
            let _ = refusal.fails(|| list.clone());
            let (made, was_refused) = refusal.run(|| macros::vec![in Global; 1u8, 2]);
            assert!(was_refused || made.unwrap().as_slice() == [1, 2]);
            let _ = refusal.fails(|| macros::vec![in Global; 1u8; count]);
        });
    }
}

#[test]
fn vec_collect_by_refused_is_an_error_or_has_all_items() {
    for is_hinted in [false, true] {
        let allocations = each_refused(|refusal| {
            let items = (0..30usize).filter(|_| true);
            let (made, was_refused) = match is_hinted {
                false => refusal.run(|| items.map(Own).collect_by::<List<Own>>(Global)),
                true => refusal.run(|| (0..30).map(Own).collect_by::<List<Own>>(Global)),
            };
            match made {
                Ok(list) => assert!(is_owned(&list, 30) && (!was_refused || is_hinted)),
                Err(AllocError) => assert!(was_refused),
            }
        });
        assert!(allocations >= 1);
    }
}

#[test]
fn boxes_refused_hand_the_value_back() {
    assert_eq!(
        each_refused(|refusal| match refusal.fails(|| Boxed::new(Global, Own(5))) {
            Ok(made) => assert_eq!(Boxed::into_inner(made), Own(5)),
            Err(failed) => assert_eq!(failed.value, Own(5)),
        }),
        1
    );
    // The second of two allocations, for which the first one has asked, can't be told.
    for is_rest in [false, true] {
        let refusal = Refusal { granted: 0, is_rest };
        let failed = refusal.fails(|| Rc::new(Global, Own(5))).err();
        assert_eq!(failed.unwrap().value, Own(5));
    }
    let shared = Rc::new(Global, Own(5)).ok().unwrap();
    assert_eq!(*without_memory(|| shared.clone()).unwrap(), Own(5));
    each_refused(|refusal| {
        let made = Boxed::new(Global, Text::from_str(Global, "text").unwrap()).unwrap();
        if let Ok(copy) = refusal.fails(|| made.clone()) {
            assert_eq!(*copy, *made);
        }
        assert_eq!(made.as_str(), "text");
    });
}

#[test]
fn box_into_inner_and_writes_take_no_memory() {
    let mut made = Boxed::new(Global, 5u64).unwrap();
    without_memory(|| {
        *made += 1;
        assert_eq!(*made, 6);
        assert_eq!(Boxed::into_inner(made), 6);
    });
}

#[test]
fn string_growth_refused_changes_nothing() {
    let mut random = Random::new(3);
    for _ in 0..20 {
        let (text, more) = (random.text(20), random.text(40) + "x");
        each_refused(|refusal| {
            let mut made = Text::from_str(Global, &text).unwrap();
            match refusal.fails(|| made.push_str(&more)) {
                Ok(()) => assert_eq!(made.as_str(), text.clone() + &more),
                Err(AllocError) => assert_eq!(made.as_str(), text),
            }
        });
        each_refused(|refusal| {
            let mut made = Text::from_str(Global, &text).unwrap();
            match refusal.fails(|| made.push('€')) {
                Ok(()) => assert_eq!(made.as_str(), text.clone() + "€"),
                Err(AllocError) => assert_eq!(made.as_str(), text),
            }
        });
        each_refused(|refusal| {
            let made = Text::from_str(Global, &more).unwrap();
            let _ = refusal.fails(|| Text::from_str(Global, &more));
            let _ = refusal.fails(|| made.clone());
            let _ = refusal.fails(|| more.as_str().replace_by(Global, ['x'], "yy"));
            let _ = refusal.fails(|| ToString::to_string(&12345, Global));
        });
    }
}

#[test]
fn formatting_refused_is_an_error_and_keeps_what_was_written() {
    let allocations = each_refused(|refusal| {
        let mut made = Text::from_str(Global, "begin").unwrap();
        let written = refusal.fails(|| write!(made, "{:>20}{:>40}", 1, 2));
        assert!(made.as_str().starts_with("begin"));
        assert!(written.is_err() || made.as_str() == format!("begin{:>20}{:>40}", 1, 2));
        let _ = &mut made as &mut dyn std::fmt::Write;
    });
    assert!(allocations >= 1);
    each_refused(|refusal| {
        let text = refusal.fails(|| macros::format!(in Global; "{:>20}{:>40}", 1, 2));
        assert!(text.is_err() || text.unwrap().len() == 60);
    });
}

#[test]
fn small_vec_growth_refused_changes_nothing() {
    for count in [16, 17, 31, 32, 33, 64] {
        let items: Vec<u8> = (0..count).collect();
        let made = || {
            let mut list = SmallVec::<u8, 16>::from_slice(Global, &items).unwrap();
            list.shrink_to_fit();
            list
        };
        let unchanged = |list: &SmallVec<u8, 16>| {
            assert_eq!(list.as_slice(), items);
            assert_eq!((list.capacity(), list.spilled()), (items.len().max(16), count > 16));
        };
        each_refused(|refusal| {
            let mut list = made();
            if let Err(failed) = refusal.fails(|| list.push(99)) {
                assert_eq!(failed.value, 99);
                unchanged(&list);
            }
        });
        each_refused(|refusal| {
            let mut list = made();
            if refusal.fails(|| list.reserve(9)).is_err() {
                unchanged(&list);
            }
        });
        each_refused(|refusal| {
            let mut list = made();
            if refusal.fails(|| list.extend_from_slice(&[1; 9])).is_err() {
                unchanged(&list);
            }
        });
        each_refused(|refusal| {
            let _ = refusal.fails(|| SmallVec::<u8, 16>::from_slice(Global, &items));
            let _ = refusal.fails(|| SmallVec::<u8, 16>::with_capacity(Global, items.len()));
        });
    }
}

#[test]
fn small_vec_shrink_to_fit_refused_keeps_the_items_and_inline_takes_no_memory() {
    for count in [0, 16, 17, 40] {
        each_refused(|refusal| {
            let items = vec![7; count];
            let mut list = SmallVec::<u8, 16>::from_slice(Global, &items).unwrap();
            list.reserve(100).unwrap();
            let room = list.capacity();
            refusal.run(|| list.shrink_to_fit());
            assert!(list.as_slice() == items && list.capacity() <= room);
            assert_eq!(list.spilled(), count > 16);
        });
    }
}

#[test]
fn small_vec_calls_with_room_take_no_memory() {
    let mut list = SmallVec::<u8, 16>::new(Global);
    without_memory(|| {
        (0..10).for_each(|item| list.push(item).unwrap());
        list.reserve(6).unwrap();
        list.extend_from_slice(&[1, 2, 3]).unwrap();
        list.push_reserved(4);
        list.truncate(2);
        list.shrink_to_fit();
    });
    assert_eq!(list.as_slice(), [0, 1]);
}

const JSON: &str =
    r#"{"a":[1,-2,1.5,"t\u00e9xt",null,true,{}],"b":{"c":"d","long name":"long text"}}"#;

#[test]
fn json_reading_refused_is_an_error_of_memory() {
    let allocations = each_refused(|refusal| {
        if let Err(error) = refusal.fails(|| Value::from_str(Global, JSON)) {
            assert_eq!(error.classify(), serde_json::Category::Memory);
        }
    });
    assert!(allocations > 8);
}

#[test]
fn json_writing_and_cloning_refused_are_errors_and_leave_the_value() {
    let wanted = r#"{"a":[1,-2,1.5,"téxt",null,true,{}],"b":{"c":"d","long name":"long text"}}"#;
    let value = Value::from_str(Global, JSON).unwrap();
    each_refused(|refusal| {
        if let Ok(text) = refusal.fails(|| value.to_string(Global)) {
            assert_eq!(text.as_str(), wanted);
        }
        if let Ok(copy) = refusal.fails(|| value.clone()) {
            assert_eq!(copy, value);
        }
    });
}

#[test]
fn json_put_refused_leaves_the_map() {
    each_refused(|refusal| {
        let mut members = serde_json::Map::new(Global);
        serde_json::put(&mut members, Global, "a", Value::from(1)).unwrap();
        let put = refusal.fails(|| serde_json::put(&mut members, Global, "b", Value::Null));
        assert_eq!(members.len(), if put.is_ok() { 2 } else { 1 });
        assert!(
            members.iter().next() == Some((&Text::from_str(Global, "a").unwrap(), &Value::from(1)))
        );
    });
}

#[test]
fn json_writer_refused_has_written_nothing() {
    type Call = fn(&mut rattle_std::json::Writer) -> Result<(), AllocError>;
    let calls: [Call; 6] = [
        |writer| writer.begin_object(),
        |writer| writer.key("a\"\n\u{1}"),
        |writer| writer.u64(1234567890),
        |writer| writer.key("long enough to grow"),
        |writer| writer.u64(1),
        |writer| writer.end_object(),
    ];
    for refused in 0..calls.len() {
        each_refused(|refusal| {
            let mut writer = rattle_std::json::Writer::new(List::new(Global));
            calls[..refused].iter().for_each(|call| call(&mut writer).unwrap());
            let failed = refusal.fails(|| calls[refused](&mut writer)).is_err();
            let again = if failed { refused } else { refused + 1 };
            calls[again..].iter().for_each(|call| call(&mut writer).unwrap());
            let text = Text::from_utf8(writer.into_inner()).unwrap();
            let wanted = r#"{"a\"\n\u0001":1234567890,"long enough to grow":1}"#;
            assert_eq!(text.as_str(), wanted);
        });
    }
}

#[test]
fn reading_refused_loses_no_byte() {
    let bytes: Vec<u8> = (0..20_000u32).map(|number| number as u8).collect();
    let allocations = each_refused(|refusal| {
        let (mut reader, mut list) = (&bytes[..], List::from_elem(Global, 5u8, 3).unwrap());
        let read = refusal.fails(|| reader.read_to_end(&mut list));
        assert_eq!(list[..3], [5; 3]);
        assert_eq!([&list[3..], reader].concat(), bytes);
        match read {
            Ok(count) => assert_eq!((count, list.len()), (bytes.len(), bytes.len() + 3)),
            Err(error) => assert_eq!(error.kind(), ErrorKind::OutOfMemory),
        }
    });
    assert!(allocations > 1);
    each_refused(|refusal| {
        if let Err(error) = refusal.fails(|| BufReader::new(Global, &bytes[..])) {
            assert_eq!(error.kind(), ErrorKind::OutOfMemory);
        }
    });
}

#[test]
fn errors_without_memory_for_their_text_are_errors_still() {
    fn fails() -> rattle_std::anyhow::Result<()> {
        macros::bail!("the number {} is odd", 3)
    }
    each_refused(|refusal| {
        let (failed, was_refused) = refusal.run(fails);
        let text = format!("{}", failed.unwrap_err());
        assert_eq!(text == "the number 3 is odd", !was_refused);
    });
}
