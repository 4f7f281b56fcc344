//! What the proofs rely on of `String`, of formatting, of digits and of the search for a byte.
mod common;
use common::Random;
use rattle_std::alloc::{AllocError, AllocFailed, Global};
use rattle_std::arrayvec::ArrayString;
use rattle_std::clone::Clone as _;
use rattle_std::itoa::{Buffer, write_digits};
use rattle_std::macros;
use rattle_std::memchr::memchr;
use rattle_std::string::{String as Text, ToString};
use rattle_std::texts::ReplaceIn;
use rattle_std::ucd_derived::is_default_ignorable_code_point;
use rattle_std::vec::Vec as List;
use std::fmt::Write as _;

fn with_texts(mut check: impl FnMut(&mut Random, String)) {
    for seed in 1..300 {
        let mut random = Random::new(seed);
        let text = random.text(30);
        check(&mut random, text);
    }
}

#[test]
fn new_is_empty() {
    assert_eq!(Text::new(Global).as_str(), "");
}

#[test]
fn from_str_and_clone_have_the_text() {
    with_texts(|_, text| {
        let made = Text::from_str(Global, &text).unwrap();
        assert_eq!(made.as_str(), text);
        let mut copy = made.clone().unwrap();
        assert_eq!(copy, made);
        copy.push('x').unwrap();
        assert_eq!(made.as_str(), text, "a clone has memory of its own");
    });
}

#[test]
fn from_utf8_takes_texts_and_refuses_other_bytes() {
    with_texts(|random, text| {
        let mut bytes = List::from_slice(Global, text.as_bytes()).unwrap();
        let place = bytes.as_slice().as_ptr();
        let made = Text::from_utf8(bytes).unwrap();
        assert_eq!((made.as_str(), made.as_str().as_ptr()), (text.as_str(), place));
        bytes = List::from_slice(Global, text.as_bytes()).unwrap();
        if !text.is_empty() {
            let at = random.below(text.len());
            bytes[at] = 0xff;
            assert!(Text::from_utf8(bytes).is_err());
        }
    });
    for bytes in [&b"\xc3"[..], b"\xed\xa0\x80", b"\xc0\x80", b"\xf4\x90\x80\x80", b"a\x80"] {
        assert!(Text::from_utf8(List::from_slice(Global, bytes).unwrap()).is_err());
    }
}

#[test]
fn push_and_push_str_append() {
    with_texts(|random, mut text| {
        let mut made = Text::from_str(Global, &text).unwrap();
        for character in random.text(10).chars() {
            made.push(character).unwrap();
            text.push(character);
            assert_eq!(made.as_str(), text);
        }
        let more = random.text(20);
        made.push_str(&more).unwrap();
        assert_eq!(made.as_str(), text + &more);
    });
}

#[test]
fn write_fmt_appends_what_is_formatted() {
    with_texts(|random, text| {
        let mut made = Text::from_str(Global, "> ").unwrap();
        let number = random.next();
        write!(made, "{text}{number:>30}{text:?}").unwrap();
        assert_eq!(made.as_str(), format!("> {text}{number:>30}{text:?}"));
    });
}

#[test]
fn format_and_to_string_give_what_a_value_displays() {
    with_texts(|random, text| {
        let (number, shown) = (random.next() as i32, format!("{text}, {text:?}"));
        assert_eq!(macros::format!(in Global; "{text}, {text:?}").unwrap().as_str(), shown);
        let digits = ToString::to_string(&number, Global).unwrap();
        assert_eq!(digits.as_str(), format!("{number}"));
        let own = Text::from_str(Global, &text).unwrap();
        assert_eq!(format!("{own}, {own:?}"), shown);
    });
}

#[test]
fn texts_compare_as_texts() {
    with_texts(|random, left| {
        let right = random.text(3);
        let texts = [&left, &right].map(|text| Text::from_str(Global, text).unwrap());
        assert_eq!(texts[0].cmp(&texts[1]), left.cmp(&right));
        assert_eq!(texts[0] == texts[1], left == right);
    });
}

#[test]
fn replace_by_puts_the_text_for_each_of_the_characters() {
    with_texts(|random, text| {
        let (from, to) = (['a', '€', '\n'], random.text(4));
        let made = text.as_str().replace_by(Global, from, &to).unwrap();
        assert_eq!(made.as_str(), text.replace(from, &to));
    });
}

#[test]
fn array_string_takes_what_fits_and_else_changes_nothing() {
    with_texts(|random, text| {
        let (mut made, mut wanted) = (ArrayString::<24>::new(), String::new());
        assert_eq!(made.as_str(), "");
        for more in [text.as_str(), &random.text(5), &random.text(5), "x"] {
            let is_fitting = wanted.len() + more.len() <= 24;
            assert_eq!(made.write_str(more).is_ok(), is_fitting);
            wanted += if is_fitting { more } else { "" };
            assert_eq!(made.as_str(), wanted);
        }
    });
}

#[test]
fn format_gives_the_digits() {
    let mut random = Random::new(5);
    for shift in 0..128 {
        let power = 1u128 << shift;
        let any = (u128::from(random.next()) << 64 | u128::from(random.next())) >> shift;
        for number in [power - 1, power, any] {
            assert_eq!(Buffer::new().format(number), format!("{number}"));
            assert_eq!(Buffer::new().format(number as u64), format!("{}", number as u64));
            assert_eq!(Buffer::new().format(number as i64), format!("{}", number as i64));
        }
    }
    assert_eq!(Buffer::new().format(u128::MAX), "340282366920938463463374607431768211455");
    assert_eq!(Buffer::new().format(i64::MIN), "-9223372036854775808");
    let mut buffer = Buffer::new();
    assert_eq!((buffer.format(123u8).len(), buffer.format(4usize)), (3, "4"));
}

#[test]
fn write_digits_writes_before_the_end_and_nothing_else() {
    let mut random = Random::new(6);
    for shift in 0..64 {
        for number in [0, 1, 9, 10, u64::MAX, random.next()] {
            let (number, end) = (number >> shift, 20 + random.below(10));
            let mut bytes = [b'.'; 30];
            let start = write_digits(number, &mut bytes, end);
            assert_eq!(&bytes[start..end], format!("{number}").as_bytes());
            assert!(bytes[..start].iter().chain(&bytes[end..]).all(|byte| *byte == b'.'));
        }
    }
}

#[test]
fn memchr_gives_the_first_place() {
    for seed in 1..300 {
        let mut random = Random::new(seed);
        let bytes: Vec<u8> = random.list::<u8>(60).iter().map(|byte| byte % 9).collect();
        let found = memchr(4, &bytes);
        let before = &bytes[..found.unwrap_or(bytes.len())];
        assert!(!before.contains(&4));
        assert!(found.is_none_or(|at| bytes[at] == 4));
    }
}

#[test]
fn errors_of_memory_say_so() {
    let failed = AllocFailed { value: 1 };
    assert_eq!(
        format!("{AllocError} {failed}"),
        "memory allocation failed memory allocation failed"
    );
    assert_eq!(AllocError::from(failed), AllocError);
    assert_eq!(std::io::Error::from(AllocError).kind(), std::io::ErrorKind::OutOfMemory);
}

/// Unicode's table DerivedCoreProperties gives the count.
#[test]
fn default_ignorable_characters_are_those_of_unicode() {
    let all = (0..=0x10_ffff).filter_map(char::from_u32);
    assert_eq!(all.filter(|it| is_default_ignorable_code_point(*it)).count(), 4174);
    for (is_one, characters) in
        [(true, "\u{ad}\u{200d}\u{fe0f}\u{e0001}"), (false, "a \u{a0}\u{2028}é")]
    {
        assert!(characters.chars().all(|it| is_default_ignorable_code_point(it) == is_one));
    }
}
