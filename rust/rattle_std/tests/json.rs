//! JSON by RFC 8259: a table of texts, by its sections. What each gives was also asked of Python's
//! module `json`, which answers alike but where it says so below.
use rattle_std::alloc::Global;
use rattle_std::json::Writer;
use rattle_std::serde_json::{Category, Map, Number, Value, from_str, put, to_string};
use rattle_std::string::String as Text;
use rattle_std::vec::Vec as List;

fn text(text: &str) -> Text {
    Text::from_str(Global, text).unwrap()
}

fn read(text: &str) -> Result<Value, Category> {
    Value::from_str(Global, text).map_err(|error| error.classify())
}

/// Texts, and what they are when they are written again.
const TEXTS: &[(&str, &str)] = &[
    // 2 and 3: any value is a text, with white space around each token.
    ("null", "null"),
    (" \t\n\rtrue \t\n\r", "true"),
    ("false", "false"),
    ("[ ]", "[]"),
    ("{ }", "{}"),
    ("[ 1 , [ ] , { \"a\" : null } ]", "[1,[],{\"a\":null}]"),
    // 4: members, of which the last of one name stays. They are written in the order of the names,
    // and not in that of the text.
    (r#"{"b":1,"a":2}"#, r#"{"a":2,"b":1}"#),
    (r#"{"a":1,"b":2,"a":3}"#, r#"{"a":3,"b":2}"#),
    (r#"{"":0,"é":1,"z":2}"#, r#"{"":0,"z":2,"é":1}"#),
    (r#"{"a":{"a":{"a":[]}}}"#, r#"{"a":{"a":{"a":[]}}}"#),
    // 6: numbers. Python writes those below 0.0001 with `e-05`.
    ("0", "0"),
    ("18446744073709551615", "18446744073709551615"),
    ("-1", "-1"),
    ("-9223372036854775808", "-9223372036854775808"),
    ("1.5", "1.5"),
    ("-0.25", "-0.25"),
    ("1e2", "100.0"),
    ("1E+2", "100.0"),
    ("25e-1", "2.5"),
    ("0.1", "0.1"),
    ("1e15", "1000000000000000.0"),
    ("1e16", "1e+16"),
    ("1.5e16", "1.5e+16"),
    ("1.7976931348623157e308", "1.7976931348623157e+308"),
    ("1e-4", "0.0001"),
    ("1.25e-5", "0.0000125"),
    ("-0.00001", "-0.00001"),
    ("9.5e-6", "9.5e-6"),
    ("5e-324", "5e-324"),
    ("-0", "-0.0"),
    // 7: strings.
    (r#""""#, r#""""#),
    (r#""aé€😀""#, r#""aé€😀""#),
    (r#""\"\\\/\b\f\n\r\t""#, r#""\"\\/\b\f\n\r\t""#),
    (r#""\u0061\u00e9\u20AC""#, r#""aé€""#),
    (r#""\ud83d\ude00\uDBFF\uDFFF""#, "\"😀\u{10ffff}\""),
    (r#""\u0000\u001f\u007f""#, "\"\\u0000\\u001f\u{7f}\""),
    (r#""\u2028\uf8ff""#, "\"\u{2028}\u{f8ff}\""),
];

/// Texts that are none.
const OTHERS: &[(&str, Category)] = &[
    // 2: tokens.
    ("", Category::Eof),
    ("  ", Category::Eof),
    ("nul", Category::Eof),
    ("nulL", Category::Syntax),
    ("True", Category::Syntax),
    ("null null", Category::Syntax),
    ("1 2", Category::Syntax),
    ("\u{feff}1", Category::Syntax),
    ("\u{a0}1", Category::Syntax),
    ("// 1", Category::Syntax),
    ("'a'", Category::Syntax),
    // 4: objects.
    ("{", Category::Eof),
    ("{\"a\"", Category::Eof),
    ("{\"a\":", Category::Eof),
    ("{\"a\":1", Category::Eof),
    ("{\"a\":1,", Category::Eof),
    ("{\"a\":1,}", Category::Syntax),
    ("{,}", Category::Syntax),
    ("{\"a\" 1}", Category::Syntax),
    ("{\"a\":1 \"b\":2}", Category::Syntax),
    ("{a:1}", Category::Syntax),
    ("{1:1}", Category::Syntax),
    ("{\"a\":1]", Category::Syntax),
    // 5: lists.
    ("[", Category::Eof),
    ("[1", Category::Eof),
    ("[1,", Category::Eof),
    ("[1,]", Category::Syntax),
    ("[,1]", Category::Syntax),
    ("[,]", Category::Syntax),
    ("[1,,2]", Category::Syntax),
    ("[1 2]", Category::Syntax),
    ("[1}", Category::Syntax),
    ("]", Category::Syntax),
    // 6: numbers. One above all floats is infinite in Python, which has NaN and Infinity too.
    ("-", Category::Eof),
    ("+1", Category::Syntax),
    ("01", Category::Syntax),
    ("-01", Category::Syntax),
    ("00", Category::Syntax),
    (".5", Category::Syntax),
    ("1.", Category::Eof),
    ("1.x", Category::Syntax),
    ("1e", Category::Eof),
    ("1e+", Category::Eof),
    ("1ex", Category::Syntax),
    ("1.5.5", Category::Syntax),
    ("0x1", Category::Syntax),
    ("--1", Category::Syntax),
    ("1e400", Category::Syntax),
    ("NaN", Category::Syntax),
    ("-Infinity", Category::Syntax),
    // 7: strings. Half of a pair is a text in Python.
    ("\"", Category::Eof),
    ("\"a", Category::Eof),
    ("\"\\", Category::Eof),
    ("\"\\u12", Category::Eof),
    ("\"\\u12x4\"", Category::Syntax),
    ("\"\\x\"", Category::Syntax),
    ("\"\\U0061\"", Category::Syntax),
    ("\"\n\"", Category::Syntax),
    ("\"\t\"", Category::Syntax),
    ("\"\u{0}\"", Category::Syntax),
    ("\"\\ud800\"", Category::Syntax),
    ("\"\\udc00\"", Category::Syntax),
    ("\"\\ud800\\u0061\"", Category::Syntax),
    ("\"\\ud800\\ud800\"", Category::Syntax),
    ("\"\\ud800", Category::Eof),
];

#[test]
fn from_str_takes_json_and_to_string_writes_it_compact() {
    for (given, wanted) in TEXTS {
        let value = read(given).unwrap_or_else(|error| panic!("{given}: {error:?}"));
        let written = value.to_string(Global).unwrap();
        assert_eq!(written.as_str(), *wanted, "{given}");
        assert_eq!(read(&written), Ok(value), "what is written reads as the value");
    }
}

#[test]
fn from_str_refuses_what_is_none_and_tells_where_it_ends_too_early() {
    for (given, wanted) in OTHERS {
        assert_eq!(read(given), Err(*wanted), "{given}");
    }
}

#[test]
fn each_front_of_a_text_ends_too_early() {
    let whole = r#"{"a":[1.5,"\ud83d\ude00",true,null],"b":{"c":[]}}"#;
    assert!(read(whole).is_ok());
    for end in 0..whole.len() {
        assert_eq!(read(&whole[..end]), Err(Category::Eof), "{}", &whole[..end]);
    }
}

#[test]
fn numbers_are_whole_as_far_as_64_bits_go() {
    let number = |given: &str| match read(given) {
        Ok(Value::Number(number)) => number,
        other => panic!("{given}: {other:?}"),
    };
    assert_eq!(number("7"), Number::Whole(7));
    assert_eq!(number("18446744073709551615"), Number::Whole(u64::MAX));
    assert_eq!(number("18446744073709551616"), Number::Float(18446744073709551616.0));
    assert_eq!(number("-9223372036854775808"), Number::Below(i64::MIN));
    assert_eq!(number("-9223372036854775809"), Number::Float(-9223372036854775809.0));
    assert_eq!(number("1.0"), Number::Float(1.0));
    assert!(matches!(number("-0"), Number::Float(zero) if zero.is_sign_negative()));
    assert!(number("-0").is_f64() && number("1e0").is_f64());
    assert!(!number("7").is_f64() && !number("-7").is_f64());
}

/// RFC 8259, 9: how deep a text may nest is the reader's to say.
#[test]
fn texts_nest_127_deep() {
    for (open, close) in [("[", "]"), ("{\"a\":", "}")] {
        let nested = |depth| format!("{}1{}", open.repeat(depth), close.repeat(depth));
        assert!(read(&nested(127)).is_ok());
        assert_eq!(read(&nested(128)), Err(Category::Syntax));
        assert_eq!(read(&open.repeat(100_000)), Err(Category::Syntax));
    }
}

#[test]
fn maps_hold_the_last_value_of_a_name_in_the_order_of_the_names() {
    let mut members = Map::new(Global);
    for (place, name) in ["b", "a", "c", "a"].into_iter().enumerate() {
        put(&mut members, Global, name, Value::from(place as u64)).unwrap();
    }
    assert_eq!(members.len(), 3);
    assert_eq!(members.insert(text("c"), Value::Null), Ok(Some(Value::from(2))));
    assert_eq!(members.insert(text("d"), Value::Bool(true)), Ok(None));
    let value = Value::Object(members);
    assert_eq!(value.to_string(Global).unwrap().as_str(), r#"{"a":3,"b":0,"c":null,"d":true}"#);
    let names = value.as_object().unwrap().iter().map(|member| member.0.as_str());
    assert!(names.eq(["a", "b", "c", "d"]));
    assert!(Value::Null.as_object().is_none());
}

#[test]
fn the_writer_writes_tokens_with_the_commas_between_them() {
    let mut writer = Writer::new(List::from_slice(Global, b"> ").unwrap());
    writer.begin_object().unwrap();
    writer.key("a\"").unwrap();
    writer.u64(u64::MAX).unwrap();
    writer.key("b").unwrap();
    writer.begin_object().unwrap();
    writer.end_object().unwrap();
    writer.key("c").unwrap();
    writer.u64(0).unwrap();
    writer.end_object().unwrap();
    let written = Text::from_utf8(writer.into_inner()).unwrap();
    assert_eq!(written.as_str(), r#"> {"a\"":18446744073709551615,"b":{},"c":0}"#);
}

mod typed {
    use super::*;
    use rattle_std::serde::{Described, Deserialize, Deserializer, Format, Serialize, Serializer};

    /// Pairs of a key and a value, which are refused where a key comes twice in turn.
    #[derive(Debug, PartialEq)]
    struct Pairs<K, V>(Vec<(K, V)>);

    impl<K, V> Described for Pairs<K, V> {}

    impl<K: Serialize, V: Serialize> Serialize for Pairs<K, V> {
        fn serialize<S: Serializer>(&self, out: &mut S) -> Result<(), S::Error> {
            out.begin_map(Some(self.0.len()))?;
            for (key, value) in &self.0 {
                out.begin_key()?;
                key.serialize(out)?;
                out.end_key()?;
                value.serialize(out)?;
            }
            out.end_map()
        }
    }

    impl<'de, K: Deserialize<'de> + PartialEq, V: Deserialize<'de>> Deserialize<'de> for Pairs<K, V> {
        fn deserialize<F: Format>(
            alloc: Global,
            from: &mut Deserializer<'de, '_, F>,
        ) -> Result<Self, F::Error> {
            let mut pairs = Vec::<(K, V)>::new();
            from.begin_map()?;
            while from.next_entry()? {
                let key = K::deserialize(alloc, from)?;
                if pairs.last().is_some_and(|last| last.0 == key) {
                    return Err(from.custom("a key comes twice"));
                }
                pairs.push((key, V::deserialize(alloc, from)?));
            }
            Ok(Pairs(pairs))
        }
    }

    fn written<T: Serialize>(value: &T) -> String {
        to_string(Global, value).unwrap().as_str().to_string()
    }

    fn taken<'a, T: Deserialize<'a>>(given: &'a str) -> Result<T, Category> {
        from_str(Global, given).map_err(|error| error.classify())
    }

    type Numbers = Pairs<Text, u64>;

    #[test]
    fn maps_are_written_and_read_as_they_are() {
        let numbers = Pairs(vec![(text("b\n"), 1), (text("a"), u64::MAX)]);
        assert_eq!(written(&numbers), r#"{"b\n":1,"a":18446744073709551615}"#);
        assert_eq!(taken(&written(&numbers)), Ok(numbers));
        let texts = Pairs(vec![(7u64, text("seven")), (8, text(""))]);
        assert_eq!(written(&texts), r#"{"7":"seven","8":""}"#);
        assert_eq!(taken(&written(&texts)), Ok(texts));
        let nested =
            Pairs(vec![(text("a"), Pairs(vec![(1u64, 2u64)])), (text("b"), Pairs(vec![]))]);
        assert_eq!(written(&nested), r#"{"a":{"1":2},"b":{}}"#);
        assert_eq!(taken(&written(&nested)), Ok(nested));
    }

    #[test]
    fn other_values_are_told_from_what_is_no_json() {
        assert_eq!(taken::<Numbers>(" { \"a\" : 1 } ").unwrap().0.len(), 1);
        for given in ["[1]", "1", "{\"a\":-1}", "{\"a\":1.5}", "{\"a\":\"b\"}", "{\"a\":{}}"] {
            assert_eq!(taken::<Numbers>(given), Err(Category::Data), "{given}");
        }
        assert_eq!(taken::<Numbers>("{\"a\":1,\"a\":2}"), Err(Category::Data));
        assert_eq!(taken::<Pairs<u64, u64>>("{\"a\":1}"), Err(Category::Data));
        assert_eq!(taken::<Pairs<Text, Text>>("{\"a\":1}"), Err(Category::Data));
    }

    #[test]
    fn a_key_that_is_a_number_is_written_as_json_has_it() {
        for (key, number) in [("0", 0), ("7", 7), ("18446744073709551615", u64::MAX)] {
            let given = format!(" {{ \"{key}\" : 1 }} ");
            assert_eq!(taken::<Pairs<u64, u64>>(&given), Ok(Pairs(vec![(number, 1)])), "{given}");
        }
        let others = [
            "+7",
            "007",
            "00",
            "-0",
            "-7",
            "7.0",
            "7e0",
            "7 ",
            " 7",
            "",
            "7x",
            "\\u0037",
            "7\\u0030",
            "1e400",
            "18446744073709551616",
            "-",
        ];
        for key in others {
            let given = format!("{{\"{key}\":1}}");
            assert_eq!(taken::<Pairs<u64, u64>>(&given), Err(Category::Data), "{given}");
        }
        for (given, wanted) in [("{7:1}", Category::Syntax), ("{\"7", Category::Eof)] {
            assert_eq!(taken::<Pairs<u64, u64>>(given), Err(wanted), "{given}");
        }
    }

    #[test]
    fn other_texts_are_told_from_those_that_end_early() {
        for given in ["{1:1}", "{\"a\":1,}", "{\"a\":01}", "{} {}", "{\"a\" 1}"] {
            assert_eq!(taken::<Numbers>(given), Err(Category::Syntax), "{given}");
        }
        for given in ["", "{", "{\"a\"", "{\"a\":", "{\"a\":1", "{\"a\":1,"] {
            assert_eq!(taken::<Numbers>(given), Err(Category::Eof), "{given}");
        }
    }
}
