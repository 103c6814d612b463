//! The examples of RFC 8949, Appendix A, without floats: values made in Rust, against the bytes there
//! and their diagnostic text. Some are given in other encodings as well.

use naltvigo::{check_canonical, Item, Options, Simple, Tag, Value};

fn unhex(digits: &str) -> Vec<u8> {
    let byte = |at| u8::from_str_radix(&digits[at..at + 2], 16).unwrap();
    (0..digits.len()).step_by(2).map(byte).collect()
}

// The value, its canonical bytes, and its text.
fn one(value: impl Into<Value>, canonical: &str, text: &str) -> Value {
    let (value, options) = (value.into(), Options::default());
    let bytes = unhex(canonical);
    assert_eq!(value.encode(&options), Ok(bytes.clone()), "{text}");
    assert_eq!(Value::decode(&bytes, &options), Ok(value.clone()), "{text}");
    assert_eq!(value.to_string(), text);
    let item = Item::open(&bytes, &options).unwrap();
    assert_eq!(
        (item.to_value(), item.to_string()),
        (value.clone(), text.into())
    );
    value
}

// The same, of other bytes that encode it.
fn also(value: impl Into<Value>, given: &str, canonical: &str, text: &str) {
    let value = one(value, canonical, text);
    assert_eq!(Value::decode(&unhex(given), &Options::default()), Ok(value));
    assert!(check_canonical(&unhex(given), &Options::default()).is_err());
}

fn to(last: i64) -> Vec<Value> {
    (1..=last).map(Value::from).collect()
}

fn map<const N: usize>(pairs: [(&str, Value); N]) -> Value {
    Value::map(pairs.map(|(key, value)| (key.into(), value))).unwrap()
}

#[test]
fn integers() {
    one(0, "00", "0");
    one(1, "01", "1");
    one(10, "0a", "10");
    one(23, "17", "23");
    one(24, "1818", "24");
    one(25, "1819", "25");
    one(100, "1864", "100");
    one(1000, "1903e8", "1000");
    one(1000000, "1a000f4240", "1000000");
    one(1000000000000_u64, "1b000000e8d4a51000", "1000000000000");
    one(u64::MAX, "1bffffffffffffffff", "18446744073709551615");
    let least = Value::try_from(-18446744073709551616_i128).unwrap();
    one(least, "3bffffffffffffffff", "-18446744073709551616");
    one(-1, "20", "-1");
    one(-10, "29", "-10");
    one(-100, "3863", "-100");
    one(-1000, "3903e7", "-1000");
    also(23, "1b0000000000000017", "17", "23");
}

#[test]
fn simple_values_and_tags() {
    one(false, "f4", "false");
    one(true, "f5", "true");
    one(Value::NULL, "f6", "null");
    one(None::<bool>, "f6", "null");
    one(Simple::UNDEFINED, "f7", "undefined");
    one(Simple::new(16).unwrap(), "f0", "simple(16)");
    one(Simple::new(255).unwrap(), "f8ff", "simple(255)");
    let big = "010000000000000000";
    let (two, three) = (format!("c249{big}"), format!("c349{big}"));
    one(
        Tag::new(2, Value::bytes(unhex(big))),
        &two,
        "2(h'010000000000000000')",
    );
    one(
        Tag::new(3, Value::bytes(unhex(big))),
        &three,
        "3(h'010000000000000000')",
    );
    let date = "c074323031332d30332d32315432303a30343a30305a";
    one(
        Tag::new(0, "2013-03-21T20:04:00Z"),
        date,
        r#"0("2013-03-21T20:04:00Z")"#,
    );
    one(Tag::new(1, 1363896240), "c11a514b67b0", "1(1363896240)");
    one(
        Tag::new(23, Value::bytes([1, 2, 3, 4])),
        "d74401020304",
        "23(h'01020304')",
    );
    one(
        Value::tag(24, Value::bytes(*b"dIETF")),
        "d818456449455446",
        "24(h'6449455446')",
    );
    let link = "d82076687474703a2f2f7777772e6578616d706c652e636f6d";
    one(
        Tag::new(32, "http://www.example.com"),
        link,
        r#"32("http://www.example.com")"#,
    );
}

#[test]
fn strings() {
    one(Value::bytes([]), "40", "h''");
    one(Value::bytes([1, 2, 3, 4]), "4401020304", "h'01020304'");
    one("", "60", r#""""#);
    one("a", "6161", r#""a""#);
    one("IETF", "6449455446", r#""IETF""#);
    one("\"\\", "62225c", r#""\"\\""#);
    one("ü", "62c3bc", r#""ü""#);
    one("水", "63e6b0b4", r#""水""#);
    one("\u{10151}", "64f0908591", "\"\u{10151}\"");
    also(
        Value::bytes([1, 2, 3, 4, 5]),
        "5f42010243030405ff",
        "450102030405",
        "h'0102030405'",
    );
    let streaming = "6973747265616d696e67";
    also(
        "streaming",
        "7f657374726561646d696e67ff",
        streaming,
        r#""streaming""#,
    );
    also(Value::bytes([]), "5fff", "40", "h''");
    also(String::new(), "7fff", "60", r#""""#);
}

#[test]
fn arrays() {
    one(vec![], "80", "[]");
    one(to(3), "83010203", "[1, 2, 3]");
    let nested = || {
        vec![
            1.into(),
            vec![2.into(), 3.into()].into(),
            vec![4.into(), 5.into()].into(),
        ]
    };
    let (canonical, text) = ("8301820203820405", "[1, [2, 3], [4, 5]]");
    one(nested(), canonical, text);
    also(nested(), "9f018202039f0405ffff", canonical, text);
    also(nested(), "9f01820203820405ff", canonical, text);
    also(nested(), "83018202039f0405ff", canonical, text);
    also(nested(), "83019f0203ff820405", canonical, text);
    also(vec![], "9fff", "80", "[]");
    let canonical = "98190102030405060708090a0b0c0d0e0f101112131415161718181819";
    let numbers: Vec<String> = (1..26).map(|number| number.to_string()).collect();
    let text = format!("[{}]", numbers.join(", "));
    one(to(25), canonical, &text);
    also(
        to(25),
        &(canonical.replacen("9819", "9f", 1) + "ff"),
        canonical,
        &text,
    );
}

#[test]
fn maps() {
    one(map([]), "a0", "{}");
    let numbers = Value::map([(1.into(), 2.into()), (3.into(), 4.into())]);
    one(numbers.unwrap(), "a201020304", "{1: 2, 3: 4}");
    let two = || map([("a", 1.into()), ("b", vec![2.into(), 3.into()].into())]);
    let (canonical, text) = ("a26161016162820203", r#"{"a": 1, "b": [2, 3]}"#);
    one(two(), canonical, text);
    also(two(), "bf61610161629f0203ffff", canonical, text);
    let inner = || vec!["a".into(), map([("b", "c".into())])];
    one(inner(), "826161a161626163", r#"["a", {"b": "c"}]"#);
    also(
        inner(),
        "826161bf61626163ff",
        "826161a161626163",
        r#"["a", {"b": "c"}]"#,
    );
    let letters = ["a", "b", "c", "d", "e"].map(|key| (key, key.to_uppercase().into()));
    let canonical = "a56161614161626142616361436164614461656145";
    one(
        map(letters),
        canonical,
        r#"{"a": "A", "b": "B", "c": "C", "d": "D", "e": "E"}"#,
    );
    let streamed = map([("Fun", true.into()), ("Amt", (-2).into())]);
    let given = "bf6346756ef563416d7421ff";
    also(
        streamed,
        given,
        "a263416d74216346756ef5",
        r#"{"Amt": -2, "Fun": true}"#,
    );
    also(map([]), "bfff", "a0", "{}");
    // a byte string and a text of the same bytes differ, and so do a tag and its content
    let kinds = Value::map([(Value::bytes(*b"a"), 0.into()), ("a".into(), 1.into())]);
    one(kinds.unwrap(), "a2416100616101", r#"{h'61': 0, "a": 1}"#);
    let tagged = Value::map([(Value::tag(1, 1), 0.into()), (1.into(), 1.into())]);
    also(
        tagged.unwrap(),
        "a2c101000101",
        "a20101c10100",
        "{1: 1, 1(1): 0}",
    );
}
