//! Values: random ones both ways, their order, their depth, and what is refused.

mod random;

use naltvigo::{
    canonicalise, check_canonical, diagnostic, same, Array, GetError, Item, Keys, Map, Options,
    Order, Reason, RepeatedKey, Simple, Tag, Value,
};
use random::Random;
use std::collections::HashSet;
use std::mem;

#[test]
fn random_values_both_ways() {
    let (mut random, bytewise) = (Random(9), Options::default());
    let length_first = bytewise.with_order(Order::LengthFirst);
    let mut last = Value::NULL;
    for _ in 0..10000 {
        let value = random.value(4);
        let bytes = value.encode(&bytewise).unwrap();
        assert_eq!(check_canonical(&bytes, &bytewise), Ok(()));
        assert_eq!(Value::decode(&bytes, &bytewise), Ok(value.clone()));
        assert_eq!(diagnostic(&bytes, &bytewise), Ok(value.to_string()));
        let other = value.encode(&length_first).unwrap();
        assert_eq!(canonicalise(&bytes, &length_first), Ok(other.clone()));
        assert_eq!(Value::decode(&other, &bytewise), Ok(value.clone()));
        let item = Item::open(&other, &length_first).unwrap();
        assert_eq!(item.to_value(), value);
        // equal exactly if the library says so
        let last_bytes = last.encode(&bytewise).unwrap();
        assert_eq!(same(&bytes, &last_bytes, &bytewise), Ok(value == last));
        last = value;
    }
}

// The same values in any encoding: indefinite lengths, long heads, keys in any order.
#[test]
fn random_values_in_other_encodings() {
    let (mut random, options) = (Random(5), Options::default());
    for _ in 0..10000 {
        let value = random.value(4);
        let mut given = Vec::new();
        random.encode(&value, &mut given);
        assert_eq!(Value::decode(&given, &options), Ok(value), "{given:02x?}");
    }
}

#[test]
fn the_order_is_that_of_the_bytes() {
    let (mut random, options) = (Random(77), Options::default());
    let mut values: Vec<Value> = (0..4000).map(|_| random.value(2)).collect();
    values.extend((0..4000).map(|_| random.value(0)));
    let bytes = |value: &Value| value.encode(&options).unwrap();
    for two in values.windows(2) {
        assert_eq!(two[0].cmp(&two[1]), bytes(&two[0]).cmp(&bytes(&two[1])));
    }
    values.sort();
    assert!(values
        .windows(2)
        .all(|two| bytes(&two[0]) <= bytes(&two[1])));
    let distinct: HashSet<Vec<u8>> = values.iter().map(bytes).collect();
    let hashed: HashSet<&Value> = values.iter().collect();
    assert_eq!(hashed.len(), distinct.len());
    assert!(distinct.len() < values.len());
}

#[test]
fn repeated_keys() {
    let pair = |key: &Value, value: i32| (key.clone(), Value::from(value));
    // 1 and [{"a": 2(h''), true: 0}], whose pairs are given in two orders
    let inner = |turned: bool| {
        let mut pairs = vec![
            ("a".into(), Tag::new(2, Value::bytes([])).into()),
            (true.into(), 0.into()),
        ];
        if turned {
            pairs.reverse();
        }
        Value::array([Value::map(pairs).unwrap()])
    };
    for (key, again) in [(1.into(), 1_u64.into()), (inner(false), inner(true))] {
        let pairs = [pair(&key, 1), pair(&2.into(), 2), pair(&again, 3)];
        assert_eq!(Value::map(pairs), Err(RepeatedKey(key)));
    }
    // the number 1, true, the text, the byte string and a tag over it are five keys
    let keys = [
        1.into(),
        true.into(),
        "1".into(),
        Value::bytes(*b"1"),
        Value::tag(1, 1),
    ];
    assert!(Value::map(keys.iter().map(|key| pair(key, 0))).is_ok());
    let text = format!("{}", RepeatedKey("a".into()));
    assert_eq!(text, r#"two keys of a map are "a""#);
}

#[test]
fn what_is_refused() {
    let options = Options::default();
    let tower = |levels| (0..levels).fold(Value::from(0), |value, _| Value::array([value]));
    assert!(tower(64).encode(&options).is_ok());
    let refused = tower(65).encode(&options).unwrap_err();
    assert_eq!((refused.reason, refused.offset), (Reason::TooDeep, 64));
    let widest = options.with_depth(1024).unwrap();
    let bytes = tower(1024).encode(&widest).unwrap();
    assert_eq!(Value::decode(&bytes, &widest), Ok(tower(1024)));
    assert_eq!(tower(1025).encode(&widest).unwrap_err().offset, 1024);

    let long = Value::bytes(vec![0; 1 << 20]);
    assert_eq!(long.encode(&options).unwrap_err().reason, Reason::TooLong);
    let space = options.with_bytes(3).unwrap();
    assert_eq!(Value::from("ab").encode(&space), Ok(b"\x62ab".to_vec()));
    assert_eq!(
        Value::from("abc").encode(&space).unwrap_err().reason,
        Reason::TooLong
    );
    // each byte of the members counts
    let many = Value::array((0..4).map(Value::from));
    assert_eq!(many.encode(&space).unwrap_err().reason, Reason::TooLong);

    let key = Value::map([(true.into(), 0.into())]).unwrap();
    let basic = options.with_keys(Keys::IntegersAndTexts);
    assert_eq!(key.encode(&basic).unwrap_err().reason, Reason::KeyKind);
    for (given, reason) in [
        (&b"\xf9\x3e\x00"[..], Reason::Float),
        (b"\xa2\x01\x00\x01\x00", Reason::RepeatedKey),
        (b"\x61\xff", Reason::InvalidText),
        (b"\x00\x00", Reason::Trailing),
        (b"", Reason::Truncated),
    ] {
        assert_eq!(Value::decode(given, &options).unwrap_err().reason, reason);
    }
}

// A hundred thousand levels, made by hand: arrays, keys of maps, values of maps, tags.
#[test]
fn deep_values() {
    let mut value = Value::from(0);
    for level in 0..100_000 {
        value = match level % 4 {
            0 => Value::array([1.into(), value, Value::array([])]),
            1 => Value::map([(value, 2.into()), (false.into(), 3.into())]).unwrap(),
            2 => Value::map([(2.into(), 2.into()), ("a".into(), value)]).unwrap(),
            _ => Value::tag(7, value),
        };
    }
    let copy = value.clone();
    assert!(copy == value && copy <= value);
    assert_eq!(HashSet::from([&copy, &value]).len(), 1);
    let refused = value.encode(&Options::default().with_depth(1024).unwrap());
    assert_eq!(refused.unwrap_err().reason, Reason::TooDeep);
    assert!(value.to_string().starts_with("refused 9 TooDeep at "));
    drop(copy);
    // taken apart, each level by itself
    let mut levels = 0;
    while !matches!(value, Value::Unsigned(_)) {
        value = match value {
            Value::Array(members) => members.into_iter().nth(1).unwrap(),
            Value::Map(mut pairs) if pairs.get("a").is_some() => pairs.remove("a").unwrap(),
            Value::Map(pairs) => pairs.into_iter().find(|pair| pair.1 == 2.into()).unwrap().0,
            Value::Tag(tag) => tag.into_content(),
            _ => unreachable!(),
        };
        levels += 1;
    }
    assert_eq!(levels, 100_000);
}

// Each kind of container by itself is dropped level by level, also one that is not the outermost.
#[test]
fn deep_values_of_one_kind() {
    let levels: [fn(Value) -> Value; 4] = [
        |value| Value::array([value]),
        |value| Value::map([(0.into(), value)]).unwrap(),
        |value| Value::map([(value, 0.into())]).unwrap(),
        |value| Value::tag(1, value),
    ];
    for level in levels {
        let value = (0..100_000).fold(Value::NULL, |value, _| level(value));
        assert_eq!(value.clone().cmp(&value), std::cmp::Ordering::Equal);
        drop(Value::array([1.into(), value]));
    }
}

#[test]
fn native_types() {
    assert_eq!(Value::from(i64::MIN), Value::Negative(i64::MAX as u64));
    assert_eq!(Value::from(-1_i8), Value::Negative(0));
    assert_eq!(Value::from(u8::MAX), Value::Unsigned(255));
    assert_eq!(Value::from(Some("a")), "a".into());
    assert_eq!(Value::from(None::<&str>), Value::NULL);
    assert_eq!(
        Value::try_from(-(1_i128 << 64)),
        Ok(Value::Negative(u64::MAX))
    );
    assert_eq!(
        Value::try_from((1_i128 << 64) - 1),
        Ok(Value::Unsigned(u64::MAX))
    );
    assert!(Value::try_from(1_i128 << 64).is_err());
    assert!(Value::try_from(-(1_i128 << 64) - 1).is_err());
    assert_eq!(
        (0..=255)
            .filter(|&number| Simple::new(number).is_none())
            .count(),
        8
    );
    assert!((24..32).all(|number| Simple::new(number).is_none()));

    let value = Value::from(300);
    assert_eq!(u16::try_from(&value), Ok(300));
    let wrong = u8::try_from(&value).unwrap_err();
    assert!(matches!(
        wrong,
        GetError::OutOfRange {
            found: 300,
            needed: "u8",
            ..
        }
    ));
    let wrong = <&str>::try_from(&value).unwrap_err();
    assert!(matches!(
        wrong,
        GetError::WrongKind {
            found: "an integer",
            needed: "a text",
            ..
        }
    ));
    assert_eq!(i128::try_from(&Value::Negative(u64::MAX)), Ok(-1 << 64));
    assert!(u64::try_from(&Value::from(-1)).is_err());
    assert_eq!(<&str>::try_from(&Value::from("a")), Ok("a"));
    assert_eq!(<&[u8]>::try_from(&Value::bytes([1])), Ok(&[1][..]));
    assert!(<&[u8]>::try_from(&Value::from("a")).is_err());
    assert_eq!(bool::try_from(&Value::from(false)), Ok(false));
    assert!(bool::try_from(&Value::NULL).is_err());
}

#[test]
fn containers() {
    let mut array = Array::from(vec![1.into(), 2.into()]);
    array.push("three");
    array[0] = mem::replace(&mut array[1], 0.into());
    assert_eq!(
        Value::Array(array.clone()).to_string(),
        r#"[2, 0, "three"]"#
    );
    assert_eq!((array.len(), array.get(3)), (3, None));
    assert_eq!((&array).into_iter().count(), array.into_iter().count());

    let mut map = Map::default();
    assert!(map.is_empty());
    for key in [300, -1, 2, 24, 0] {
        assert_eq!(map.insert(key, key), None);
    }
    assert_eq!(map.insert(24, "again"), Some(24.into()));
    let keys: Vec<i64> = map
        .into_iter()
        .map(|pair| i64::try_from(&pair.0).unwrap())
        .collect();
    assert_eq!(keys, [0, 2, 24, 300, -1]);

    let value = Value::map([("a".into(), 1.into())]).unwrap();
    assert_eq!(value.get("a"), Some(&1.into()));
    assert_eq!((value.get("b"), Value::from(1).get(0)), (None, None));
    let tag = Tag::new(18, value);
    assert_eq!(
        (tag.number(), tag.content().get("a")),
        (18, Some(&1.into()))
    );
}
