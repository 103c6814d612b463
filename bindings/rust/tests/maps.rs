//! Maps and conversions: below, at and above the number of pairs at which a map that is inserted into
//! changes its form; and what errors say.

use naltvigo::{Array, GetError, Item, Map, Options, Simple, Tag, Value};
use std::collections::{BTreeMap, HashSet};

fn says<T: std::fmt::Debug>(found: Result<T, GetError>, sentence: &str) {
    assert_eq!(found.unwrap_err().to_string(), sentence);
}

#[test]
fn each_size_in_both_forms() {
    for size in [0, 1, 31, 32, 33, 34, 100, 1000] {
        let pairs = || (0..size).map(|key| (Value::from(key * 7 % size), Value::from(key)));
        let sorted = Map::new(pairs()).unwrap();
        let mut grown = Map::default();
        for (at, (key, value)) in pairs().enumerate() {
            assert_eq!((grown.len(), grown.contains_key(&key)), (at, false));
            assert_eq!(grown.insert(key.clone(), 0), None);
            assert_eq!(grown.insert(key, value), Some(0.into()));
        }
        assert_eq!(
            (&grown, grown.len(), grown.is_empty()),
            (&sorted, size as usize, size == 0)
        );
        assert_eq!(HashSet::from([&grown, &sorted]).len(), 1);
        assert!(grown.cmp(&sorted).is_eq() && format!("{grown:?}") == format!("{sorted:?}"));
        assert_eq!(pairs().collect::<Map>(), grown);
        assert_eq!(Map::from(BTreeMap::from(grown.clone())), grown);
        for mut map in [sorted, grown] {
            let keys: Vec<i32> = map.keys().map(|key| key.try_into().unwrap()).collect();
            assert_eq!(keys, (0..size).collect::<Vec<_>>());
            assert!(map.iter().rev().map(|pair| pair.0).eq(map.keys().rev()));
            assert!(map.values().eq((&map).into_iter().map(|pair| pair.1)));
            map.values_mut().for_each(|value| *value = 5.into());
            assert!(
                map.values().len() == size as usize && map.values().all(|value| value == &5.into())
            );
            map.retain(|key, _| i32::try_from(key).unwrap() % 3 == 0);
            assert_eq!(map.len() as i32, (size + 2) / 3);
            assert_eq!(map.remove(1), None);
            assert_eq!(map.remove(3), (size > 3).then(|| 5.into()));
            assert_eq!(map.get_mut(0).is_some(), size > 0);
            assert!(map.into_iter().all(|pair| pair.1 == 5.into()));
        }
    }
}

#[test]
fn entries() {
    for before in [0, 31, 32, 33] {
        let mut map: Map = (100..100 + before).map(|key| (key, 0)).collect();
        assert_eq!(map.entry("a").or_insert(1), &1.into());
        assert_eq!(map.entry("a").or_insert(2), &1.into());
        *map.entry("a")
            .and_modify(|value| *value = 3.into())
            .or_insert(4) = 5.into();
        assert_eq!(map.get("a"), Some(&5.into()));
        assert_eq!(
            map.entry("b").and_modify(|_| panic!("there is none")).key(),
            &"b".into()
        );
        assert!(!map.contains_key("b"));
        assert_eq!(map.entry("b").or_insert_with(|| "made"), &"made".into());
        assert_eq!(map.len() as i32, before + 2);
    }
}

#[test]
fn the_last_of_equal_keys() {
    let pairs = || [("a", 1), ("b", 2), ("a", 3), ("b", 4), ("a", 5)];
    let wanted = Map::new([("a".into(), 5.into()), ("b".into(), 4.into())]).unwrap();
    let mut extended = Map::default();
    extended.extend(pairs());
    assert_eq!(
        (pairs().into_iter().collect::<Map>(), extended),
        (wanted.clone(), wanted)
    );
}

#[test]
fn native_containers() {
    let value: Value = vec![1_u8, 2].into_iter().collect();
    assert_eq!(value.to_string(), "[1, 2]");
    assert_eq!(value.clone().into_members::<u8>(), Ok(vec![1, 2]));
    assert_eq!(
        Vec::<Value>::try_from(value.clone()).map(|it| it.len()),
        Ok(2)
    );
    says(
        value.clone().into_members::<String>(),
        "the item is an integer, not a text",
    );
    says(
        Vec::<u8>::try_from(value),
        "the item is an array, not a byte string",
    );
    let map = Value::from(BTreeMap::from([
        ("a".to_owned(), 1),
        ("b".to_owned(), -500),
    ]));
    assert_eq!(map.to_string(), r#"{"a": 1, "b": -500}"#);
    let wanted = BTreeMap::from([("a".to_owned(), 1_i64), ("b".to_owned(), -500)]);
    assert_eq!(map.clone().into_pairs::<String, i64>(), Ok(wanted));
    assert_eq!(
        map.clone().into_pairs::<Value, Value>().map(|it| it.len()),
        Ok(2)
    );
    says(
        map.clone().into_pairs::<String, i8>(),
        r#"the value at key "b" is -500, which i8 does not hold"#,
    );
    says(
        map.into_members::<Value>(),
        "the item is a map, not an array",
    );
    assert_eq!(String::try_from(Value::from("a")), Ok("a".to_owned()));
    assert_eq!(Vec::<u8>::try_from(Value::bytes([7])), Ok(vec![7]));
    assert_eq!(Array::try_from(Value::array([])), Ok(Array::default()));
    assert_eq!(Tag::try_from(Value::tag(1, 2)), Ok(Tag::new(1, 2)));
    assert_eq!(bool::try_from(Value::from(true)), Ok(true));
    assert_eq!(u8::try_from(Value::from(255)), Ok(255));
    assert_eq!(Simple::try_from(Value::NULL), Ok(Simple::NULL));
    says(Map::try_from(Value::NULL), "the item is null, not a map");
    says(
        Tag::try_from(Value::from(Simple::UNDEFINED)),
        "the item is undefined, not a tag",
    );
}

// The same of a value and of an item.
#[test]
fn fields() {
    let value = Value::map([
        ("name".into(), "as".into()),
        (4.into(), (-1).into()),
        ("none".into(), Value::NULL),
        ("key".into(), Value::bytes([1, 2])),
    ])
    .unwrap();
    let bytes = value.encode(&Options::default()).unwrap();
    let item = Item::open(&bytes, &Options::default()).unwrap();
    assert_eq!(
        (value.field("name"), item.field("name")),
        (Ok("as"), Ok("as"))
    );
    assert_eq!((value.field(4), item.field(4)), (Ok(-1_i8), Ok(-1_i8)));
    assert_eq!(
        (value.field("key"), item.field("key")),
        (Ok(&[1_u8, 2][..]), Ok(&[1_u8, 2][..]))
    );
    assert_eq!(
        item.field::<Item>("none").map(Item::to_value),
        Ok(Value::NULL)
    );
    assert_eq!(value.field::<&Value>("none"), Ok(&Value::NULL));
    assert_eq!(
        (value.optional("name"), item.optional("name")),
        (Ok(Some("as")), Ok(Some("as")))
    );
    for key in ["none", "no such key"] {
        assert_eq!(
            (value.optional::<u8>(key), item.optional::<u8>(key)),
            (Ok(None), Ok(None))
        );
    }
    for (value, item, sentence) in [
        (
            value.field::<u8>("no"),
            item.field::<u8>("no"),
            r#"the map has no key "no""#,
        ),
        (
            value.field::<u8>(-7),
            item.field::<u8>(-7),
            "the map has no key -7",
        ),
        (
            value.field::<u8>(4),
            item.field::<u8>(4),
            "the value at key 4 is -1, which u8 does not hold",
        ),
        (
            value.field::<u8>("none"),
            item.field::<u8>("none"),
            r#"the value at key "none" is null, not an integer"#,
        ),
        (
            value.optional(4).map(Option::unwrap),
            item.optional(4).map(Option::unwrap),
            "the value at key 4 is -1, which u8 does not hold",
        ),
    ] {
        says(value, sentence);
        says(item, sentence);
    }
    says(
        Value::from(1).optional::<u8>(1),
        "the item is an integer, not a map",
    );
    says(item.members(), "the item is a map, not an array");
    assert!(item.contains_key(4) && !item.contains_key(5) && item.pairs().unwrap().len() == 4);
    match value.field::<&str>("key").unwrap_err() {
        GetError::WrongKind {
            key, found, needed, ..
        } => {
            assert_eq!(
                (key.as_deref(), found, needed),
                (Some(r#""key""#), "a byte string", "a text")
            );
        }
        other => panic!("{other}"),
    }
}

struct Party {
    id: u64,
    names: Vec<String>,
}

impl TryFrom<Item<'_>> for Party {
    type Error = GetError;

    fn try_from(item: Item<'_>) -> Result<Party, GetError> {
        let names = item.field::<Item>("names")?.into_members()?;
        let id = item.field("id")?;
        Ok(Party { id, names })
    }
}

// Of a type of one's own within a map: the keys from the outermost one.
#[test]
fn errors_of_nested_types() {
    let party = |id: Value| {
        let names = Value::array(["a".into(), "b".into()]);
        let party = Value::map([("id".into(), id), ("names".into(), names)]).unwrap();
        let bill = Value::map([(Value::array([1.into()]), party)]).unwrap();
        bill.encode(&Options::default()).unwrap()
    };
    let read = |bytes: &[u8]| -> Result<Party, GetError> {
        let bill = Item::open(bytes, &Options::default()).unwrap();
        let key = bill.pairs()?.next().unwrap().0;
        bill.field(key)
    };
    let found = read(&party(7.into())).unwrap();
    assert_eq!((found.id, found.names.join(" ")), (7, "a b".into()));
    says(
        read(&party("7".into())).map(|it| it.id),
        r#"the value at key [1]."id" is a text, not an integer"#,
    );
    says(
        read(&party((-1).into())).map(|it| it.id),
        r#"the value at key [1]."id" is -1, which u64 does not hold"#,
    );
    let bytes = [
        &b"\xa1\x61a\xa1\x61b\xa1\x65names\x80"[..],
        &b"\xa1\x61a\xa1\x61b\xa1\x65names\x81\x01"[..],
    ];
    let nested = |bytes| -> Result<BTreeMap<&str, Outer>, GetError> {
        Item::open(bytes, &Options::default()).unwrap().into_pairs()
    };
    says(
        nested(bytes[0]).map(|it| it.len()),
        r#"the map has no key "a"."b"."id""#,
    );
    says(
        nested(bytes[1]).map(|it| it.len()),
        r#"the value at key "a"."b" is an integer, not a text"#,
    );
}

struct Outer;

impl TryFrom<Item<'_>> for Outer {
    type Error = GetError;

    fn try_from(item: Item<'_>) -> Result<Outer, GetError> {
        item.field::<Party>("b").map(|_| Outer)
    }
}

#[test]
fn native_containers_of_an_item() {
    let item = |bytes| Item::open(bytes, &Options::default()).unwrap();
    assert_eq!(item(b"\x82\x01\x02").into_members(), Ok(vec![1_u8, 2]));
    says(
        item(b"\x82\x01\x02").into_members::<&str>(),
        "the item is an integer, not a text",
    );
    says(
        item(b"\xa0").into_members::<u8>(),
        "the item is a map, not an array",
    );
    let wanted = BTreeMap::from([("a", 1_i8), ("b", -2)]);
    assert_eq!(item(b"\xa2\x61a\x01\x61b\x21").into_pairs(), Ok(wanted));
    says(
        item(b"\xa1\x61a\x20").into_pairs::<String, u8>(),
        r#"the value at key "a" is -1, which u8 does not hold"#,
    );
    says(
        item(b"\x80").into_pairs::<u8, u8>(),
        "the item is an array, not a map",
    );
}
