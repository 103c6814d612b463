//! Items: what the cursor finds in canonical bytes, compared with the events of the same bytes.

mod random;

use naltvigo::{
    check_canonical, GetError, Item, Key, Kind, Machine, Options, Order, Reason, Simple, Value,
    View,
};
use random::Random;

// The events of an item, as the cursor gives them.
fn kinds<'a>(item: Item<'a>, seen: &mut Vec<Kind<'a>>) {
    let payload = |bytes: &'a [u8]| (!bytes.is_empty()).then_some(Kind::Piece(bytes));
    match item.view() {
        View::Unsigned(number) => seen.push(Kind::Unsigned(number)),
        View::Negative(number) => seen.push(Kind::Negative(number)),
        View::Bytes(bytes) => {
            seen.push(Kind::Bytes(Some(bytes.len() as u64)));
            seen.extend(payload(bytes));
        }
        View::Text(text) => {
            seen.push(Kind::Text(Some(text.len() as u64)));
            seen.extend(payload(text.as_bytes()));
        }
        View::Array(members) => {
            seen.push(Kind::Array(Some(members.len() as u64)));
            for (index, member) in members.enumerate() {
                assert_eq!(item.at(index), Some(member));
                kinds(member, seen);
            }
        }
        View::Map(pairs) => {
            seen.push(Kind::Map(Some(pairs.len() as u64)));
            for (key, value) in pairs {
                assert_eq!(item.get(key), Some(value));
                kinds(key, seen);
                kinds(value, seen);
            }
        }
        View::Tag(number, content) => {
            seen.push(Kind::Tag(number));
            assert_eq!(item.tagged(number), Some(content));
            assert_eq!(item.tagged(number ^ 1), None);
            kinds(content, seen);
        }
        View::Simple(simple) => seen.push(Kind::Simple(simple.number())),
    }
}

#[test]
fn random_items_are_their_events() {
    let mut random = Random(31);
    for turn in 0..10000 {
        let order = [Order::Bytewise, Order::LengthFirst][turn % 2];
        let options = Options::default().with_order(order);
        let bytes = random.value(4).encode(&options).unwrap();
        let item = Item::open(&bytes, &options).unwrap();
        assert_eq!(item.bytes(), bytes);
        let mut seen = Vec::new();
        kinds(item, &mut seen);
        let mut machine = Machine::new(&options);
        let events = machine.events(&bytes).map(|event| event.unwrap().kind);
        assert_eq!(seen, events.collect::<Vec<_>>());
    }
}

// Every key of random maps, and keys that they do not have, found as in the value.
#[test]
fn random_keys() {
    let mut random = Random(8);
    for turn in 0..3000 {
        let order = [Order::Bytewise, Order::LengthFirst][turn % 2];
        let options = Options::default().with_order(order);
        let depth = random.below(2);
        let pairs = (0..random.below(20)).map(|at| (random.value(depth), at.into()));
        let Ok(map) = Value::map(pairs.collect::<Vec<_>>()) else {
            continue;
        };
        let bytes = map.encode(&options).unwrap();
        let item = Item::open(&bytes, &options).unwrap();
        let mut keys: Vec<Value> = (0..20).map(|_| random.value(1)).collect();
        if let Value::Map(pairs) = &map {
            keys.extend(pairs.keys().cloned());
        }
        for key in keys {
            let encoded = key.encode(&options).unwrap();
            let wanted = map.get(&key);
            let found = item.get(Key::Encoded(&encoded));
            assert_eq!(found.map(Item::to_value).as_ref(), wanted, "{key} of {map}");
            let by_type = match &key {
                Value::Unsigned(number) => item.get(*number),
                Value::Negative(number) => item.get(Key::Negative(*number)),
                Value::Text(text) => item.get(text.as_str()),
                _ => continue,
            };
            assert_eq!(by_type, found);
        }
    }
}

#[test]
fn keys_of_each_kind() {
    let options = Options::default();
    let long = "long ".repeat(30);
    let texts = ["", "a", &long[..64], &long[..65], &long];
    let pairs = texts.map(|text| (text.into(), (text.len() as u64).into()));
    let numbers = [0_u64, 23, 24, 1 << 63, u64::MAX].map(|key| (key.into(), key.into()));
    let negatives = [-1, -24, -25, i64::MIN].map(|key| (key.into(), key.into()));
    let all = pairs.into_iter().chain(numbers).chain(negatives);
    let bytes = Value::map(all).unwrap().encode(&options).unwrap();
    let item = Item::open(&bytes, &options).unwrap();
    for text in texts {
        assert_eq!(item.field::<usize>(text), Ok(text.len()));
    }
    for key in [0_u64, 23, 24, 1 << 63, u64::MAX] {
        assert_eq!(item.field::<u64>(key), Ok(key));
    }
    for key in [-1, -24, -25, i64::MIN] {
        assert_eq!(item.field::<i64>(key), Ok(key));
    }
    assert_eq!(item.field::<u64>(0_u8), Ok(0));
    for key in ["b", "aa", &long[..66]] {
        assert!(matches!(
            item.field::<u64>(key),
            Err(GetError::NotFound { .. })
        ));
    }
    assert!(item.get(-2).is_none() && item.get(Key::Negative(u64::MAX)).is_none());
    // bytes that are not an item are not a key
    assert!(item.get(Key::Encoded(b"")).is_none());
    assert!(item.get(Key::Encoded(b"\x18")).is_none());
    assert!(item.get(Key::Encoded(&bytes)).is_none());
}

#[test]
fn what_is_not_there() {
    let options = Options::default();
    let open = |bytes| Item::open(bytes, &options).unwrap();
    // [1], {1: -1}, 1("a")
    let (array, map, tag) = (open(b"\x81\x01"), open(b"\xa1\x01\x20"), open(b"\xc1\x61a"));
    assert_eq!((array.at(1), map.at(0), tag.at(0)), (None, None, None));
    assert_eq!((array.get(0), map.get(2), tag.get(1)), (None, None, None));
    assert_eq!(
        (array.tagged(1), map.tagged(1), tag.tagged(2)),
        (None, None, None)
    );
    let says = |wrong: GetError, sentence| assert_eq!(wrong.to_string(), sentence);
    says(
        array.field::<u8>(0).unwrap_err(),
        "the item is an array, not a map",
    );
    says(map.field::<u8>(0).unwrap_err(), "the map has no key 0");
    says(
        map.field::<u8>(1).unwrap_err(),
        "the value at key 1 is -1, which u8 does not hold",
    );
    assert_eq!(map.field::<i8>(1), Ok(-1));
    says(
        map.field::<&str>(1).unwrap_err(),
        "the value at key 1 is an integer, not a text",
    );
    says(
        map.field::<bool>(1).unwrap_err(),
        "the value at key 1 is an integer, not false or true",
    );
    assert_eq!(<&str>::try_from(tag.tagged(1).unwrap()), Ok("a"));
    assert_eq!(<&[u8]>::try_from(open(b"\x41a")), Ok(&b"a"[..]));
    says(
        <&[u8]>::try_from(open(b"\x61a")).unwrap_err(),
        "the item is a text, not a byte string",
    );
    assert_eq!(bool::try_from(open(b"\xf5")), Ok(true));
    says(
        bool::try_from(open(b"\xf6")).unwrap_err(),
        "the item is null, not false or true",
    );
    assert_eq!(
        i128::try_from(open(b"\x3b\xff\xff\xff\xff\xff\xff\xff\xff")),
        Ok(-1 << 64)
    );
    assert!(matches!(
        open(b"\xf7").view(),
        View::Simple(Simple::UNDEFINED)
    ));
}

#[test]
fn canonical_bytes_alone() {
    let options = Options::default();
    let mut random = Random(3);
    for _ in 0..3000 {
        let mut given = Vec::new();
        let value = random.value(3);
        random.encode(&value, &mut given);
        // a byte changed, or none
        let at = random.below(given.len() as u64 * 2) as usize;
        if let Some(byte) = given.get_mut(at) {
            *byte = random.below(256) as u8;
        }
        let opened = Item::open(&given, &options).map(Item::bytes);
        assert_eq!(
            opened,
            check_canonical(&given, &options).map(|()| &given[..])
        );
        if opened.is_ok() {
            let decoded = Value::decode(&given, &options).unwrap();
            assert_eq!(Item::open(&given, &options).unwrap().to_value(), decoded);
        }
    }
}

#[test]
fn a_sequence() {
    let options = Options::default();
    // 1, "a", 0 in a long head
    let (first, rest) = Item::open_front(b"\x01\x61a\x18\x00", &options)
        .unwrap()
        .unwrap();
    let (second, rest) = Item::open_front(rest, &options).unwrap().unwrap();
    assert_eq!(
        (first.bytes(), second.bytes()),
        (&b"\x01"[..], &b"\x61a"[..])
    );
    let refused = Item::open_front(rest, &options).unwrap().unwrap_err();
    assert_eq!((refused.reason, refused.offset), (Reason::NotShortest, 0));
    assert!(Item::open_front(b"", &options).is_none());
}

// 1,024 levels, the deepest that the library takes.
#[test]
fn deep_items() {
    let options = Options::default().with_depth(1024).unwrap();
    for opening in [&b"\x81"[..], b"\xc1", b"\xa1\x00"] {
        let bytes = [opening.repeat(1024), vec![0]].concat();
        let mut item = Item::open(&bytes, &options).unwrap();
        let value = item.to_value();
        assert_eq!(value.encode(&options), Ok(bytes.clone()));
        assert!(item.to_string().len() > 1024 && item.to_string() == value.to_string());
        for _ in 0..1024 {
            item = item.at(0).or(item.get(0)).or(item.tagged(1)).unwrap();
        }
        assert_eq!(item.bytes(), b"\x00");
    }
}
