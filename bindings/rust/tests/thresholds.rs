//! Below, at and above each number at which this crate or the library changes its method: 64 events a
//! call, 64 entries and 64 bytes on the stack, and where heads grow. Expected bytes are written by hand.

use naltvigo::{
    canonicalise, read_canonical_items, Event, Events, Item, Key, Kind, Machine, Options, Order,
    Step, Value, View,
};

// The shortest head of a major type and an argument (RFC 8949, section 3).
fn head(kind: u8, number: u64) -> Vec<u8> {
    let bytes = number.to_be_bytes();
    let (info, from) = match number {
        0..=23 => return vec![kind << 5 | number as u8],
        24..=0xff => (24, 7),
        0x100..=0xffff => (25, 6),
        0x1_0000..=0xffff_ffff => (26, 4),
        _ => (27, 0),
    };
    [&[kind << 5 | info], &bytes[from..]].concat()
}

fn around(numbers: &[u64]) -> Vec<u64> {
    let each = |number: &u64| [number - 1, *number, number + 1];
    numbers.iter().flat_map(each).collect()
}

fn wide() -> Options {
    Options::default().with_bytes(1 << 24).unwrap()
}

#[test]
fn members_and_strings() {
    for number in around(&[24, 64, 256, 4_096, 16_384, 65_536]) {
        let array = [head(4, number), vec![0x20; number as usize]].concat();
        let item = Item::open(&array, &wide()).unwrap();
        let members = item.members().unwrap();
        assert_eq!(
            (members.len() as u64, members.count() as u64),
            (number, number)
        );
        assert_eq!(item.at(number as usize - 1).unwrap().bytes(), b"\x20");
        assert!(item.at(number as usize).is_none());
        let value: Value = (0..number).map(|_| -1).collect();
        assert_eq!(
            (item.to_value(), value.encode(&wide())),
            (value.clone(), Ok(array))
        );

        for (kind, string) in [
            (2, Value::bytes(vec![b'x'; number as usize])),
            (3, "x".repeat(number as usize).into()),
        ] {
            let bytes = [head(kind, number), vec![b'x'; number as usize]].concat();
            assert_eq!(Item::open(&bytes, &wide()).unwrap().to_value(), string);
            assert_eq!(string.encode(&wide()), Ok(bytes));
        }
    }
}

#[test]
fn pairs() {
    for number in around(&[24, 32, 64, 256, 4_096, 16_384, 65_536])
        .into_iter()
        .chain([300])
    {
        let pairs = (0..number).flat_map(|key| [head(0, key), head(1, key)].concat());
        let map: Vec<u8> = head(5, number).into_iter().chain(pairs).collect();
        let item = Item::open(&map, &wide()).unwrap();
        let pairs = item.pairs().unwrap();
        assert_eq!(pairs.len() as u64, number);
        for (at, (key, value)) in pairs.enumerate() {
            assert_eq!(u64::try_from(key), Ok(at as u64));
            assert_eq!(i64::try_from(value), Ok(-1 - at as i64));
        }
        assert!(matches!(item.view(), View::Map(pairs) if pairs.clone().count() as u64 == number));
        let last = -(number as i64);
        assert_eq!(item.field(number - 1), Ok(last));
        assert!(!item.contains_key(number));
        let value = item.to_value();
        assert_eq!(value.field(number - 1), Ok(last));
        assert!(value.get(number).is_none());
        assert_eq!(value.encode(&wide()), Ok(map));
    }
}

#[test]
fn tags() {
    let grows = around(&[24, 1 << 8, 1 << 16, 1 << 32]);
    for number in grows.into_iter().chain([1 << 63, u64::MAX]) {
        let bytes = [head(6, number), vec![0x61, b'a']].concat();
        let item = Item::open(&bytes, &wide()).unwrap();
        assert!(matches!(item.view(), View::Tag(found, _) if found == number));
        assert_eq!(item.tagged(number).unwrap().bytes(), b"\x61a");
        assert!(item.tagged(number & 0xffff_ffff | 1 << 40).is_none());
        assert_eq!(item.to_value(), Value::tag(number, "a"));
        assert_eq!(Value::tag(number, "a").encode(&wide()), Ok(bytes));
    }
}

#[test]
fn keys() {
    let lengths = around(&[24, 64, 200, 256, 4_096, 65_536]);
    for length in lengths.into_iter().chain([300]) {
        let text = "k".repeat(length as usize);
        let key = [head(3, length), text.as_bytes().to_vec()].concat();
        let binary = [head(2, length), text.as_bytes().to_vec()].concat();
        let map = [&[0xa2][..], &binary, &[0], &key, &[1]].concat();
        let item = Item::open(&map, &wide()).unwrap();
        let value = Value::from(text.as_str());
        let keys = [
            Key::from(&*text),
            Key::from(&text),
            Key::from(&value),
            Key::Encoded(&key),
        ];
        let map = item.to_value();
        for key in keys {
            assert_eq!(
                (item.field(key), map.field(key)),
                (Ok(1), Ok(1)),
                "{length}"
            );
        }
        let bytes = Value::bytes(text.as_bytes());
        for key in [
            Key::Bytes(text.as_bytes()),
            Key::from(&bytes),
            Key::Encoded(&binary),
        ] {
            assert_eq!(
                (item.field(key), map.field(key)),
                (Ok(0), Ok(0)),
                "{length}"
            );
        }
        for other in [
            &text[1..],
            "",
            &text.replace('k', "l"),
            &(text.clone() + "k"),
        ] {
            assert!(!item.contains_key(other) && map.get(other).is_none());
        }
    }
}

// Keys that are containers, in both orders.
#[test]
fn keys_of_containers() {
    let inner = Value::map([(100.into(), 1.into()), ((-1).into(), 2.into())]).unwrap();
    let key = Value::array([inner, Value::tag(1, "a")]);
    let map = Value::map([(key.clone(), 7.into()), (0.into(), 8.into())]).unwrap();
    for order in [Order::Bytewise, Order::LengthFirst] {
        let bytes = map.encode(&wide().with_order(order)).unwrap();
        let item = Item::open(&bytes, &wide().with_order(order)).unwrap();
        assert_eq!(item.field(&key), Ok(7));
        assert!(item.get(&Value::array([])).is_none());
    }
    assert_eq!((map.field(&key), map.field(0)), (Ok(7), Ok(8)));
}

fn part_of(number: usize) -> Vec<u8> {
    // an array without a length, integers and then strings: an event each, or two
    let strings = (0..number / 2).flat_map(|at| [0x41, at as u8]);
    [&[0x9f][..], &vec![5; number], &strings.collect::<Vec<_>>()].concat()
}

#[test]
fn events_of_one_part() {
    for number in [62, 63, 64, 65, 126, 127, 128, 129, 200] {
        let part = [part_of(number), vec![0xff]].concat();
        let events: Result<Vec<Event>, _> = Events::new(&part, &wide()).collect();
        let events = events.unwrap();
        assert_eq!(events.len(), 2 + number + 2 * (number / 2));
        let pieces = events.iter().filter_map(|event| match event.kind {
            Kind::Piece(piece) => Some(piece),
            _ => None,
        });
        assert!(pieces.enumerate().all(|(at, piece)| piece == [at as u8]));
        let mut machine = Machine::new(&wide());
        let found: Result<Vec<Event>, _> = machine.events(&part).collect();
        assert_eq!(found.unwrap(), events);
        assert_eq!(machine.step(b""), (0, Step::Done));
    }
}

// Whoever leaves a part early gets the other events from the bytes that are left.
#[test]
fn no_event_is_lost() {
    let item = [part_of(150), vec![0xff, 0x00]].concat();
    let end = item.len() - 1;
    let whole: Result<Vec<Event>, _> = Events::new(&item[..end], &wide()).collect();
    let whole = whole.unwrap();
    let plain = |event: &Event| (event.offset, event.width, format!("{:?}", event.kind));
    for first in 0..=whole.len() {
        let mut machine = Machine::new(&wide());
        let mut found: Vec<_> = Vec::new();
        found.extend(
            machine
                .events(&item)
                .take(first)
                .map(|event| plain(&event.unwrap())),
        );
        assert_eq!(found.len(), first);
        // leaving again at once changes nothing
        let consumed = machine.consumed();
        drop(machine.events(&item[consumed as usize..]));
        assert_eq!(machine.consumed(), consumed);
        let left = &item[consumed as usize..];
        found.extend(machine.events(left).map(|event| plain(&event.unwrap())));
        assert_eq!(
            found,
            whole.iter().map(plain).collect::<Vec<_>>(),
            "after {first}"
        );
        assert_eq!(machine.consumed(), end as u64);
    }
}

// A refusal that was not reached is reported later.
#[test]
fn no_refusal_is_lost() {
    let item = b"\x83\x01\x02\xf9\x00\x00";
    for first in 0..3 {
        let mut machine = Machine::new(&wide());
        assert_eq!(
            machine
                .events(item)
                .take(first)
                .filter(Result::is_ok)
                .count(),
            first
        );
        assert_eq!(machine.consumed(), first as u64);
        let refused = machine
            .events(&item[first..])
            .find_map(Result::err)
            .unwrap();
        assert_eq!((refused.offset, refused.consumed), (3, 4));
    }
}

#[test]
fn items_over_several_reads() {
    let sizes = around(&[64, 4_096, 16_384, 65_536, 131_072]);
    for size in sizes {
        let item = [head(2, size), vec![7; size as usize]].concat();
        let input = [&item[..], &item, &[0x00]].concat();
        for parts in [1, 2, 3, 4, 100] {
            let mut left = &input[..];
            let most = item.len().div_ceil(parts);
            let read = |buffer: &mut [u8]| {
                let count = left.len().min(most).min(buffer.len());
                buffer[..count].copy_from_slice(&left[..count]);
                left = &left[count..];
                Ok::<_, &str>(count)
            };
            let found: Vec<_> = read_canonical_items(read, &wide())
                .map(Result::unwrap)
                .collect();
            assert!(found == [&item[..], &item, &[0x00]], "{size} in {parts}");
        }
    }
}

// Canonical bytes are longer than their input only if it has indefinite length: from 256 members on.
#[test]
fn longer_results() {
    for number in around(&[24, 256, 65_536]) {
        let given = [vec![0x9f], vec![0; number as usize], vec![0xff]].concat();
        let wanted = [head(4, number), vec![0; number as usize]].concat();
        assert_eq!(canonicalise(&given, &wide()), Ok(wanted));
    }
}
