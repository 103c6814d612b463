//! What libFuzzer runs on the crate for Rust (scripts/fuzz_bindings.sh). The first three bytes select options and sizes, the rest
//! is the input.

use naltvigo::{
    canonical_items, canonicalise, check, check_canonical, check_reader, items, read_canonical_items,
    read_items, same, Checked, Checker, Event, Events, Item, Key, Keys, Kind, Machine, Map, Options, Order,
    ReadError, Reason, Step, Value, View,
};

#[no_mangle]
pub extern "C" fn LLVMFuzzerTestOneInput(data: *const u8, size: usize) -> i32 {
    // SAFETY: libFuzzer gives this many bytes.
    let data = if size == 0 { &[] } else { unsafe { std::slice::from_raw_parts(data, size) } };
    if let [flags, part, cut, input @ ..] = data {
        let options = options_of(*flags);
        values(input, &options);
        sequences(input, &options, *part);
        events(input, &options, *part, *cut);
        checks(input, &options, *part, *cut);
    }
    0
}

fn options_of(flags: u8) -> Options {
    let order = if flags & 1 == 0 { Order::Bytewise } else { Order::LengthFirst };
    let keys = if flags & 2 == 0 { Keys::Any } else { Keys::IntegersAndTexts };
    let limits = [(64, 1 << 20), (3, 1 << 20), (64, 20), (1024, 1 << 20)][usize::from(flags >> 2) % 4];
    let options = Options::default().with_limits(limits.0, limits.1).unwrap();
    options.with_order(order).with_keys(keys)
}

fn values(input: &[u8], options: &Options) {
    let bytes = match canonicalise(input, options) {
        Ok(bytes) => bytes,
        Err(why) => {
            assert_eq!(Value::decode(input, options).unwrap_err().offset, why.offset);
            assert!(why.offset <= why.consumed && why.consumed <= input.len() as u64);
            return;
        }
    };
    assert!(check(input, options).is_ok() && check_canonical(&bytes, options).is_ok());
    assert!(same(input, &bytes, options).unwrap());
    let value = Value::decode(input, options).unwrap();
    assert_eq!(value.encode(options).unwrap(), bytes);
    assert_eq!(value.clone(), value);
    let item = Item::open(&bytes, options).unwrap();
    assert_eq!(item.to_value(), value);
    assert_eq!(item.to_string(), Item::open(&bytes, options).unwrap().to_string());
    walk(item, 0);
    look_up(item, &value);
}

fn walk(item: Item<'_>, depth: usize) {
    match item.view() {
        View::Array(members) if depth < 8 => members.for_each(|member| walk(member, depth + 1)),
        View::Map(pairs) if depth < 8 => pairs.for_each(|(key, value)| {
            walk(key, depth + 1);
            walk(value, depth + 1);
            assert_eq!(item.get(key), Some(value));
        }),
        View::Tag(number, content) => assert_eq!(item.tagged(number), Some(content)),
        View::Unsigned(number) => assert_eq!(u64::try_from(item), Ok(number)),
        View::Text(text) => assert_eq!(<&str>::try_from(item), Ok(text)),
        _ => assert!(item.members().is_err() || depth >= 8),
    }
}

fn look_up(item: Item<'_>, value: &Value) {
    let Value::Map(map) = value else { return };
    let mut built = Map::default();
    for (key, content) in map.iter().rev() {
        assert_eq!(item.get(key).unwrap().to_value(), *content);
        assert_eq!(map.get(key), Some(content));
        if let Value::Text(text) = key {
            assert_eq!(map.get(text), Some(content));
            assert!(item.contains_key(text));
        }
        if let Value::Bytes(bytes) = key {
            assert!(map.contains_key(Key::Bytes(bytes)) && item.contains_key(Key::Bytes(bytes)));
        }
        built.insert(key.clone(), content.clone());
    }
    assert_eq!(&built, map);
}

fn sequences(input: &[u8], options: &Options, part: u8) {
    type Found = (Vec<Vec<u8>>, bool, u64);
    let of_slice = |canonical| -> Found {
        let mut found = if canonical { canonical_items(input, options) } else { items(input, options) };
        let good = found.by_ref().map_while(Result::ok).map(<[u8]>::to_vec).collect();
        let offset = found.offset() as u64;
        (good, offset == input.len() as u64, offset)
    };
    for canonical in [false, true] {
        let mut left = input;
        let read = |buffer: &mut [u8]| {
            let count = left.len().min(usize::from(part) + 1).min(buffer.len());
            buffer[..count].copy_from_slice(&left[..count]);
            left = &left[count..];
            Ok::<_, &str>(count)
        };
        let (good, offset) = if canonical {
            let mut found = read_canonical_items(read, options);
            (found.by_ref().map_while(Result::ok).collect::<Vec<_>>(), found.offset())
        } else {
            let mut found = read_items(read, options);
            (found.by_ref().map_while(Result::ok).collect::<Vec<_>>(), found.offset())
        };
        assert_eq!((good, offset == input.len() as u64, offset), of_slice(canonical));
    }
}

// The events of parts of any length, stopped early and continued, are those of the whole.
fn events(input: &[u8], options: &Options, part: u8, cut: u8) {
    let plain = |event: Event<'_>| match event.kind {
        Kind::Piece(piece) => (u64::MAX, None, format!("{piece:?}")),
        kind => (event.offset, event.width, format!("{kind:?}")),
    };
    let whole: Vec<_> = Events::new(input, options).map_while(Result::ok).map(plain).collect();
    let mut machine = Machine::new(options);
    let mut found = Vec::new();
    let mut left = input;
    loop {
        let before = machine.consumed();
        let mut events = machine.events(left);
        let some: Vec<_> = events.by_ref().take(usize::from(cut) + 1).map_while(Result::ok).map(plain).collect();
        let is_end = some.len() < usize::from(cut) + 1;
        drop(events);
        found.extend(some);
        left = &left[(machine.consumed() - before) as usize..];
        if is_end {
            break;
        }
    }
    assert_eq!(found, whole);
    let mut machine = Machine::new(options);
    for part in input.chunks(usize::from(part) + 1) {
        machine.events(part).for_each(drop);
    }
    let is_whole = Events::new(input, options).all(|event| event.is_ok());
    assert!(!is_whole || machine.step(b"").1 == Step::Done);
}

// What a checker says after each part is what `check_canonical` says of all bytes so far.
fn checks(input: &[u8], options: &Options, part: u8, cut: u8) {
    let numbers = |why: naltvigo::Refused| (why.reason, why.offset, why.consumed);
    let mut checker = Checker::new(options).unwrap();
    let (first, rest) = input.split_at(input.len().min(usize::from(cut)));
    let mut end = 0;
    for part in [first].into_iter().chain(rest.chunks(usize::from(part) + 1)) {
        end += part.len();
        let found = checker.feed(part).map_err(numbers);
        match check_canonical(&input[..end], options).map_err(numbers) {
            Ok(()) => assert_eq!((found, checker.consumed()), (Ok(Checked::Complete(part.len())), end as u64)),
            Err((Reason::Truncated, ..)) => assert_eq!((found, checker.consumed()), (Ok(Checked::More), end as u64)),
            Err((Reason::Trailing, length, _)) => assert!(found.is_ok() && checker.consumed() == length),
            Err(why) => assert_eq!((found, checker.consumed()), (Err(why), why.2)),
        }
    }
    let whole = check_canonical(input, options).map_err(numbers);
    match check_reader(input, options) {
        Ok(length) => assert_eq!((whole, length), (Ok(()), end as u64)),
        Err(ReadError::Refused(why)) => assert_eq!(Err(numbers(why)), whole),
        Err(ReadError::Read(error)) => panic!("{error}"),
    }
}
