//! What no row of the table says.

use naltvigo::{
    canonical_items, canonicalise, check, check_canonical, diagnostic, items, library_version,
    same, Event, Events, Keys, Kind, Machine, NotCompared, NotWritten, Options, Order, Reason,
    Refused, Side, Step,
};
use std::iter::FusedIterator;
use std::thread;

type Triple = (Reason, u64, u64);

fn triple(refused: Refused) -> Triple {
    (refused.reason, refused.offset, refused.consumed)
}

// What a call returns, or why it refuses.
fn of<T>(found: Result<T, Refused>) -> Result<T, Triple> {
    found.map_err(triple)
}

fn sides(found: Result<bool, NotCompared>) -> Result<bool, (Side, Triple)> {
    found.map_err(|why| (why.side, triple(why.refused)))
}

#[test]
fn nothing_at_all() {
    let options = Options::default();
    let truncated = (Reason::Truncated, 0, 0);
    assert_eq!(of(canonicalise(b"", &options)), Err(truncated));
    assert_eq!(of(check(b"", &options)), Err(truncated));
    assert_eq!(of(check_canonical(b"", &options)), Err(truncated));
    assert_eq!(of(diagnostic(b"", &options)), Err(truncated));
    assert_eq!(
        sides(same(b"", b"\x00", &options)),
        Err((Side::Left, truncated))
    );
    assert_eq!(
        sides(same(b"\x00", b"", &options)),
        Err((Side::Right, truncated))
    );
    assert_eq!(items(b"", &options).count(), 0);
    assert_eq!(
        Events::new(b"", &options).next().map(of),
        Some(Err(truncated))
    );
}

#[test]
fn defaults() {
    let options = Options::default();
    let tower = |levels: usize| [vec![0x81; levels - 1], vec![0x80]].concat();
    assert_eq!(check(&tower(64), &options), Ok(()));
    assert_eq!(
        of(check(&tower(65), &options)),
        Err((Reason::TooDeep, 64, 65))
    );
    // {-1: 0, 100: 0}
    let keys = b"\xa2\x20\x00\x18\x64\x00";
    assert_eq!(
        check_canonical(keys, &options).unwrap_err().reason,
        Reason::KeyOrder
    );
    assert_eq!(
        check_canonical(keys, &options.with_order(Order::LengthFirst)),
        Ok(())
    );
}

#[test]
fn options_are_read() {
    let options = Options::default();
    let read = |it: Options| (it.order(), it.keys(), it.depth(), it.bytes());
    assert_eq!(read(options), (Order::Bytewise, Keys::Any, 64, 1 << 20));
    let other = options
        .with_order(Order::LengthFirst)
        .with_keys(Keys::IntegersAndTexts)
        .with_limits(3, 5)
        .unwrap();
    let wanted = (Order::LengthFirst, Keys::IntegersAndTexts, 3, 5);
    assert_eq!(read(other), wanted);
}

#[test]
fn limits_and_their_ranges() {
    let other = Options::default()
        .with_order(Order::LengthFirst)
        .with_limits(3, 5)
        .unwrap();
    assert!(other.with_limits(1024, 1 << 62).is_some());
    assert!(other.with_limits(1025, 1).is_none());
    assert!(other.with_limits(1, (1 << 62) + 1).is_none());
    // one limit, and the rest as it was
    for depth in [0, 64, 1024] {
        assert_eq!(other.with_depth(depth), other.with_limits(depth, 5));
    }
    assert_eq!(other.with_depth(1025), None);
    assert_eq!(other.with_depth(u16::MAX), None);
    for bytes in [0, 5, 1 << 62] {
        assert_eq!(other.with_bytes(bytes), other.with_limits(3, bytes));
    }
    assert_eq!(other.with_bytes((1 << 62) + 1), None);
    assert_eq!(other.with_bytes(u64::MAX), None);
    // by the calls
    let flat = Options::default().with_depth(0).unwrap();
    assert_eq!(check(b"\x00", &flat), Ok(()));
    assert_eq!(of(check(b"\x80", &flat)), Err((Reason::TooDeep, 0, 1)));
    let short = Options::default().with_bytes(1).unwrap();
    assert_eq!(check(b"\x00", &short), Ok(()));
    assert_eq!(of(check(b"\x18\x18", &short)), Err((Reason::TooLong, 1, 1)));
}

// {[]: 0}, whose key is neither an integer nor a text.
#[test]
fn kinds_of_keys() {
    let any = Options::default().with_order(Order::LengthFirst);
    let basic = any.with_keys(Keys::IntegersAndTexts);
    let map = b"\xa1\x80\x00";
    let of_kind = (Reason::KeyKind, 1, 2);
    assert_eq!(canonicalise(map, &any), Ok(map.to_vec()));
    assert_eq!(of(canonicalise(map, &basic)), Err(of_kind));
    assert_eq!(of(check(map, &basic)), Err(of_kind));
    assert_eq!(of(check_canonical(map, &basic)), Err(of_kind));
    assert_eq!(of(diagnostic(map, &basic)), Err(of_kind));
    assert_eq!(
        sides(same(b"\x00", map, &basic)),
        Err((Side::Right, of_kind))
    );
    assert_eq!(items(map, &basic).next().map(of), Some(Err(of_kind)));
    assert_eq!(
        canonical_items(map, &basic).next().map(of),
        Some(Err(of_kind))
    );
    // only well-formedness is checked
    assert_eq!(Events::new(map, &basic).filter(Result::is_ok).count(), 3);
    // with other options
    let keys = b"\xa2\x20\x00\x18\x64\x00";
    assert_eq!(check_canonical(keys, &basic), Ok(()));
    let shorter = basic.with_limits(64, 5).unwrap();
    assert_eq!(check(keys, &shorter).unwrap_err().reason, Reason::TooLong);
    assert_eq!(of(check(map, &shorter)), Err(of_kind));
}

// A result that is longer than its input.
#[test]
fn longer_results() {
    let given = [vec![0x9f], vec![0; 70_000], vec![0xff]].concat();
    let result = canonicalise(&given, &Options::default()).unwrap();
    assert_eq!(result[..5], [0x9a, 0x00, 0x01, 0x11, 0x70]);
    assert_eq!(result.len(), 70_005);
    // simple(255), of which each has 11 letters
    let simples = [vec![0x98, 100], [0xf8, 0xff].repeat(100)].concat();
    let text = diagnostic(&simples, &Options::default()).unwrap();
    assert_eq!(text, format!("[{}]", ["simple(255)"; 100].join(", ")));
}

#[test]
fn a_sequence_ends_at_a_refusal() {
    let mut found = items(b"\x18\x00\xff\x00", &Options::default());
    assert_eq!(found.next(), Some(Ok(&b"\x18\x00"[..])));
    assert_eq!(found.next().map(of), Some(Err((Reason::StrayBreak, 0, 1))));
    assert_eq!(found.next(), None);
}

#[test]
fn a_sequence_of_canonical_items() {
    let options = Options::default();
    // {-1: 0, 100: 0}, which is in the order of the shorter key first, and 0 in two bytes
    let keys = b"\xa2\x20\x00\x18\x64\x00";
    let input = [&b"\x61a"[..], keys, b"\x18\x00\x00"].concat();
    let shorter = options.with_order(Order::LengthFirst);
    let mut found = canonical_items(&input, &shorter);
    assert_eq!(found.next(), Some(Ok(&b"\x61a"[..])));
    assert_eq!(found.next(), Some(Ok(&keys[..])));
    assert_eq!(found.next().map(of), Some(Err((Reason::NotShortest, 0, 2))));
    assert_eq!(found.next(), None);
    let mut found = canonical_items(&input, &options);
    assert_eq!(found.next(), Some(Ok(&b"\x61a"[..])));
    let reason = found.next().unwrap().unwrap_err().reason;
    assert_eq!((reason, found.next()), (Reason::KeyOrder, None));
    // each is valid, in whichever order
    assert_eq!(items(&input, &options).filter(Result::is_ok).count(), 4);
    assert_eq!(canonical_items(b"", &options).count(), 0);
    // the limits hold for each item
    let short = options.with_limits(0, 2).unwrap();
    let found: Result<Vec<_>, _> = canonical_items(b"\x61a\x61b", &short).collect();
    assert_eq!(found, Ok(vec![&b"\x61a"[..], b"\x61b"]));
    let long = canonical_items(b"\x62ab", &short).next().map(of);
    assert_eq!(long, Some(Err((Reason::TooLong, 2, 2))));
}

// Where each item begins, and the one that is refused.
#[test]
fn offsets_of_a_sequence() {
    let options = Options::default();
    for found in [items, canonical_items] {
        let mut found = found(b"\x61a\x00\x82\x00\xff\x00", &options);
        let mut offsets = vec![found.offset()];
        while let Some(Ok(_)) = found.next() {
            offsets.push(found.offset());
        }
        assert_eq!(offsets, [0, 2, 3]);
        // it stays where the item begins that was refused
        assert_eq!(found.next(), None);
        assert_eq!(found.offset(), 3);
    }
    let mut whole = items(b"\x61a\x00", &options);
    assert!(whole.all(|item| item.is_ok()));
    assert_eq!(whole.offset(), 3);
}

#[test]
fn iterators_end_for_good() {
    fn ends(mut it: impl FusedIterator) -> bool {
        it.by_ref().for_each(drop);
        (0..3).all(|_| it.next().is_none())
    }
    let options = Options::default();
    for input in [&b""[..], b"\x00\x61a", b"\x00\xff\x00", b"\x82\x00"] {
        assert!(ends(items(input, &options)));
        assert!(ends(canonical_items(input, &options)));
        assert!(ends(Events::new(input, &options)));
        assert!(ends(Machine::new(&options).events(input)));
    }
}

#[test]
fn events_and_what_follows_them() {
    let options = Options::default();
    // {_ "a": (_ h'01')}, and a byte
    let mut events = Events::new(b"\xbf\x61a\x5f\x41\x01\xff\xff\x00", &options);
    let mut next = || {
        events
            .next()
            .map(|event| of(event.map(|it| (it.offset, it.width, it.kind))))
    };
    assert_eq!(next(), Some(Ok((0, None, Kind::Map(None)))));
    assert_eq!(next(), Some(Ok((1, Some(0), Kind::Text(Some(1))))));
    assert_eq!(next(), Some(Ok((2, Some(0), Kind::Piece(b"a")))));
    assert_eq!(next(), Some(Ok((3, None, Kind::Bytes(None)))));
    assert_eq!(next(), Some(Ok((4, Some(0), Kind::Chunk(1)))));
    assert_eq!(next(), Some(Ok((5, Some(0), Kind::Piece(b"\x01")))));
    assert_eq!(next(), Some(Ok((6, None, Kind::Break))));
    assert_eq!(next(), Some(Ok((7, None, Kind::Break))));
    assert_eq!(next(), Some(Err((Reason::Trailing, 8, 8))));
    assert_eq!(next(), None);
    let last = Events::new(b"\x82\x01", &options).last().map(of);
    assert_eq!(last, Some(Err((Reason::Truncated, 2, 2))));
    let short = options.with_limits(1, 2).unwrap();
    let last = Events::new(b"\x82\x01", &short).last().map(of);
    assert_eq!(last, Some(Err((Reason::TooLong, 2, 2))));
}

#[test]
fn a_machine_by_single_bytes() {
    let mut machine = Machine::new(&Options::default());
    assert_eq!(machine.step(b"\x19"), (1, Step::More));
    let copy = machine.clone();
    for mut machine in [machine, copy] {
        assert_eq!(machine.step(b"\x01"), (1, Step::More));
        let (used, reported) = machine.step(b"\x00\x00");
        assert_eq!(used, 1);
        assert!(matches!(reported, Step::Event(event) if event.kind == Kind::Unsigned(256)));
        assert_eq!(machine.step(b"\x00"), (0, Step::Done));
        assert_eq!(machine.consumed(), 3);
    }
}

// The same events as of the whole slice, except for payloads that are in several parts.
#[test]
fn a_machine_by_parts() {
    let options = Options::default();
    // [_ 200 times {0: "ab"}], so more events than a call of the library returns
    let item = [vec![0x9f], b"\xa1\x00\x62ab".repeat(200), vec![0xff]].concat();
    let joined = |reported: &[Event]| {
        let mut payload = Vec::new();
        let mut heads = Vec::new();
        for event in reported {
            match event.kind {
                Kind::Piece(piece) => payload.extend_from_slice(piece),
                _ => heads.push((event.offset, event.width, format!("{:?}", event.kind))),
            }
        }
        (heads, payload)
    };
    let whole: Result<Vec<Event>, Refused> = Events::new(&item, &options).collect();
    let whole = joined(&whole.unwrap());
    assert_eq!((whole.0.len(), whole.1.len()), (602, 400));
    for size in [1, 2, 3, 64, 100, 500, item.len()] {
        let mut machine = Machine::new(&options);
        let mut reported = Vec::new();
        for part in item.chunks(size) {
            let begins = machine.consumed();
            reported.extend(machine.events(part).map(Result::unwrap));
            assert_eq!(machine.consumed(), begins + part.len() as u64);
        }
        assert_eq!(joined(&reported), whole, "parts of {size}");
        assert_eq!(machine.step(b""), (0, Step::Done));
    }
}

#[test]
fn the_end_of_the_parts() {
    let options = Options::default();
    // what follows the item stays
    let mut machine = Machine::new(&options);
    let reported = machine.events(b"\x61a\x00\x00");
    assert_eq!(reported.filter(Result::is_ok).count(), 2);
    assert_eq!(
        (machine.consumed(), machine.step(b"\x00")),
        (2, (0, Step::Done))
    );
    assert!(machine.events(b"\x00").next().is_none());
    // a refusal is the last, and comes again
    let mut machine = Machine::new(&options);
    let float = (Reason::Float, 2, 3);
    let mut reported = machine.events(b"\x82\x01\xf9\x00");
    assert_eq!(reported.by_ref().take(2).filter(Result::is_ok).count(), 2);
    assert_eq!(reported.next().map(of), Some(Err(float)));
    assert_eq!(reported.next(), None);
    drop(reported);
    assert_eq!(machine.events(b"").next().map(of), Some(Err(float)));
    assert!(
        matches!(machine.step(b"\x00"), (0, Step::Refused(why)) if triple(why.clone()) == float)
    );
    // parts that end too early
    let mut machine = Machine::new(&options);
    assert_eq!(machine.events(b"\x82\x01").count(), 2);
    assert_eq!(machine.step(b""), (0, Step::More));
}

#[test]
fn what_is_open() {
    let mut machine = Machine::new(&Options::default());
    let mut open = |part| {
        assert!(machine.events(part).all(|event| event.is_ok()));
        machine.open()
    };
    // [1([_ {0: 0}])]
    let parts = [
        b"",
        &b"\x81"[..],
        b"\xc1",
        b"\x9f",
        b"\xa1\x00",
        b"\x00",
        b"\xff",
    ];
    assert_eq!(parts.map(&mut open), [0, 1, 2, 3, 4, 3, 0]);
    assert_eq!(machine.step(b""), (0, Step::Done));
}

#[test]
fn texts() {
    let error = check(b"\xa1\x01\x82\x00\xf9\x3e\x00", &Options::default()).unwrap_err();
    assert_eq!(
        (triple(error.clone()), error.path()),
        ((Reason::Float, 4, 5), "$.1[1]")
    );
    assert!(error.sentence().ends_with('.') && error.advice().ends_with('.'));
    assert_ne!(error.sentence(), error.advice());
    let wanted = format!("refused 5 Float at 4 ($.1[1]): {}", error.sentence());
    assert_eq!(error.to_string(), wanted);
    // as main prints an error that it returns
    assert_eq!(format!("{error:?}"), wanted);
    let top = check(b"\xf9\x3e\x00", &Options::default()).unwrap_err();
    assert_eq!(
        top.to_string(),
        format!("refused 5 Float at 0: {}", error.sentence())
    );
    let boxed: Box<dyn std::error::Error> = NotWritten::from(error).into();
    assert_eq!(format!("{boxed:?}"), wanted);
    assert_eq!(
        (library_version() >> 16).to_string(),
        env!("CARGO_PKG_VERSION_MAJOR")
    );
}

// Each call that refuses says the same, with the path in the item.
#[test]
fn paths() {
    let options = Options::default();
    // {"a": [0, 0]}, the last one a float or in two bytes
    let float = b"\xa1\x61a\x82\x00\xf9\x3e\x00";
    let long = b"\xa1\x61a\x82\x00\x18\x00";
    let path = r#"$."a"[1]"#;
    let calls = [
        canonicalise(float, &options).map(drop),
        diagnostic(float, &options).map(drop),
        check(float, &options),
        check_canonical(float, &options),
        check_canonical(long, &options),
        items(float, &options).next().unwrap().map(drop),
        canonical_items(long, &options).next().unwrap().map(drop),
        Events::new(float, &options)
            .find(Result::is_err)
            .unwrap()
            .map(drop),
        naltvigo::Value::decode(float, &options).map(drop),
        naltvigo::Item::open(long, &options).map(drop),
        same(b"\x00", float, &options)
            .map(drop)
            .map_err(|why| why.refused),
        same(float, b"\x00", &options)
            .map(drop)
            .map_err(|why| why.refused),
    ];
    for refused in calls {
        let refused = refused.unwrap_err();
        assert_eq!((refused.path(), refused.offset), (path, 5), "{refused}");
    }
    // of an item of a sequence, and of a value that is too deep
    let sequence = [&[0; 10][..], float].concat();
    let refused = items(&sequence, &options).find_map(Result::err).unwrap();
    assert_eq!((refused.path(), refused.offset), (path, 5));
    let value = naltvigo::Value::tag(7, naltvigo::Value::array([]));
    let refused = value.encode(&options.with_depth(1).unwrap()).unwrap_err();
    assert_eq!((refused.reason, refused.path()), (Reason::TooDeep, "$(7)"));
    // the parts of a machine are gone
    let mut machine = Machine::new(&options);
    let refused = machine.events(float).find_map(Result::err).unwrap();
    assert_eq!((refused.path(), refused.offset), ("$", 5));
    // a path longer than the first space for it: 1,000 levels of keys of 60 letters
    let level = [&[0xa1, 0x78, 60][..], &[b'k'; 60]].concat();
    let deep = [level.repeat(1000), vec![0xf9, 0, 0]].concat();
    let refused = check(&deep, &options.with_depth(1024).unwrap()).unwrap_err();
    assert_eq!(
        refused.path(),
        format!("${}", format!(".\"{}\"", "k".repeat(60)).repeat(1000))
    );
}

#[test]
fn threads() {
    let work = |number: u8| {
        for turn in 0..2000 {
            let given = [vec![0x9f], vec![number; turn % 20], vec![0xff]].concat();
            let result = canonicalise(&given, &Options::default()).unwrap();
            assert_eq!(
                result,
                [vec![0x80 + (turn % 20) as u8], vec![number; turn % 20]].concat()
            );
        }
    };
    thread::scope(|scope| (1..9).for_each(|number| drop(scope.spawn(move || work(number)))));
}
