//! Sequences from readers, against the same sequences in a slice.

mod random;

use naltvigo::{
    canonical_items, items, read_canonical_items, read_items, Options, ReadError, Reason, Refused,
    Value,
};
use random::Random;
use std::io::{self, Read};

// A slice that gives at most this many bytes at a time.
fn by(size: usize, mut left: &[u8]) -> impl FnMut(&mut [u8]) -> io::Result<usize> + '_ {
    move |buffer| {
        let space = buffer.len().min(size);
        left.read(&mut buffer[..space])
    }
}

type Found = (Vec<Vec<u8>>, Option<Refused>, u64);

// The items, the refusal that ends them, and the offset there.
fn of_slice(input: &[u8], options: &Options, canonical: bool) -> Found {
    let mut found = if canonical {
        canonical_items(input, options)
    } else {
        items(input, options)
    };
    let (mut good, mut refused) = (Vec::new(), None);
    for item in found.by_ref() {
        match item {
            Ok(item) => good.push(item.to_vec()),
            Err(why) => refused = Some(why),
        }
    }
    (good, refused, found.offset() as u64)
}

fn of_reader(input: &[u8], options: &Options, canonical: bool, size: usize) -> Found {
    let mut found = if canonical {
        read_canonical_items(by(size, input), options)
    } else {
        read_items(by(size, input), options)
    };
    let (mut good, mut refused) = (Vec::new(), None);
    for item in found.by_ref() {
        assert_eq!(refused, None, "a refusal is the last result");
        match item {
            Ok(item) => good.push(item),
            Err(ReadError::Refused(why)) => refused = Some(why),
            Err(ReadError::Read(error)) => panic!("{error}"),
        }
    }
    assert!(found.next().is_none());
    (good, refused, found.offset())
}

#[test]
fn random_sequences() {
    let (mut random, options) = (Random(12), Options::default().with_limits(5, 400).unwrap());
    let mut ends = [0; 2];
    for turn in 0..3000 {
        let canonical = turn % 2 == 0;
        let mut input = Vec::new();
        for _ in 0..random.below(6) {
            let value = random.value(3);
            if canonical {
                input.extend(value.encode(&Options::default()).unwrap());
            } else {
                random.encode(&value, &mut input);
            }
        }
        // a byte changed, the end cut off, or neither
        match random.below(4) {
            0 if !input.is_empty() => {
                let at = random.below(input.len() as u64) as usize;
                input[at] = random.below(256) as u8;
            }
            1 => input.truncate(random.below(input.len() as u64 + 1) as usize),
            _ => {}
        }
        let wanted = of_slice(&input, &options, canonical);
        ends[usize::from(wanted.1.is_some())] += 1;
        for size in [1, 2, 7, 1000] {
            let found = of_reader(&input, &options, canonical, size);
            assert_eq!(found, wanted, "{input:02x?} by {size}");
        }
    }
    assert!(ends[0] > 500 && ends[1] > 500, "{ends:?}");
}

#[test]
fn long_items() {
    let options = Options::default().with_bytes(1 << 22).unwrap();
    let item = |size: usize| Value::bytes(vec![7; size]).encode(&options).unwrap();
    let sizes = [0, 1, 65530, 65531, 65532, 65536, 200_000, 1 << 20, 3];
    let input: Vec<u8> = sizes.into_iter().flat_map(item).collect();
    let wanted = of_slice(&input, &options, true);
    assert_eq!((wanted.0.len(), &wanted.1), (sizes.len(), &None));
    for size in [1000, 65536, 1 << 20] {
        assert_eq!(of_reader(&input, &options, true, size), wanted);
    }
}

// A reader that gives a byte at a time, and fails after the last one.
fn byte_by_byte(mut left: &[u8]) -> impl FnMut(&mut [u8]) -> Result<usize, &'static str> + '_ {
    move |buffer| match left.split_first() {
        Some((byte, rest)) => {
            left = rest;
            buffer[0] = *byte;
            Ok(1)
        }
        None => Err("nothing more came"),
    }
}

// An item comes as soon as its last byte does, without a further read, in however many reads it came.
#[test]
fn no_byte_is_waited_for() {
    let arrays = (0..24).map(|count: u8| [0x80 + count].into_iter().chain(0..count).collect());
    let items: Vec<Vec<u8>> = [b"\x82\x01\x02".to_vec(), b"\x19\x01\x00".to_vec()]
        .into_iter()
        .chain(arrays)
        .collect();
    let (input, end) = (items.concat(), items.concat().len() as u64);
    for canonical in [false, true] {
        let options = Options::default();
        let mut found = if canonical {
            read_canonical_items(byte_by_byte(&input), &options)
        } else {
            read_items(byte_by_byte(&input), &options)
        };
        for item in &items {
            assert_eq!(found.next().as_ref(), Some(&Ok(item.clone())));
        }
        assert_eq!(
            (found.offset(), found.next()),
            (end, Some(Err(ReadError::Read("nothing more came"))))
        );
    }
}

// An item that is not canonical is refused at the first wrong byte, without a further read.
#[test]
fn no_byte_after_a_wrong_one() {
    for (input, wanted) in [
        (&b"\x83\x18\x00"[..], (Reason::NotShortest, 1, 3)),
        // {"b": 0, "a": ..
        (b"\xa2\x61b\x00\x61a", (Reason::KeyOrder, 4, 6)),
        (b"\x82\x62a\xff", (Reason::InvalidText, 3, 4)),
        (b"\x82\x00\x9f", (Reason::Indefinite, 2, 3)),
    ] {
        let input = [b"\x00", input].concat();
        let mut found = read_canonical_items(byte_by_byte(&input), &Options::default());
        assert_eq!(found.next(), Some(Ok(vec![0])));
        match found.next() {
            Some(Err(ReadError::Refused(why))) => {
                assert_eq!((why.reason, why.offset, why.consumed), wanted);
                assert!(why.path().len() > 1, "{}", why.path());
            }
            other => panic!("{other:?}"),
        }
        assert_eq!((found.offset(), found.next()), (1, None));
    }
}

// A read that failed is tried again, and nothing is lost.
#[test]
fn a_reader_that_fails() {
    let mut left = b"\x82\x43abc\x18\x64".iter();
    let mut busy = false;
    let read = |buffer: &mut [u8]| {
        busy = !busy;
        if busy {
            return Err("busy");
        }
        Ok(left.next().map_or(0, |byte| {
            buffer[0] = *byte;
            1
        }))
    };
    let found: Vec<_> = read_items(read, &Options::default()).collect();
    // an error before each byte, and one before the end
    let mut wanted = vec![Err(ReadError::Read("busy")); 7];
    wanted.push(Ok(b"\x82\x43abc\x18\x64".to_vec()));
    wanted.push(Err(ReadError::Read("busy")));
    assert_eq!(found, wanted);
}

#[test]
fn a_sequence_without_an_end() {
    let options = Options::default().with_bytes(1000).unwrap();
    // a text that never ends is refused at the limit
    let endless = |buffer: &mut [u8]| {
        buffer.fill(0x60);
        buffer[0] = 0x7f;
        Ok::<usize, io::Error>(buffer.len())
    };
    match read_items(endless, &options).next() {
        Some(Err(ReadError::Refused(refused))) => assert_eq!(refused.reason, Reason::TooLong),
        _ => panic!("it is refused"),
    }
}
