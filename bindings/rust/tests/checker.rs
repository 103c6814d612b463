//! Items that arrive in parts: what a checker says after each part is what `check_canonical` says of all
//! bytes so far.

mod random;
mod tables;

use naltvigo::{check_canonical, Checked, Checker, Options, Order};
use random::Random;
use std::thread;
use tables::{lines, numbers, options_of, unhex, Triple};

// How many bytes the item has, if it is complete.
type Known = Result<Option<u64>, Triple>;

fn wide() -> Options {
    Options::default().with_limits(1024, 1 << 24).unwrap()
}

// What is known of an item that begins with these bytes.
fn known(bytes: &[u8], options: &Options) -> Known {
    match check_canonical(bytes, options).map_err(numbers) {
        Ok(()) => Ok(Some(bytes.len() as u64)),
        Err((1, _, _)) => Ok(None),
        Err((12, length, _)) => Ok(Some(length)),
        Err(why) => Err(why),
    }
}

// What is known of each prefix.
fn of_prefixes(input: &[u8], options: &Options) -> Vec<Known> {
    (0..=input.len())
        .map(|end| known(&input[..end], options))
        .collect()
}

// Feeds the parts that end at these offsets, and then says that the bytes ended.
fn in_parts(checker: &mut Checker, input: &[u8], ends: &[usize], prefixes: &[Known]) {
    let case = || format!("{input:02x?} in {ends:?}");
    let mut from = 0;
    for &end in ends {
        let found = checker.feed(&input[from..end]).map_err(numbers);
        let (wanted, consumed) = match prefixes[end] {
            Ok(None) => (Ok(Checked::More), end as u64),
            Ok(Some(length)) => {
                let used = (length as usize).saturating_sub(from);
                (Ok(Checked::Complete(used)), length)
            }
            Err(why) => (Err(why), why.2),
        };
        assert_eq!(found, wanted, "{}", case());
        assert_eq!(checker.consumed(), consumed, "{}", case());
        from = end;
    }
    let length = from as u64;
    let wanted = match prefixes[from] {
        Ok(None) => Err((1, length, length)),
        Ok(Some(length)) => Ok(length),
        Err(why) => Err(why),
    };
    assert_eq!(checker.end().map_err(numbers), wanted, "{}", case());
}

#[test]
fn rows_cut_at_every_byte() {
    let rows = lines(5);
    assert!(rows.len() > 200);
    for row in &rows {
        let input = unhex(&row[0]);
        for order in [Order::Bytewise, Order::LengthFirst] {
            let options = options_of(&row[1], order);
            let prefixes = of_prefixes(&input, &options);
            let mut checker = Checker::new(&options).unwrap();
            let end = input.len();
            for cut in 0..=end {
                // a part of no bytes as well
                in_parts(&mut checker, &input, &[cut, cut, end], &prefixes);
                checker.restart();
                let last = if end > 12 { cut } else { end };
                for next in cut..=last {
                    in_parts(&mut checker, &input, &[cut, next, end], &prefixes);
                    checker.restart();
                }
            }
            let each: Vec<usize> = (0..=end).collect();
            in_parts(&mut checker, &input, &each, &prefixes);
        }
    }
}

// A byte changed, the end cut off, bytes that follow, or neither.
fn damaged(random: &mut Random, mut input: Vec<u8>) -> Vec<u8> {
    match random.below(5) {
        0 => {
            let at = random.below(input.len() as u64) as usize;
            input[at] = random.below(256) as u8;
        }
        1 => input.truncate(random.below(input.len() as u64) as usize),
        2 => input.extend([random.below(256) as u8, 0xff]),
        _ => {}
    }
    input
}

#[test]
fn random_items_in_random_parts() {
    let mut random = Random(31);
    let mut verdicts = [0; 3];
    for turn in 0..2000 {
        let order = [Order::Bytewise, Order::LengthFirst][turn % 2];
        let options = Options::default().with_limits(5, 400).unwrap();
        let options = options.with_order(order);
        let value = random.value(3);
        let mut input = value.encode(&Options::default().with_order(order)).unwrap();
        if turn % 8 < 2 {
            input.clear();
            random.encode(&value, &mut input);
        }
        let input = damaged(&mut random, input);
        let prefixes = of_prefixes(&input, &options);
        verdicts[match prefixes.last() {
            Some(Ok(None)) => 0,
            Some(Ok(_)) => 1,
            _ => 2,
        }] += 1;
        let mut checker = Checker::new(&options).unwrap();
        for _ in 0..5 {
            let most = 1 + random.below(input.len() as u64 + 2);
            let mut ends = vec![0];
            while ends[ends.len() - 1] < input.len() {
                let end = ends[ends.len() - 1] + random.below(most + 1) as usize;
                ends.push(end.min(input.len()));
            }
            in_parts(&mut checker, &input, &ends, &prefixes);
            checker.restart();
        }
    }
    assert!(verdicts.iter().all(|&count| count > 100), "{verdicts:?}");
}

// Towers of 1,024 levels, byte by byte, and one level more.
#[test]
fn a_thousand_levels() {
    type Tower = fn(usize) -> Vec<u8>;
    // and at which byte the last level begins
    let towers: [(Tower, u64); 4] = [
        (|levels| [vec![0x81; levels], vec![0]].concat(), 1024),
        (|levels| [vec![0xc1; levels], vec![0]].concat(), 1024),
        (|levels| [[0xa1, 0].repeat(levels), vec![0]].concat(), 2048),
        (
            |levels| [vec![0xa1; levels], vec![0; levels + 1]].concat(),
            1024,
        ),
    ];
    for (tower, last) in towers {
        let mut checker = Checker::new(&wide()).unwrap();
        let bytes = tower(1024);
        let found = bytes.chunks(1).map(|part| checker.feed(part).unwrap());
        let wanted = [
            vec![Checked::More; bytes.len() - 1],
            vec![Checked::Complete(1)],
        ]
        .concat();
        assert!(found.eq(wanted));
        assert_eq!(checker.end(), Ok(bytes.len() as u64));
        checker.restart();
        let bytes = tower(1025);
        let refused = bytes.chunks(7).find_map(|part| checker.feed(part).err());
        assert_eq!(refused.map(numbers), Some((9, last, last + 1)));
    }
}

// {"aa..a": 0, "aa..b": 0}, of keys of 1 MiB, and the same with the second key before the first.
#[test]
fn keys_of_a_mebibyte() {
    const KEY: usize = 1 << 20;
    let pair = |last: u8| {
        [
            b"\x7a\x00\x10\x00\x00",
            &vec![b'a'; KEY - 1][..],
            &[last, 0],
        ]
        .concat()
    };
    let good = [&[0xa2][..], &pair(b'a'), &pair(b'b')].concat();
    let bad = [&[0xa2][..], &pair(b'b'), &pair(b'a')].concat();
    // after the first pair, and at the second key's last byte
    let (second, read) = (1 + 5 + KEY + 1, 1 + 5 + KEY + 1 + 5 + KEY);
    for size in [1400, 65_536, good.len()] {
        let mut checker = Checker::new(&wide()).unwrap();
        let found = good.chunks(size).map(|part| checker.feed(part).unwrap());
        assert!(matches!(found.last(), Some(Checked::Complete(_))));
        assert_eq!(checker.end(), Ok(good.len() as u64));
        checker.restart();
        let refused = bad.chunks(size).find_map(|part| checker.feed(part).err());
        let wanted = (16, second as u64, read as u64);
        assert_eq!(refused.map(numbers), Some(wanted));
        assert_eq!(checker.consumed(), wanted.2);
    }
}

#[test]
fn a_refusal_stays() {
    let mut checker = Checker::new(&Options::default()).unwrap();
    assert_eq!(checker.feed(b"\x83\x00"), Ok(Checked::More));
    let wanted = (5, 2, 3);
    for part in [&b"\x00\xf9\x00"[1..], b"", b"\x00", b"\xff\xff"] {
        assert_eq!(checker.feed(part).map_err(numbers), Err(wanted));
        assert_eq!(checker.end().map_err(numbers), Err(wanted));
        assert_eq!(checker.consumed(), 3);
    }
    checker.restart();
    assert_eq!(checker.consumed(), 0);
    assert_eq!(checker.feed(b"\x80"), Ok(Checked::Complete(1)));
    assert_eq!(checker.end(), Ok(1));
}

// The texts of a refusal, which has no path: the bytes are gone.
#[test]
fn a_refusal_says_why() {
    let mut checker = Checker::new(&Options::default()).unwrap();
    checker.feed(b"\xa2\x61b\x02\x61").unwrap();
    let refused = checker.feed(b"a").unwrap_err();
    assert_eq!(refused.path(), "$");
    let said = "refused 16 KeyOrder at 4: ";
    assert!(refused.to_string().starts_with(said), "{refused}");
    assert!(refused.to_string().len() > said.len() + 10 && !refused.advice().is_empty());
}

#[test]
fn a_complete_item_uses_nothing_more() {
    let mut checker = Checker::new(&Options::default()).unwrap();
    assert_eq!(
        checker.feed(b"\x82\x01\x02\x03\x04"),
        Ok(Checked::Complete(3))
    );
    for part in [&b"\x03"[..], b"", b"\xff\xff"] {
        assert_eq!(checker.feed(part), Ok(Checked::Complete(0)));
        assert_eq!((checker.consumed(), checker.end()), (3, Ok(3)));
    }
}

// An item that is not complete may continue after `end` said so.
#[test]
fn an_end_that_was_none() {
    let mut checker = Checker::new(&Options::default()).unwrap();
    assert_eq!(checker.end().map_err(numbers), Err((1, 0, 0)));
    assert_eq!(checker.feed(b"\x82\x01"), Ok(Checked::More));
    assert_eq!(checker.end().map_err(numbers), Err((1, 2, 2)));
    assert_eq!(checker.feed(b"\x02"), Ok(Checked::Complete(1)));
    assert_eq!(checker.end(), Ok(3));
}

// A checker may continue in another thread.
#[test]
fn threads() {
    fn is_shared<T: Send + Sync>() {}
    is_shared::<Checker>();
    let mut checker = Checker::new(&Options::default()).unwrap();
    assert_eq!(checker.feed(b"\x82\x01"), Ok(Checked::More));
    let mut checker = thread::spawn(move || {
        assert_eq!(checker.feed(b"\x02"), Ok(Checked::Complete(1)));
        checker
    })
    .join()
    .unwrap();
    assert_eq!(checker.end(), Ok(3));
    // it says what it is
    assert!(format!("{checker:?}").contains("consumed: 3"));
}
