//! Time: what a sender chooses costs at most five times what harmless bytes of the same length cost,
//! and an item of 1 KiB at most a millisecond more than its check.
//!
//! Other processes may run as well. So a time is the processor time of the thread, the least of some turns, and it
//! is compared with another one that is measured just before or after it. Under an emulator, which the variable
//! NALTVIGO_EMULATED names, no time is compared with a millisecond.

use naltvigo::{
    check, check_canonical, read_items, Checker, Item, Map, Options, Order, Value, View,
};
use std::collections::HashSet;
use std::env;
use std::hint::black_box;
use std::io::{self, Write};
use std::time::Duration;

const MIB: usize = 1 << 20;

fn wide() -> Options {
    Options::default().with_limits(1024, 1 << 24).unwrap()
}

// The processor time of this thread: other processes and other tests do not count.
#[cfg(all(target_os = "linux", target_pointer_width = "64"))]
fn now() -> Duration {
    const THREAD: i32 = 3; // CLOCK_THREAD_CPUTIME_ID
    extern "C" {
        fn clock_gettime(clock: i32, time: *mut [i64; 2]) -> i32;
    }
    let mut time = [0; 2];
    assert_eq!(unsafe { clock_gettime(THREAD, &mut time) }, 0);
    Duration::new(time[0] as u64, time[1] as u32)
}

#[cfg(not(all(target_os = "linux", target_pointer_width = "64")))]
fn now() -> Duration {
    static BEGAN: std::sync::OnceLock<std::time::Instant> = std::sync::OnceLock::new();
    BEGAN.get_or_init(std::time::Instant::now).elapsed()
}

// The least time of some turns.
fn time(turns: usize, mut work: impl FnMut()) -> Duration {
    let one = |_| {
        let began = now();
        work();
        now() - began
    };
    (0..turns).map(one).min().unwrap()
}

// A millisecond; or on a slower processor, what takes one here: 100 checks of 1,000 arrays.
fn millisecond() -> Duration {
    let item = [vec![0x81; 1000], vec![0]].concat();
    let checks = || (0..100).for_each(|_| drop(check(black_box(&item), &wide())));
    time(5, checks).max(Duration::from_millis(1))
}

// What takes an item as a whole, and each key of a map.
fn whole(bytes: &[u8]) {
    let value = Value::decode(bytes, &wide()).unwrap();
    assert_eq!(
        value
            .encode(&wide().with_order(Order::LengthFirst))
            .unwrap()
            .len(),
        bytes.len()
    );
    let Value::Map(map) = value else {
        panic!("a map")
    };
    let mut built = Map::default();
    for (key, value) in map.iter().rev() {
        assert!(map.get(key) == Some(value));
        built.insert(key.clone(), value.clone());
    }
    assert!(built == map);
    assert!(map.keys().collect::<HashSet<_>>().len() == map.len());
}

fn map_of(keys: impl Iterator<Item = Value>) -> Vec<u8> {
    let map: Map = keys.map(|key| (key, 0)).collect();
    Value::Map(map).encode(&wide()).unwrap()
}

// Keys within keys, which differ at the bottom alone.
fn tower(levels: usize, bottom: i64) -> Value {
    let level = |key, _| Value::map([(key, 0.into())]).unwrap();
    (0..levels).fold(bottom.into(), level)
}

// One-key maps within an array at each level: long keys that are compared at each level.
fn forked(levels: usize) -> Value {
    let level = |key: Value, _| {
        let other = Value::array([key.clone(), 1.into()]);
        Value::map([(Value::array([key, 0.into()]), 0.into()), (other, 1.into())]).unwrap()
    };
    (0..levels).fold(0.into(), level)
}

// Maps of about `size` bytes, by name: keys that a sender chose, and others of the same kind.
fn families(size: usize) -> [(&'static str, Vec<u8>, Vec<u8>); 5] {
    let size = size as i64;
    // spread over all integers, in no order
    let spread = |key: i64| Value::from((key as u64).wrapping_mul(0x9e37_79b9_7f4a_7c15));
    let integers = map_of((0..size / 10).map(spread));
    let late = |length: i64| {
        let start = "x".repeat(length as usize);
        map_of((0..size / (length + 12)).map(|key| format!("{start}{key:08}").into()))
    };
    let two = |one: Value, other: Value| Value::array([one, other]);
    [
        ("texts with one start", late(1000), integers.clone()),
        (
            "long texts with one start",
            late(size / 20),
            integers.clone(),
        ),
        (
            "arrays",
            map_of((0..size / 12).map(|key| two(1.into(), spread(key)))),
            map_of((0..size / 12).map(|key| two(spread(key), 1.into()))),
        ),
        (
            "keys in keys",
            map_of((0..size / 75).map(|key| two(0.into(), tower(30, key << 32)))),
            map_of((0..size / 75).map(|key| two(spread(key), tower(30, 0)))),
        ),
        (
            "forks",
            forked(size.ilog2() as usize - 3).encode(&wide()).unwrap(),
            map_of((0..size / 75).map(|key| two(spread(key), tower(30, 0)))),
        ),
    ]
}

// The time for a MiB.
fn cost(bytes: &[u8]) -> Duration {
    time(2, || whole(bytes)).mul_f64(MIB as f64 / bytes.len() as f64)
}

#[test]
fn a_mebibyte_of_chosen_keys() {
    for ((name, chosen, harmless), (_, quarter, _)) in
        families(MIB).into_iter().zip(families(MIB / 4))
    {
        assert!(
            chosen.len() > MIB / 2 && chosen.len() < 2 * MIB,
            "{name}: {}",
            chosen.len()
        );
        // again if other processes disturbed it
        let is_fair = |_| {
            let [time, other, part] = [&chosen, &harmless, &quarter].map(|bytes| cost(bytes));
            println!(
                "{name}: {time:?}, of other keys {other:?}, of a quarter of the bytes {part:?}"
            );
            // quadratic time would be four times that of the part; what is short is compared less closely
            time < 5 * other && time < part.mul_f64(2.5) + other / 10
        };
        assert!((0..3).any(is_fair), "{name}");
    }
}

fn walk(item: Item<'_>) -> usize {
    match item.view() {
        View::Array(members) => members.map(walk).sum(),
        View::Map(pairs) => pairs.map(|(key, value)| walk(key) + walk(value)).sum(),
        View::Tag(_, content) => walk(content),
        _ => 1,
    }
}

fn many(item: &[u8]) -> Vec<u8> {
    [&[0x90][..], &item.repeat(16)].concat()
}

#[test]
fn a_kibibyte() {
    let items = [
        ("arrays", [vec![0x81; 1000], vec![0]].concat()),
        ("tags", [vec![0xc1; 1000], vec![0]].concat()),
        ("values", [[0xa1, 0].repeat(500), vec![0]].concat()),
        ("keys", [vec![0xa1; 500], vec![0; 501]].concat()),
        ("16 of 63 arrays", many(&[vec![0x81; 62], vec![0]].concat())),
        ("16 of 63 tags", many(&[vec![0xc1; 62], vec![0]].concat())),
        (
            "16 of 31 keys",
            many(&[vec![0xa1; 31], vec![0; 32]].concat()),
        ),
        ("two towers", map_of((0..2).map(|key| tower(250, key)))),
        ("forks", forked(7).encode(&wide()).unwrap()),
        ("integers", map_of((0..340).map(Value::from))),
        (
            "maps",
            map_of((0..200).map(|key| Value::map([(0.into(), key.into())]).unwrap())),
        ),
    ];
    let is_emulated = env::var_os("NALTVIGO_EMULATED").is_some();
    if is_emulated {
        // cargo shows what is written to standard error itself
        writeln!(io::stderr(), "a_kibibyte: no times compared: emulated").unwrap();
    }
    for (name, bytes) in items {
        assert!(
            bytes.len() < 1100 && bytes.len() > 500,
            "{name}: {}",
            bytes.len()
        );
        let check_time = time(20, || check(black_box(&bytes), &wide()).unwrap());
        type Work = fn(&[u8]) -> usize;
        let work: [(&str, Work); 4] = [
            ("decode", |bytes| {
                usize::from(Value::decode(bytes, &wide()).is_ok())
            }),
            ("text", |bytes| {
                Item::open(bytes, &wide()).unwrap().to_string().len()
            }),
            ("value", |bytes| {
                usize::from(Item::open(bytes, &wide()).unwrap().to_value() == Value::NULL)
            }),
            ("walk", |bytes| walk(Item::open(bytes, &wide()).unwrap())),
        ];
        let most = check_time + millisecond();
        for (what, work) in work {
            // each level is read once more for each level around it, of which there are 64 by default
            if what == "walk" && check(&bytes, &Options::default()).is_err() {
                continue;
            }
            let time = time(20, || {
                black_box(work(black_box(&bytes)));
            });
            println!("{name}, {what}: {time:?}, check {check_time:?}");
            assert!(is_emulated || time < most, "{name}, {what}: {time:?}");
        }
    }
}

// An item that comes a few bytes at a time is moved and parsed once.
#[test]
fn a_mebibyte_in_small_reads() {
    let by = |length: usize| {
        let count = (length as u32 - 5).to_be_bytes();
        let item = [&[0x9a][..], &count, &vec![0; length - 5]].concat();
        time(5, || {
            let mut left = &item[..];
            let read = |buffer: &mut [u8]| {
                let count = left.len().min(64).min(buffer.len());
                buffer[..count].copy_from_slice(&left[..count]);
                left = &left[count..];
                Ok::<_, &str>(count)
            };
            let items = read_items(read, &wide());
            assert_eq!(items.map(|item| item.unwrap().len()).sum::<usize>(), length);
        })
    };
    // again if other processes disturbed it
    let is_fair = |_| {
        let (part, whole) = (by(MIB / 4), by(MIB));
        println!("a quarter {part:?}, the whole {whole:?}");
        // quadratic time would be 16 times that of the part
        whole < 8 * part
    };
    assert!((0..3).any(is_fair));
}

// 4 MiB that come in packets take at most five times as long as in one part: nothing is read again.
#[test]
fn four_mebibytes_in_packets() {
    const PACKET: usize = 1400;
    let size = 4 * MIB;
    let count = (size as u32).to_be_bytes();
    let text = vec![b'a'; size];
    let items = [
        ("integers", [&[0x9a][..], &count, &vec![0; size]].concat()),
        ("a key", [&[0xa1, 0x7a][..], &count, &text, &[0]].concat()),
        ("keys", map_of((0..size as i64 / 6).map(Value::from))),
    ];
    for (name, item) in items {
        let mut checker = Checker::new(&wide()).unwrap();
        let mut by = |length: usize| {
            time(3, || {
                checker.restart();
                for part in item.chunks(length) {
                    checker.feed(black_box(part)).unwrap();
                }
                assert_eq!(checker.end(), Ok(item.len() as u64));
            })
        };
        // again if other processes disturbed it
        let is_fair = |_| {
            let check = time(3, || check_canonical(black_box(&item), &wide()).unwrap());
            let (whole, packets) = (by(item.len()), by(PACKET));
            println!("{name}: {packets:?}, in one part {whole:?}, by check_canonical {check:?}");
            packets < 5 * whole
        };
        assert!((0..3).any(is_fair), "{name}");
    }
}
