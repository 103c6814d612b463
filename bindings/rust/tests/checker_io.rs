//! A checker as a writer, and items from readers.

mod tables;

use naltvigo::{
    check_canonical, check_reader, Checker, Keys, Options, Order, ReadError, Refused, Value,
};
use std::collections::VecDeque;
use std::io::{self, BufWriter, ErrorKind, Read, Write};
use tables::{numbers, Triple};

fn of_io(error: &io::Error) -> (ErrorKind, Triple) {
    let inner = error.get_ref().expect("the refusal");
    let refused = inner.downcast_ref::<Refused>().expect("the refusal");
    (error.kind(), numbers(refused.clone()))
}

#[test]
fn a_refusal_stays() {
    let mut checker = Checker::new(&Options::default()).unwrap();
    checker.write_all(b"\x83\x00").unwrap();
    for part in [&b"\xf9\x00"[..], b"", b"\x00", b"\xff\xff"] {
        let error = checker.write(part).unwrap_err();
        assert_eq!(of_io(&error), (ErrorKind::InvalidData, (5, 2, 3)));
    }
}

// All options reach the library, also after a restart.
#[test]
fn options() {
    // {100: 0, -1: 0} and {-1: 0, 100: 0}
    let bytewise = b"\xa2\x18\x64\x00\x20\x00";
    let length_first = b"\xa2\x20\x00\x18\x64\x00";
    let all = Options::default();
    let by_length = all.with_order(Order::LengthFirst);
    let basic = all.with_keys(Keys::IntegersAndTexts);
    let cases: [(Options, &[u8], Result<u64, Triple>); 8] = [
        (all, bytewise, Ok(6)),
        (all, length_first, Err((16, 3, 5))),
        (by_length, bytewise, Err((16, 4, 5))),
        (by_length, length_first, Ok(6)),
        (all, b"\xa1\x80\x00", Ok(3)),
        (basic, b"\xa1\x80\x00", Err((20, 1, 2))),
        (all.with_depth(1).unwrap(), b"\x81\x80", Err((9, 1, 2))),
        (all.with_bytes(2).unwrap(), b"\x62ab", Err((2, 2, 2))),
    ];
    for (options, input, wanted) in cases {
        let mut checker = Checker::new(&options).unwrap();
        for _ in 0..2 {
            let found = io::copy(&mut &input[..], &mut checker);
            let found = found.map_err(|error| of_io(&error).1);
            assert_eq!(found, wanted, "{options:?} {input:02x?}");
            checker.restart();
        }
    }
}

#[test]
fn bytes_after_an_item_are_not_written() {
    let mut checker = Checker::new(&Options::default()).unwrap();
    let wanted = (12, 3, 3);
    assert_eq!(checker.write(b"\x82").unwrap(), 1);
    assert_eq!(checker.write(b"\x01\x02\x03").unwrap(), 2);
    assert_eq!(checker.write(b"").unwrap(), 0);
    assert_eq!(checker.end(), Ok(3));
    // the refusal stays, whoever calls
    for _ in 0..2 {
        let error = checker.write(b"\x03").unwrap_err();
        assert_eq!(of_io(&error), (ErrorKind::InvalidData, wanted));
        assert_eq!(checker.end().map_err(numbers), Err(wanted));
        assert_eq!(checker.feed(b"").map_err(numbers), Err(wanted));
    }
    checker.flush().unwrap();
    checker.restart();
    checker.write_all(b"\x82\x01\x02").unwrap();
    assert_eq!(checker.end(), Ok(3));
    // an error that the writer around it ignores
    checker.restart();
    let mut buffered = BufWriter::new(&mut checker);
    buffered.write_all(b"\x82\x01\x02\x03").unwrap();
    drop(buffered);
    assert_eq!(checker.end().map_err(numbers), Err(wanted));
}

#[test]
fn copies() {
    for (input, wanted) in [
        (&b"\x82\x01\x02"[..], None),
        (b"\x82\x01\x02\x03", Some((12, 3, 3))),
        (b"\x82\x18\x02\x03", Some((14, 1, 3))),
    ] {
        let mut checker = Checker::new(&Options::default()).unwrap();
        let found = io::copy(&mut &input[..], &mut checker);
        match wanted {
            None => assert_eq!((found.unwrap(), checker.end()), (3, Ok(3))),
            Some(why) => assert_eq!(of_io(&found.unwrap_err()).1, why),
        }
    }
}

#[test]
fn kinds_of_errors() {
    let kind_of = |input: &[u8], options: &Options| {
        let refused = check_canonical(input, options).unwrap_err();
        io::Error::from(refused).kind()
    };
    let options = Options::default();
    assert_eq!(kind_of(b"\x82", &options), ErrorKind::UnexpectedEof);
    assert_eq!(kind_of(b"\xff", &options), ErrorKind::InvalidData);
}

// Each of its reads: some bytes, or an error.
struct Reads(VecDeque<Result<Vec<u8>, ErrorKind>>);

impl Reads {
    fn of(reads: &[Result<&[u8], ErrorKind>]) -> Reads {
        Reads(reads.iter().map(|read| read.map(<[u8]>::to_vec)).collect())
    }
}

impl Read for Reads {
    fn read(&mut self, buffer: &mut [u8]) -> io::Result<usize> {
        let bytes = self.0.pop_front().expect("it is not read on")?;
        buffer[..bytes.len()].copy_from_slice(&bytes);
        Ok(bytes.len())
    }
}

// What came of it, and how many reads are left.
fn read(reads: &[Result<&[u8], ErrorKind>]) -> (Result<u64, Result<Triple, ErrorKind>>, usize) {
    let mut reads = Reads::of(reads);
    let found = check_reader(&mut reads, &Options::default());
    let found = found.map_err(|error| match error {
        ReadError::Refused(why) => Ok(numbers(why)),
        ReadError::Read(error) => Err(error.kind()),
    });
    (found, reads.0.len())
}

#[test]
fn readers() {
    let (end, lost) = (Ok(&b""[..]), Err(ErrorKind::ConnectionReset));
    let again = Err(ErrorKind::Interrupted);
    let refused = |number, offset, consumed| Err(Ok((number, offset, consumed)));
    assert_eq!(read(&[Ok(b"\x82"), Ok(b"\x01\x02"), end]), (Ok(3), 0));
    assert_eq!(
        read(&[again, Ok(b"\x81"), again, again, Ok(b"\x02"), again, end]),
        (Ok(2), 0)
    );
    assert_eq!(read(&[end]), (refused(1, 0, 0), 0));
    assert_eq!(read(&[Ok(b"\x82\x01"), end]), (refused(1, 2, 2), 0));
    // what follows the item, in its part or in another
    assert_eq!(read(&[Ok(b"\x81\x01\xff"), end]), (refused(12, 2, 2), 1));
    assert_eq!(
        read(&[Ok(b"\x81\x01"), Ok(b"\xff"), end]),
        (refused(12, 2, 2), 1)
    );
    // nothing is read after a refusal
    assert_eq!(
        read(&[Ok(b"\x82\x18"), Ok(b"\x01"), lost]),
        (refused(14, 1, 3), 1)
    );
    // an error of the reader, also where the item is complete
    let is_lost = Err(Err(ErrorKind::ConnectionReset));
    assert_eq!(read(&[Ok(b"\x82"), lost, Ok(b"\x01")]), (is_lost, 1));
    assert_eq!(read(&[Ok(b"\x80"), lost]), (is_lost, 0));
}

// Strings that end before, at and after the bytes that are read at once, and of several reads.
#[test]
fn readers_of_longer_items() {
    for end in [8192, 2 * 8192, 5 * 8192] {
        for length in end - 5..end {
            let item = Value::bytes(vec![7; length])
                .encode(&Options::default())
                .unwrap();
            let size = item.len() as u64;
            assert_eq!(size, length as u64 + 3);
            assert_eq!(
                check_reader(&item[..], &Options::default()).ok(),
                Some(size)
            );
            let cut = &item[..item.len() - 1];
            let longer = [&item[..], &[0]].concat();
            for (input, wanted) in [(cut, (1, size - 1, size - 1)), (&longer, (12, size, size))] {
                match check_reader(input, &Options::default()) {
                    Err(ReadError::Refused(why)) => assert_eq!(numbers(why), wanted),
                    other => panic!("{length}: {other:?}"),
                }
            }
        }
    }
}
