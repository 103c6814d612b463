//! Each row of the repository's conformance tables, by each call that it speaks of.

mod tables;

use naltvigo::{
    canonical_items, canonicalise, canonicalise_into, check, check_canonical, check_reader,
    diagnostic, items, same, Item, Keys, NotWritten, Options, Order, ReadError, Reason, Side,
    Value,
};
use tables::{keys, lines, numbers, options_of, refusal, unhex};

fn one_row(row: &[String], order: Order, column: usize) {
    let given = unhex(&row[0]);
    let options = options_of(&row[1], order);
    let half = |of: &str| {
        let parts: Vec<&str> = of.split('/').map(str::trim).collect();
        parts[column.min(parts.len() - 1)].to_owned()
    };
    let (plain, strict) = (half(&row[2]), half(&row[3]));
    match refusal(&plain) {
        Some(wanted) => {
            assert_eq!(
                canonicalise(&given, &options).map_err(numbers),
                Err(wanted),
                "{row:?}"
            );
            let checked = check(&given, &options).map_err(numbers);
            let decoded = Value::decode(&given, &options).map_err(numbers);
            assert_eq!(decoded, Err(wanted), "{row:?}");
            // only canonicalise has the limit on canonical bytes
            let valid = wanted.0 == Reason::CanonicalTooLong.number();
            assert_eq!(checked, if valid { Ok(()) } else { Err(wanted) }, "{row:?}");
        }
        None => {
            let wanted = if plain == "same" {
                given.clone()
            } else {
                unhex(&plain)
            };
            assert_eq!(
                canonicalise(&given, &options),
                Ok(wanted.clone()),
                "{row:?}"
            );
            assert_eq!(check(&given, &options), Ok(()), "{row:?}");
            assert_eq!(same(&given, &wanted, &options), Ok(true), "{row:?}");
            assert_eq!(check_canonical(&wanted, &options), Ok(()), "{row:?}");
            assert!(diagnostic(&given, &options).is_ok());
            let value = Value::decode(&given, &options).unwrap();
            assert_eq!(value.encode(&options), Ok(wanted.clone()), "{row:?}");
            let item = Item::open(&wanted, &options).unwrap();
            assert_eq!(item.to_value(), value, "{row:?}");
            let twice = [&given[..], &given[..]].concat();
            let found: Result<Vec<&[u8]>, _> = items(&twice, &options).collect();
            assert_eq!(found, Ok(vec![&given[..]; 2]), "{row:?}");
            let twice = [&wanted[..], &wanted[..]].concat();
            let found: Result<Vec<&[u8]>, _> = canonical_items(&twice, &options).collect();
            assert_eq!(found, Ok(vec![&wanted[..]; 2]), "{row:?}");
            for space in [wanted.len() - 1, wanted.len(), wanted.len() + 3] {
                let mut out = vec![7; space];
                let result = canonicalise_into(&given, &options, &mut out);
                if space < wanted.len() {
                    assert_eq!(result, Err(NotWritten::TooSmall(wanted.len())));
                    assert!(out.iter().all(|&byte| byte == 7));
                } else {
                    assert_eq!(result, Ok(wanted.len()));
                    assert_eq!(out[..wanted.len()], wanted);
                    assert!(out[wanted.len()..].iter().all(|&byte| byte == 7));
                }
            }
        }
    }
    let found = check_canonical(&given, &options).map_err(numbers);
    let wanted = match strict
        .strip_prefix("taken ")
        .map(|count| count.parse::<u64>().unwrap())
    {
        Some(count) if count == given.len() as u64 => Ok(()),
        Some(count) => Err((12, count, count)),
        None if strict.is_empty() && plain == "same" => Ok(()),
        None => Err(refusal(if strict.is_empty() { &plain } else { &strict }).unwrap()),
    };
    assert_eq!(found, wanted, "{row:?}");
    let read = match check_reader(&given[..], &options) {
        Ok(count) => Ok(count),
        Err(ReadError::Refused(why)) => Err(numbers(why)),
        Err(ReadError::Read(error)) => panic!("{error}"),
    };
    let length = given.len() as u64;
    assert_eq!(read, wanted.map(|()| length), "{row:?}");
    // in a sequence nothing trails an item, and without a byte there is no item
    let trailing = Reason::Trailing.number();
    let first = match wanted {
        _ if given.is_empty() => None,
        Ok(()) => Some(Ok(&given[..])),
        Err((number, offset, _)) if number == trailing => Some(Ok(&given[..offset as usize])),
        Err(wanted) => Some(Err(wanted)),
    };
    let found = canonical_items(&given, &options).next();
    assert_eq!(found.map(|item| item.map_err(numbers)), first, "{row:?}");
}

#[test]
fn rows() {
    let rows = lines(5);
    assert!(rows.len() > 200);
    let basic = rows
        .iter()
        .filter(|row| keys(&row[1]) == Keys::IntegersAndTexts);
    assert!(basic.count() >= 10);
    for row in &rows {
        one_row(row, Order::Bytewise, 0);
        one_row(row, Order::LengthFirst, 1);
    }
}

#[test]
fn pairs() {
    let pairs = lines(4);
    assert!(pairs.len() > 4);
    let options = Options::default().with_limits(256, 1 << 20).unwrap();
    for pair in &pairs {
        let wanted = match pair[2].as_str() {
            "same" => Ok(true),
            "different" => Ok(false),
            result => {
                let (side, rest) = result.split_once(' ').unwrap();
                let side = if side == "left" {
                    Side::Left
                } else {
                    Side::Right
                };
                Err((side, refusal(rest).unwrap()))
            }
        };
        let found = same(&unhex(&pair[0]), &unhex(&pair[1]), &options);
        assert_eq!(
            found.map_err(|why| (why.side, numbers(why.refused))),
            wanted,
            "{pair:?}"
        );
    }
}
