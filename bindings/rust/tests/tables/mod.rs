//! The rows of the repository's conformance tables. Their own text says what the columns are.
// each test uses a part of it
#![allow(dead_code)]

use naltvigo::{Keys, Options, Order, Refused};
use std::fs;

const TABLES: &str = concat!(
    env!("CARGO_MANIFEST_DIR"),
    "/../../crates/cbor_reader_tests/src/tests"
);

// The texts of the tables, in one.
fn tables() -> String {
    let files = fs::read_dir(TABLES).expect("the tables of the repository");
    let paths = files.map(|file| file.unwrap().path());
    paths
        .filter(|path| path.to_str().unwrap().ends_with("_table.rt"))
        .map(|path| fs::read_to_string(path).unwrap())
        .collect()
}

/// The lines of the tables with this many columns.
pub fn lines(columns: usize) -> Vec<Vec<String>> {
    let text = tables();
    let lines = text.lines().filter(|line| !line.starts_with("//"));
    let split = |line: &str| {
        let parts: Vec<String> = line
            .splitn(5, '|')
            .map(|part| part.trim().to_owned())
            .collect();
        (parts.len() == columns).then_some(parts)
    };
    lines.filter_map(split).collect()
}

/// The bytes of hex digits; `3*00` means 000000.
pub fn unhex(column: &str) -> Vec<u8> {
    let digits: String = column
        .split_whitespace()
        .map(|word| match word.split_once('*') {
            Some((count, digits)) => digits.repeat(count.parse().unwrap()),
            None => word.to_owned(),
        })
        .collect();
    let byte = |at| u8::from_str_radix(&digits[at..at + 2], 16).unwrap();
    (0..digits.len()).step_by(2).map(byte).collect()
}

/// The number of a reason, the offset and the count.
pub type Triple = (u8, u64, u64);

/// The numbers of `12 Trailing at 1, read 1`.
pub fn refusal(column: &str) -> Option<Triple> {
    let (number, rest) = column.split_once(' ')?;
    let (_, rest) = rest.split_once(" at ")?;
    let (offset, consumed) = rest.split_once(", read ")?;
    Some((
        number.parse().ok()?,
        offset.parse().ok()?,
        consumed.parse().ok()?,
    ))
}

/// The numbers of a refusal.
pub fn numbers(refused: Refused) -> Triple {
    (refused.reason.number(), refused.offset, refused.consumed)
}

fn limit(limits: &str, name: &str) -> Option<u64> {
    let mut words = limits.split_whitespace().skip_while(|word| *word != name);
    words.nth(1)?.trim_end_matches(',').parse().ok()
}

/// The kinds of keys in a column of limits.
pub fn keys(limits: &str) -> Keys {
    match limits.split_once("keys ") {
        Some((_, kinds)) => {
            assert_eq!(kinds, "basic");
            Keys::IntegersAndTexts
        }
        None => Keys::Any,
    }
}

/// The options of a column of limits.
pub fn options_of(limits: &str, order: Order) -> Options {
    let depth = limit(limits, "depth").unwrap_or(256) as u16;
    let bytes = limit(limits, "bytes").unwrap_or(1 << 20);
    let options = Options::default().with_limits(depth, bytes).unwrap();
    options.with_order(order).with_keys(keys(limits))
}
