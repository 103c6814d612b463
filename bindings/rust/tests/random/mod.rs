//! Random values, and random encodings of them, by rules that are written only here.

use naltvigo::{Simple, Value};

/// A xorshift generator; the number is its state, which is never 0.
pub struct Random(pub u64);

// Where the shortest head grows, and its neighbours.
const EDGES: [u64; 13] = [
    0,
    22,
    23,
    24,
    255,
    256,
    65535,
    65536,
    0xffff_ffff,
    0x1_0000_0000,
    i64::MAX as u64,
    1 << 63,
    u64::MAX,
];

impl Random {
    pub fn below(&mut self, limit: u64) -> u64 {
        self.0 ^= self.0 << 13;
        self.0 ^= self.0 >> 7;
        self.0 ^= self.0 << 17;
        self.0 % limit
    }

    fn number(&mut self) -> u64 {
        match self.below(3) {
            0 => self.0 >> self.below(64),
            _ => EDGES[self.below(EDGES.len() as u64) as usize],
        }
    }

    fn simple(&mut self) -> Simple {
        loop {
            if let Some(simple) = Simple::new(self.below(256) as u8) {
                return simple;
            }
        }
    }

    /// A value that nests at most this deep.
    pub fn value(&mut self, depth: u64) -> Value {
        let count = self.below(5);
        match self.below(if depth > 0 { 10 } else { 6 }) {
            0 => Value::Unsigned(self.number()),
            1 => Value::Negative(self.number()),
            2 => Value::bytes(vec![self.0 as u8; self.below(300) as usize]),
            3 => ["ä", "b", "\u{10151}", "\""][self.below(4) as usize]
                .repeat(self.below(30) as usize)
                .into(),
            4 => self.simple().into(),
            5 => [Value::NULL, true.into(), false.into()][self.below(3) as usize].clone(),
            6 => Value::tag(self.number(), self.value(depth - 1)),
            7 => Value::array((0..count).map(|_| self.value(depth - 1))),
            _ => {
                let pairs: Vec<_> = (0..count)
                    .map(|_| (self.value(depth - 1), self.value(depth - 1)))
                    .collect();
                let keys = pairs.iter().map(|pair| pair.0.clone()).collect();
                // an array of the keys if two are equal
                Value::map(pairs).unwrap_or(Value::Array(keys))
            }
        }
    }

    /// Appends an encoding of a value: any width of its heads, with or without lengths, the keys in
    /// another order.
    pub fn encode(&mut self, value: &Value, out: &mut Vec<u8>) {
        match value {
            Value::Unsigned(number) => self.head(0, *number, out),
            Value::Negative(number) => self.head(1, *number, out),
            Value::Bytes(bytes) => self.string(2, bytes.chunks(7), bytes.len(), out),
            Value::Text(text) => {
                let ends: Vec<usize> = text.char_indices().map(|found| found.0).skip(1).collect();
                let ends = ends.into_iter().chain([text.len()]);
                let chunks = ends.scan(0, |start, end| {
                    Some(&text.as_bytes()[std::mem::replace(start, end)..end])
                });
                self.string(3, chunks, text.len(), out);
            }
            Value::Array(members) => {
                let ended = self.open(4, members.len() as u64, out);
                members.iter().for_each(|member| self.encode(member, out));
                out.extend(ended);
            }
            Value::Map(pairs) => {
                let ended = self.open(5, pairs.len() as u64, out);
                let first = self.below(pairs.len() as u64 + 1) as usize;
                let all: Vec<_> = pairs.iter().collect();
                let (left, right) = all.split_at(first);
                for (key, value) in right.iter().chain(left.iter().rev()) {
                    self.encode(key, out);
                    self.encode(value, out);
                }
                out.extend(ended);
            }
            Value::Tag(tag) => {
                self.head(6, tag.number(), out);
                self.encode(tag.content(), out);
            }
            Value::Simple(simple) if simple.number() < 24 => out.push(0xe0 | simple.number()),
            Value::Simple(simple) => out.extend([0xf8, simple.number()]),
        }
    }

    // A head in one of the widths that hold its number.
    fn head(&mut self, kind: u8, number: u64, out: &mut Vec<u8>) {
        let least = match number {
            0..=23 => 0,
            24..=0xff => 1,
            0x100..=0xffff => 2,
            0x1_0000..=0xffff_ffff => 3,
            _ => 4,
        };
        match least + self.below(5 - least) {
            0 => out.push(kind << 5 | number as u8),
            width => {
                out.push(kind << 5 | (23 + width as u8));
                out.extend_from_slice(&number.to_be_bytes()[8 - (1 << (width - 1))..]);
            }
        }
    }

    // The head of a container, and the break that ends it if it has no length.
    fn open(&mut self, kind: u8, count: u64, out: &mut Vec<u8>) -> Option<u8> {
        if self.below(2) == 0 {
            out.push(kind << 5 | 31);
            return Some(0xff);
        }
        self.head(kind, count, out);
        None
    }

    fn string<'a>(
        &mut self,
        kind: u8,
        chunks: impl Iterator<Item = &'a [u8]>,
        length: usize,
        out: &mut Vec<u8>,
    ) {
        if self.below(2) == 0 {
            self.head(kind, length as u64, out);
            return chunks.for_each(|chunk| out.extend_from_slice(chunk));
        }
        out.push(kind << 5 | 31);
        for chunk in chunks {
            self.head(kind, chunk.len() as u64, out);
            out.extend_from_slice(chunk);
        }
        out.push(0xff);
    }
}
