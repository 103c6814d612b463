//! The reasons of refusals. Written by scripts/reasons.py.

/// Why an input is refused.
#[derive(Clone, Copy, Debug, PartialEq, Eq, Hash)]
#[non_exhaustive]
pub enum Reason {
    /// The input ends within the item.
    Truncated = 1,
    /// The byte limit is reached within the item.
    TooLong = 2,
    /// Additional information 28 to 30 where an item may begin.
    Reserved = 3,
    /// Additional information 31 on an integer or a tag.
    NoIndefinite = 4,
    /// A floating-point number, which this codec does not support.
    Float = 5,
    /// A simple value below 32 in a second byte.
    BadSimple = 6,
    /// A break where an item must begin and nothing may end.
    StrayBreak = 7,
    /// In an indefinite-length string, neither a definite string of its type nor a break.
    BadChunk = 8,
    /// An array, map or tag beyond the depth limit.
    TooDeep = 9,
    /// A text, or a chunk of one, that is not UTF-8.
    InvalidText = 10,
    /// A key that is equal to an earlier key of its map.
    RepeatedKey = 11,
    /// A byte follows the item.
    Trailing = 12,
    /// The canonical bytes are longer than the byte limit.
    CanonicalTooLong = 13,
    /// A head that is not the shortest for its argument.
    NotShortest = 14,
    /// An item of indefinite length.
    Indefinite = 15,
    /// A key that does not come after the one before it.
    KeyOrder = 16,
    /// The reader returned an error.
    Read = 17,
    /// The writer returned an error, or accepted no bytes.
    Write = 18,
    /// Memory ran out.
    Memory = 19,
    /// A key of another kind than the limits allow.
    KeyKind = 20,
}

impl Reason {
    pub(crate) fn numbered(number: u32) -> Option<Reason> {
        Some(match number {
            1 => Reason::Truncated,
            2 => Reason::TooLong,
            3 => Reason::Reserved,
            4 => Reason::NoIndefinite,
            5 => Reason::Float,
            6 => Reason::BadSimple,
            7 => Reason::StrayBreak,
            8 => Reason::BadChunk,
            9 => Reason::TooDeep,
            10 => Reason::InvalidText,
            11 => Reason::RepeatedKey,
            12 => Reason::Trailing,
            13 => Reason::CanonicalTooLong,
            14 => Reason::NotShortest,
            15 => Reason::Indefinite,
            16 => Reason::KeyOrder,
            17 => Reason::Read,
            18 => Reason::Write,
            19 => Reason::Memory,
            20 => Reason::KeyKind,
            _ => return None,
        })
    }

    /// Its number, as in naltvigo.h.
    pub fn number(self) -> u8 {
        self as u8
    }
}
