//! Where a bad word stands.
use core::fmt;

/// Where a word is off the ring: its record, its part of that record, and its index there. It is the first bad one in the record's order,
/// a before b, b before its stored inverse, and c1 before c2. A key is judged before what is opened with it, so the key is named where both have one.
///
/// It reads as `sealed entry, c2, word 17`.
#[derive(Clone, Copy, PartialEq, Eq, Hash, Debug)]
pub struct Location {
    record: Record,
    part: Part,
    index: u16,
}

impl Location {
    /// The record that has the word.
    pub fn record(self) -> Record {
        self.record
    }

    /// The part of the record.
    pub fn part(self) -> Part {
        self.part
    }

    /// The index of the word in its part, 0 to 1,023.
    pub fn index(self) -> usize {
        self.index.into()
    }

    /// What an export's code has above the number: bits 8 to 11 the part, 12 to 15 the record, 16 to 27 the index. None where one of them
    /// is unknown, or a bit above them is set.
    pub(crate) fn from_code(code: u32) -> Option<Location> {
        let (part, record, index) = (code >> 8 & 0xf, code >> 12 & 0xf, (code >> 16) as u16);
        if index >= 1024 {
            return None;
        }
        Some(Location { record: Record::from_code(record)?, part: Part::from_code(part)?, index })
    }
}

impl fmt::Display for Location {
    fn fmt(&self, f: &mut fmt::Formatter<'_>) -> fmt::Result {
        write!(f, "{}, {}, word {}", self.record, self.part, self.index)
    }
}

/// A record that holds words. There may be more of them in a later version.
#[derive(Clone, Copy, PartialEq, Eq, Hash, Debug)]
#[non_exhaustive]
pub enum Record {
    /// A [`PublicKey`](crate::PublicKey), of a and b.
    PublicKey,
    /// A [`SeededPublicKey`](crate::SeededPublicKey), of b.
    SeededPublicKey,
    /// A [`SecretKey`](crate::SecretKey), of a and b, or an [`ExpandedSecretKey`](crate::ExpandedSecretKey), of these and the inverse of b.
    SecretKey,
    /// A [`SealedEntry`](crate::SealedEntry) or a [`SealedBatch`](crate::SealedBatch), of c1 and c2.
    SealedEntry,
    /// An [`Encapsulation`](crate::Encapsulation), of c1 and c2.
    Encapsulation,
}

impl Record {
    fn from_code(code: u32) -> Option<Record> {
        match code {
            1 => Some(Record::PublicKey),
            2 => Some(Record::SeededPublicKey),
            3 => Some(Record::SecretKey),
            4 => Some(Record::SealedEntry),
            5 => Some(Record::Encapsulation),
            _ => None,
        }
    }
}

impl fmt::Display for Record {
    fn fmt(&self, f: &mut fmt::Formatter<'_>) -> fmt::Result {
        f.write_str(match self {
            Record::PublicKey => "public key",
            Record::SeededPublicKey => "seeded public key",
            Record::SecretKey => "secret key",
            Record::SealedEntry => "sealed entry",
            Record::Encapsulation => "encapsulation",
        })
    }
}

/// A part of a record: 1,024 words. There may be more of them in a later version.
#[derive(Clone, Copy, PartialEq, Eq, Hash, Debug)]
#[non_exhaustive]
pub enum Part {
    /// a of a key.
    A,
    /// b of a key.
    B,
    /// The inverse of b in an expanded secret key.
    StoredInverse,
    /// c1 of an encapsulation, bare or in a sealed entry or batch.
    C1,
    /// c2 of an encapsulation, bare or in a sealed entry or batch.
    C2,
}

impl Part {
    fn from_code(code: u32) -> Option<Part> {
        match code {
            1 => Some(Part::A),
            2 => Some(Part::B),
            3 => Some(Part::StoredInverse),
            4 => Some(Part::C1),
            5 => Some(Part::C2),
            _ => None,
        }
    }
}

impl fmt::Display for Part {
    fn fmt(&self, f: &mut fmt::Formatter<'_>) -> fmt::Result {
        f.write_str(match self {
            Part::A => "a",
            Part::B => "b",
            Part::StoredInverse => "stored inverse",
            Part::C1 => "c1",
            Part::C2 => "c2",
        })
    }
}
