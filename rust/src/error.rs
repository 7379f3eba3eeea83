//! The refusals of documents 01 and 02.
use core::fmt;

use crate::location::Location;

/// Why a call refused. Nothing is returned beside it. Document 01, the buyer's scope, gives each refusal a number and a word, and each
/// call the order in which it looks for them; document 02, the buyer's change requests, adds 11 to 13, and a [`Location`] to 4 and 11.
///
/// Since 0.4 two cases carry a location. `CoefficientOutOfRange` is [`KeyOutOfRange`](Error::KeyOutOfRange) or
/// [`EncapsulationOutOfRange`](Error::EncapsulationOutOfRange), and there is no list `ALL` and no `from_number` any more, since a number
/// alone no longer tells the refusal: [`from_code`](Error::from_code) takes the export's whole answer.
#[derive(Clone, Copy, PartialEq, Eq, Hash, Debug)]
#[non_exhaustive]
pub enum Error {
    /// 1, misfit: a buffer hasn't its exact length.
    WrongLength,
    /// 2, stranger: the mark is another.
    WrongMark,
    /// 3, other issue: the version is none of the record, which is 2 in a batch, 1 or 2 in a secret key, and 1 in every other.
    WrongVersion,
    /// 4, off the ring: a word of a key is 59,393 or more.
    KeyOutOfRange(Location),
    /// 5, bad code: a two-bit code is 3.
    InvalidCode,
    /// 6, no unit: b has no inverse.
    NotInvertible,
    /// 7, parted key: b ÷ 5 − a × s is not ternary.
    KeyMismatch,
    /// 8, dry stream: under 1,024 words of the stream are below 59,393.
    StreamExhausted,
    /// 9, no triple: a step of the opening fails.
    DecapsulationFailure,
    /// 10, bad tag: the tag is not that of the body.
    TagMismatch,
    /// 11, off the ring: a word of an encapsulation, sealed entry or batch is 59,393 or more.
    EncapsulationOutOfRange(Location),
    /// 12, wrong count: a batch is of 1 to 255 entries.
    WrongCount,
    /// 13, inverse mismatch: in an expanded secret key b times the stored inverse is not 1.
    InverseMismatch,
    /// A code that this version does not know. The archive that it was made for gives none; a later one may.
    Unknown(u32),
}

impl Error {
    /// The refusal with this code, which is what an export answers (`include/polka.h`); 0 is none.
    ///
    /// ```
    /// use polka::Error;
    ///
    /// let error = Error::from_code(0x0011_450b).unwrap();
    /// assert_eq!(error.number(), 11);
    /// assert_eq!(error.location().unwrap().to_string(), "sealed entry, c2, word 17");
    /// assert_eq!(Error::from_code(10), Some(Error::TagMismatch));
    /// ```
    pub fn from_code(code: u32) -> Option<Error> {
        match code {
            0 => None,
            1 => Some(Error::WrongLength),
            2 => Some(Error::WrongMark),
            3 => Some(Error::WrongVersion),
            5 => Some(Error::InvalidCode),
            6 => Some(Error::NotInvertible),
            7 => Some(Error::KeyMismatch),
            8 => Some(Error::StreamExhausted),
            9 => Some(Error::DecapsulationFailure),
            10 => Some(Error::TagMismatch),
            12 => Some(Error::WrongCount),
            13 => Some(Error::InverseMismatch),
            _ => Some(Error::located(code).unwrap_or(Error::Unknown(code))),
        }
    }

    /// The refusals that have a location.
    fn located(code: u32) -> Option<Error> {
        let location = Location::from_code(code)?;
        match number(code) {
            4 => Some(Error::KeyOutOfRange(location)),
            11 => Some(Error::EncapsulationOutOfRange(location)),
            _ => None,
        }
    }

    /// Document 01's or 02's number, from 1.
    pub fn number(self) -> u32 {
        match self {
            Error::WrongLength => 1,
            Error::WrongMark => 2,
            Error::WrongVersion => 3,
            Error::KeyOutOfRange(_) => 4,
            Error::InvalidCode => 5,
            Error::NotInvertible => 6,
            Error::KeyMismatch => 7,
            Error::StreamExhausted => 8,
            Error::DecapsulationFailure => 9,
            Error::TagMismatch => 10,
            Error::EncapsulationOutOfRange(_) => 11,
            Error::WrongCount => 12,
            Error::InverseMismatch => 13,
            Error::Unknown(code) => number(code),
        }
    }

    /// Where the first bad word stands, under 4 and 11.
    pub fn location(self) -> Option<Location> {
        match self {
            Error::KeyOutOfRange(location) | Error::EncapsulationOutOfRange(location) => Some(location),
            _ => None,
        }
    }

    /// Document 01's word. Document 02 has none: 11 has that of 4, and 12 and 13 are called by their names.
    pub fn word(self) -> &'static str {
        match self {
            Error::WrongLength => "misfit",
            Error::WrongMark => "stranger",
            Error::WrongVersion => "other issue",
            Error::KeyOutOfRange(_) | Error::EncapsulationOutOfRange(_) => "off the ring",
            Error::InvalidCode => "bad code",
            Error::NotInvertible => "no unit",
            Error::KeyMismatch => "parted key",
            Error::StreamExhausted => "dry stream",
            Error::DecapsulationFailure => "no triple",
            Error::TagMismatch => "bad tag",
            Error::WrongCount => "wrong count",
            Error::InverseMismatch => "inverse mismatch",
            Error::Unknown(_) => "unknown",
        }
    }

    /// What is wrong, for people.
    pub fn meaning(self) -> &'static str {
        match self {
            Error::WrongLength => "a buffer has not its exact length",
            Error::WrongMark => "the record has another mark",
            Error::WrongVersion => "the record has another version",
            Error::KeyOutOfRange(_) => "a coefficient of the key is 59,393 or more",
            Error::InvalidCode => "a two-bit code is 3",
            Error::NotInvertible => "b of the key has no inverse",
            Error::KeyMismatch => "the parts of the secret key do not fit each other",
            Error::StreamExhausted => "the stream has too few words below 59,393",
            Error::DecapsulationFailure => "no triple has this encapsulation under this key",
            Error::TagMismatch => "the tag is not that of the body",
            Error::EncapsulationOutOfRange(_) => "a coefficient of the encapsulation is 59,393 or more",
            Error::WrongCount => "the batch has not 1 to 255 entries",
            Error::InverseMismatch => "the stored inverse is not that of b of the key",
            Error::Unknown(_) => "the archive gave an answer that this package does not know",
        }
    }

    /// The answer of an export.
    pub(crate) fn judge(code: u32) -> Result<(), Error> {
        Error::from_code(code).map_or(Ok(()), Err)
    }
}

/// The number of an export's code.
fn number(code: u32) -> u32 {
    code & 0xff
}

/// What is wrong, where if that is known, then number and word: `the tag is not that of the body (10, bad tag)`, or
/// `a coefficient of the key is 59,393 or more: secret key, b, word 17 (4, off the ring)`.
impl fmt::Display for Error {
    fn fmt(&self, f: &mut fmt::Formatter<'_>) -> fmt::Result {
        f.write_str(self.meaning())?;
        if let Some(location) = self.location() {
            write!(f, ": {location}")?;
        }
        write!(f, " ({}, {})", self.number(), self.word())
    }
}

impl core::error::Error for Error {}
