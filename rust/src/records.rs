//! The buffers of documents 01 and 02 as types that fix their lengths; a batch alone has one of many. They hold bytes of any content: each
//! call judges what it is lent.
use alloc::boxed::Box;
use alloc::vec;
use alloc::vec::Vec;
use core::fmt;
use core::ops::Deref;

use crate::error::Error;
use crate::ffi;

/// What all of them have.
macro_rules! bytes {
    ($(#[$comment:meta])* $name:ident, $length:expr) => {
        $(#[$comment])*
        pub struct $name(Box<[u8; $length]>);

        impl $name {
            /// How many bytes it has.
            pub const LENGTH: usize = $length;

            /// Filled in place by `fill`, a source of random bytes or a reader.
            pub fn filled_by<E>(fill: impl FnOnce(&mut [u8; $length]) -> Result<(), E>) -> Result<Self, E> {
                let mut bytes = Self::zeros();
                fill(&mut bytes.0)?;
                Ok(bytes)
            }

            /// Its bytes.
            pub fn as_bytes(&self) -> &[u8; $length] {
                &self.0
            }

            pub(crate) fn zeros() -> Self {
                $name(Box::new([0; $length]))
            }

            // a stream and noise are only read
            #[allow(dead_code)]
            pub(crate) fn as_mut_bytes(&mut self) -> &mut [u8; $length] {
                &mut self.0
            }
        }

        /// [`Error::WrongLength`] is the only refusal.
        impl TryFrom<&[u8]> for $name {
            type Error = Error;

            fn try_from(bytes: &[u8]) -> Result<Self, Error> {
                let bytes: &[u8; $length] = bytes.try_into().map_err(|_| Error::WrongLength)?;
                let mut result = Self::zeros();
                result.0.copy_from_slice(bytes);
                Ok(result)
            }
        }
    };
}

/// Bytes that anyone may see.
macro_rules! public_bytes {
    ($(#[$comment:meta])* $name:ident, $length:expr) => {
        bytes! {
            $(#[$comment])*
            #[derive(Clone, PartialEq, Eq)]
            $name, $length
        }

        impl From<[u8; $length]> for $name {
            fn from(bytes: [u8; $length]) -> Self {
                $name(Box::new(bytes))
            }
        }

        impl fmt::Debug for $name {
            fn fmt(&self, f: &mut fmt::Formatter<'_>) -> fmt::Result {
                show(f, stringify!($name), &self.0[..])
            }
        }
    };
}

/// The first bytes, and how many there are.
fn show(f: &mut fmt::Formatter<'_>, name: &str, bytes: &[u8]) -> fmt::Result {
    write!(f, "{name}(")?;
    for byte in bytes.iter().take(16) {
        write!(f, "{byte:02x}")?;
    }
    write!(f, ".., {} bytes)", bytes.len())
}

/// Bytes that nobody else may see. They stay in one place on the heap, so that a move leaves no copy behind, and are overwritten when
/// they go. There is no `Clone` and no `PartialEq`, and `Debug` tells only the length.
macro_rules! secret_bytes {
    ($(#[$comment:meta])* $name:ident, $length:expr) => {
        bytes! {
            $(#[$comment])*
            ///
            /// Secret: it cannot be copied or compared, `Debug` tells only its length, and its bytes are overwritten when it goes.
            $name, $length
        }

        /// The caller's own copy stays the caller's to overwrite.
        impl From<&[u8; $length]> for $name {
            fn from(bytes: &[u8; $length]) -> Self {
                let mut result = Self::zeros();
                result.0.copy_from_slice(bytes);
                result
            }
        }

        impl fmt::Debug for $name {
            fn fmt(&self, f: &mut fmt::Formatter<'_>) -> fmt::Result {
                write!(f, concat!(stringify!($name), "({} secret bytes)"), $length)
            }
        }

        impl Drop for $name {
            fn drop(&mut self) {
                ffi::wipe(&mut self.0[..]);
            }
        }
    };
}

public_bytes! {
    /// A public key: "PDK", version, a, b.
    PublicKey, 4101
}
public_bytes! {
    /// A public key half as long: "PDS", version, seed, b. Its a is read, as from a [`UniformStream`], from SHAKE128 of the seed.
    SeededPublicKey, 2085
}
public_bytes! {
    /// A sealed entry: "PLG", version, c1, c2, body, tag.
    SealedEntry, 4133
}
public_bytes! {
    /// The encapsulation of a triple: c1, c2. Document 01 calls it a bare capsule.
    Encapsulation, 4096
}
public_bytes! {
    /// Random bytes for a key: 1,344 words from which a is taken. The public key shows them.
    UniformStream, 2688
}
public_bytes! {
    /// Random bytes for a key, which stand for its a. The public key shows them.
    Seed, 32
}
secret_bytes! {
    /// A secret key: "SDK", version 1, a, b, s. Document 01 calls it a desk key.
    SecretKey, 4357
}
secret_bytes! {
    /// An expanded secret key, which carries the inverse of b: "SDK", version 2, a, b, s, inverse of b.
    /// [`expand_secret_key`](crate::expand_secret_key) makes it of a [`SecretKey`].
    ExpandedSecretKey, 6405
}
secret_bytes! {
    /// What is encapsulated: r, e1, e2, two bits a coefficient.
    Triple, 768
}
secret_bytes! {
    /// What is sealed.
    Entry, 16
}
secret_bytes! {
    /// Random bytes for the ternary polynomial s or e of a key.
    KeyNoise, 512
}
secret_bytes! {
    /// Random bytes for a triple: of a sealing, or the dummy of an opening.
    TripleNoise, 1536
}

/// A batch, 1 to 255 entries under one encapsulation: "PLG", version 2, c1, c2, count, body, tag. Document 02 calls it a heat.
///
/// It holds bytes of any length, which [`open_batch`](crate::open_batch) judges.
#[derive(Clone, PartialEq, Eq)]
pub struct SealedBatch(Box<[u8]>);

impl SealedBatch {
    /// The most entries that a batch can have.
    pub const MOST_ENTRIES: usize = 255;

    /// How many bytes a batch of so many entries has: 16 for each, and 4,119.
    pub const fn length(entries: usize) -> usize {
        4119 + Entry::LENGTH * entries
    }

    /// Its bytes.
    pub fn as_bytes(&self) -> &[u8] {
        &self.0
    }

    pub(crate) fn zeros(entries: usize) -> Self {
        vec![0; Self::length(entries)].into()
    }

    pub(crate) fn as_mut_bytes(&mut self) -> &mut [u8] {
        &mut self.0
    }
}

impl From<Vec<u8>> for SealedBatch {
    fn from(bytes: Vec<u8>) -> Self {
        SealedBatch(bytes.into())
    }
}

impl From<&[u8]> for SealedBatch {
    fn from(bytes: &[u8]) -> Self {
        SealedBatch(bytes.into())
    }
}

impl AsRef<[u8]> for SealedBatch {
    fn as_ref(&self) -> &[u8] {
        self.as_bytes()
    }
}

impl fmt::Debug for SealedBatch {
    fn fmt(&self, f: &mut fmt::Formatter<'_>) -> fmt::Result {
        show(f, "SealedBatch", self.as_bytes())
    }
}

/// The entries of a batch in a row, as the archive takes and writes them. They are overwritten when they go.
pub(crate) struct Entries(Box<[u8]>);

impl Entries {
    pub(crate) fn zeros(count: usize) -> Self {
        Entries(vec![0; Entry::LENGTH * count].into())
    }

    pub(crate) fn as_bytes(&self) -> &[u8] {
        &self.0
    }

    pub(crate) fn as_mut_bytes(&mut self) -> &mut [u8] {
        &mut self.0
    }

    /// The first of them, so many.
    pub(crate) fn first(&self, count: usize) -> Result<Vec<Entry>, Error> {
        self.0.chunks_exact(Entry::LENGTH).take(count).map(Entry::try_from).collect()
    }
}

impl From<&[Entry]> for Entries {
    fn from(entries: &[Entry]) -> Self {
        let mut result = Entries::zeros(entries.len());
        for (place, entry) in result.0.chunks_exact_mut(Entry::LENGTH).zip(entries) {
            place.copy_from_slice(entry.as_bytes());
        }
        result
    }
}

impl Drop for Entries {
    fn drop(&mut self) {
        ffi::wipe(&mut self.0);
    }
}

/// A public key as one of its two records, [`PublicKey`] or [`SeededPublicKey`]. [`seal`](crate::seal), [`seal_batch`](crate::seal_batch)
/// and [`encapsulate`](crate::encapsulate) take either, also as a `dyn PublicRecord`, and give the same under both where a and b are the
/// same.
pub trait PublicRecord: sealed::Sealed {
    /// Its bytes; their count tells the record.
    fn as_slice(&self) -> &[u8];
}

impl PublicRecord for PublicKey {
    fn as_slice(&self) -> &[u8] {
        self.as_bytes()
    }
}

impl PublicRecord for SeededPublicKey {
    fn as_slice(&self) -> &[u8] {
        self.as_bytes()
    }
}

/// A secret key as one of its two versions, [`SecretKey`] or [`ExpandedSecretKey`]. [`check_secret_key`](crate::check_secret_key),
/// [`decapsulate`](crate::decapsulate), [`open`](crate::open), [`open_with_margin`](crate::open_with_margin) and
/// [`open_batch`](crate::open_batch) take either, also as a `dyn SecretRecord`, and answer the same under both where a, b and s are those
/// of a sound key.
///
/// What points to a key, like `Arc<SecretKey>`, is lent in its place.
pub trait SecretRecord: sealed::Sealed {
    /// Its bytes; their count is that of the version.
    fn as_slice(&self) -> &[u8];
}

impl SecretRecord for SecretKey {
    fn as_slice(&self) -> &[u8] {
        self.as_bytes()
    }
}

impl SecretRecord for ExpandedSecretKey {
    fn as_slice(&self) -> &[u8] {
        self.as_bytes()
    }
}

// Where a call takes one type, a reference to a pointer to it becomes one to the type. It does not where the type is left open.
impl<P: Deref<Target: SecretRecord>> SecretRecord for P {
    fn as_slice(&self) -> &[u8] {
        (**self).as_slice()
    }
}

/// Keeps each trait to its two types: a length of neither record cannot be lent.
mod sealed {
    pub trait Sealed {}
    impl Sealed for super::PublicKey {}
    impl Sealed for super::SeededPublicKey {}
    impl Sealed for super::SecretKey {}
    impl Sealed for super::ExpandedSecretKey {}
    impl<P: core::ops::Deref<Target: Sealed>> Sealed for P {}
}

#[cfg(test)]
mod tests {
    #[test]
    fn wiping_leaves_zeros() {
        let mut bytes = [0xab_u8; 100];
        crate::ffi::wipe(&mut bytes[10..90]);
        assert!(bytes[10..90].iter().all(|&byte| byte == 0));
        assert!(bytes[..10].iter().chain(&bytes[90..]).all(|&byte| byte == 0xab));
        let mut numbers = [0xabab_abab_u32; 3];
        crate::ffi::wipe(&mut numbers[1..2]);
        assert_eq!(numbers, [0xabab_abab, 0, 0xabab_abab]);
    }
}
