//! POLKA at 1,024 coefficients: safe Rust over the proved archive of the crate polka.
//!
//! A desk makes a key pair ([`keygen`], or [`keygen_from_seed`] for a public key half as long); a console seals 16-byte entries under the
//! public key ([`seal`]); the desk opens them ([`open`]). A batch has up to 255 entries under one encapsulation ([`seal_batch`],
//! [`open_batch`]). [`encapsulate`] and [`decapsulate`] are the scheme without an entry. A desk may keep its key expanded, with the inverse
//! of b, which then need not be found at each opening ([`expand_secret_key`], [`compact_secret_key`]). Its service staff see how near an
//! opening came to its edge ([`open_with_margin`]). Every call judges the records that it is lent, in the order that documents 01 and 02,
//! the buyer's scope and change requests, fix, and answers [`Error`] at the first fault. Where that is a word off the ring, it has a
//! [`Location`]: which record is damaged, and where.
//!
//! The library draws no random bytes. Streams, seeds and noise come from the caller and must be uniform and new each time. Noise is secret
//! too: it is taken by value and cannot be copied, so that none is used twice by accident.
//!
//! ```
//! use std::fs::File;
//! use std::io::Read;
//!
//! use polka::{Entry, Error, KeyNoise, TripleNoise, UniformStream};
//!
//! let mut random = File::open("/dev/urandom")?;
//!
//! // The desk makes a key pair. About one try in sixty is refused, and calls for new bytes.
//! let (public_key, secret_key) = loop {
//!     let stream = UniformStream::filled_by(|bytes| random.read_exact(bytes))?;
//!     let noise_s = KeyNoise::filled_by(|bytes| random.read_exact(bytes))?;
//!     let noise_e = KeyNoise::filled_by(|bytes| random.read_exact(bytes))?;
//!     match polka::keygen(&stream, noise_s, noise_e) {
//!         Err(Error::NotInvertible | Error::StreamExhausted) => continue,
//!         answer => break answer?,
//!     }
//! };
//!
//! // A console seals an entry.
//! let noise = TripleNoise::filled_by(|bytes| random.read_exact(bytes))?;
//! let sealed = polka::seal(&public_key, noise, &Entry::from(b"lane 4, 00:47.52"))?;
//!
//! // The desk opens it, and refuses it with another tag.
//! let dummy = TripleNoise::filled_by(|bytes| random.read_exact(bytes))?;
//! let entry = polka::open(&secret_key, &sealed, dummy)?;
//! assert_eq!(entry.as_bytes(), b"lane 4, 00:47.52");
//!
//! let mut changed = *sealed.as_bytes();
//! changed[4132] ^= 1;
//! let dummy = TripleNoise::filled_by(|bytes| random.read_exact(bytes))?;
//! assert_eq!(polka::open(&secret_key, &changed.into(), dummy).unwrap_err(), Error::TagMismatch);
//!
//! // Where a word of c2 is damaged, it is not the key that must be replaced.
//! changed[5 + 2 * (1024 + 17)..][..2].fill(0xff);
//! let dummy = TripleNoise::filled_by(|bytes| random.read_exact(bytes))?;
//! let error = polka::open(&secret_key, &changed.into(), dummy).unwrap_err();
//! assert_eq!(error.location().unwrap().to_string(), "sealed entry, c2, word 17");
//! # Ok::<(), Box<dyn std::error::Error>>(())
//! ```
//!
//! The package needs no standard library, only `alloc`: each record has its place on the heap. `include/polka.h` says how much stack
//! each call takes, and `docs/TRUST.md` what is proved and what is not.
#![no_std]
#![deny(unsafe_code)]
#![warn(missing_docs)]

extern crate alloc;

mod error;
// The only module with unsafe code.
#[allow(unsafe_code)]
mod ffi;
mod location;
mod margin;
mod records;

use alloc::vec::Vec;

use records::Entries;

pub use error::Error;
pub use location::{Location, Part, Record};
pub use margin::Margin;
pub use records::{
    Encapsulation, Entry, ExpandedSecretKey, KeyNoise, PublicKey, PublicRecord, SealedBatch, SealedEntry, SecretKey, SecretRecord, Seed,
    SeededPublicKey, Triple, TripleNoise, UniformStream,
};

/// Makes a key pair. It tries once: [`Error::StreamExhausted`] and [`Error::NotInvertible`] call for new bytes.
pub fn keygen(stream: &UniformStream, noise_s: KeyNoise, noise_e: KeyNoise) -> Result<(PublicKey, SecretKey), Error> {
    let mut public_key = PublicKey::zeros();
    let mut secret_key = SecretKey::zeros();
    Error::judge(ffi::keygen(
        stream.as_bytes(),
        noise_s.as_bytes(),
        noise_e.as_bytes(),
        public_key.as_mut_bytes(),
        secret_key.as_mut_bytes(),
    ))?;
    Ok((public_key, secret_key))
}

/// Makes a key pair whose public key is half as long, since it holds a seed in place of a. The secret key is like any other. It tries once:
/// [`Error::StreamExhausted`] and [`Error::NotInvertible`] call for new bytes.
///
/// ```
/// use std::fs::File;
/// use std::io::Read;
///
/// use polka::{Entry, Error, KeyNoise, Seed, TripleNoise};
///
/// let mut random = File::open("/dev/urandom")?;
/// let (public_key, secret_key) = loop {
///     let seed = Seed::filled_by(|bytes| random.read_exact(bytes))?;
///     let noise_s = KeyNoise::filled_by(|bytes| random.read_exact(bytes))?;
///     let noise_e = KeyNoise::filled_by(|bytes| random.read_exact(bytes))?;
///     match polka::keygen_from_seed(&seed, noise_s, noise_e) {
///         Err(Error::NotInvertible | Error::StreamExhausted) => continue,
///         answer => break answer?,
///     }
/// };
/// assert_eq!(public_key.as_bytes().len(), 2085);
///
/// // It seals as a long one does.
/// let noise = TripleNoise::filled_by(|bytes| random.read_exact(bytes))?;
/// let sealed = polka::seal(&public_key, noise, &Entry::from(b"lane 4, 00:47.52"))?;
/// let dummy = TripleNoise::filled_by(|bytes| random.read_exact(bytes))?;
/// assert_eq!(polka::open(&secret_key, &sealed, dummy)?.as_bytes(), b"lane 4, 00:47.52");
/// # Ok::<(), Box<dyn std::error::Error>>(())
/// ```
pub fn keygen_from_seed(seed: &Seed, noise_s: KeyNoise, noise_e: KeyNoise) -> Result<(SeededPublicKey, SecretKey), Error> {
    let mut public_key = SeededPublicKey::zeros();
    let mut secret_key = SecretKey::zeros();
    Error::judge(ffi::keygen_from_seed(
        seed.as_bytes(),
        noise_s.as_bytes(),
        noise_e.as_bytes(),
        public_key.as_mut_bytes(),
        secret_key.as_mut_bytes(),
    ))?;
    Ok((public_key, secret_key))
}

/// Whether a secret key of either version is sound: b is a unit, and 5 × (a × s + e) for some ternary e; and the inverse that is stored is
/// that of b.
pub fn check_secret_key(secret_key: &(impl SecretRecord + ?Sized)) -> Result<(), Error> {
    Error::judge(ffi::check_secret_key(secret_key.as_slice()))
}

/// The expanded form of a sound secret key: the same a, b and s, and the inverse of b. It answers as the other does.
///
/// ```
/// use std::fs::File;
/// use std::io::Read;
///
/// use polka::{Entry, Error, KeyNoise, Seed, TripleNoise};
///
/// let mut random = File::open("/dev/urandom")?;
/// let (public_key, secret_key) = loop {
///     let seed = Seed::filled_by(|bytes| random.read_exact(bytes))?;
///     let noise_s = KeyNoise::filled_by(|bytes| random.read_exact(bytes))?;
///     let noise_e = KeyNoise::filled_by(|bytes| random.read_exact(bytes))?;
///     match polka::keygen_from_seed(&seed, noise_s, noise_e) {
///         Err(Error::NotInvertible | Error::StreamExhausted) => continue,
///         answer => break answer?,
///     }
/// };
///
/// // The desk converts its key once, and opens with it.
/// let expanded_key = polka::expand_secret_key(&secret_key)?;
/// let noise = TripleNoise::filled_by(|bytes| random.read_exact(bytes))?;
/// let sealed = polka::seal(&public_key, noise, &Entry::from(b"lane 4, 00:47.52"))?;
/// let dummy = TripleNoise::filled_by(|bytes| random.read_exact(bytes))?;
/// assert_eq!(polka::open(&expanded_key, &sealed, dummy)?.as_bytes(), b"lane 4, 00:47.52");
///
/// // For an old desk it is made shorter again.
/// assert_eq!(polka::compact_secret_key(&expanded_key)?.as_bytes(), secret_key.as_bytes());
/// # Ok::<(), Box<dyn std::error::Error>>(())
/// ```
pub fn expand_secret_key(secret_key: &SecretKey) -> Result<ExpandedSecretKey, Error> {
    let mut expanded_key = ExpandedSecretKey::zeros();
    Error::judge(ffi::expand_secret_key(secret_key.as_bytes(), expanded_key.as_mut_bytes()))?;
    Ok(expanded_key)
}

/// The secret key of which a sound expanded one was made, for desks that know no other.
pub fn compact_secret_key(expanded_key: &ExpandedSecretKey) -> Result<SecretKey, Error> {
    let mut secret_key = SecretKey::zeros();
    Error::judge(ffi::compact_secret_key(expanded_key.as_bytes(), secret_key.as_mut_bytes()))?;
    Ok(secret_key)
}

/// The encapsulation of a triple under a public key of either record. Document 01 calls this capsule making.
pub fn encapsulate(public_key: &(impl PublicRecord + ?Sized), triple: &Triple) -> Result<Encapsulation, Error> {
    let mut encapsulation = Encapsulation::zeros();
    Error::judge(ffi::encapsulate(public_key.as_slice(), triple.as_bytes(), encapsulation.as_mut_bytes()))?;
    Ok(encapsulation)
}

/// The triple of an encapsulation, with a secret key of either version. The dummy has no part in the answer. Document 01 calls this bare
/// opening.
pub fn decapsulate(secret_key: &(impl SecretRecord + ?Sized), encapsulation: &Encapsulation, dummy: Triple) -> Result<Triple, Error> {
    let mut triple = Triple::zeros();
    Error::judge(ffi::decapsulate(secret_key.as_slice(), encapsulation.as_bytes(), dummy.as_bytes(), triple.as_mut_bytes()))?;
    Ok(triple)
}

/// Seals an entry under a public key of either record. The noise is the whole secret of this one sealing, and none is left for a second
/// one:
///
/// ```compile_fail,E0382
/// use polka::{Entry, PublicKey, TripleNoise};
///
/// fn twice(key: &PublicKey, noise: TripleNoise, entries: [Entry; 2]) {
///     let first = polka::seal(key, noise, &entries[0]);
///     let second = polka::seal(key, noise, &entries[1]);
/// }
/// ```
pub fn seal(public_key: &(impl PublicRecord + ?Sized), noise: TripleNoise, entry: &Entry) -> Result<SealedEntry, Error> {
    let mut sealed = SealedEntry::zeros();
    Error::judge(ffi::seal(public_key.as_slice(), noise.as_bytes(), entry.as_bytes(), sealed.as_mut_bytes()))?;
    Ok(sealed)
}

/// Opens a sealed entry with a secret key of either version. The dummy noise has no part in the answer.
pub fn open(secret_key: &(impl SecretRecord + ?Sized), sealed: &SealedEntry, dummy_noise: TripleNoise) -> Result<Entry, Error> {
    let mut entry = Entry::zeros();
    Error::judge(ffi::open(secret_key.as_slice(), sealed.as_bytes(), dummy_noise.as_bytes(), entry.as_mut_bytes()))?;
    Ok(entry)
}

/// Opens a sealed entry as [`open`] does, and tells how near the opening came to its edge, for the desk's service screen. Entry and refusal
/// are those of [`open`], and the dummy noise has no part in them. The margin does vary with it, and belongs to the desk's secret side: it
/// tells about the secret key and the triple. Show it to service staff at the desk only; never send it to a console, nor write it to a log
/// that leaves the desk.
///
/// ```
/// use std::fs::File;
/// use std::io::Read;
///
/// use polka::{Entry, Error, KeyNoise, Margin, Seed, TripleNoise};
///
/// let mut random = File::open("/dev/urandom")?;
/// let (public_key, secret_key) = loop {
///     let seed = Seed::filled_by(|bytes| random.read_exact(bytes))?;
///     let noise_s = KeyNoise::filled_by(|bytes| random.read_exact(bytes))?;
///     let noise_e = KeyNoise::filled_by(|bytes| random.read_exact(bytes))?;
///     match polka::keygen_from_seed(&seed, noise_s, noise_e) {
///         Err(Error::NotInvertible | Error::StreamExhausted) => continue,
///         answer => break answer?,
///     }
/// };
///
/// let noise = TripleNoise::filled_by(|bytes| random.read_exact(bytes))?;
/// let sealed = polka::seal(&public_key, noise, &Entry::from(b"lane 4, 00:47.52"))?;
/// let dummy = TripleNoise::filled_by(|bytes| random.read_exact(bytes))?;
/// let (entry, margin) = polka::open_with_margin(&secret_key, &sealed, dummy)?;
/// assert_eq!(entry.as_bytes(), b"lane 4, 00:47.52");
///
/// // The service screen shows the number; `Debug` does not, so that no log has it by accident.
/// assert!(margin.value() <= Margin::LARGEST);
/// assert_eq!(format!("{margin:?}"), "Margin(a secret number)");
/// # Ok::<(), Box<dyn std::error::Error>>(())
/// ```
pub fn open_with_margin(
    secret_key: &(impl SecretRecord + ?Sized),
    sealed: &SealedEntry,
    dummy_noise: TripleNoise,
) -> Result<(Entry, Margin), Error> {
    let mut entry = Entry::zeros();
    let mut margin = Margin::zero();
    Error::judge(ffi::open_with_margin(
        secret_key.as_slice(),
        sealed.as_bytes(),
        dummy_noise.as_bytes(),
        entry.as_mut_bytes(),
        margin.as_mut_number(),
    ))?;
    Ok((entry, margin))
}

/// Seals 1 to 255 entries as one batch under a public key of either record. That takes 16 bytes an entry and one encapsulation for all of
/// them, where [`seal`] takes one for each. The noise is the whole secret of this one sealing.
///
/// ```
/// use std::fs::File;
/// use std::io::Read;
///
/// use polka::{Entry, Error, KeyNoise, SealedBatch, Seed, TripleNoise};
///
/// let mut random = File::open("/dev/urandom")?;
/// let (public_key, secret_key) = loop {
///     let seed = Seed::filled_by(|bytes| random.read_exact(bytes))?;
///     let noise_s = KeyNoise::filled_by(|bytes| random.read_exact(bytes))?;
///     let noise_e = KeyNoise::filled_by(|bytes| random.read_exact(bytes))?;
///     match polka::keygen_from_seed(&seed, noise_s, noise_e) {
///         Err(Error::NotInvertible | Error::StreamExhausted) => continue,
///         answer => break answer?,
///     }
/// };
///
/// let heat = [b"lane 3, 00:48.10", b"lane 4, 00:47.52", b"lane 5, 00:47.90"];
/// let noise = TripleNoise::filled_by(|bytes| random.read_exact(bytes))?;
/// let batch = polka::seal_batch(&public_key, noise, &heat.map(Entry::from))?;
/// assert_eq!(batch.as_bytes().len(), SealedBatch::length(3));
///
/// // The desk gets all of them, in their order, or none.
/// let dummy = TripleNoise::filled_by(|bytes| random.read_exact(bytes))?;
/// let entries = polka::open_batch(&secret_key, &batch, dummy)?;
/// assert!(entries.iter().map(Entry::as_bytes).eq(heat));
///
/// // None at all is no batch, and neither are 256.
/// let noise = TripleNoise::filled_by(|bytes| random.read_exact(bytes))?;
/// assert_eq!(polka::seal_batch(&public_key, noise, &[]).unwrap_err(), Error::WrongCount);
/// # Ok::<(), Box<dyn std::error::Error>>(())
/// ```
pub fn seal_batch(public_key: &(impl PublicRecord + ?Sized), noise: TripleNoise, entries: &[Entry]) -> Result<SealedBatch, Error> {
    let mut batch = SealedBatch::zeros(entries.len());
    Error::judge(ffi::seal_batch(public_key.as_slice(), noise.as_bytes(), Entries::from(entries).as_bytes(), batch.as_mut_bytes()))?;
    Ok(batch)
}

/// Opens a batch with a secret key of either version: all entries in their order, or none. A batch that was read is lent as its bytes, of
/// whatever length. The dummy noise has no part in the answer. A sealed entry is no batch, not even of one: it is answered
/// [`Error::WrongVersion`].
///
/// ```
/// use polka::{Error, SecretKey, TripleNoise};
///
/// fn first_of(secret_key: &SecretKey, read: &[u8], dummy: TripleNoise) -> Result<[u8; 16], Error> {
///     Ok(*polka::open_batch(secret_key, read, dummy)?[0].as_bytes())
/// }
/// ```
pub fn open_batch(
    secret_key: &(impl SecretRecord + ?Sized),
    batch: &(impl AsRef<[u8]> + ?Sized),
    dummy_noise: TripleNoise,
) -> Result<Vec<Entry>, Error> {
    let mut entries = Entries::zeros(SealedBatch::MOST_ENTRIES);
    let mut count = 0;
    Error::judge(ffi::open_batch(secret_key.as_slice(), batch.as_ref(), dummy_noise.as_bytes(), entries.as_mut_bytes(), &mut count))?;
    entries.first(count as usize)
}

/// Fills `out` with the first bytes of SHAKE128 of `input`; both may have any length.
///
/// ```
/// let mut out = [0; 4];
/// polka::shake128(b"", &mut out);
/// assert_eq!(out, [0x7f, 0x9c, 0x2b, 0xa4]);
/// ```
pub fn shake128(input: &[u8], out: &mut [u8]) {
    ffi::shake128(input, out);
}

/// Fills `out` with the first bytes of SHAKE256 of `input`; both may have any length.
///
/// ```
/// let mut out = [0; 4];
/// polka::shake256(b"", &mut out);
/// assert_eq!(out, [0x46, 0xb9, 0xdd, 0x2b]);
/// ```
pub fn shake256(input: &[u8], out: &mut [u8]) {
    ffi::shake256(input, out);
}
