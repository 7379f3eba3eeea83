//! The library's calls, over buffers of any length. They stand apart so that tests of the reference alone link no archive.
use crate::common::cases::Calls;

#[allow(dead_code)]
#[path = "../../src/ffi.rs"]
mod ffi;

// brings the archive
extern crate polka as _;

pub const LIBRARY: Calls = Calls {
    keygen: ffi::keygen,
    keygen_from_seed: ffi::keygen_from_seed,
    check_secret_key: ffi::check_secret_key,
    expand_secret_key: ffi::expand_secret_key,
    compact_secret_key: ffi::compact_secret_key,
    encapsulate: ffi::encapsulate,
    decapsulate: ffi::decapsulate,
    seal: ffi::seal,
    open: ffi::open,
    open_with_margin: ffi::open_with_margin,
    seal_batch: ffi::seal_batch,
    open_batch: ffi::open_batch,
    shake128: ffi::shake128,
    shake256: ffi::shake256,
};
