//! The library on all vectors by other hands.
mod common;
#[path = "common/library.rs"]
mod library;

use common::vectors;
use library::LIBRARY;

#[test]
fn keygen() {
    vectors::compare_keygen(&LIBRARY);
}

#[test]
fn keygen_from_seed() {
    vectors::compare_keygen_from_seed(&LIBRARY);
}

#[test]
fn check_secret_key() {
    vectors::compare_check_secret_key(&LIBRARY);
}

#[test]
fn expand_secret_key() {
    vectors::compare_expand_secret_key(&LIBRARY);
}

#[test]
fn compact_secret_key() {
    vectors::compare_compact_secret_key(&LIBRARY);
}

#[test]
fn encapsulate() {
    vectors::compare_encapsulate(&LIBRARY);
}

#[test]
fn decapsulate() {
    vectors::compare_decapsulate(&LIBRARY);
}

#[test]
fn seal() {
    vectors::compare_seal(&LIBRARY);
}

#[test]
fn open() {
    vectors::compare_open(&LIBRARY);
}

#[test]
fn open_sealed_before() {
    vectors::compare_open_sealed_before(&LIBRARY);
}

#[test]
fn open_with_margin() {
    vectors::compare_open_with_margin(&LIBRARY);
}

#[test]
fn seal_batch() {
    vectors::compare_seal_batch(&LIBRARY);
}

#[test]
fn open_batch() {
    vectors::compare_open_batch(&LIBRARY);
}

#[test]
fn shake128() {
    vectors::compare_shake128(&LIBRARY);
}

#[test]
fn shake256() {
    vectors::compare_shake256(&LIBRARY);
}

#[test]
fn desk() {
    vectors::compare_desk(&LIBRARY);
}
