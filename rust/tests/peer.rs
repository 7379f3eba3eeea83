//! The Rust code that the benchmark times beside the library does the same work: it agrees with every vector. This file needs no archive.
mod common;
#[allow(dead_code)]
#[path = "../src/bin/bench/fast.rs"]
mod fast;

use common::cases::Calls;
use common::vectors;

const FAST: Calls = Calls {
    keygen: fast::keygen,
    keygen_from_seed: fast::keygen_from_seed,
    check_secret_key: fast::check_secret_key,
    expand_secret_key: fast::expand_secret_key,
    compact_secret_key: fast::compact_secret_key,
    encapsulate: fast::encapsulate,
    decapsulate: fast::decapsulate,
    seal: fast::seal,
    open: fast::open,
    open_with_margin: fast::open_with_margin,
    seal_batch: fast::seal_batch,
    open_batch: fast::open_batch,
    shake128: fast::shake128,
    shake256: fast::shake256,
};

#[test]
fn every_call_on_every_vector() {
    vectors::compare_keygen(&FAST);
    vectors::compare_keygen_from_seed(&FAST);
    vectors::compare_check_secret_key(&FAST);
    vectors::compare_expand_secret_key(&FAST);
    vectors::compare_compact_secret_key(&FAST);
    vectors::compare_encapsulate(&FAST);
    vectors::compare_decapsulate(&FAST);
    vectors::compare_seal(&FAST);
    vectors::compare_open(&FAST);
    vectors::compare_open_sealed_before(&FAST);
    vectors::compare_open_with_margin(&FAST);
    vectors::compare_seal_batch(&FAST);
    vectors::compare_open_batch(&FAST);
    vectors::compare_shake128(&FAST);
    vectors::compare_shake256(&FAST);
    vectors::compare_desk(&FAST);
}
