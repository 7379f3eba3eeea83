//! The independent implementation on all vectors: what the library is compared with is itself held against other hands' results.
//! This file needs no archive: POLKA_ARCHIVE=none cargo test --release --test reference_vectors
mod common;

use common::cases::{Count, REFERENCE};
use common::{reference, vectors};

#[test]
fn keygen() {
    vectors::compare_keygen(&REFERENCE);
}

#[test]
fn keygen_from_seed() {
    vectors::compare_keygen_from_seed(&REFERENCE);
}

#[test]
fn check_secret_key() {
    vectors::compare_check_secret_key(&REFERENCE);
}

#[test]
fn expand_secret_key() {
    vectors::compare_expand_secret_key(&REFERENCE);
}

#[test]
fn compact_secret_key() {
    vectors::compare_compact_secret_key(&REFERENCE);
}

#[test]
fn encapsulate() {
    vectors::compare_encapsulate(&REFERENCE);
}

#[test]
fn decapsulate() {
    vectors::compare_decapsulate(&REFERENCE);
}

#[test]
fn seal() {
    vectors::compare_seal(&REFERENCE);
}

#[test]
fn open() {
    vectors::compare_open(&REFERENCE);
}

#[test]
fn open_sealed_before() {
    vectors::compare_open_sealed_before(&REFERENCE);
}

#[test]
fn open_with_margin() {
    vectors::compare_open_with_margin(&REFERENCE);
}

#[test]
fn seal_batch() {
    vectors::compare_seal_batch(&REFERENCE);
}

#[test]
fn open_batch() {
    vectors::compare_open_batch(&REFERENCE);
}

#[test]
fn shake128() {
    vectors::compare_shake128(&REFERENCE);
}

#[test]
fn shake256() {
    vectors::compare_shake256(&REFERENCE);
}

#[test]
fn desk() {
    vectors::compare_desk(&REFERENCE);
}

fn element(bytes: &[u8]) -> reference::Element {
    bytes.chunks(2).map(|pair| u32::from(u16::from_le_bytes([pair[0], pair[1]]))).collect()
}

#[test]
fn products() {
    let mut count = Count::new("vectors, ring products");
    for vector in vectors::read("example_products", 2, 1) {
        let actual = reference::product(&element(&vector.inputs[0]), &element(&vector.inputs[1]));
        count.agree(&vector.name, actual == element(&vector.outputs[0]));
    }
    count.finish();
}

#[test]
fn inverses() {
    let mut count = Count::new("vectors, ring inverses");
    for vector in vectors::read("example_inverses", 1, 1) {
        let expected = (vector.number == 0).then(|| element(&vector.outputs[0]));
        count.agree(&vector.name, reference::inverse(&element(&vector.inputs[0])) == expected);
    }
    count.finish();
}

#[test]
fn field_products() {
    let mut count = Count::new("vectors, products in the tag's field");
    for vector in vectors::read("example_field_products", 2, 1) {
        let block = |field: &[u8]| -> [u8; 16] { field.try_into().unwrap() };
        let actual = reference::field_product(block(&vector.inputs[0]), block(&vector.inputs[1]));
        count.agree(&vector.name, actual == block(&vector.outputs[0]));
    }
    count.finish();
}

#[test]
fn noise() {
    let mut count = Count::new("vectors, noise");
    for vector in vectors::read("example_noise", 1, 1) {
        let actual = reference::noise_value(vectors::number(&vector.inputs[0]) as u8);
        count.agree(&vector.name, actual == vectors::number(&vector.outputs[0]) as i32);
    }
    count.finish();
}

#[test]
fn remainders() {
    let mut count = Count::new("vectors, centred values, remainders and quotients");
    for vector in vectors::read("example_remainders", 1, 3) {
        let centred = reference::centred(vectors::number(&vector.inputs[0]));
        let actual = [centred, reference::remainder_by_5(centred), reference::quotient_by_5(centred)];
        let expected: Vec<i32> = vector.outputs.iter().map(|field| vectors::number(field) as i32).collect();
        count.agree(&vector.name, actual[..] == expected[..]);
    }
    count.finish();
}

/// Remainder and quotient are found apart from each other, and belong together at every word.
#[test]
fn division_of_every_word() {
    let mut count = Count::new("every word, m = remainder + 5 x quotient");
    for word in 0..reference::Q {
        let m = reference::centred(word);
        let (remainder, quotient) = (reference::remainder_by_5(m), reference::quotient_by_5(m));
        let near = (-2..=2).contains(&remainder) && (-5939..=5939).contains(&quotient);
        count.agree(&format!("word {word}"), near && m == remainder + 5 * quotient);
    }
    count.finish();
}
