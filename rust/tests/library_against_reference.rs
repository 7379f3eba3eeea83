//! The library beside the reference on random inputs: sound, damaged, of all lengths.
mod common;
#[path = "common/library.rs"]
mod library;

use common::cases::{run, Call, Case, Count, REFERENCE};
use common::damage::{self, Sound};
use common::random::Random;
use library::LIBRARY;

fn compare(count: &mut Count, case: &Case) {
    count.add(&case.name, &run(&REFERENCE, case), &run(&LIBRARY, case));
}

/// New keys, noise, entries and dummies, and a batch of every size: the bytes and numbers written are the same.
#[test]
fn sound_cases() {
    let mut random = Random::new(301);
    let mut count = Count::new("beside the reference, sound");
    for entries in 1..=255 {
        let sound = Sound::with_entries(&mut random, entries);
        for case in sound.all() {
            compare(&mut count, case);
        }
    }
    count.finish();
}

/// Up to three kinds of damage at once.
#[test]
fn damaged_cases() {
    let mut random = Random::new(302);
    let mut count = Count::new("beside the reference, damaged");
    for _ in 0..40 {
        let sound = Sound::new(&mut random);
        for case in sound.all() {
            let all = damage::of(case, &mut random);
            for _ in 0..6 {
                let faults = 1 + random.below(3);
                let damaged = (0..faults).fold(case.clone(), |case, _| random.pick(&all).apply(&case));
                compare(&mut count, &damaged);
            }
        }
    }
    count.finish();
}

/// One random byte or bit of one input changed: most places have no named kind of damage.
#[test]
fn changed_bytes() {
    let mut random = Random::new(303);
    let mut count = Count::new("beside the reference, a byte or a bit changed");
    for _ in 0..60 {
        let sound = Sound::new(&mut random);
        for case in sound.all() {
            for _ in 0..4 {
                let mut changed = case.clone();
                let input = random.below(changed.inputs.len());
                let at = random.below(changed.inputs[input].len());
                changed.inputs[input][at] ^= if random.below(2) == 0 { 1 << random.below(8) } else { 1 + random.below(255) as u8 };
                changed.name = format!("{}, input {input} at {at}", case.name);
                compare(&mut count, &changed);
            }
        }
    }
    count.finish();
}

/// Buffers of any length and any content.
#[test]
fn noise_of_all_lengths() {
    let mut random = Random::new(304);
    let mut count = Count::new("beside the reference, random bytes of random lengths");
    let sound = Sound::new(&mut random);
    for case in sound.all() {
        for turn in 0..500 {
            let mut other = case.clone();
            for input in &mut other.inputs {
                // every third time the lengths fit and only the content is random
                let length = if turn % 3 == 0 { input.len() } else { random.below(2 * input.len() + 2) };
                *input = random.bytes(length);
            }
            if turn % 3 == 1 {
                for length in &mut other.outputs {
                    *length = random.below(2 * *length + 2);
                }
            }
            other.name = format!("{}, turn {turn}", case.name);
            compare(&mut count, &other);
        }
    }
    count.finish();
}

/// Lengths around those of blocks, and random ones.
fn hash(what: &'static str, call: Call, rate: usize, seed: u64) {
    let mut random = Random::new(seed);
    let mut count = Count::new(what);
    let edges = [0, 1, 7, 8, rate - 1, rate, rate + 1, 2 * rate - 1, 2 * rate, 2 * rate + 1, 1000];
    let mut lengths: Vec<(usize, usize)> = edges.iter().flat_map(|&i| edges.map(|o| (i, o))).collect();
    lengths.extend((0..600).map(|_| (random.below(1200), random.below(1200))));
    lengths.extend([(100_000, 32), (32, 100_000)]);
    for (input, output) in lengths {
        let name = format!("{input} in, {output} out");
        compare(&mut count, &Case { name, call, inputs: vec![random.bytes(input)], outputs: vec![output] });
    }
    count.finish();
}

#[test]
fn shake128() {
    hash("beside the reference, shake128", Call::Shake128, 168, 306);
}

#[test]
fn shake256() {
    hash("beside the reference, shake256", Call::Shake256, 136, 305);
}
