//! Every kind of damage to every call, compared with the reference and, where it is plain, with the code of documents 01 and 02.
mod common;
#[path = "common/library.rs"]
mod library;

use common::answers;
use common::cases::{run, Case, Count, Outcome, REFERENCE};
use common::damage::{self, Damage, Sound};
use common::random::Random;
use library::LIBRARY;

fn compare(count: &mut Count, case: &Case, code: Option<u32>) {
    let expected = run(&REFERENCE, case);
    assert!(code.map_or(true, |code| code == expected.code), "{}: the reference says {}", case.name, answers::shown(expected.code));
    count.add(&case.name, &expected, &run(&LIBRARY, case));
}

fn each_alone(what: &'static str, pick: fn(&Sound) -> &Case, seed: u64) {
    each_alone_of(what, &[1, 2], pick, seed);
}

/// Each kind of damage by itself, under a key for each size of the batch.
fn each_alone_of(what: &'static str, sizes: &[usize], pick: fn(&Sound) -> &Case, seed: u64) {
    let mut random = Random::new(seed);
    let mut count = Count::new(what);
    for &entries in sizes {
        let sound = Sound::with_entries(&mut random, entries);
        let case = pick(&sound);
        compare(&mut count, case, Some(0));
        for damage in damage::of(case, &mut random) {
            compare(&mut count, &damage.apply(case), damage.code);
        }
    }
    count.finish();
}

#[test]
fn keygen() {
    each_alone("damaged, keygen", |sound| &sound.keygen, 101);
}

#[test]
fn keygen_from_seed() {
    each_alone("damaged, keygen_from_seed", |sound| &sound.keygen_from_seed, 108);
}

#[test]
fn check_secret_key() {
    each_alone("damaged, check_secret_key", |sound| &sound.check_secret_key, 102);
}

#[test]
fn check_secret_key_expanded() {
    each_alone("damaged, check_secret_key on an expanded key", |sound| &sound.check_secret_key_expanded, 116);
}

#[test]
fn expand_secret_key() {
    each_alone("damaged, expand_secret_key", |sound| &sound.expand_secret_key, 117);
}

#[test]
fn compact_secret_key() {
    each_alone("damaged, compact_secret_key", |sound| &sound.compact_secret_key, 118);
}

#[test]
fn encapsulate() {
    each_alone("damaged, encapsulate", |sound| &sound.encapsulate, 103);
}

#[test]
fn encapsulate_seeded() {
    each_alone("damaged, encapsulate under a seeded key", |sound| &sound.encapsulate_seeded, 109);
}

#[test]
fn decapsulate() {
    each_alone("damaged, decapsulate", |sound| &sound.decapsulate, 104);
}

#[test]
fn decapsulate_expanded() {
    each_alone("damaged, decapsulate with an expanded key", |sound| &sound.decapsulate_expanded, 119);
}

#[test]
fn seal() {
    each_alone("damaged, seal", |sound| &sound.seal, 105);
}

#[test]
fn seal_seeded() {
    each_alone("damaged, seal under a seeded key", |sound| &sound.seal_seeded, 110);
}

#[test]
fn open() {
    each_alone("damaged, open", |sound| &sound.open, 106);
}

#[test]
fn open_expanded() {
    each_alone("damaged, open with an expanded key", |sound| &sound.open_expanded, 120);
}

#[test]
fn open_with_margin() {
    each_alone("damaged, open_with_margin", |sound| &sound.open_with_margin, 125);
}

#[test]
fn open_with_margin_expanded() {
    each_alone("damaged, open_with_margin with an expanded key", |sound| &sound.open_with_margin_expanded, 126);
}

/// Few and many entries, with both ends.
const SIZES: [usize; 5] = [1, 2, 3, 100, 255];

#[test]
fn seal_batch() {
    each_alone_of("damaged, seal_batch", &SIZES, |sound| &sound.seal_batch, 111);
}

#[test]
fn seal_batch_seeded() {
    each_alone_of("damaged, seal_batch under a seeded key", &SIZES, |sound| &sound.seal_batch_seeded, 112);
}

#[test]
fn open_batch() {
    each_alone_of("damaged, open_batch", &SIZES, |sound| &sound.open_batch, 113);
}

#[test]
fn open_batch_expanded() {
    each_alone_of("damaged, open_batch with an expanded key", &SIZES, |sound| &sound.open_batch_expanded, 121);
}

/// Every two checks of a call, and each with all that come after it: the first one is told.
fn in_order(count: &mut Count, case: &Case) {
    let faults = damage::in_order(case);
    for (i, first) in faults.iter().enumerate() {
        let later = &faults[i + 1..];
        compare(count, &first.apply(case), first.code);
        for second in later {
            compare(count, &second.apply(&first.apply(case)), first.code);
            compare(count, &first.apply(&second.apply(case)), first.code);
        }
        compare(count, &later.iter().fold(first.apply(case), |case, fault| fault.apply(&case)), first.code);
    }
}

#[test]
fn order_of_checks() {
    let mut random = Random::new(114);
    let mut count = Count::new("damaged, the order of checks on batches");
    for entries in SIZES {
        let sound = Sound::with_entries(&mut random, entries);
        for case in [&sound.seal_batch, &sound.seal_batch_seeded, &sound.open_batch, &sound.open_batch_expanded] {
            in_order(&mut count, case);
        }
    }
    count.finish();
}

#[test]
fn order_of_checks_on_secret_keys() {
    let mut random = Random::new(122);
    let mut count = Count::new("damaged, the order of checks on secret keys");
    for _ in 0..2 {
        let sound = Sound::new(&mut random);
        for case in [
            &sound.check_secret_key,
            &sound.check_secret_key_expanded,
            &sound.expand_secret_key,
            &sound.compact_secret_key,
            &sound.decapsulate,
            &sound.decapsulate_expanded,
            &sound.open,
            &sound.open_expanded,
            &sound.open_with_margin,
            &sound.open_with_margin_expanded,
        ] {
            in_order(&mut count, case);
        }
    }
    count.finish();
}

/// At each root of X^1024 + 1 alone b is 0, or the stored inverse another: compared with the number alone.
#[test]
fn every_root() {
    let mut random = Random::new(124);
    let mut count = Count::new("damaged, every root");
    let sound = Sound::new(&mut random);
    for case in [
        &sound.check_secret_key,
        &sound.check_secret_key_expanded,
        &sound.expand_secret_key,
        &sound.compact_secret_key,
        &sound.decapsulate_expanded,
        &sound.open_expanded,
        &sound.open_with_margin_expanded,
        &sound.open_batch_expanded,
    ] {
        for damage in damage::every_root(case) {
            let actual = run(&LIBRARY, &damage.apply(case));
            count.add(&damage.name, &Outcome { code: damage.code.unwrap(), ..actual.clone() }, &actual);
        }
    }
    count.finish();
}

/// Each conversion takes one version: what it has made, it refuses.
#[test]
fn the_other_version() {
    let mut random = Random::new(123);
    let mut count = Count::new("damaged, a key that is converted already");
    for _ in 0..4 {
        let sound = Sound::new(&mut random);
        let (plain, expanded) = (&sound.expand_secret_key, &sound.compact_secret_key);
        for (case, key) in [(plain, &expanded.inputs[0]), (expanded, &plain.inputs[0])] {
            for output in [4357, 6405] {
                let mut case = case.clone();
                // an output that is too short or too long is told first
                let code = if case.outputs[0] == output { 3 } else { 1 };
                case.name = format!("{}, {} bytes, output {output}", case.name, key.len());
                case.inputs[0].clone_from(key);
                case.outputs[0] = output;
                compare(&mut count, &case, Some(code));
            }
        }
    }
    count.finish();
}

/// Each opening takes one version: a batch at the opening of an entry and an entry at that of a batch, whole, cut or stretched to the
/// other's length, and under the other's version.
#[test]
fn the_other_record() {
    let mut random = Random::new(115);
    let mut count = Count::new("damaged, a batch as an entry and an entry as a batch");
    for entries in SIZES {
        let sound = Sound::with_entries(&mut random, entries);
        let mut lend = |case: &Case, record: &[u8], code: Option<u32>| {
            let mut case = case.clone();
            case.name = format!("{}, {} bytes of version {}", case.name, record.len(), record[3]);
            case.inputs[1] = record.to_vec();
            compare(&mut count, &case, code);
        };
        let with = |record: &[u8], version: u8, length: usize| {
            let mut other = record.to_vec();
            other.resize(length, 0);
            other[3] = version;
            other
        };
        let (entry, batch) = (&sound.open.inputs[1], &sound.open_batch.inputs[1]);
        for open in [&sound.open, &sound.open_with_margin] {
            lend(open, batch, Some(1));
            lend(open, &with(batch, 1, batch.len()), Some(1));
            lend(open, &with(batch, 2, 4133), Some(3));
            // c1 and c2 are those of another entry, so that there is a triple
            lend(open, &with(batch, 1, 4133), Some(10));
        }
        lend(&sound.open_batch, entry, Some(3));
        lend(&sound.open_batch, &with(entry, 1, batch.len()), Some(3));
        // the count is the first two bytes of a body
        lend(&sound.open_batch, &with(entry, 2, 4133), None);
        lend(&sound.open_batch, &with(entry, 2, batch.len()), None);
        lend(&sound.open_batch, &with(batch, 1, batch.len()), Some(3));
    }
    count.finish();
}

/// Two faults at once: the order of documents 01 and 02 decides.
#[test]
fn in_pairs() {
    let mut random = Random::new(107);
    let mut count = Count::new("damaged, two faults at once");
    let sound = Sound::new(&mut random);
    for case in sound.all() {
        let all = damage::of(case, &mut random);
        for _ in 0..400 {
            let (first, second): (&Damage, &Damage) = (random.pick(&all), random.pick(&all));
            compare(&mut count, &second.apply(&first.apply(case)), None);
        }
    }
    count.finish();
}
