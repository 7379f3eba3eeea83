//! Where a word is off the ring: every part of every record in every call that reads it, compared with the reference and with what was put
//! there.
mod common;
#[path = "common/library.rs"]
mod library;

use common::answers;
use common::cases::{run, Case, Count, Outcome, REFERENCE};
use common::damage::{self, words_of, Sound, Words};
use common::random::Random;
use common::reference::{N, Q};
use library::LIBRARY;

/// A part, an index in it, and the word that goes there.
type Put = (Words, usize, u32);

fn damaged(case: &Case, puts: &[Put]) -> Case {
    let mut damaged = case.clone();
    for &(part, index, value) in puts {
        part.put(&mut damaged, index, value);
    }
    // the name tells the first of many
    for &(part, index, value) in puts.iter().take(3) {
        damaged.name += &format!(", {}", part.name(index, value));
    }
    damaged
}

/// The reference names what was put there, and the library answers as the reference does.
fn compare(count: &mut Count, case: &Case, puts: &[Put], code: u32) {
    let case = damaged(case, puts);
    let expected = run(&REFERENCE, &case);
    assert_eq!(expected.code, code, "{}: the reference answers {}", case.name, answers::shown(expected.code));
    count.add(&case.name, &expected, &run(&LIBRARY, &case));
}

/// The largest good word on both sides of a place.
fn neighbours(part: Words, index: usize) -> impl Iterator<Item = Put> {
    [index.wrapping_sub(1), index + 1].into_iter().filter(|&beside| beside < N).map(move |beside| (part, beside, Q - 1))
}

/// Each part of each record that a call reads, with the call.
fn each_part(random: &mut Random, mut visit: impl FnMut(&mut Random, &Case, Words)) {
    let sound = Sound::new(random);
    for case in sound.all() {
        for part in words_of(case) {
            visit(random, case, part);
        }
    }
}

#[test]
fn one_bad_word() {
    let mut random = Random::new(801);
    let mut count = Count::new("locations, one bad word");
    each_part(&mut random, |random, case, part| {
        let places = [0, 1, 2, 511, 512, 1021, 1022, 1023].into_iter().chain((0..4).map(|_| random.below(N)));
        for index in places {
            for value in [Q, Q + 1, 65_535] {
                let puts: Vec<Put> = neighbours(part, index).chain([(part, index, value)]).collect();
                compare(&mut count, case, &puts, part.code(index));
            }
        }
    });
    count.finish();
}

/// Whatever it makes of the key or the entry, it is on the ring.
#[test]
fn largest_good_word() {
    let mut random = Random::new(802);
    let mut count = Count::new("locations, the largest good word");
    each_part(&mut random, |random, case, part| {
        for index in [0, 511, 1023, random.below(N)] {
            let case = damaged(case, &[(part, index, Q - 1)]);
            let expected = run(&REFERENCE, &case);
            assert!(![4, 11].contains(&answers::number(expected.code)), "{}", case.name);
            count.add(&case.name, &expected, &run(&LIBRARY, &case));
        }
    });
    count.finish();
}

#[test]
fn two_bad_words_in_one_part() {
    let mut random = Random::new(803);
    let mut count = Count::new("locations, two bad words in one part");
    each_part(&mut random, |random, case, part| {
        let mut pairs = vec![(0, 1), (0, 1023), (511, 512), (1022, 1023)];
        for _ in 0..4 {
            let first = random.below(N - 1);
            pairs.push((first, first + 1 + random.below(N - 1 - first)));
        }
        for (first, second) in pairs {
            for (value, other) in [(Q, 65_535), (65_535, Q)] {
                compare(&mut count, case, &[(part, first, value), (part, second, other)], part.code(first));
            }
        }
    });
    count.finish();
}

/// In both parts of a record, and in key and entry: the part that is judged first is named, wherever the words stand in them.
#[test]
fn bad_words_in_two_parts() {
    let mut random = Random::new(804);
    let mut count = Count::new("locations, bad words in two parts");
    let sound = Sound::new(&mut random);
    for case in sound.all() {
        let parts = words_of(case);
        for (i, &first) in parts.iter().enumerate() {
            for &second in &parts[i + 1..] {
                for (at, other) in [(0, 0), (0, 1023), (1023, 0), (1023, 1023), (random.below(N), random.below(N))] {
                    for (value, other_value) in [(Q, 65_535), (65_535, Q)] {
                        compare(&mut count, case, &[(second, other, other_value), (first, at, value)], first.code(at));
                    }
                }
            }
        }
    }
    count.finish();
}

/// No word is good.
#[test]
fn only_bad_words() {
    let mut random = Random::new(805);
    let mut count = Count::new("locations, only bad words");
    each_part(&mut random, |_, case, part| {
        let puts: Vec<Put> = (0..N).map(|index| (part, index, Q + index as u32)).collect();
        compare(&mut count, case, &puts, part.code(0));
    });
    let sound = Sound::new(&mut random);
    for case in sound.all() {
        let parts = words_of(case);
        let puts: Vec<Put> = parts.iter().flat_map(|&part| (0..N).map(move |index| (part, index, 65_535))).collect();
        if let Some(first) = parts.first() {
            compare(&mut count, case, &puts, first.code(0));
        }
    }
    count.finish();
}

/// A bad word beside each other kind of damage: the order of checks decides.
#[test]
fn beside_other_damage() {
    let mut random = Random::new(806);
    let mut count = Count::new("locations, beside other damage");
    let sound = Sound::new(&mut random);
    for case in sound.all() {
        let parts = words_of(case);
        for damage in damage::of(case, &mut random) {
            for &part in &parts {
                let case = damaged(&damage.apply(case), &[(part, random.below(N), *random.pick(&[Q, 65_535]))]);
                count.add(&case.name, &run(&REFERENCE, &case), &run(&LIBRARY, &case));
            }
        }
    }
    count.finish();
}

/// Each of the 1,024 words of each part, compared with what was put there alone.
#[test]
fn every_word() {
    let mut random = Random::new(807);
    let mut count = Count::new("locations, every word");
    each_part(&mut random, |_, case, part| {
        for index in 0..N {
            for value in [Q, 65_535] {
                let case = damaged(case, &[(part, index, value)]);
                let actual = run(&LIBRARY, &case);
                count.add(&case.name, &Outcome { code: part.code(index), ..actual.clone() }, &actual);
            }
        }
    });
    count.finish();
}
