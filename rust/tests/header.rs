//! include/polka.h and this package say the same: lengths, the largest margin, numbers, words, what a code holds, version. Linking looks
//! only at the names of calls: that their arguments fit shows in the vectors, which both C and Rust run.
mod common;

use std::fs;
use std::path::Path;
use std::process::Command;

use common::random::Random;
use polka::{
    Encapsulation, Entry, Error, ExpandedSecretKey, KeyNoise, Margin, Part, PublicKey, Record, SealedBatch, SealedEntry, SecretKey, Seed,
    SeededPublicKey, Triple, TripleNoise, UniformStream,
};

const HEADER: &str = include_str!("../../include/polka.h");

/// What `#define NAME VALUE` or `NAME = VALUE` gives it.
fn value(name: &str) -> &'static str {
    let given = |line: &'static str| {
        let line = line.trim_start();
        let line = line.strip_prefix("#define ").unwrap_or(line);
        let rest = line.strip_prefix(name)?.strip_prefix(' ')?;
        rest.trim_start_matches("= ").split([' ', ',']).next()
    };
    HEADER.lines().find_map(given).unwrap_or_else(|| panic!("polka.h has no {name}"))
}

#[test]
fn lengths() {
    let all = [
        ("PUBLIC_KEY", PublicKey::LENGTH),
        ("SEEDED_PUBLIC_KEY", SeededPublicKey::LENGTH),
        ("SECRET_KEY", SecretKey::LENGTH),
        ("EXPANDED_SECRET_KEY", ExpandedSecretKey::LENGTH),
        ("SEALED_ENTRY", SealedEntry::LENGTH),
        ("ENCAPSULATION", Encapsulation::LENGTH),
        ("TRIPLE", Triple::LENGTH),
        ("ENTRY", Entry::LENGTH),
        ("UNIFORM_STREAM", UniformStream::LENGTH),
        ("SEED", Seed::LENGTH),
        ("KEY_NOISE", KeyNoise::LENGTH),
        ("TRIPLE_NOISE", TripleNoise::LENGTH),
        ("BATCH_ENTRIES", SealedBatch::MOST_ENTRIES * Entry::LENGTH),
    ];
    for (name, length) in all {
        assert_eq!(value(&format!("POLKA_{name}_LENGTH")), length.to_string());
    }
    let names = HEADER.lines().filter_map(|line| line.strip_prefix("#define ")?.split(' ').next());
    let defined = names.filter(|name| name.ends_with("_LENGTH"));
    assert_eq!(defined.count(), all.len());
    assert_eq!(value("POLKA_BATCH_MOST_ENTRIES"), SealedBatch::MOST_ENTRIES.to_string());
}

#[test]
fn largest_margin() {
    assert_eq!(value("POLKA_LARGEST_MARGIN"), Margin::LARGEST.to_string());
}

/// WrongLength is WRONG_LENGTH; what a case carries is left out.
fn c_name(case: &impl std::fmt::Debug) -> String {
    let case = format!("{case:?}");
    let name = case.split('(').next().unwrap();
    let starts = |at: usize, c: char| at > 0 && c.is_uppercase();
    name.char_indices().map(|(at, c)| format!("{}{}", if starts(at, c) { "_" } else { "" }, c.to_ascii_uppercase())).collect()
}

/// What the header names so, in decimal.
fn c_value(prefix: &str, case: &impl std::fmt::Debug) -> u32 {
    value(&format!("POLKA_{prefix}{}", c_name(case))).parse().unwrap()
}

/// How many lines of the header give a name that starts so a value.
fn named(prefix: &str) -> usize {
    HEADER.lines().filter(|line| line.trim_start().starts_with(prefix) && line.contains(" = ")).count()
}

const RECORDS: [Record; 5] = [Record::PublicKey, Record::SeededPublicKey, Record::SecretKey, Record::SealedEntry, Record::Encapsulation];
const PARTS: [Part; 5] = [Part::A, Part::B, Part::StoredInverse, Part::C1, Part::C2];

/// The code of a bad word, by the bits that the header states.
fn located(number: u32, record: u32, part: u32, index: u32) -> u32 {
    number | part << 8 | record << 12 | index << 16
}

#[test]
fn numbers_and_words() {
    assert_eq!(value("POLKA_DONE"), "0");
    for number in 1..=13 {
        // 4 and 11 come with a bad word
        let code = if [4, 11].contains(&number) { located(number, 1, 1, 0) } else { number };
        let error = Error::from_code(code).unwrap();
        assert_eq!(error.number(), number);
        assert_eq!(c_value("", &error), number);
        assert!(HEADER.contains(&format!("/* {}: ", error.word())), "{}", error.word());
    }
    assert_eq!(named("POLKA_") - named("POLKA_RECORD_") - named("POLKA_PART_"), 14);
}

/// Every record with every part, at both ends of the index.
fn located_codes() -> Vec<u32> {
    let mut all = vec![];
    for record in RECORDS.map(|record| c_value("RECORD_", &record)) {
        for part in PARTS.map(|part| c_value("PART_", &part)) {
            all.extend([0, 17, 1023].into_iter().flat_map(|index| [4, 11].map(|number| located(number, record, part, index))));
        }
    }
    all
}

#[test]
fn records_and_parts() {
    assert_eq!((named("POLKA_RECORD_"), named("POLKA_PART_")), (RECORDS.len(), PARTS.len()));
    for code in located_codes() {
        let location = Error::from_code(code).unwrap().location().unwrap();
        let (record, part) = (c_value("RECORD_", &location.record()), c_value("PART_", &location.part()));
        assert_eq!(located(code & 0xff, record, part, location.index() as u32), code);
    }
}

/// A line for each code: its number, record, part, index and place by the header's functions.
const FIELDS_OF_CODES: &str = r#"
#include <stdio.h>
#include <stdlib.h>

#include "polka.h"

int main(int count, char **codes) {
    for (int i = 1; i < count; i++) {
        uint32_t code = (uint32_t)strtoul(codes[i], NULL, 10);
        printf("%u %u %u %u %u\n", (unsigned)polka_number(code), (unsigned)polka_record(code), (unsigned)polka_part(code),
               (unsigned)polka_index(code), (unsigned)polka_place(code));
    }
    return 0;
}
"#;

/// A line for each count of entries: how long the batch is by the header.
const LENGTHS_OF_BATCHES: &str = r#"
#include <stdio.h>
#include <stdlib.h>

#include "polka.h"

static const unsigned char largest[POLKA_BATCH_LENGTH(POLKA_BATCH_MOST_ENTRIES)];

int main(int count, char **counts) {
    for (int i = 1; i < count; i++) {
        printf("%zu\n", POLKA_BATCH_LENGTH(strtoul(counts[i], NULL, 10)));
    }
    printf("%zu\n", sizeof largest);
    return 0;
}
"#;

/// What this program prints for these numbers.
fn printed(name: &str, text: &str, numbers: &[u32]) -> String {
    let room = Path::new(env!("CARGO_TARGET_TMPDIR"));
    let (source, program) = (room.join(format!("{name}.c")), room.join(name));
    fs::write(&source, text).unwrap();
    let include = Path::new(env!("CARGO_MANIFEST_DIR")).join("../include");
    let compiler = std::env::var_os("CC").unwrap_or("cc".into());
    let compiled = Command::new(compiler).arg("-I").arg(include).arg(source).arg("-o").arg(&program).status();
    assert!(compiled.expect("a C compiler").success());
    let output = Command::new(program).args(numbers.iter().map(u32::to_string)).output().unwrap();
    String::from_utf8(output.stdout).unwrap()
}

/// Of any code the header's functions give the bits from which the package reads the known ones.
#[test]
fn fields_of_a_code() {
    let mut random = Random::new(701);
    let codes: Vec<u32> = (0..=13).chain(located_codes()).chain((0..1000).map(|_| random.next() as u32)).collect();
    let line = |code: &u32| format!("{} {} {} {} {}\n", code & 0xff, code >> 12 & 0xf, code >> 8 & 0xf, code >> 16 & 0xfff, code >> 28);
    assert_eq!(printed("fields", FIELDS_OF_CODES, &codes), codes.iter().map(line).collect::<String>());
}

#[test]
fn lengths_of_batches() {
    let counts: Vec<u32> = (0..=SealedBatch::MOST_ENTRIES as u32 + 1).collect();
    let lengths = counts.iter().map(|&count| SealedBatch::length(count as usize));
    let lines = lengths.chain([SealedBatch::length(SealedBatch::MOST_ENTRIES)]).map(|length| format!("{length}\n"));
    assert_eq!(printed("lengths", LENGTHS_OF_BATCHES, &counts), lines.collect::<String>());
}

#[test]
fn version() {
    let parts = ["MAJOR", "MINOR", "PATCH"].map(|part| value(&format!("POLKA_VERSION_{part}")));
    assert_eq!(parts.join("."), env!("CARGO_PKG_VERSION"));
    assert_eq!(value("POLKA_VERSION"), format!("\"{}\"", env!("CARGO_PKG_VERSION")));
}
