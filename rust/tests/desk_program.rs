//! The desk program on vectors and on many inputs beside the reference. It needs target/bin/desk (`tests/programs.sh desk`), and so runs on
//! demand:
//! cargo test --release --test desk_program -- --ignored --nocapture
mod common;

use std::io::Write;
use std::path::PathBuf;
use std::process::{Command, Stdio};

use common::cases::{run, Count, REFERENCE};
use common::damage::{self, Sound};
use common::random::Random;
use common::vectors;

/// POLKA_DESK names another program.
fn program() -> PathBuf {
    match std::env::var_os("POLKA_DESK") {
        Some(path) => path.into(),
        None => PathBuf::from(env!("CARGO_MANIFEST_DIR")).join("../target/bin/desk"),
    }
}

/// What it prints for this standard input.
fn printed(input: &[u8]) -> String {
    let path = program();
    let mut desk = Command::new(&path)
        .stdin(Stdio::piped())
        .stdout(Stdio::piped())
        .spawn()
        .unwrap_or_else(|error| panic!("{}: {error}", path.display()));
    // a program that has seen enough may close its input
    let _ = desk.stdin.take().unwrap().write_all(input);
    let output = desk.wait_with_output().unwrap();
    String::from_utf8_lossy(&output.stdout).into_owned()
}

#[test]
#[ignore = "needs target/bin/desk"]
fn vectors_of_the_desk() {
    let mut count = Count::new("desk program, vectors");
    for vector in vectors::read("desk", 1, 1) {
        let (code, line) = vectors::desk_line(&REFERENCE, &vector.inputs[0]);
        count.agree(&vector.name, vectors::desk_told(&vector, code) && printed(&vector.inputs[0]) == line);
    }
    count.finish();
}

#[test]
#[ignore = "needs target/bin/desk"]
fn beside_the_reference() {
    let mut random = Random::new(501);
    let mut count = Count::new("desk program, beside the reference");
    let sound = Sound::new(&mut random);
    let all = damage::of(&sound.open, &mut random);
    for turn in 0..600 {
        let case = if turn % 10 == 0 { sound.open.clone() } else { random.pick(&all).apply(&sound.open) };
        let mut input = case.inputs.concat();
        match turn % 20 {
            // lengths far off, just off, and records that are whole but out of place
            1 => input.truncate(random.below(10_026)),
            2 => input.extend(random.bytes(1 + turn * 100)),
            3 => input.push(0),
            4 => {
                let by = 1 + random.below(input.len() - 1);
                input.rotate_left(by);
            }
            _ => {}
        }
        count.agree(&case.name, printed(&input) == vectors::desk_line(&REFERENCE, &input).1);
    }
    count.finish();
}

/// The desk keeps version 1: at its length every other version is 3, and a key of version 2 with all that belongs to it is too long.
#[test]
#[ignore = "needs target/bin/desk"]
fn other_versions_of_the_key() {
    let mut random = Random::new(502);
    let mut count = Count::new("desk program, keys of other versions");
    let sound = Sound::new(&mut random);
    let expanded = run(&REFERENCE, &sound.expand_secret_key).outputs.remove(0);
    let input = sound.open.inputs.concat();
    let long = [&expanded[..], &sound.open.inputs[1], &sound.open.inputs[2]].concat();
    let mut agree = |name: &str, input: &[u8], line: &str| {
        assert_eq!(vectors::desk_line(&REFERENCE, input).1, line, "{name}: the reference");
        count.agree(name, printed(input) == line);
    };
    for version in [0u16, 2, 3, 255, 256, 257, 258, 512, 65_535] {
        let mut other = input.clone();
        other[3..5].copy_from_slice(&version.to_le_bytes());
        agree(&format!("version {version}"), &other, "3 -\n");
        // the mark is told first, and the version before a bad word
        other[5..7].fill(0xff);
        agree(&format!("version {version}, a bad word"), &other, "3 -\n");
        other[0] = b's';
        agree(&format!("version {version}, mark"), &other, "2 -\n");
    }
    agree("an expanded key at its whole length", &long, "1 -\n");
    agree("an expanded key, cut to the desk's length", &long[..10_026], "3 -\n");
    agree("an expanded key without its inverse", &[&expanded[..4357], &input[4357..]].concat(), "3 -\n");
    count.finish();
}
