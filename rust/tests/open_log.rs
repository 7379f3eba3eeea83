//! The example that opens a whole log, on a file, on a folder and on what is neither, beside the reference.
mod common;
#[allow(dead_code)]
#[path = "../examples/open_log.rs"]
mod open_log;

use std::fs;
use std::path::PathBuf;

use common::cases::{run, Call, Case, REFERENCE};
use common::damage::Sound;
use common::random::Random;
use common::vectors::desk_line;

/// A folder of this test's own, removed when it is over.
struct Room(PathBuf);

impl Room {
    fn new(name: &str) -> Room {
        let room = std::env::temp_dir().join(format!("polka-open-log-{name}-{}", std::process::id()));
        fs::create_dir_all(&room).unwrap();
        Room(room)
    }

    fn write(&self, name: &str, bytes: &[u8]) -> String {
        let path = self.0.join(name);
        fs::create_dir_all(path.parent().unwrap()).unwrap();
        fs::write(&path, bytes).unwrap();
        path.to_str().unwrap().to_string()
    }
}

impl Drop for Room {
    fn drop(&mut self) {
        let _ = fs::remove_dir_all(&self.0);
    }
}

/// A secret key, and sealed entries under it: sound ones, and one for each refusal.
fn key_and_log() -> (Vec<u8>, Vec<Vec<u8>>) {
    let mut random = Random::new(601);
    let sound = Sound::new(&mut random);
    let mut log: Vec<Vec<u8>> = (0..12)
        .map(|_| {
            let inputs = vec![sound.seal.inputs[0].clone(), random.bytes(1536), random.bytes(16)];
            run(&REFERENCE, &Case { inputs, ..sound.seal.clone() }).outputs.remove(0)
        })
        .collect();
    log[1][4132] ^= 1; // tag: 10
    log[3][0] ^= 1; // mark: 2
    log[4][4] = 9; // version: 3
    log[6][5 + 2 * 3 + 1] = 0xff; // word 3 of c1 from 65,280 on: 11
    log[7][4100] ^= 0x40; // c2 far off: 9
    log[9][5 + 2 * (1024 + 17) + 1] = 0xff; // word 17 of c2: 11
    log[10][4110] ^= 1; // body: 10
    (sound.open.inputs[0].clone(), log)
}

/// What the desk says of an entry, by the reference, and where a word of it is damaged.
fn line(key: &[u8], sealed: &[u8], location: &str) -> String {
    format!("{}{location}", desk_line(&REFERENCE, &[key, sealed, &[0; 1536]].concat()).1.trim_end())
}

/// Where the log's entries are damaged, in words.
fn location(place: usize) -> &'static str {
    match place {
        6 => " sealed entry, c1, word 3",
        9 => " sealed entry, c2, word 17",
        _ => "",
    }
}

fn printed(words: &[&str]) -> Result<(bool, Vec<String>), String> {
    let words: Vec<String> = words.iter().map(|word| word.to_string()).collect();
    let mut out = vec![];
    let all = open_log::run(&words, &mut out).map_err(|error| error.to_string())?;
    Ok((all, String::from_utf8(out).unwrap().lines().map(str::to_string).collect()))
}

#[test]
fn a_file_of_entries_in_a_row() {
    let room = Room::new("stream");
    let (key, mut log) = key_and_log();
    let key_file = room.write("key", &key);
    // one that is cut off stands at the end
    log.push(log[0][..4000].to_vec());
    let (all, lines) = printed(&[&key_file, &room.write("log", &log.concat())]).unwrap();
    assert!(!all);
    for (place, sealed) in log.iter().enumerate() {
        assert_eq!(lines[place], format!("{}: {}", place + 1, line(&key, sealed, location(place))));
    }
    let end = [
        "13 entries: 5 opened, 8 refused",
        "refused under 1, misfit: 13",
        "refused under 2, stranger: 4",
        "refused under 3, other issue: 5",
        "refused under 9, no triple: 8",
        "refused under 10, bad tag: 2, 11",
        "refused under 11, off the ring: 7, 10",
    ];
    assert_eq!(lines[13..], end);
}

#[test]
fn a_folder_with_an_entry_in_each_file() {
    let room = Room::new("folder");
    let (key, log) = key_and_log();
    let key_file = room.write("key", &key);
    for (place, sealed) in log.iter().enumerate() {
        room.write(&format!("log/race-{place:02}"), sealed);
    }
    room.write("log/race-12", &[&log[0][..], &[0]].concat());
    room.write("log/race-13", &[]);
    let (all, lines) = printed(&[&key_file, room.0.join("log").to_str().unwrap()]).unwrap();
    assert!(!all);
    for (place, sealed) in log.iter().enumerate() {
        assert_eq!(lines[place], format!("race-{place:02}: {}", line(&key, sealed, location(place))));
    }
    assert_eq!(
        lines[12..16],
        ["race-12: 1 -", "race-13: 1 -", "14 entries: 5 opened, 9 refused", "refused under 1, misfit: race-12, race-13"]
    );
    assert_eq!(lines.last().unwrap(), "refused under 11, off the ring: race-06, race-09");
}

#[test]
fn a_sound_log_and_an_empty_one() {
    let room = Room::new("sound");
    let (key, log) = key_and_log();
    let key_file = room.write("key", &key);
    let (all, lines) = printed(&[&key_file, &room.write("log", &[&log[0][..], &log[2]].concat())]).unwrap();
    assert!(all && lines.len() == 3 && lines[2] == "2 entries: 2 opened, 0 refused");
    assert_eq!(printed(&[&key_file, &room.write("empty", &[])]).unwrap(), (true, vec!["0 entries: 0 opened, 0 refused".to_string()]));
}

/// The expanded form of the key prints the same, and is refused under numbers of its own.
#[test]
fn an_expanded_key() {
    let room = Room::new("expanded");
    let (key, log) = key_and_log();
    let expand = Case { name: "expand".into(), call: Call::ExpandSecretKey, inputs: vec![key.clone()], outputs: vec![6405] };
    let mut expanded = run(&REFERENCE, &expand).outputs.remove(0);
    let (key_file, expanded_file) = (room.write("key", &key), room.write("expanded", &expanded));
    let log_file = room.write("log", &log.concat());
    assert_eq!(printed(&[&expanded_file, &log_file]).unwrap(), printed(&[&key_file, &log_file]).unwrap());
    let refused = |name: &str, key: &[u8], why: &str| {
        let path = room.write(name, key);
        assert_eq!(printed(&[&path, &log_file]).unwrap_err(), format!("{path}: refused under {why}"));
    };
    refused("long", &[&expanded[..], &[0]].concat(), "1, misfit");
    refused("short", &expanded[..6404], "1, misfit");
    // the version is 2 still
    refused("cut", &expanded[..4357], "1, misfit");
    expanded[4357 + 2 * 17] ^= 1;
    refused("other", &expanded, "13, inverse mismatch");
    expanded[4357 + 2 * 17..][..2].fill(0xff);
    refused("damaged", &expanded, "4, off the ring: secret key, stored inverse, word 17");
}

#[test]
fn no_key_or_no_log() {
    let room = Room::new("none");
    let (mut key, log) = key_and_log();
    let (key_file, log_file) = (room.write("key", &key), room.write("log", &log[0]));
    let missing = room.0.join("missing").to_str().unwrap().to_string();
    assert!(printed(&[&missing, &log_file]).is_err());
    assert!(printed(&[&key_file, &missing]).is_err());
    assert!(printed(&[]).unwrap_err().starts_with("usage"));
    let refused = |name: &str, key: &[u8], why: &str| {
        let path = room.write(name, key);
        assert_eq!(printed(&[&path, &log_file]).unwrap_err(), format!("{path}: refused under {why}"));
    };
    refused("long", &[&key[..], &[0]].concat(), "1, misfit");
    refused("short", &key[..4356], "1, misfit");
    key[5 + 2 * (1024 + 17)..][..2].fill(0xff);
    refused("damaged", &key, "4, off the ring: secret key, b, word 17");
    key[0] ^= 1;
    refused("other", &key, "2, stranger");
}
