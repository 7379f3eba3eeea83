//! Sound cases of every call, and each kind of damage to them, with the code that documents 01 and 02 give where it is plain.
use super::answers;
use super::cases::{run, Call, Case, REFERENCE};
use super::random::Random;
use super::reference::{self, N, Q};

/// A sound case of each call, all under one key. The calls that are lent a public key have one for each record, and those that are lent a
/// secret key of either version one for each version.
pub struct Sound {
    pub keygen: Case,
    pub keygen_from_seed: Case,
    pub check_secret_key: Case,
    pub check_secret_key_expanded: Case,
    pub expand_secret_key: Case,
    pub compact_secret_key: Case,
    pub encapsulate: Case,
    pub encapsulate_seeded: Case,
    pub decapsulate: Case,
    pub decapsulate_expanded: Case,
    pub seal: Case,
    pub seal_seeded: Case,
    pub open: Case,
    pub open_expanded: Case,
    pub open_with_margin: Case,
    pub open_with_margin_expanded: Case,
    pub seal_batch: Case,
    pub seal_batch_seeded: Case,
    pub open_batch: Case,
    pub open_batch_expanded: Case,
}

fn case(name: &str, call: Call, inputs: Vec<Vec<u8>>, outputs: &[usize]) -> Case {
    Case { name: name.into(), call, inputs, outputs: outputs.to_vec() }
}

/// What the reference writes; none where it refuses.
fn written(case: &Case) -> Option<Vec<Vec<u8>>> {
    let outcome = run(&REFERENCE, case);
    (outcome.code == 0).then_some(outcome.outputs)
}

impl Sound {
    /// With a batch of any size, the least and the largest among them more often than others.
    pub fn new(random: &mut Random) -> Sound {
        let any = 1 + random.below(255);
        let entries = *random.pick(&[1, 2, 3, 16, 255, any, any, any]);
        Sound::with_entries(random, entries)
    }

    /// With so many entries in the batch.
    pub fn with_entries(random: &mut Random, entries: usize) -> Sound {
        // about one random key in sixty is refused
        let (keygen_from_seed, keys) = loop {
            let inputs = vec![random.bytes(32), random.bytes(512), random.bytes(512)];
            let keygen_from_seed = case("keygen_from_seed", Call::KeygenFromSeed, inputs, &[2085, 4357]);
            if let Some(keys) = written(&keygen_from_seed) {
                break (keygen_from_seed, keys);
            }
        };
        let [seeded_public_key, secret_key]: [Vec<u8>; 2] = keys.try_into().unwrap();
        // the stream that the seed stands for makes the same key
        let mut inputs = keygen_from_seed.inputs.clone();
        inputs[0] = vec![0; 2688];
        reference::shake128(&keygen_from_seed.inputs[0], &mut inputs[0]);
        let keygen = case("keygen", Call::Keygen, inputs, &[4101, 4357]);
        let public_key = written(&keygen).unwrap().remove(0);
        let expand_secret_key = case("expand_secret_key", Call::ExpandSecretKey, vec![secret_key.clone()], &[6405]);
        let expanded_key = written(&expand_secret_key).unwrap().remove(0);
        let compact_secret_key = case("compact_secret_key", Call::CompactSecretKey, vec![expanded_key.clone()], &[4357]);
        let under = |key: &Vec<u8>, kind: &str, other: &Case| {
            let inputs = [&[key.clone()][..], &other.inputs[1..]].concat();
            case(&format!("{}, {kind} key", other.name), other.call, inputs, &other.outputs)
        };
        let seeded = |long: &Case| under(&seeded_public_key, "seeded", long);
        let expanded = |plain: &Case| under(&expanded_key, "expanded", plain);
        let check_secret_key = case("check_secret_key", Call::CheckSecretKey, vec![secret_key.clone()], &[]);
        let encapsulate = case("encapsulate", Call::Encapsulate, vec![public_key.clone(), random.codes(768)], &[4096]);
        let encapsulate_seeded = seeded(&encapsulate);
        let encapsulation = written(&encapsulate).unwrap().remove(0);
        let decapsulate = case("decapsulate", Call::Decapsulate, vec![secret_key.clone(), encapsulation, random.codes(768)], &[768]);
        let seal = case("seal", Call::Seal, vec![public_key.clone(), random.bytes(1536), random.bytes(16)], &[4133]);
        let seal_seeded = seeded(&seal);
        let sealed = written(&seal).unwrap().remove(0);
        let open = case("open", Call::Open, vec![secret_key.clone(), sealed, random.bytes(1536)], &[16]);
        let open_with_margin = case("open_with_margin", Call::OpenWithMargin, open.inputs.clone(), &[16]);
        let inputs = vec![public_key, random.bytes(1536), random.bytes(16 * entries)];
        let seal_batch = case(&format!("seal_batch of {entries}"), Call::SealBatch, inputs, &[batch_length(entries)]);
        let seal_batch_seeded = seeded(&seal_batch);
        let batch = written(&seal_batch).unwrap().remove(0);
        let inputs = vec![secret_key, batch, random.bytes(1536)];
        let open_batch = case(&format!("open_batch of {entries}"), Call::OpenBatch, inputs, &[4080]);
        Sound {
            keygen,
            keygen_from_seed,
            check_secret_key_expanded: expanded(&check_secret_key),
            check_secret_key,
            expand_secret_key,
            compact_secret_key,
            encapsulate,
            encapsulate_seeded,
            decapsulate_expanded: expanded(&decapsulate),
            decapsulate,
            seal,
            seal_seeded,
            open_expanded: expanded(&open),
            open,
            open_with_margin_expanded: expanded(&open_with_margin),
            open_with_margin,
            seal_batch,
            seal_batch_seeded,
            open_batch_expanded: expanded(&open_batch),
            open_batch,
        }
    }

    pub fn all(&self) -> [&Case; 20] {
        [
            &self.keygen,
            &self.keygen_from_seed,
            &self.check_secret_key,
            &self.check_secret_key_expanded,
            &self.expand_secret_key,
            &self.compact_secret_key,
            &self.encapsulate,
            &self.encapsulate_seeded,
            &self.decapsulate,
            &self.decapsulate_expanded,
            &self.seal,
            &self.seal_seeded,
            &self.open,
            &self.open_expanded,
            &self.open_with_margin,
            &self.open_with_margin_expanded,
            &self.seal_batch,
            &self.seal_batch_seeded,
            &self.open_batch,
            &self.open_batch_expanded,
        ]
    }
}

type Edit = Box<dyn Fn(&mut Case)>;

pub struct Damage {
    pub name: String,
    /// The code when this is the only damage, where it hangs on nothing else.
    pub code: Option<u32>,
    edit: Edit,
}

impl Damage {
    fn new(name: String, code: Option<u32>, edit: impl Fn(&mut Case) + 'static) -> Damage {
        Damage { name, code, edit: Box::new(edit) }
    }

    pub fn apply(&self, case: &Case) -> Case {
        let mut damaged = case.clone();
        damaged.name = format!("{}, {}", case.name, self.name);
        (self.edit)(&mut damaged);
        damaged
    }
}

// ---- edits of bytes. A buffer that an earlier edit has cut short is left as it is.

fn put(bytes: &mut [u8], at: usize, value: &[u8]) {
    if let Some(place) = bytes.get_mut(at..at + value.len()) {
        place.copy_from_slice(value);
    }
}

fn word(bytes: &[u8], at: usize) -> Option<u32> {
    Some(u32::from(u16::from_le_bytes(bytes.get(at..at + 2)?.try_into().ok()?)))
}

fn put_word(bytes: &mut [u8], at: usize, value: u32) {
    put(bytes, at, &(value as u16).to_le_bytes());
}

fn move_word(bytes: &mut [u8], at: usize, by: u32) {
    if let Some(value) = word(bytes, at) {
        put_word(bytes, at, (value + by) % Q);
    }
}

fn element(bytes: &[u8], at: usize) -> Option<reference::Element> {
    (0..N).map(|i| word(bytes, at + 2 * i)).collect()
}

/// On the ring, where an earlier edit may have left a word of q or more.
fn reduced(bytes: &[u8], at: usize) -> Option<reference::Element> {
    Some(reference::multiple(1, &element(bytes, at)?))
}

fn put_element(bytes: &mut [u8], at: usize, f: &[u32]) {
    for (i, &value) in f.iter().enumerate() {
        put_word(bytes, at + 2 * i, value);
    }
}

fn put_code(bytes: &mut [u8], at: usize, place: usize, code: u8) {
    if let Some(byte) = bytes.get_mut(at + place / 4) {
        let shift = 2 * (place % 4);
        *byte = *byte & !(3 << shift) | code << shift;
    }
}

/// Where a secret key has b, s and, expanded, the inverse of b.
const B_AT: usize = 2053;
const S_AT: usize = 4101;
const INVERSE_AT: usize = 4357;

/// Where a sealed entry has its body.
const ENTRY_BODY_AT: usize = 4101;

/// A batch of so many entries.
fn batch_length(entries: usize) -> usize {
    4119 + 16 * entries
}

/// Where a batch has its count, and where its body starts.
const COUNT_AT: usize = 4101;
const BODY_AT: usize = 4103;

/// The body blocks of a batch, input 1, changed, and its count with them. A batch whose length does not fit its count is left as it is.
fn change_blocks(case: &mut Case, change: impl Fn(&mut Vec<Vec<u8>>)) {
    let batch = &mut case.inputs[1];
    if word(batch, COUNT_AT).map(|count| batch_length(count as usize)) != Some(batch.len()) {
        return;
    }
    let tag = batch.split_off(batch.len() - 16);
    let mut blocks = batch.split_off(BODY_AT).chunks(16).map(<[u8]>::to_vec).collect();
    change(&mut blocks);
    put_word(batch, COUNT_AT, blocks.len() as u32);
    batch.extend(blocks.concat());
    batch.extend(tag);
}

/// The value of f at a root of X^1024 + 1, by Horner's rule.
fn value_at(f: &[u32], root: u64) -> u32 {
    f.iter().rev().fold(0, |value, &c| (value * root + u64::from(c)) % u64::from(Q)) as u32
}

/// 3 to an odd power.
fn root(exponent: usize) -> u64 {
    (0..exponent).fold(1, |power, _| power * 3 % u64::from(Q))
}

/// Adds to an element what is `by` at the root 3^exponent and 0 at every other one: by ÷ 1024 × (1 + X ÷ root + X^2 ÷ root^2 + ..).
fn move_at_root(bytes: &mut [u8], at: usize, exponent: usize, by: u32) {
    let (q, step) = (u64::from(Q), root(2 * N - exponent));
    // −58 × 1024 is 1
    let mut term = u64::from(by) * (q - 58) % q;
    for i in 0..N {
        move_word(bytes, at + 2 * i, term as u32);
        term = term * step % q;
    }
}

/// Noise whose polynomial has this value at the root 3^exponent: the value in digits −1, 0, 1 to base 3, each at the coefficient that
/// the root's power makes a power of 3.
fn noise_of_value(value: u32, exponent: usize) -> Vec<u8> {
    let mut noise = vec![0; N / 2];
    let mut rest = reference::centred(value);
    for power in 0..11 {
        let digit = (rest + 1).rem_euclid(3) - 1;
        rest = (rest - digit) / 3;
        // the root's 1,024th power is −1
        let place = (0..2 * N).find(|place| exponent * place % (2 * N) == power).unwrap();
        let digit = if place < N { digit } else { -digit };
        // four bits 1 are 1, four bits 2 are −1
        let four = digit.rem_euclid(3) as u8;
        noise[place % N / 2] |= four << (4 * (place % 2));
    }
    noise
}

// ---- kinds of damage

/// Every buffer too short, too long and empty.
pub fn lengths(case: &Case) -> Vec<Damage> {
    let mut all = vec![];
    let mut add = |name: String, code: u32, edit: Edit| all.push(Damage { name, code: Some(code), edit });
    for (i, length) in case.inputs.iter().map(Vec::len).enumerate() {
        for other in [length - 1, length + 1, 0, 1, 2 * length] {
            // no entries, or too many, are told before the length of the batch
            let count = case.call == Call::SealBatch && i == 2 && other % 16 == 0 && !(1..=255).contains(&(other / 16));
            let code = if count { 12 } else { 1 };
            add(format!("input {i} of length {other}"), code, Box::new(move |case| case.inputs[i].resize(other, 0)));
        }
    }
    for (i, &length) in case.outputs.iter().enumerate() {
        for other in [length - 1, length + 1, 0, 1, 2 * length] {
            add(format!("output {i} of length {other}"), 1, Box::new(move |case| case.outputs[i] = other));
        }
    }
    all
}

/// Each byte of the mark, other records' marks, and versions. Where a call takes two, the length is not that of the other.
pub fn headers(case: &Case, input: usize) -> Vec<Damage> {
    let (own, own_version) = (&case.inputs[input][..3], word(&case.inputs[input], 3));
    let mut all = vec![];
    for byte in 0..3 {
        for flip in [0x01, 0x20, 0x80, 0xff] {
            all.push(Damage::new(format!("input {input}, mark byte {byte} xor {flip:#04x}"), Some(2), move |case| {
                if let Some(place) = case.inputs[input].get_mut(byte) {
                    *place ^= flip;
                }
            }));
        }
    }
    let marks = [b"PDK", b"PDS", b"SDK", b"PLG", b"pdk", b"pds", b"sdk", b"plg"];
    for mark in marks.into_iter().filter(|mark| mark[..] != *own) {
        all.push(Damage::new(format!("input {input}, mark {}", String::from_utf8_lossy(mark)), Some(2), move |case| {
            put(&mut case.inputs[input], 0, mark);
        }));
    }
    let single_bits = (0..16).map(|bit| 1 << bit);
    let versions = [0u16, 3, 255, 257, 258, 513, 514, 65535].into_iter().chain(single_bits);
    for version in versions.filter(|&version| Some(u32::from(version)) != own_version) {
        let code = if input == 0 && takes_either(case) && [1, 2].contains(&version) { 1 } else { 3 };
        all.push(Damage::new(format!("input {input}, version {version}"), Some(code), move |case| {
            put(&mut case.inputs[input], 3, &version.to_le_bytes());
        }));
    }
    all
}

/// The public key, input 0, at lengths beside those of both records, and as the other record, with its own mark and with the other's.
pub fn other_records(case: &Case) -> Vec<Damage> {
    let mut all = vec![];
    for other in [2084, 2086, 4100, 4102] {
        all.push(Damage::new(format!("input 0 of length {other}"), Some(1), move |case| case.inputs[0].resize(other, 0)));
    }
    let (other, mark) = if is_seeded(case) { (4101, b"PDK") } else { (2085, b"PDS") };
    all.push(Damage::new(format!("input 0 of length {other}"), Some(2), move |case| case.inputs[0].resize(other, 0)));
    all.push(Damage::new(format!("input 0 of length {other} and mark {}", String::from_utf8_lossy(mark)), None, move |case| {
        case.inputs[0].resize(other, 0);
        put(&mut case.inputs[0], 0, mark);
    }));
    all
}

/// The secret key, input 0, at lengths of all kinds with its own header, with another mark and with other versions: mark and version are
/// told before the length, which hangs on the version. And as the other version, of its length.
pub fn key_versions(case: &Case) -> Vec<Damage> {
    let mut all = vec![];
    let lengths = [0, 1, 2, 3, 4, 5, 6, 2085, 4101, 4133, 4356, 4357, 4358, 6404, 6405, 6406, 8714];
    for length in lengths.into_iter().filter(|&length| length != case.inputs[0].len()) {
        let mut add = |name: &str, code: u32, at: usize, bytes: &'static [u8]| {
            // a header that is cut off tells nothing
            let code = if length < 5 { 1 } else { code };
            all.push(Damage::new(format!("input 0 of length {length}{name}"), Some(code), move |case| {
                case.inputs[0].resize(length, 0);
                put(&mut case.inputs[0], at, bytes);
            }));
        };
        add("", 1, 0, b"");
        add(" and mark sDK", 2, 0, b"s");
        add(" and mark SDk", 2, 2, b"k");
        for version in [b"\x00\x00", b"\x03\x00", b"\xff\xff"] {
            add(&format!(" and version {}", u16::from_le_bytes(*version)), 3, 3, version);
        }
    }
    // an inverse of zeros, or none where none is needed
    let (other, version, code) = if is_expanded(case) { (4357, 1, 0) } else { (6405, 2, 13) };
    let code = if takes_either(case) { code } else { 3 };
    all.push(Damage::new(format!("input 0 of length {other} and version {version}"), Some(code), move |case| {
        case.inputs[0].resize(other, 0);
        put(&mut case.inputs[0], 3, &[version, 0]);
    }));
    all
}

/// Other seeds, which stand in input 0.
pub fn seeds(start: usize, code: Option<u32>) -> Vec<Damage> {
    let mut all = vec![];
    for fill in [0x00, 0x01, 0xff] {
        all.push(Damage::new(format!("seed all {fill:#04x}"), code, move |case| put(&mut case.inputs[0], start, &[fill; 32])));
    }
    for bit in [0, 7, 8, 128, 255] {
        all.push(Damage::new(format!("seed bit {bit}"), code, move |case| {
            if let Some(byte) = case.inputs[0].get_mut(start + bit / 8) {
                *byte ^= 1 << (bit % 8);
            }
        }));
    }
    all
}

/// A part of a record that is 1,024 words.
#[derive(Clone, Copy)]
pub struct Words {
    input: usize,
    number: u32,
    record: &'static str,
    part: &'static str,
    start: usize,
}

impl Words {
    /// The answer where its first bad word, and the first of the case, stands at this index.
    pub fn code(self, index: usize) -> u32 {
        answers::located(self.number, self.record, self.part, index)
    }

    pub fn get(self, case: &Case, index: usize) -> Option<u32> {
        word(&case.inputs[self.input], self.start + 2 * index)
    }

    pub fn put(self, case: &mut Case, index: usize, value: u32) {
        put_word(&mut case.inputs[self.input], self.start + 2 * index, value);
    }

    pub fn name(self, index: usize, value: u32) -> String {
        format!("{} {}[{index}] is {value}", self.record, self.part)
    }
}

/// All words that a sound case is lent in records, in the order in which they are judged.
pub fn words_of(case: &Case) -> Vec<Words> {
    let pair = |input, number, record, [first, second]: [&'static str; 2], start| {
        [(first, start), (second, start + 2 * N)].map(|(part, start)| Words { input, number, record, part, start }).to_vec()
    };
    let mut secret_key = pair(0, 4, "secret_key", ["a", "b"], 5);
    if is_expanded(case) {
        secret_key.push(Words { input: 0, number: 4, record: "secret_key", part: "stored_inverse", start: INVERSE_AT });
    }
    match case.call {
        Call::Encapsulate | Call::Seal | Call::SealBatch if is_seeded(case) => {
            vec![Words { input: 0, number: 4, record: "seeded_public_key", part: "b", start: 37 }]
        }
        Call::Encapsulate | Call::Seal | Call::SealBatch => pair(0, 4, "public_key", ["a", "b"], 5),
        Call::CheckSecretKey | Call::ExpandSecretKey | Call::CompactSecretKey => secret_key,
        Call::Decapsulate => [secret_key, pair(1, 11, "encapsulation", ["c1", "c2"], 0)].concat(),
        Call::Open | Call::OpenWithMargin | Call::OpenBatch => [secret_key, pair(1, 11, "sealed_entry", ["c1", "c2"], 5)].concat(),
        Call::Keygen | Call::KeygenFromSeed | Call::Shake128 | Call::Shake256 => vec![],
    }
}

/// Words at q and above, at first, last and middle places of each element; and the largest word that is allowed.
pub fn words(case: &Case) -> Vec<Damage> {
    let mut all = vec![];
    for part in words_of(case) {
        for index in [0, 1, 511, 512, 1022, 1023] {
            for value in [59_392, 59_393, 59_394, 65_535] {
                let code = (value >= Q).then(|| part.code(index));
                all.push(Damage::new(part.name(index, value), code, move |case| part.put(case, index, value)));
            }
        }
    }
    all
}

/// Code 3 at first, last and middle places.
pub fn codes(input: usize, start: usize, count: usize) -> Vec<Damage> {
    let mut places: Vec<usize> = [0, 1, 2, 3, 4, 511, 512, 1022, 1023, 1024, 2047, 2048].into_iter().filter(|&p| p < count).collect();
    places.extend([count - 4, count - 3, count - 2, count - 1]);
    places
        .into_iter()
        .map(|place| {
            Damage::new(format!("input {input}, code {place} is 3"), Some(5), move |case| {
                put_code(&mut case.inputs[input], start, place, 3);
            })
        })
        .collect()
}

/// b is zero at one root of X^1024 + 1, and as it was at all others. The key is input 0, and b starts there.
fn no_unit_at(case: &Case, start: usize, exponent: usize) -> Damage {
    Damage::new(format!("b is 0 at the root 3^{exponent}, at others as it was"), no_unit(case), move |case| {
        if let Some(b) = element(&case.inputs[0], start) {
            move_at_root(&mut case.inputs[0], start, exponent, Q - value_at(&b, root(exponent)));
        }
    })
}

/// What is told where b has no inverse. One that is stored then does not fit, also where it does at every root but one.
fn no_unit(case: &Case) -> Option<u32> {
    Some(if is_expanded(case) { 13 } else { 6 })
}

/// The stored inverse is another at one root. The expanded key is input 0.
fn inverse_moved_at(exponent: usize) -> Damage {
    Damage::new(format!("stored inverse moved at the root 3^{exponent} alone"), Some(13), move |case| {
        move_at_root(&mut case.inputs[0], INVERSE_AT, exponent, 1);
    })
}

/// Both of these at each root. The secret key is input 0.
pub fn every_root(case: &Case) -> Vec<Damage> {
    let roots = || (1..2 * N).step_by(2);
    let inverses = roots().filter(|_| is_expanded(case)).map(inverse_moved_at);
    roots().map(|exponent| no_unit_at(case, B_AT, exponent)).chain(inverses).collect()
}

/// b is zero, or zero at one root of X^1024 + 1. The key is input 0, and b starts there.
pub fn no_units(case: &Case, start: usize) -> Vec<Damage> {
    let code = no_unit(case);
    let mut all = vec![Damage::new("b is 0".into(), code, move |case| put(&mut case.inputs[0], start, &[0; 2048]))];
    for exponent in [1, 3, 5, 1023, 1025, 2047] {
        all.push(Damage::new(format!("b is 0 at the root 3^{exponent}"), code, move |case| {
            if let Some(b) = element(&case.inputs[0], start) {
                move_word(&mut case.inputs[0], start, Q - value_at(&b, root(exponent)));
            }
        }));
        all.push(no_unit_at(case, start, exponent));
    }
    all
}

/// b moved at one coefficient, or s. A move by 10 can leave the key sound, one by 15 cannot; a few leave b no unit. A stored inverse fits
/// none of them.
pub fn parted_keys(case: &Case) -> Vec<Damage> {
    let moved = is_expanded(case).then_some(13);
    let mut all = vec![];
    for place in [0, 1, 511, 512, 1022, 1023] {
        for by in [1, Q - 1, 5, Q - 5, 7, 10, Q - 10, 15, Q - 15] {
            all.push(Damage::new(format!("b[{place}] moved by {by}"), moved, move |case| {
                move_word(&mut case.inputs[0], B_AT + 2 * place, by);
            }));
        }
        all.push(Damage::new(format!("s[{place}] turned"), Some(7), move |case| {
            if let Some(&byte) = case.inputs[0].get(S_AT + place / 4) {
                let code = byte >> (2 * (place % 4)) & 3;
                put_code(&mut case.inputs[0], S_AT, place, (code + 1) % 3);
            }
        }));
    }
    all
}

/// Other stored inverses: near the right one, right at all roots but one, and of other elements; and another b with the inverse that fits.
/// The expanded key is input 0.
pub fn stored_inverses() -> Vec<Damage> {
    let mut all: Vec<Damage> = [1, 3, 5, 1023, 1025, 2047].map(inverse_moved_at).into();
    let mut add = |name: String, code: Option<u32>, edit: Edit| all.push(Damage { name: format!("stored inverse {name}"), code, edit });
    for place in [0, 1, 511, 512, 1022, 1023] {
        for by in [1, Q - 1] {
            let edit = move |case: &mut Case| move_word(&mut case.inputs[0], INVERSE_AT + 2 * place, by);
            add(format!("moved by {by} at {place}"), Some(13), Box::new(edit));
        }
    }
    // made of b and the right one
    type Other = fn(reference::Element, reference::Element) -> reference::Element;
    let others: [(&str, Other); 7] = [
        ("is 0", |b, _| vec![0; b.len()]),
        ("is 1", |b, _| (0..b.len()).map(|i| u32::from(i == 0)).collect()),
        ("is b", |b, _| b),
        ("is that of -b", |_, inverse| reference::multiple(Q - 1, &inverse)),
        ("is that of b / 5", |_, inverse| reference::multiple(5, &inverse)),
        ("is turned by X", |_, mut inverse| {
            inverse.rotate_right(1);
            inverse[0] = (Q - inverse[0]) % Q;
            inverse
        }),
        ("is written from the other end", |_, mut inverse| {
            inverse.reverse();
            inverse
        }),
    ];
    for (name, other) in others {
        let edit = move |case: &mut Case| {
            if let (Some(b), Some(inverse)) = (reduced(&case.inputs[0], B_AT), reduced(&case.inputs[0], INVERSE_AT)) {
                put_element(&mut case.inputs[0], INVERSE_AT, &other(b, inverse));
            }
        };
        add(name.into(), Some(13), Box::new(edit));
    }
    // another b: s does not fit, or there is another e
    for (factor, fitting) in [(2, Q.div_ceil(2)), (Q - 1, Q - 1)] {
        let edit = move |case: &mut Case| {
            for (at, factor) in [(B_AT, factor), (INVERSE_AT, fitting)] {
                if let Some(part) = reduced(&case.inputs[0], at) {
                    put_element(&mut case.inputs[0], at, &reference::multiple(factor, &part));
                }
            }
        };
        add(format!("fits b, which is {factor} times as large"), Some(7), Box::new(edit));
    }
    for by in [5, Q - 5, 10, Q - 10, 15] {
        let edit = move |case: &mut Case| {
            move_word(&mut case.inputs[0], B_AT, by);
            if let Some(inverse) = reduced(&case.inputs[0], B_AT).and_then(|b| reference::inverse(&b)) {
                put_element(&mut case.inputs[0], INVERSE_AT, &inverse);
            }
        };
        add(format!("fits b, b[0] moved by {by}"), None, Box::new(edit));
    }
    all
}

/// Words of c1 and c2 moved: some are still encapsulations of another triple. The capsule is input 1.
pub fn moved_capsules(start: usize) -> Vec<Damage> {
    let mut all = vec![];
    for place in [0, 1, 511, 1023, 1024, 1025, 1535, 2047] {
        for by in [1, 2, 3, 4, 5, 15, 29_696, 29_697, Q - 5, Q - 3, Q - 2, Q - 1] {
            all.push(Damage::new(format!("c word {place} moved by {by}"), None, move |case| {
                move_word(&mut case.inputs[1], start + 2 * place, by);
            }));
        }
    }
    for value in [0, 1, 2, 5, 29_696, 29_697, 59_391, 59_392] {
        all.push(Damage::new(format!("all words of c are {value}"), None, move |case| {
            for place in 0..2 * N {
                put_word(&mut case.inputs[1], start + 2 * place, value);
            }
        }));
    }
    all.push(Damage::new("c1 and c2 exchanged".into(), None, move |case| {
        if let Some(both) = case.inputs[1].get_mut(start..start + 4 * N) {
            both.rotate_left(2 * N);
        }
    }));
    all
}

/// A bit of a sealed entry or a batch, input 1, from `start` on.
fn turned_bit(name: String, start: usize, bit: usize) -> Damage {
    Damage::new(name, Some(10), move |case| {
        if let Some(byte) = case.inputs[1].get_mut(start + bit / 8) {
            *byte ^= 1 << (bit % 8);
        }
    })
}

/// Every bit of body and tag. The sealed entry is input 1.
pub fn body_and_tag() -> Vec<Damage> {
    (0..256).map(|bit| turned_bit(format!("{} bit {}", if bit < 128 { "body" } else { "tag" }, bit % 128), ENTRY_BODY_AT, bit)).collect()
}

/// Every bit of the tag, of the first block and of the last, and one of each block between them. The batch, of m entries, is input 1.
pub fn batch_body_and_tag(m: usize) -> Vec<Damage> {
    let mut all: Vec<Damage> = (0..128).map(|bit| turned_bit(format!("tag bit {bit}"), BODY_AT + 16 * m, bit)).collect();
    for block in 0..m {
        let bits = if block == 0 || block == m - 1 { 0..128 } else { block % 128..block % 128 + 1 };
        all.extend(bits.map(|bit| turned_bit(format!("bit {bit} of block {block}"), BODY_AT, 128 * block + bit)));
    }
    all
}

/// Other counts in the record, and other lengths of it. The batch, of m entries, is input 1.
pub fn batch_counts(m: usize) -> Vec<Damage> {
    let mut all = vec![];
    let far = [0, 256, 257, 511, 512, 4096, 32_769, 65_280, 65_535, 256 * m, 256 + m];
    for count in [1, 2, m - 1, m + 1, 254, 255].into_iter().chain(far).filter(|&count| count != m) {
        let code = if (1..=255).contains(&count) { 1 } else { 12 };
        all.push(Damage::new(format!("count {count}"), Some(code), move |case| put_word(&mut case.inputs[1], COUNT_AT, count as u32)));
    }
    let ends = [5, COUNT_AT, COUNT_AT + 1, BODY_AT, 4118, 4119, 4120, 4133, batch_length(1), batch_length(255), batch_length(256)];
    let near = [m - 1, m + 1].map(batch_length);
    for length in ends.into_iter().chain(near).filter(|&length| length != batch_length(m)) {
        all.push(Damage::new(format!("batch of length {length}"), Some(1), move |case| case.inputs[1].resize(length, 0)));
    }
    // the length fits a count that no batch has, or is below that of none
    for (count, length, code) in [(0, batch_length(0), 12), (256, batch_length(256), 12), (0, batch_length(0) - 1, 1)] {
        all.push(Damage::new(format!("count {count}, batch of length {length}"), Some(code), move |case| {
            case.inputs[1].resize(length, 0);
            put_word(&mut case.inputs[1], COUNT_AT, count);
        }));
    }
    all
}

/// Blocks dropped, added and exchanged, with the count that fits. The batch, of m entries, is input 1.
pub fn batch_blocks(m: usize) -> Vec<Damage> {
    let mut all = vec![];
    let mut add = |name: String, blocks: usize, change: fn(&mut Vec<Vec<u8>>, usize, usize), one: usize, other: usize| {
        let code = if (1..=255).contains(&blocks) { 10 } else { 12 };
        all.push(Damage::new(name, Some(code), move |case| {
            change_blocks(case, |blocks| {
                // an earlier edit may have left fewer
                if one.max(other) < blocks.len() {
                    change(blocks, one, other);
                }
            });
        }));
    };
    let mut places = vec![0, m / 2, m - 1];
    places.dedup();
    for at in places {
        add(format!("block {at} dropped"), m - 1, |blocks, at, _| drop(blocks.remove(at)), at, at);
        add(format!("block {at} twice"), m + 1, |blocks, at, _| blocks.insert(at, blocks[at].clone()), at, at);
        add(format!("zeros before block {at}"), m + 1, |blocks, at, _| blocks.insert(at, vec![0; 16]), at, at);
        add(format!("zeros behind block {at}"), m + 1, |blocks, at, _| blocks.insert(at + 1, vec![0; 16]), at, at);
    }
    let mut pairs = vec![(0, 1), (0, m - 1), (m.saturating_sub(2), m - 1)];
    pairs.retain(|(one, other)| one < other && *other < m);
    pairs.dedup();
    for (one, other) in pairs {
        add(format!("blocks {one} and {other} exchanged"), m, |blocks, one, other| blocks.swap(one, other), one, other);
        add(format!("block {other} is block {one} too"), m, |blocks, one, other| blocks[other] = blocks[one].clone(), one, other);
        add(format!("blocks before block {other} alone"), other, |blocks, _, other| blocks.truncate(other), one, other);
    }
    all
}

/// Other entries, other counts of them with the batch's length that fits, and bytes that are no entries. They are input 2.
pub fn entries() -> Vec<Damage> {
    let mut all = vec![];
    for fill in [0x00, 0xff] {
        all.push(Damage::new(format!("entries all {fill:#04x}"), Some(0), move |case| case.inputs[2].fill(fill)));
    }
    let mut add = |name: String, code: u32, length: usize| {
        all.push(Damage::new(name, Some(code), move |case| {
            case.inputs[2].resize(length, 0x5a);
            case.outputs[0] = 4119 + length;
        }));
    };
    // some are in range where their high bits are lost
    for count in [0, 1, 2, 3, 254, 255, 256, 257, 511, 4096, 65_535, 65_536, 65_537] {
        add(format!("{count} entries"), if (1..=255).contains(&count) { 0 } else { 12 }, 16 * count);
    }
    for length in [1, 8, 15, 17, 4079, 4081, 4095, 4097, 1_048_593] {
        add(format!("{length} bytes of entries"), 1, length);
    }
    all
}

/// A fault for each check of a call that is lent a secret key or a batch, in the order of the checks. Each can stand beside any of the
/// others.
pub fn in_order(case: &Case) -> Vec<Damage> {
    let fault = |name: &str, code: u32, edit: Edit| Damage { name: name.into(), code: Some(code), edit };
    let mark = |input: usize| fault("mark", 2, Box::new(move |case| case.inputs[input][1] ^= 0x20));
    let version = |input: usize| fault("version 3", 3, Box::new(move |case| put(&mut case.inputs[input], 3, &[3])));
    let cut = |input: usize, length: usize| {
        fault(&format!("input {input} cut to {length}"), 1, Box::new(move |case| case.inputs[input].truncate(length)))
    };
    let output = || fault("output shorter by 1", 1, Box::new(|case| case.outputs[0] -= 1));
    let more = |input: usize, by: usize, code: u32| {
        fault(&format!("input {input} longer by {by}"), code, Box::new(move |case| case.inputs[input].extend(vec![0; by])))
    };
    let bad_word = |part: Words, index: usize| fault("a bad word", part.code(index), Box::new(move |case| part.put(case, index, Q)));
    // a bad word stays
    let no_unit = |b: Words, code: u32| {
        let edit = move |case: &mut Case| {
            for index in 0..N {
                if b.get(case, index) < Some(Q) {
                    b.put(case, index, 0);
                }
            }
        };
        fault("b is 0", code, Box::new(edit))
    };
    let code_3 = |input: usize, start: usize| fault("a code is 3", 5, Box::new(move |case| put_code(&mut case.inputs[input], start, 1, 3)));
    let moved = |input: usize, at: usize, by: u32, code: u32| {
        fault(&format!("input {input} moved by {by}"), code, Box::new(move |case| move_word(&mut case.inputs[input], at, by)))
    };
    let words = words_of(case);
    // still without a version with a byte more
    let no_key = || cut(0, 3);
    let key = || {
        let of_key = words.iter().filter(|part| part.number == 4);
        let mut faults = vec![mark(0), version(0), more(0, 1, 1)];
        faults.extend(of_key.zip([5, 700, 300]).map(|(&part, index)| bad_word(part, index)));
        faults.push(code_3(0, S_AT));
        if is_expanded(case) {
            faults.extend([no_unit(words[1], 13), moved(0, INVERSE_AT, 1, 13)]);
        } else {
            faults.push(no_unit(words[1], 6));
        }
        faults.push(fault("s is 0", 7, Box::new(|case| put(&mut case.inputs[0], S_AT + 1, &[0; 255]))));
        faults
    };
    let c2 = || bad_word(*words.last().unwrap(), 9);
    match case.call {
        Call::SealBatch => {
            let b = *words.last().unwrap();
            vec![
                more(2, 1, 1),
                more(2, 4096, 12),
                cut(0, 2000),
                cut(1, 1535),
                output(),
                mark(0),
                version(0),
                bad_word(b, 700),
                no_unit(b, 6),
            ]
        }
        Call::CheckSecretKey => [vec![no_key()], key()].into_iter().flatten().collect(),
        Call::ExpandSecretKey | Call::CompactSecretKey => [vec![no_key(), output()], key()].into_iter().flatten().collect(),
        Call::Decapsulate => {
            let first = vec![no_key(), cut(1, 4095), cut(2, 767), output()];
            [first, key(), vec![c2(), code_3(2, 0), moved(1, 0, 3, 9)]].into_iter().flatten().collect()
        }
        Call::Open | Call::OpenWithMargin => {
            let first = vec![no_key(), more(1, 1, 1), cut(2, 1535), output()];
            let body = fault("body", 10, Box::new(|case| case.inputs[1][ENTRY_BODY_AT] ^= 1));
            [first, key(), vec![mark(1), version(1), c2(), moved(1, 5, 3, 9), body]].into_iter().flatten().collect()
        }
        Call::OpenBatch => {
            // still below 4,119 with a byte more
            let first = vec![no_key(), cut(1, 4110), cut(2, 1535), output()];
            let count = fault("count larger by 256", 12, Box::new(|case| case.inputs[1][COUNT_AT + 1] = 1));
            let body = fault("body", 10, Box::new(|case| case.inputs[1][BODY_AT] ^= 1));
            let batch = vec![mark(1), version(1), count, more(1, 1, 1), c2(), moved(1, 5, 3, 9), body];
            [first, key(), batch].into_iter().flatten().collect()
        }
        _ => vec![],
    }
}

/// Dummies and noise at their limits; none changes an answer, but the margin does vary with the dummy.
pub fn dummies(input: usize, coded: bool) -> Vec<Damage> {
    // 0x55 is every code 1, 0xaa every code 2; as noise 0x11 is every coefficient 1, 0x33 and 0x44 every −1
    let fills: &[u8] = if coded { &[0x00, 0x55, 0xaa] } else { &[0x00, 0x11, 0x33, 0x44, 0xcc, 0xff, 0x5a] };
    fills
        .iter()
        .map(|&fill| Damage::new(format!("input {input} all {fill:#04x}"), Some(0), move |case| case.inputs[input].fill(fill)))
        .collect()
}

fn no_noise() -> Damage {
    Damage::new("s and e are 0".into(), Some(6), |case| {
        case.inputs[1].fill(0);
        case.inputs[2].fill(0);
    })
}

/// Keys from a seed whose b is no unit.
pub fn seeded_no_units() -> Vec<Damage> {
    let mut all = vec![no_noise()];
    // e takes the value of a × s away
    for exponent in [1, 3, 1023, 2047] {
        all.push(Damage::new(format!("b is 0 at the root 3^{exponent}"), Some(6), move |case| {
            if let Ok(a) = reference::seeded(&case.inputs[0]) {
                let a_s = reference::product(&a, &reference::from_noise(&case.inputs[1]));
                case.inputs[2] = noise_of_value(Q - value_at(&a_s, root(exponent)), exponent);
            }
        }));
    }
    all
}

/// Streams with just enough words below q, one too few, and keys whose b is no unit.
pub fn streams(random: &mut Random) -> Vec<Damage> {
    let mut all = vec![];
    for refused in [0, 1, 319, 320, 321, 322, 1343, 1344] {
        for kind in 0..3 {
            // refused words first, last, and spread
            let mut words: Vec<bool> = (0..1344).map(|i| i < refused).collect();
            match kind {
                0 => {}
                1 => words.reverse(),
                _ => (1..1344).rev().for_each(|i| words.swap(i, random.below(i + 1))),
            }
            let words: Vec<u16> = words
                .into_iter()
                .map(|refuse| if refuse { *random.pick(&[59_393, 59_394, 65_535]) } else { random.below(Q as usize) as u16 })
                .collect();
            let bytes: Vec<u8> = words.iter().flat_map(|word| word.to_le_bytes()).collect();
            let code = if refused > 320 { Some(8) } else { None };
            all.push(Damage::new(format!("stream with {refused} words passed over, kind {kind}"), code, move |case| {
                case.inputs[0].clone_from(&bytes);
            }));
        }
    }
    all.push(no_noise());
    all.push(Damage::new("a and e are 0".into(), Some(6), |case| {
        case.inputs[0].fill(0);
        case.inputs[2].fill(0);
    }));
    // with s = 1 and e = 0, b is 5 a: zero at a root where a is
    for exponent in [1, 3, 2047] {
        all.push(Damage::new(format!("b is 0 at the root 3^{exponent}"), Some(6), move |case| {
            for i in 0..1344 {
                put_word(&mut case.inputs[0], 2 * i, (i * i + 7) as u32 % Q);
            }
            if let Some(a) = element(&case.inputs[0], 0) {
                move_word(&mut case.inputs[0], 0, Q - value_at(&a, root(exponent)));
            }
            case.inputs[1].fill(0);
            put(&mut case.inputs[1], 0, &[1]);
            case.inputs[2].fill(0);
        }));
    }
    all
}

/// Whether the public key, input 0, is the seeded record.
fn is_seeded(case: &Case) -> bool {
    case.inputs[0].len() == 2085
}

/// Whether the secret key, input 0, is of version 2.
fn is_expanded(case: &Case) -> bool {
    case.inputs[0].len() == 6405
}

/// Whether input 0 is a secret key of either version.
fn takes_either(case: &Case) -> bool {
    matches!(case.call, Call::CheckSecretKey | Call::Decapsulate | Call::Open | Call::OpenWithMargin | Call::OpenBatch)
}

/// All kinds that fit a sound case.
pub fn of(case: &Case, random: &mut Random) -> Vec<Damage> {
    let mut all = lengths(case);
    all.extend(words(case));
    match case.call {
        Call::Keygen => all.extend(streams(random)),
        Call::KeygenFromSeed => {
            all.extend(seeds(0, None));
            all.extend(seeded_no_units());
        }
        Call::CheckSecretKey
        | Call::ExpandSecretKey
        | Call::CompactSecretKey
        | Call::Decapsulate
        | Call::Open
        | Call::OpenWithMargin
        | Call::OpenBatch => {
            all.extend(headers(case, 0));
            all.extend(key_versions(case));
            all.extend(codes(0, S_AT, 1024));
            all.extend(no_units(case, B_AT));
            all.extend(parted_keys(case));
            if is_expanded(case) {
                all.extend(stored_inverses());
            }
        }
        Call::Encapsulate | Call::Seal | Call::SealBatch => {
            all.extend(headers(case, 0));
            all.extend(other_records(case));
            if is_seeded(case) {
                // b is a unit whatever a is
                all.extend(seeds(5, Some(0)));
                all.extend(no_units(case, 37));
            } else {
                all.extend(no_units(case, B_AT));
            }
        }
        Call::Shake128 | Call::Shake256 => {}
    }
    match case.call {
        Call::Encapsulate => {
            all.extend(codes(1, 0, 3072));
            all.extend(dummies(1, true));
        }
        Call::Decapsulate => {
            all.extend(moved_capsules(0));
            all.extend(codes(2, 0, 3072));
            all.extend(dummies(2, true));
        }
        Call::Seal => all.extend(dummies(1, false)),
        Call::Open | Call::OpenWithMargin => {
            all.extend(headers(case, 1));
            all.extend(moved_capsules(5));
            all.extend(body_and_tag());
            all.extend(dummies(2, false));
        }
        Call::SealBatch => {
            all.extend(dummies(1, false));
            all.extend(entries());
        }
        Call::OpenBatch => {
            let m = (case.inputs[1].len() - batch_length(0)) / 16;
            all.extend(headers(case, 1));
            all.extend(moved_capsules(5));
            all.extend(batch_body_and_tag(m));
            all.extend(batch_counts(m));
            all.extend(batch_blocks(m));
            all.extend(dummies(2, false));
        }
        _ => {}
    }
    all
}
