//! The vectors by other hands: files NAME.bin, with the names of their cases in NAME.txt where that is there too.
//! A field is a 32-bit little-endian length and that many bytes; a case is its inputs, the number, the location in words, the value where
//! the call has one, and the outputs.
use std::path::{Path, PathBuf};

use super::answers;
use super::cases::{run, written_over, Call, Calls, Case, Count, Outcome, NO_VALUE};

/// Where the file stands: in the folder POLKA_VECTORS or, where that has none of the name, with the program of the gate that works
/// through it. So a folder may hold the files of one change alone.
fn path(file: &str) -> PathBuf {
    let name = format!("{file}.bin");
    let crates = Path::new(env!("CARGO_MANIFEST_DIR")).join("../crates");
    let programs = ["reference_vectors", "ring_vectors", "gf128_vectors"].map(|program| crates.join(program).join("data"));
    let named = std::env::var_os("POLKA_VECTORS").map(PathBuf::from);
    assert!(named.iter().all(|folder| folder.is_dir()), "POLKA_VECTORS names no folder");
    named
        .into_iter()
        .chain(programs)
        .map(|folder| folder.join(&name))
        .find(|path| path.exists())
        .unwrap_or_else(|| panic!("{name}: not found; name its folder in POLKA_VECTORS"))
}

pub struct Vector {
    pub name: String,
    pub inputs: Vec<Vec<u8>>,
    pub number: u32,
    /// RECORD PART INDEX where a word is off the ring, else empty.
    pub location: String,
    pub outputs: Vec<Vec<u8>>,
}

pub fn read(file: &str, inputs: usize, outputs: usize) -> Vec<Vector> {
    let path = path(file);
    let bytes = std::fs::read(&path).unwrap_or_else(|error| panic!("{}: {error}", path.display()));
    let names: Vec<String> = std::fs::read_to_string(path.with_extension("txt"))
        .map(|text| text.lines().filter_map(|line| line.strip_prefix("name = ")).map(str::to_string).collect())
        .unwrap_or_default();
    let mut rest = &bytes[..];
    let mut field = || {
        let (length, after) = rest.split_at_checked(4)?;
        let (field, after) = after.split_at_checked(number(length) as usize).expect("a field that is cut off");
        rest = after;
        Some(field.to_vec())
    };
    let mut vectors = vec![];
    while let Some(first) = field() {
        let mut next = || field().expect("a case that is cut off");
        let mut all = vec![first];
        all.resize_with(inputs, &mut next);
        let answer = number(&next());
        let location = String::from_utf8(next()).expect("a location in words");
        assert!(location.is_empty() || [4, 11].contains(&answer), "{file}: a location under {answer}");
        let mut results = vec![];
        results.resize_with(outputs, &mut next);
        let name = names.get(vectors.len()).map_or_else(|| format!("case {}", vectors.len() + 1), String::clone);
        vectors.push(Vector { name: format!("{file}: {name}"), inputs: all, number: answer, location, outputs: results });
    }
    assert!(!vectors.is_empty(), "{file}: no cases");
    assert!(names.is_empty() || names.len() == vectors.len(), "{file}: .txt and .bin differ in the count of cases");
    vectors
}

/// A number is four bytes, little-endian, two's complement.
pub fn number(field: &[u8]) -> u32 {
    u32::from_le_bytes(field.try_into().expect("a number of four bytes"))
}

/// Every case of one file. The last inputs are the lengths of the outputs.
fn compare(calls: &Calls, what: &'static str, file: &str, call: Call, inputs: usize, outputs: usize) {
    let mut count = Count::new(what);
    let values = usize::from(call.has_value());
    for vector in read(file, inputs + outputs, values + outputs) {
        let lengths = vector.inputs[inputs..].iter().map(|field| number(field) as usize).collect();
        let case = Case { name: vector.name, call, inputs: vector.inputs[..inputs].to_vec(), outputs: lengths };
        let code = answers::code(vector.number, &vector.location);
        let (value, written) = vector.outputs.split_at(values);
        let value = match value {
            [field] if code == 0 => number(field),
            _ => NO_VALUE,
        };
        // nothing is written under a refusal, and of the output for a batch only its entries are
        let all = |first: &[u8], length: usize| code != 0 || call == Call::OpenBatch || first.len() == length;
        assert!(written.iter().zip(&case.outputs).all(|(first, &length)| all(first, length)), "{}: an output in part", case.name);
        let outputs = written.iter().zip(&case.outputs).map(|(first, &length)| written_over(length, first)).collect();
        count.add(&case.name, &Outcome { code, value, outputs }, &run(calls, &case));
    }
    count.finish();
}

pub fn compare_keygen(calls: &Calls) {
    compare(calls, "vectors, keygen", "keygen", Call::Keygen, 3, 2);
}

pub fn compare_keygen_from_seed(calls: &Calls) {
    compare(calls, "vectors, keygen_from_seed", "keygen_from_seed", Call::KeygenFromSeed, 3, 2);
}

pub fn compare_check_secret_key(calls: &Calls) {
    compare(calls, "vectors, check_secret_key", "check_secret_key", Call::CheckSecretKey, 1, 0);
}

pub fn compare_expand_secret_key(calls: &Calls) {
    compare(calls, "vectors, expand_secret_key", "expand_secret_key", Call::ExpandSecretKey, 1, 1);
}

pub fn compare_compact_secret_key(calls: &Calls) {
    compare(calls, "vectors, compact_secret_key", "compact_secret_key", Call::CompactSecretKey, 1, 1);
}

pub fn compare_encapsulate(calls: &Calls) {
    compare(calls, "vectors, encapsulate", "encapsulate", Call::Encapsulate, 2, 1);
}

pub fn compare_decapsulate(calls: &Calls) {
    compare(calls, "vectors, decapsulate", "decapsulate", Call::Decapsulate, 3, 1);
}

pub fn compare_seal(calls: &Calls) {
    compare(calls, "vectors, seal", "seal", Call::Seal, 3, 1);
}

pub fn compare_open(calls: &Calls) {
    compare(calls, "vectors, open", "open", Call::Open, 3, 1);
}

/// Entries that were sealed before the noise was read as it is now: they open still.
pub fn compare_open_sealed_before(calls: &Calls) {
    compare(calls, "vectors, entries sealed before", "open_sealed_before", Call::Open, 3, 1);
}

pub fn compare_open_with_margin(calls: &Calls) {
    compare(calls, "vectors, open_with_margin", "open_with_margin", Call::OpenWithMargin, 3, 1);
}

pub fn compare_seal_batch(calls: &Calls) {
    compare(calls, "vectors, seal_batch", "seal_batch", Call::SealBatch, 3, 1);
}

pub fn compare_open_batch(calls: &Calls) {
    compare(calls, "vectors, open_batch", "open_batch", Call::OpenBatch, 3, 1);
}

pub fn compare_shake128(calls: &Calls) {
    compare(calls, "vectors, shake128", "shake128", Call::Shake128, 1, 1);
}

pub fn compare_shake256(calls: &Calls) {
    compare(calls, "vectors, shake256", "shake256", Call::Shake256, 1, 1);
}

/// The desk program's code and line for its standard input; the line has the number alone.
pub fn desk_line(calls: &Calls, input: &[u8]) -> (u32, String) {
    if input.len() != 10_026 {
        return (1, "1 -\n".into());
    }
    // the desk takes version 1 alone; the call would miss the rest of a key of version 2
    if input.starts_with(b"SDK\x02\x00") {
        return (3, "3 -\n".into());
    }
    let inputs = vec![input[..4357].to_vec(), input[4357..8490].to_vec(), input[8490..].to_vec()];
    let Outcome { code, outputs, .. } = run(calls, &Case { name: "desk".into(), call: Call::Open, inputs, outputs: vec![16] });
    if code != 0 {
        return (code, format!("{} -\n", answers::number(code)));
    }
    let digits: String = outputs[0].iter().map(|byte| format!("{byte:02x}")).collect();
    (0, format!("0 {digits}\n"))
}

/// Whether a case of the desk tells this code: the number, and the location or none, as the desk prints none.
pub fn desk_told(vector: &Vector, code: u32) -> bool {
    let located = vector.location.is_empty() || answers::code(vector.number, &vector.location) == code;
    answers::number(code) == vector.number && located
}

/// The desk's inputs, opened by the call: code and line.
pub fn compare_desk(calls: &Calls) {
    let mut count = Count::new("vectors, desk");
    for vector in read("desk", 1, 1) {
        let (code, line) = desk_line(calls, &vector.inputs[0]);
        // the files have the line with or without its line feed
        let same = |bytes: &[u8]| bytes == line.as_bytes() || bytes == line.trim_end().as_bytes();
        count.agree(&vector.name, desk_told(&vector, code) && (vector.outputs[0].is_empty() || same(&vector.outputs[0])));
    }
    count.finish();
}
