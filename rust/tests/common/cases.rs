//! A case is a call with its inputs and the lengths of its outputs. It runs on the reference, on the library, or on both side by side.
use std::collections::BTreeMap;

use super::{answers, reference};

#[derive(Clone, Copy, PartialEq, Eq, Debug)]
pub enum Call {
    Keygen,
    KeygenFromSeed,
    CheckSecretKey,
    ExpandSecretKey,
    CompactSecretKey,
    Encapsulate,
    Decapsulate,
    Seal,
    Open,
    OpenWithMargin,
    SealBatch,
    OpenBatch,
    Shake128,
    Shake256,
}

impl Call {
    /// Whether it writes a value beside 0, to a lent number.
    pub fn has_value(self) -> bool {
        matches!(self, Call::OpenWithMargin | Call::OpenBatch)
    }
}

#[derive(Clone, Debug)]
pub struct Case {
    pub name: String,
    pub call: Call,
    pub inputs: Vec<Vec<u8>>,
    pub outputs: Vec<usize>,
}

type Hash = fn(&[u8], &mut [u8]);
type OneIn = fn(&[u8], &mut [u8]) -> u32;
type TwoIn = fn(&[u8], &[u8], &mut [u8]) -> u32;
type ThreeIn = fn(&[u8], &[u8], &[u8], &mut [u8]) -> u32;
type ThreeInTwoOut = fn(&[u8], &[u8], &[u8], &mut [u8], &mut [u8]) -> u32;
type ThreeInWithValue = fn(&[u8], &[u8], &[u8], &mut [u8], &mut u32) -> u32;

/// The calls on bytes, by whoever supplies them. They answer codes.
pub struct Calls {
    pub keygen: ThreeInTwoOut,
    pub keygen_from_seed: ThreeInTwoOut,
    pub check_secret_key: fn(&[u8]) -> u32,
    pub expand_secret_key: OneIn,
    pub compact_secret_key: OneIn,
    pub encapsulate: TwoIn,
    pub decapsulate: ThreeIn,
    pub seal: ThreeIn,
    pub open: ThreeIn,
    pub open_with_margin: ThreeInWithValue,
    pub seal_batch: ThreeIn,
    pub open_batch: ThreeInWithValue,
    pub shake128: Hash,
    pub shake256: Hash,
}

pub const REFERENCE: Calls = Calls {
    keygen: reference::keygen,
    keygen_from_seed: reference::keygen_from_seed,
    check_secret_key: reference::check_secret_key,
    expand_secret_key: reference::expand_secret_key,
    compact_secret_key: reference::compact_secret_key,
    encapsulate: reference::encapsulate,
    decapsulate: reference::decapsulate,
    seal: reference::seal,
    open: reference::open,
    open_with_margin: reference::open_with_margin,
    seal_batch: reference::seal_batch,
    open_batch: reference::open_batch,
    shake128: reference::shake128,
    shake256: reference::shake256,
};

/// The code, the value beside it, and every output buffer afterwards.
#[derive(Clone, PartialEq, Eq, Debug)]
pub struct Outcome {
    pub code: u32,
    /// `NO_VALUE` where the call has written none.
    pub value: u32,
    pub outputs: Vec<Vec<u8>>,
}

/// What stands in the lent number before the call.
pub const NO_VALUE: u32 = 0xa5c3_5a3c;

/// Bytes before and after each output that no call may touch.
const GUARD: usize = 64;

/// What stands in a buffer before the call.
fn pattern(length: usize) -> Vec<u8> {
    (0..length).map(|i| (i * 37 + 11) as u8).collect()
}

/// What an output of this length holds when a call has written these first bytes of it.
pub fn written_over(length: usize, first: &[u8]) -> Vec<u8> {
    let mut all = pattern(length + 2 * GUARD)[GUARD..GUARD + length].to_vec();
    all[..first.len()].copy_from_slice(first);
    all
}

/// Runs a case; fails where a byte beside an output changes, a byte of an output or the value under a code other than 0, or a byte behind
/// the entries of a batch.
pub fn run(calls: &Calls, case: &Case) -> Outcome {
    let before: Vec<Vec<u8>> = case.outputs.iter().map(|length| pattern(length + 2 * GUARD)).collect();
    let mut after = before.clone();
    let mut value = NO_VALUE;
    let code = {
        let input = |i: usize| &case.inputs[i][..];
        let mut lent: Vec<&mut [u8]> =
            after.iter_mut().zip(&case.outputs).map(|(buffer, length)| &mut buffer[GUARD..GUARD + length]).collect();
        let keys = |call: ThreeInTwoOut, lent: &mut [&mut [u8]]| {
            let (public_key, secret_key) = lent.split_at_mut(1);
            call(input(0), input(1), input(2), public_key[0], secret_key[0])
        };
        let hash = |call: Hash, lent: &mut [&mut [u8]]| {
            call(input(0), lent[0]);
            0
        };
        match case.call {
            Call::Keygen => keys(calls.keygen, &mut lent),
            Call::KeygenFromSeed => keys(calls.keygen_from_seed, &mut lent),
            Call::CheckSecretKey => (calls.check_secret_key)(input(0)),
            Call::ExpandSecretKey => (calls.expand_secret_key)(input(0), lent[0]),
            Call::CompactSecretKey => (calls.compact_secret_key)(input(0), lent[0]),
            Call::Encapsulate => (calls.encapsulate)(input(0), input(1), lent[0]),
            Call::Decapsulate => (calls.decapsulate)(input(0), input(1), input(2), lent[0]),
            Call::Seal => (calls.seal)(input(0), input(1), input(2), lent[0]),
            Call::Open => (calls.open)(input(0), input(1), input(2), lent[0]),
            Call::OpenWithMargin => (calls.open_with_margin)(input(0), input(1), input(2), lent[0], &mut value),
            Call::SealBatch => (calls.seal_batch)(input(0), input(1), input(2), lent[0]),
            Call::OpenBatch => (calls.open_batch)(input(0), input(1), input(2), lent[0], &mut value),
            Call::Shake128 => hash(calls.shake128, &mut lent),
            Call::Shake256 => hash(calls.shake256, &mut lent),
        }
    };
    for ((before, after), length) in before.iter().zip(&after).zip(&case.outputs) {
        let beside = |buffer: &[u8]| [&buffer[..GUARD], &buffer[GUARD + length..]].concat();
        assert!(beside(before) == beside(after), "{}: written outside the buffer", case.name);
        assert!(code == 0 || before == after, "{}: refused under {}, and an output has changed", case.name, answers::shown(code));
    }
    let has_value = code == 0 && case.call.has_value();
    assert!(has_value || value == NO_VALUE, "{}: {}, and the value has changed", case.name, answers::shown(code));
    if has_value && case.call == Call::OpenBatch {
        let end = GUARD + 16 * value as usize;
        assert!(before[0][end..] == after[0][end..], "{}: written behind {value} entries", case.name);
    }
    let outputs = after.iter().zip(&case.outputs).map(|(buffer, length)| buffer[GUARD..GUARD + length].to_vec()).collect();
    Outcome { code, value, outputs }
}

/// Counts agreements, and remembers by name what did not agree.
pub struct Count {
    what: &'static str,
    cases: usize,
    numbers: BTreeMap<u32, usize>,
    mismatches: Vec<String>,
}

impl Count {
    pub fn new(what: &'static str) -> Count {
        Count { what, cases: 0, numbers: BTreeMap::new(), mismatches: vec![] }
    }

    pub fn add(&mut self, name: &str, expected: &Outcome, actual: &Outcome) {
        self.cases += 1;
        *self.numbers.entry(answers::number(expected.code)).or_default() += 1;
        if expected.code != actual.code {
            self.mismatches.push(format!("{name}: answers {}, expected {}", answers::shown(actual.code), answers::shown(expected.code)));
        } else if expected.value != actual.value {
            self.mismatches.push(format!("{name}: the value {}, expected {}", actual.value, expected.value));
        } else if expected.outputs != actual.outputs {
            self.mismatches.push(format!("{name}: answers {}, other bytes", answers::shown(actual.code)));
        }
    }

    pub fn agree(&mut self, name: &str, agrees: bool) {
        self.cases += 1;
        if !agrees {
            self.mismatches.push(name.to_string());
        }
    }

    /// Prints the count, and fails on any mismatch.
    pub fn finish(self) {
        let seen: Vec<String> = self.numbers.iter().map(|(number, count)| format!("{number}: {count}")).collect();
        let seen = if seen.is_empty() { String::new() } else { format!(" (numbers {})", seen.join(", ")) };
        println!("{}: {} cases, {} mismatches{seen}", self.what, self.cases, self.mismatches.len());
        for mismatch in self.mismatches.iter().take(20) {
            println!("    {mismatch}");
        }
        assert!(self.mismatches.is_empty(), "{}: {} mismatches", self.what, self.mismatches.len());
    }
}
