//! The proved library beside its peers, all in one run: SHAKE128 and SHAKE256 beside OpenSSL's, every call beside the same algorithm in
//! Rust, keys, sealing and opening beside Botan's NewHope-1024, an entry of a batch beside one alone, and opening with an expanded key
//! beside opening with a plain one. The two sides of a line take turns, and the least time of each counts.
mod botan;
mod fast;
#[allow(dead_code)]
#[path = "../../ffi.rs"]
mod ffi;
mod openssl;
mod product;

use std::ffi::CStr;
use std::hint::black_box;

/// Ticks of the time stamp counter, which Botan counts too.
#[cfg(target_arch = "x86_64")]
fn now() -> u64 {
    // SAFETY: every x86-64 processor has the counter; a fence keeps earlier work before it.
    unsafe {
        core::arch::x86_64::_mm_lfence();
        core::arch::x86_64::_rdtsc()
    }
}

/// Elsewhere nanoseconds stand in for cycles; no line with Botan is then printed.
#[cfg(not(target_arch = "x86_64"))]
fn now() -> u64 {
    use std::time::{SystemTime, UNIX_EPOCH};
    SystemTime::now().duration_since(UNIX_EPOCH).unwrap().as_nanos() as u64
}

/// Cycles of one call, over `calls` calls.
fn time(calls: u32, call: &mut impl FnMut()) -> f64 {
    let start = now();
    for _ in 0..calls {
        call();
    }
    (now() - start) as f64 / f64::from(calls)
}

/// The least of each side over rounds in turn, after one round that does not count.
fn in_turn(rounds: u32, calls: u32, mut ours: impl FnMut(), mut theirs: impl FnMut()) -> (f64, f64) {
    time(calls, &mut ours);
    time(calls, &mut theirs);
    (0..rounds).fold((f64::MAX, f64::MAX), |(least_ours, least_theirs), _| {
        (least_ours.min(time(calls, &mut ours)), least_theirs.min(time(calls, &mut theirs)))
    })
}

fn heading(title: &str) {
    columns(title, ["ours", "peer", "peer / ours"]);
}

fn columns(title: &str, names: [&str; 3]) {
    println!("\n{title}");
    println!("{:<44} {:>12} {:>12} {:>12}", "", names[0], names[1], names[2]);
}

fn line(what: &str, (ours, theirs): (f64, f64)) {
    println!("{what:<44} {ours:>12.0} {theirs:>12.0} {:>12.2}", theirs / ours);
}

/// Bytes from a fixed seed.
fn bytes(seed: u64, length: usize) -> Vec<u8> {
    let mut state = seed | 1;
    let mut next = || {
        state = state.wrapping_mul(6_364_136_223_846_793_005).wrapping_add(1_442_695_040_888_963_407);
        (state >> 56) as u8
    };
    (0..length).map(|_| next()).collect()
}

fn beside_openssl() {
    heading(&format!("SHAKE128 and SHAKE256 beside {} (EVP, one context)", openssl::version()));
    // what a seed is turned into, and a long message
    hash(c"SHAKE128", polka::shake128, &[(32, 2688), (1 << 20, 32)]);
    hash(c"SHAKE256", polka::shake256, &[(769, 48), (17, 16), (17, 4080), (1 << 20, 32), (32, 1 << 14)]);
}

/// A line for each pair of lengths.
fn hash(name: &CStr, call: impl Fn(&[u8], &mut [u8]), lengths: &[(usize, usize)]) {
    let peer = openssl::Shake::new(name);
    let name = name.to_string_lossy();
    for &(input, output) in lengths {
        let data = bytes(1, input);
        let (mut ours, mut theirs) = (vec![0; output], vec![0; output]);
        call(&data, &mut ours);
        peer.hash(&data, &mut theirs);
        assert_eq!(ours, theirs, "{name}, {input} in: the outputs differ");
        let calls = (200_000 / (input + output + 200)).max(1) as u32;
        let times =
            in_turn(200, calls, || call(black_box(&data), black_box(&mut ours)), || peer.hash(black_box(&data), black_box(&mut theirs)));
        line(&format!("{name}, {input} bytes in, {output} out"), times);
    }
}

/// One key and one record of each kind, made by the library and, the same, by its peer in Rust.
struct Records {
    seed: Vec<u8>,
    /// What the seed stands for.
    stream: Vec<u8>,
    noise_s: Vec<u8>,
    noise_e: Vec<u8>,
    public_key: Vec<u8>,
    seeded_public_key: Vec<u8>,
    secret_key: Vec<u8>,
    expanded_key: Vec<u8>,
    triple: Vec<u8>,
    encapsulation: Vec<u8>,
    noise: Vec<u8>,
    entry: Vec<u8>,
    sealed: Vec<u8>,
    /// Of the largest batch; others have the first of them.
    entries: Vec<u8>,
    /// Of each size.
    batches: [(usize, Vec<u8>); 3],
    dummy_noise: Vec<u8>,
}

/// The least, a small and the largest batch.
const SIZES: [usize; 3] = [1, 16, 255];

impl Records {
    fn new() -> Records {
        let (noise, entry, dummy_noise) = (bytes(4, 1536), bytes(5, 16), bytes(6, 1536));
        // codes 0 and 1
        let triple: Vec<u8> = bytes(7, 768).iter().map(|byte| byte & 0x55).collect();
        let (mut public_key, mut seeded_public_key, mut secret_key) = (vec![0; 4101], vec![0; 2085], vec![0; 4357]);
        let (mut encapsulation, mut sealed) = (vec![0; 4096], vec![0; 4133]);
        let (seed, noise_s, noise_e) = (1..)
            .map(|turn| (bytes(10 * turn, 32), bytes(10 * turn + 2, 512), bytes(10 * turn + 4, 512)))
            .find(|(seed, noise_s, noise_e)| ffi::keygen_from_seed(seed, noise_s, noise_e, &mut seeded_public_key, &mut secret_key) == 0)
            .unwrap();
        let mut stream = vec![0; 2688];
        ffi::shake128(&seed, &mut stream);
        assert_eq!(ffi::keygen(&stream, &noise_s, &noise_e, &mut public_key, &mut secret_key), 0);
        let mut expanded_key = vec![0; 6405];
        assert_eq!(ffi::expand_secret_key(&secret_key, &mut expanded_key), 0);
        assert_eq!(ffi::encapsulate(&public_key, &triple, &mut encapsulation), 0);
        assert_eq!(ffi::seal(&public_key, &noise, &entry, &mut sealed), 0);
        let entries = bytes(8, 4080);
        let batches = SIZES.map(|count| {
            let mut batch = vec![0; batch_length(count)];
            assert_eq!(ffi::seal_batch(&public_key, &noise, &entries[..16 * count], &mut batch), 0);
            (count, batch)
        });
        let made = Records {
            seed,
            stream,
            noise_s,
            noise_e,
            public_key,
            seeded_public_key,
            secret_key,
            expanded_key,
            triple,
            encapsulation,
            noise,
            entry,
            sealed,
            entries,
            batches,
            dummy_noise,
        };
        made.agree();
        made
    }

    /// The key's a and b.
    fn elements(&self) -> [&[u8]; 2] {
        [&self.public_key[5..2053], &self.public_key[2053..]]
    }

    /// Both sides do the same work: the peer writes the same bytes.
    fn agree(&self) {
        let products = [product::product, fast::product].map(|product: TwoIn| {
            let [a, b] = self.elements();
            let mut out = vec![0; 2048];
            assert_eq!(product(a, b, &mut out), 0);
            out
        });
        assert!(products[0] == products[1], "the products differ");
        let sources: [(Keygen, &[u8], &[u8]); 3] = [
            (fast::keygen, &self.stream, &self.public_key),
            (ffi::keygen_from_seed, &self.seed, &self.seeded_public_key),
            (fast::keygen_from_seed, &self.seed, &self.seeded_public_key),
        ];
        for (keygen, source, expected) in sources {
            let (mut public_key, mut secret_key) = (vec![0; expected.len()], vec![0; 4357]);
            assert_eq!(keygen(source, &self.noise_s, &self.noise_e, &mut public_key, &mut secret_key), 0);
            assert!(public_key == expected && secret_key == self.secret_key, "the keys differ");
        }
        for public_key in [&self.public_key, &self.seeded_public_key] {
            for encapsulate in [ffi::encapsulate, fast::encapsulate] {
                let mut encapsulation = vec![0; 4096];
                assert_eq!(encapsulate(public_key, &self.triple, &mut encapsulation), 0);
                assert!(encapsulation == self.encapsulation, "the encapsulations differ");
            }
            for seal in [ffi::seal, fast::seal] {
                let mut sealed = vec![0; 4133];
                assert_eq!(seal(public_key, &self.noise, &self.entry, &mut sealed), 0);
                assert!(sealed == self.sealed, "the sealed entries differ");
            }
        }
        for (count, expected) in &self.batches {
            for public_key in [&self.public_key, &self.seeded_public_key] {
                for seal_batch in [ffi::seal_batch, fast::seal_batch] {
                    let mut batch = vec![0; expected.len()];
                    assert_eq!(seal_batch(public_key, &self.noise, &self.entries[..16 * count], &mut batch), 0);
                    assert!(batch == *expected, "the batches differ");
                }
            }
        }
        let conversions: [(OneIn, &[u8], &[u8]); 3] = [
            (fast::expand_secret_key, &self.secret_key, &self.expanded_key),
            (ffi::compact_secret_key, &self.expanded_key, &self.secret_key),
            (fast::compact_secret_key, &self.expanded_key, &self.secret_key),
        ];
        for (convert, key, expected) in conversions {
            let mut out = vec![0; expected.len()];
            assert_eq!(convert(key, &mut out), 0);
            assert!(out == expected, "the converted keys differ");
        }
        for key in self.secret_keys() {
            self.opens(key);
        }
    }

    /// Without the inverse of b, and with it.
    fn secret_keys(&self) -> [&[u8]; 2] {
        [&self.secret_key, &self.expanded_key]
    }

    /// With either version of the secret key.
    fn opens(&self, secret_key: &[u8]) {
        for open in [ffi::open, fast::open] {
            let mut entry = vec![0; 16];
            assert_eq!(open(secret_key, &self.sealed, &self.dummy_noise, &mut entry), 0);
            assert!(entry == self.entry, "the entries differ");
        }
        let margins = [ffi::open_with_margin, fast::open_with_margin].map(|open_with_margin: ThreeInWithValue| {
            let (mut entry, mut margin) = (vec![0; 16], 0);
            assert_eq!(open_with_margin(secret_key, &self.sealed, &self.dummy_noise, &mut entry, &mut margin), 0);
            assert!(entry == self.entry, "the entries differ");
            margin
        });
        assert!(margins[0] == margins[1], "the margins differ");
        for (count, expected) in &self.batches {
            for open_batch in [ffi::open_batch, fast::open_batch] {
                let (mut entries, mut opened) = (vec![0; 4080], 0);
                assert_eq!(open_batch(secret_key, expected, &self.dummy_noise, &mut entries, &mut opened), 0);
                let same = opened as usize == *count && entries[..16 * count] == self.entries[..16 * count];
                assert!(same, "the entries of a batch differ");
            }
        }
        for decapsulate in [ffi::decapsulate, fast::decapsulate] {
            let mut triple = vec![0; 768];
            assert_eq!(decapsulate(secret_key, &self.encapsulation, &self.triple, &mut triple), 0);
            assert!(triple == self.triple, "the triples differ");
        }
    }
}

type Keygen = fn(&[u8], &[u8], &[u8], &mut [u8], &mut [u8]) -> u32;
type ThreeIn = fn(&[u8], &[u8], &[u8], &mut [u8]) -> u32;
type ThreeInWithValue = fn(&[u8], &[u8], &[u8], &mut [u8], &mut u32) -> u32;
type OneIn = fn(&[u8], &mut [u8]) -> u32;
type TwoIn = fn(&[u8], &[u8], &mut [u8]) -> u32;

/// `source` is a stream or a seed.
fn keygen_of<'a>(call: Keygen, source: &'a [u8], records: &'a Records, output: usize) -> impl FnMut() + 'a {
    let (mut public_key, mut secret_key) = (vec![0; output], vec![0; 4357]);
    move || {
        let done = call(black_box(source), black_box(&records.noise_s), &records.noise_e, &mut public_key, black_box(&mut secret_key));
        assert_eq!(done, 0);
    }
}

fn three_in<'a>(call: ThreeIn, inputs: [&'a [u8]; 3], output: usize) -> impl FnMut() + 'a {
    let mut out = vec![0; output];
    move || assert_eq!(call(black_box(inputs[0]), black_box(inputs[1]), black_box(inputs[2]), black_box(&mut out)), 0)
}

fn three_in_with_value<'a>(call: ThreeInWithValue, inputs: [&'a [u8]; 3], output: usize) -> impl FnMut() + 'a {
    let (mut out, mut value) = (vec![0; output], 0);
    move || {
        let done = call(black_box(inputs[0]), black_box(inputs[1]), black_box(inputs[2]), black_box(&mut out), black_box(&mut value));
        assert_eq!(done, 0);
    }
}

fn batch_length(count: usize) -> usize {
    4119 + 16 * count
}

fn seal_batch_of<'a>(call: ThreeIn, key: &'a [u8], count: usize, records: &'a Records) -> impl FnMut() + 'a {
    three_in(call, [key, &records.noise, &records.entries[..16 * count]], batch_length(count))
}

fn open_batch_of<'a>(call: ThreeInWithValue, batch: &'a [u8], records: &'a Records) -> impl FnMut() + 'a {
    three_in_with_value(call, [&records.secret_key, batch, &records.dummy_noise], 4080)
}

fn one_in<'a>(call: OneIn, input: &'a [u8], output: usize) -> impl FnMut() + 'a {
    let mut out = vec![0; output];
    move || assert_eq!(call(black_box(input), black_box(&mut out)), 0)
}

fn check_of(call: fn(&[u8]) -> u32, key: &[u8]) -> impl FnMut() + '_ {
    move || assert_eq!(call(black_box(key)), 0)
}

fn two_in<'a>(call: TwoIn, inputs: [&'a [u8]; 2], output: usize) -> impl FnMut() + 'a {
    let mut out = vec![0; output];
    move || assert_eq!(call(black_box(inputs[0]), black_box(inputs[1]), black_box(&mut out)), 0)
}

const ROUNDS: u32 = 150;
const CALLS: u32 = 10;

fn beside_rust(records: &Records) {
    heading("Calls beside the same algorithm in Rust");
    let Records { seed, stream, public_key, seeded_public_key, secret_key, expanded_key, triple, .. } = records;
    let Records { encapsulation, noise, entry, sealed, dummy_noise, .. } = records;
    let product = |call| two_in(call, records.elements(), 2048);
    line("product", in_turn(ROUNDS, CALLS, product(product::product), product(fast::product)));
    let keygen = |call| keygen_of(call, stream, records, 4101);
    line("key generation", in_turn(ROUNDS, CALLS, keygen(ffi::keygen), keygen(fast::keygen)));
    let keygen = |call| keygen_of(call, seed, records, 2085);
    line("key generation from a seed", in_turn(ROUNDS, CALLS, keygen(ffi::keygen_from_seed), keygen(fast::keygen_from_seed)));
    for (what, key) in [("key check", secret_key), ("key check, expanded key", expanded_key)] {
        let check = |call| check_of(call, key);
        line(what, in_turn(ROUNDS, CALLS, check(ffi::check_secret_key), check(fast::check_secret_key)));
    }
    let expand = |call| one_in(call, secret_key, 6405);
    line("expand a key", in_turn(ROUNDS, CALLS, expand(ffi::expand_secret_key), expand(fast::expand_secret_key)));
    let compact = |call| one_in(call, expanded_key, 4357);
    line("compact a key", in_turn(ROUNDS, CALLS, compact(ffi::compact_secret_key), compact(fast::compact_secret_key)));
    for (what, key) in [("encapsulate", public_key), ("encapsulate, seeded public key", seeded_public_key)] {
        let encapsulate = |call| two_in(call, [key, triple], 4096);
        line(what, in_turn(ROUNDS, CALLS, encapsulate(ffi::encapsulate), encapsulate(fast::encapsulate)));
    }
    for (what, key) in [("decapsulate", secret_key), ("decapsulate, expanded key", expanded_key)] {
        let decapsulate = |call| three_in(call, [key, encapsulation, triple], 768);
        line(what, in_turn(ROUNDS, CALLS, decapsulate(ffi::decapsulate), decapsulate(fast::decapsulate)));
    }
    for (what, key) in [("seal", public_key), ("seal, seeded public key", seeded_public_key)] {
        let seal = |call| three_in(call, [key, noise, entry], 4133);
        line(what, in_turn(ROUNDS, CALLS, seal(ffi::seal), seal(fast::seal)));
    }
    for (what, key) in [("open", secret_key), ("open, expanded key", expanded_key)] {
        let open = |call| three_in(call, [key, sealed, dummy_noise], 16);
        line(what, in_turn(ROUNDS, CALLS, open(ffi::open), open(fast::open)));
    }
    for (what, key) in [("open with margin", secret_key), ("open with margin, expanded key", expanded_key)] {
        let open = |call| three_in_with_value(call, [key, sealed, dummy_noise], 16);
        line(what, in_turn(ROUNDS, CALLS, open(ffi::open_with_margin), open(fast::open_with_margin)));
    }
    for (count, _) in &records.batches {
        let seal_batch = |call| seal_batch_of(call, public_key, *count, records);
        line(&format!("seal a batch of {count}"), in_turn(ROUNDS, CALLS, seal_batch(ffi::seal_batch), seal_batch(fast::seal_batch)));
    }
    for (count, batch) in &records.batches {
        let open_batch = |call| open_batch_of(call, batch, records);
        line(&format!("open a batch of {count}"), in_turn(ROUNDS, CALLS, open_batch(ffi::open_batch), open_batch(fast::open_batch)));
    }
}

/// What an entry costs in a batch, and alone: the batch's cycles and bytes over the count of its entries.
fn entries_of_batches(records: &Records) {
    columns("An entry in a batch beside an entry alone", ["in a batch", "alone", "alone/batch"]);
    let Records { public_key, secret_key, noise, entry, sealed, dummy_noise, .. } = records;
    let each = |count: usize, (batch, alone): (f64, f64)| (batch / count as f64, alone);
    for (count, _) in &records.batches {
        let alone = three_in(ffi::seal, [public_key, noise, entry], 4133);
        let times = in_turn(ROUNDS, CALLS, seal_batch_of(ffi::seal_batch, public_key, *count, records), alone);
        line(&format!("seal, one of {count}"), each(*count, times));
    }
    for (count, batch) in &records.batches {
        let alone = three_in(ffi::open, [secret_key, sealed, dummy_noise], 16);
        let times = in_turn(ROUNDS, CALLS, open_batch_of(ffi::open_batch, batch, records), alone);
        line(&format!("open, one of {count}"), each(*count, times));
    }
    for (count, batch) in &records.batches {
        line(&format!("bytes on the line, one of {count}"), each(*count, (batch.len() as f64, sealed.len() as f64)));
    }
}

/// What the stored inverse saves, and what its own check costs.
fn with_an_expanded_key(records: &Records) {
    columns("A call with an expanded key beside the same with a plain one", ["expanded", "plain", "plain/exp."]);
    let Records { triple, encapsulation, sealed, dummy_noise, .. } = records;
    let both = |what: &str, [plain, expanded]: [&mut dyn FnMut(); 2]| line(what, in_turn(ROUNDS, CALLS, expanded, plain));
    let keys = records.secret_keys();
    let [mut plain, mut expanded] = keys.map(|key| check_of(ffi::check_secret_key, key));
    both("key check", [&mut plain, &mut expanded]);
    let [mut plain, mut expanded] = keys.map(|key| three_in(ffi::decapsulate, [key, encapsulation, triple], 768));
    both("decapsulate", [&mut plain, &mut expanded]);
    let [mut plain, mut expanded] = keys.map(|key| three_in(ffi::open, [key, sealed, dummy_noise], 16));
    both("open", [&mut plain, &mut expanded]);
}

/// Where the time goes, by the peer in Rust: the archive exports whole calls only.
fn parts(records: &Records) {
    println!("\nParts of the calls, in Rust; of two counts for open the second is with an expanded key");
    let alone = |what: &str, call: &mut dyn FnMut()| {
        let least = (0..ROUNDS).fold(f64::MAX, |least, _| least.min(time(20, &mut || call())));
        println!("{what:<44} {least:>12.0}");
    };
    let (w, v) = (fast::forward_factors(), fast::backward_factors());
    let a: fast::Element = std::array::from_fn(|i| 1 + (i * 57) as u16);
    alone("both tables of factors (once a call)", &mut || {
        black_box((fast::forward_factors(), fast::backward_factors()));
    });
    alone("transform forward (seal 3, open 7 or 8)", &mut || {
        black_box(fast::forward(black_box(&a), &w));
    });
    alone("transform backward (seal 2, open 4)", &mut || {
        black_box(fast::backward(black_box(&a), &v));
    });
    alone("product of spectra (seal 2, open 6 or 7)", &mut || {
        black_box(fast::pointwise(black_box(&a), black_box(&a)));
    });
    alone("1,024 reciprocals (open 1 or 0)", &mut || {
        black_box(fast::reciprocals(black_box(&a)));
    });
    let mut quotients = [0; 1024];
    alone("remainders and quotients by 5 (open 1)", &mut || {
        black_box(fast::divide_by_5(black_box(&a), black_box(&mut quotients)));
    });
    alone("polynomial from noise (seal 3, open 3)", &mut || {
        black_box(fast::from_noise(black_box(&records.noise[..512])));
    });
    alone("a of a seed (seeded public key 1)", &mut || {
        black_box(fast::seeded(black_box(&records.seed)));
    });
    let mut out = [0; 48];
    alone("SHAKE256 of a triple (seal 1, open 1)", &mut || fast::shake256(black_box(&records.sealed[..769]), black_box(&mut out)));
    let mut keystream = [0; 4080];
    alone("product in the tag's field (seal 1, open 1)", &mut || {
        black_box(fast::field_product(black_box([0x5a; 16]), black_box([0xc3; 16])));
    });
    alone("keystream of a batch of 255", &mut || fast::shake256(black_box(&records.sealed[..17]), black_box(&mut keystream)));
    let keys = fast::Keys { k1: [0x5a; 16], k2: [0xc3; 16] };
    alone("tag of a batch of 255", &mut || {
        black_box(fast::batch_tag(black_box(&keys), black_box(&records.entries)));
    });
}

fn beside_newhope(records: &Records) {
    let Some(version) = botan::version() else {
        println!("\nbotan not installed (apt-get install botan): no comparison with NewHope-1024");
        return;
    };
    heading(&format!("Calls beside NewHope-1024 of Botan {version}"));
    let seal_under = |key| three_in(ffi::seal, [key, &records.noise, &records.entry], 4133);
    let mut keygen = keygen_of(ffi::keygen, &records.stream, records, 4101);
    let mut keygen_from_seed = keygen_of(ffi::keygen_from_seed, &records.seed, records, 2085);
    let mut seal = seal_under(&records.public_key);
    let mut seal_seeded = seal_under(&records.seeded_public_key);
    let mut open = three_in(ffi::open, [&records.secret_key, &records.sealed, &records.dummy_noise], 16);
    let mut least = [f64::MAX; 7];
    // Botan's runs are short, about as long as a batch of ours: a long mean would count what else the machine does.
    for _ in 0..100 {
        let Some(peer) = botan::speed(3) else {
            println!("botan speed gave no figures for NEWHOPE");
            return;
        };
        let round = [
            time(10, &mut keygen),
            time(10, &mut keygen_from_seed),
            time(10, &mut seal),
            time(10, &mut seal_seeded),
            time(10, &mut open),
            peer.keygen,
            peer.responder,
        ];
        for (least, new) in least.iter_mut().zip(round) {
            *least = least.min(new);
        }
    }
    let [keygen, keygen_from_seed, seal, seal_seeded, open, peer_keygen, peer_responder] = least;
    line("key generation, key generation", (keygen, peer_keygen));
    line("key generation from a seed, key generation", (keygen_from_seed, peer_keygen));
    line("seal, responder (aim: 2.00)", (seal, peer_responder));
    line("seal, seeded public key, responder", (seal_seeded, peer_responder));
    line("open, responder (aim: 1.00)", (open, peer_responder));
    println!("NewHope draws its own random bytes; ours are lent. It expands its own a; ours do so under a seed alone.");
    println!("Means of 3 ms for NewHope, of 10 calls for ours.");
}

fn machine() -> String {
    let about = std::fs::read_to_string("/proc/cpuinfo").unwrap_or_default();
    let model = about.lines().find_map(|line| line.strip_prefix("model name")).map(|rest| rest.trim_start_matches([' ', '\t', ':']));
    model.unwrap_or(std::env::consts::ARCH).to_string()
}

fn main() {
    println!("Cycles of the time stamp counter for one call; least of rounds in turn, one thread, one run.");
    println!("Machine: {}.", machine());
    println!("Ours: the archive {}; for the product target/staticlib/libring_product.a.", env!("POLKA_LINKED"));
    println!("Rust: opt-level 3, baseline {}.", std::env::consts::ARCH);
    println!("Buffers: the same each round, in cache; tables of factors made once a call on both sides.");
    beside_openssl();
    let records = Records::new();
    beside_rust(&records);
    entries_of_batches(&records);
    with_an_expanded_key(&records);
    parts(&records);
    if cfg!(target_arch = "x86_64") {
        beside_newhope(&records);
    }
}
