//! The library's algorithms in plain Rust, to be timed beside it: the constant-geometry transform with Montgomery factors in 16-bit words,
//! many reciprocals for the price of one, no transform twice. The tables of factors are made once a call, as the library makes them. Where
//! two ways to write a step differ in speed, it is the one that rustc compiles to the faster code.

const Q: u16 = 59_393;

pub type Element = [u16; 1024];

// ---- arithmetic modulo q on words below q

/// b may be q. What is borrowed is chosen before the difference is made.
fn sub(a: u16, b: u16) -> u16 {
    let borrowed = if a < b { Q } else { 0 };
    a.wrapping_add(borrowed).wrapping_sub(b)
}

fn add(a: u16, b: u16) -> u16 {
    sub(a, Q - b)
}

fn high(a: u16, b: u16) -> u16 {
    ((u32::from(a) * u32::from(b)) >> 16) as u16
}

fn reduction(w: u16, y: u16) -> u16 {
    high(w.wrapping_mul(y).wrapping_mul(6145), Q)
}

/// w y / 2^16 modulo q.
fn montgomery(w: u16, y: u16) -> u16 {
    sub(high(w, y), reduction(w, y))
}

fn to_montgomery(x: u16) -> u16 {
    montgomery(21_894, x)
}

fn mul(a: u16, b: u16) -> u16 {
    (u32::from(a) * u32::from(b) % u32::from(Q)) as u16
}

fn reciprocal(x: u16) -> u16 {
    if x <= 1 {
        return x;
    }
    mul(Q - Q / x, reciprocal(Q % x))
}

// ---- the transform

const fn powers() -> Element {
    let mut table = [1u16; 1024];
    let mut i = 1;
    while i < 1024 {
        table[i] = (table[i - 1] as u32 * 3 % Q as u32) as u16;
        i += 1;
    }
    table
}

static POWERS: Element = powers();

pub struct Factors([u16; 5120]);

fn factors(exponent: impl Fn(u16) -> u16) -> Factors {
    let mut reversed = [0u16; 1024];
    reversed[1] = 512;
    for m in 2..1024 {
        reversed[m] = reversed[m / 2] / 2 + (m % 2) as u16 * 512;
    }
    let forms = POWERS.map(to_montgomery);
    let block = reversed.map(|e| forms[usize::from(exponent(e) % 1024)]);
    let mut all = [0u16; 5120];
    for (k, row) in all.chunks_exact_mut(512).enumerate() {
        let n = 1 << k;
        row[..n].copy_from_slice(&block[n..2 * n]);
        for d in k..9 {
            row.copy_within(..1 << d, 1 << d);
        }
    }
    Factors(all)
}

pub fn forward_factors() -> Factors {
    factors(|e| e)
}

pub fn backward_factors() -> Factors {
    factors(|e| 1024 - e)
}

/// The high half goes to x before the reduction does: each test then has a word that was loaded, and the compiler works on eight at a time.
fn forward_layer(r: &mut Element, a: &Element, w: &[u16; 512]) {
    for j in 0..512 {
        let (x, y, f) = (a[j], a[512 + j], w[j]);
        let (upper, lower) = (high(f, y), reduction(f, y));
        r[2 * j] = sub(add(x, upper), lower);
        r[2 * j + 1] = add(sub(x, upper), lower);
    }
}

fn layer(w: &Factors, k: usize) -> &[u16; 512] {
    w.0[512 * k..512 * k + 512].try_into().unwrap()
}

pub fn forward(a: &Element, w: &Factors) -> Element {
    let mut s = a.map(|x| if Q <= x { x - Q } else { x });
    let mut t = [0; 1024];
    for k in 0..5 {
        forward_layer(&mut t, &s, layer(w, 2 * k));
        forward_layer(&mut s, &t, layer(w, 2 * k + 1));
    }
    s
}

/// The entries at even places, then those at odd places, by way of pairs in one number.
fn unzip(p: &mut Element, v: &mut [u32; 512], a: &Element) {
    for j in 0..512 {
        v[j] = u32::from(a[2 * j]) + 65536 * u32::from(a[2 * j + 1]);
    }
    for j in 0..512 {
        p[j] = v[j] as u16;
        p[512 + j] = (v[j] >> 16) as u16;
    }
}

fn backward_layer(r: &mut Element, p: &Element, w: &[u16; 512]) {
    for j in 0..512 {
        let (x, y) = (p[j], p[512 + j]);
        r[j] = add(x, y);
        r[512 + j] = montgomery(w[j], sub(y, x));
    }
}

fn backward_layers(mut s: Element, w: &Factors) -> Element {
    let (mut v, mut p) = ([0; 512], [0; 1024]);
    for k in (0..10).rev() {
        unzip(&mut p, &mut v, &s);
        backward_layer(&mut s, &p, layer(w, k));
    }
    s
}

pub fn backward(a: &Element, w: &Factors) -> Element {
    backward_layers(a.map(|x| montgomery(64, x)), w)
}

/// The polynomial whose values are the products of those in a and b, which are divided by 1,024 at once.
pub fn backward_product(a: &Element, b: &Element, w: &Factors) -> Element {
    backward_layers(zip(a, b, |x, y| montgomery(montgomery(36_794, x), y)), w)
}

fn zip(a: &Element, b: &Element, f: impl Fn(u16, u16) -> u16) -> Element {
    let mut r = [0; 1024];
    for i in 0..1024 {
        r[i] = f(a[i], b[i]);
    }
    r
}

pub fn pointwise(a: &Element, b: &Element) -> Element {
    zip(a, b, |x, y| montgomery(to_montgomery(x), y))
}

fn sum(a: &Element, b: &Element) -> Element {
    zip(a, b, add)
}

fn difference(a: &Element, b: &Element) -> Element {
    zip(a, b, sub)
}

/// `factor` is Montgomery's form of the number to multiply by.
fn multiple(factor: u16, a: &Element) -> Element {
    a.map(|x| montgomery(factor, x))
}

fn has_zero(a: &Element) -> bool {
    a.iter().fold(false, |any, &x| any | (x == 0))
}

fn all_one(a: &Element) -> bool {
    a.iter().fold(true, |all, &x| all & (x == 1))
}

/// A tree of products, level by level, the reciprocal of its top, and the way back down.
pub fn reciprocals(t: &Element) -> Element {
    let mut tree = [0u16; 2048];
    tree[1024..].copy_from_slice(t);
    for m in (0..10).rev().map(|k| 1 << k) {
        for j in 0..m {
            tree[m + j] = mul(tree[2 * m + j], tree[3 * m + j]);
        }
    }
    let mut inverses = [0u16; 2048];
    inverses[1] = reciprocal(tree[1]);
    for m in (0..10).map(|k| 1 << k) {
        for j in 0..m {
            let u = inverses[m + j];
            inverses[2 * m + j] = mul(u, tree[3 * m + j]);
            inverses[3 * m + j] = mul(u, tree[2 * m + j]);
        }
    }
    inverses[1024..].try_into().unwrap()
}

/// Whether every centred coefficient is between −bound and bound, without leaving early.
fn within(bound: u16, a: &Element) -> bool {
    a.iter().fold(true, |all, &x| all & ((x <= bound) | (Q - x <= bound)))
}

type Quotients = [i16; 1024];

/// m = E2 + 5 w: the remainders E2, between −2 and 2, and the quotients w, which are written. Signed, a centred value fits in 16 bits.
pub fn divide_by_5(m: &Element, w: &mut Quotients) -> Element {
    let mut e2 = [0; 1024];
    for k in 0..1024 {
        let centred = if m[k] <= 29_696 { m[k] as i16 } else { m[k].wrapping_sub(Q) as i16 };
        let (t, v) = (centred % 5, centred / 5);
        let (t, v) = if t > 2 {
            (t - 5, v + 1)
        } else if t < -2 {
            (t + 5, v - 1)
        } else {
            (t, v)
        };
        e2[k] = if t < 0 { (t as u16).wrapping_add(Q) } else { t as u16 };
        w[k] = v;
    }
    e2
}

fn largest_size(w: &Quotients) -> u16 {
    w.iter().fold(0, |largest, v| v.unsigned_abs().max(largest))
}

// ---- SHAKE128 and SHAKE256

const ROUND_CONSTANTS: [u64; 24] = [
    0x0000_0000_0000_0001,
    0x0000_0000_0000_8082,
    0x8000_0000_0000_808a,
    0x8000_0000_8000_8000,
    0x0000_0000_0000_808b,
    0x0000_0000_8000_0001,
    0x8000_0000_8000_8081,
    0x8000_0000_0000_8009,
    0x0000_0000_0000_008a,
    0x0000_0000_0000_0088,
    0x0000_0000_8000_8009,
    0x0000_0000_8000_000a,
    0x0000_0000_8000_808b,
    0x8000_0000_0000_008b,
    0x8000_0000_0000_8089,
    0x8000_0000_0000_8003,
    0x8000_0000_0000_8002,
    0x8000_0000_0000_0080,
    0x0000_0000_0000_800a,
    0x8000_0000_8000_000a,
    0x8000_0000_8000_8081,
    0x8000_0000_0000_8080,
    0x0000_0000_8000_0001,
    0x8000_0000_8000_8008,
];

/// Rotation of the lane at x + 5 y.
const ROTATIONS: [u32; 25] = [0, 1, 62, 28, 27, 36, 44, 6, 55, 20, 3, 10, 43, 25, 39, 41, 45, 15, 21, 8, 18, 2, 61, 56, 14];

fn keccak(a: &mut [u64; 25]) {
    for constant in ROUND_CONSTANTS {
        let mut c = [0; 5];
        for x in 0..5 {
            c[x] = a[x] ^ a[x + 5] ^ a[x + 10] ^ a[x + 15] ^ a[x + 20];
        }
        let mut b = [0; 25];
        for x in 0..5 {
            let d = c[(x + 4) % 5] ^ c[(x + 1) % 5].rotate_left(1);
            for y in 0..5 {
                b[y + 5 * ((2 * x + 3 * y) % 5)] = (a[x + 5 * y] ^ d).rotate_left(ROTATIONS[x + 5 * y]);
            }
        }
        for y in 0..5 {
            for x in 0..5 {
                a[x + 5 * y] = b[x + 5 * y] ^ (!b[(x + 1) % 5 + 5 * y] & b[(x + 2) % 5 + 5 * y]);
            }
        }
        a[0] ^= constant;
    }
}

fn absorb<const RATE: usize>(state: &mut [u64; 25], block: &[u8; RATE]) {
    for (lane, bytes) in state.iter_mut().zip(block.chunks_exact(8)) {
        *lane ^= u64::from_le_bytes(bytes.try_into().unwrap());
    }
    keccak(state);
}

fn shake<const RATE: usize>(input: &[u8], out: &mut [u8]) {
    let mut state = [0u64; 25];
    let mut blocks = input.chunks_exact(RATE);
    for block in &mut blocks {
        absorb::<RATE>(&mut state, block.try_into().unwrap());
    }
    let rest = blocks.remainder();
    let mut last = [0u8; RATE];
    last[..rest.len()].copy_from_slice(rest);
    last[rest.len()] = 0x1f;
    last[RATE - 1] |= 0x80;
    absorb(&mut state, &last);
    for (turn, block) in out.chunks_mut(RATE).enumerate() {
        if turn > 0 {
            keccak(&mut state);
        }
        for (bytes, lane) in block.chunks_mut(8).zip(&state) {
            bytes.copy_from_slice(&lane.to_le_bytes()[..bytes.len()]);
        }
    }
}

pub fn shake128(input: &[u8], out: &mut [u8]) {
    shake::<168>(input, out);
}

pub fn shake256(input: &[u8], out: &mut [u8]) {
    shake::<136>(input, out);
}

// ---- the tag

/// Bit by bit without a branch; the elements are little-endian halves.
pub fn field_product(x: [u8; 16], y: [u8; 16]) -> [u8; 16] {
    let (mut power, y, mut result) = (u128::from_le_bytes(x), u128::from_le_bytes(y), 0u128);
    for i in 0..128 {
        result ^= power & 0u128.wrapping_sub(y >> i & 1);
        power = power << 1 ^ 0x87 & 0u128.wrapping_sub(power >> 127);
    }
    result.to_le_bytes()
}

fn xor(x: [u8; 16], y: [u8; 16]) -> [u8; 16] {
    (u128::from_le_bytes(x) ^ u128::from_le_bytes(y)).to_le_bytes()
}

fn block(bytes: &[u8]) -> [u8; 16] {
    bytes.try_into().unwrap()
}

/// One comparison of the whole tag.
fn same(x: [u8; 16], y: [u8; 16]) -> bool {
    u128::from_le_bytes(x) == u128::from_le_bytes(y)
}

fn put_xor(x: &[u8], y: &[u8], out: &mut [u8]) {
    for ((out, x), y) in out.iter_mut().zip(x).zip(y) {
        *out = x ^ y;
    }
}

pub struct Keys {
    pub k1: [u8; 16],
    pub k2: [u8; 16],
}

/// The tag's keys; the keystream is written as long as it is lent.
fn derived(triple: &[u8; 768], keystream: &mut [u8]) -> Keys {
    let mut input = [1u8; 769];
    input[1..].copy_from_slice(triple);
    let mut k = [0u8; 48];
    shake256(&input, &mut k);
    let mut seed = [2u8; 17];
    seed[1..].copy_from_slice(&k[..16]);
    shake256(&seed, keystream);
    Keys { k1: block(&k[16..32]), k2: block(&k[32..]) }
}

fn tag(keys: &Keys, body: [u8; 16]) -> [u8; 16] {
    xor(field_product(keys.k1, body), keys.k2)
}

/// By Horner's rule: the count, then block after block.
pub fn batch_tag(keys: &Keys, body: &[u8]) -> [u8; 16] {
    let mut count = [0; 16];
    count[..2].copy_from_slice(&((body.len() / 16) as u16).to_le_bytes());
    let value = body.chunks_exact(16).fold(count, |value, bytes| xor(field_product(keys.k1, value), block(bytes)));
    tag(keys, value)
}

// ---- bytes

fn words(bytes: &[u8]) -> Element {
    let mut r = [0; 1024];
    for (word, pair) in r.iter_mut().zip(bytes.chunks_exact(2)) {
        *word = u16::from_le_bytes([pair[0], pair[1]]);
    }
    r
}

fn put_words(a: &Element, bytes: &mut [u8]) {
    for (pair, word) in bytes.chunks_exact_mut(2).zip(a) {
        pair.copy_from_slice(&word.to_le_bytes());
    }
}

fn in_range(a: &Element) -> bool {
    a.iter().fold(true, |all, &word| all & (word < Q))
}

fn codes_valid(bytes: &[u8]) -> bool {
    bytes.iter().fold(0, |bad, byte| bad | byte & byte >> 1 & 0x55) == 0
}

/// 0 is 0, 1 is 1, 2 is −1.
fn decode(bytes: &[u8]) -> Element {
    let mut r = [0; 1024];
    for (four, &byte) in r.chunks_exact_mut(4).zip(bytes) {
        for (i, value) in four.iter_mut().enumerate() {
            let code = u16::from(byte >> (2 * i) & 3);
            *value = (code & 1) + (code >> 1) * (Q - 1);
        }
    }
    r
}

fn encode(a: &Element, bytes: &mut [u8]) {
    for (byte, four) in bytes.iter_mut().zip(a.chunks_exact(4)) {
        let code = |x: u16| (x & 1) as u8 + ((x == Q - 1) as u8) * 2;
        *byte = code(four[0]) | code(four[1]) << 2 | code(four[2]) << 4 | code(four[3]) << 6;
    }
}

pub fn from_noise(bytes: &[u8]) -> Element {
    let value = |four: u8| {
        let sum = i16::from(four & 1) - i16::from(four >> 1 & 1) + i16::from(four >> 2 & 1) - i16::from(four >> 3 & 1);
        let value = if sum == 2 {
            -1
        } else if sum == -2 {
            1
        } else {
            sum
        };
        if value < 0 {
            Q - 1
        } else {
            value as u16
        }
    };
    let mut r = [0; 1024];
    for (two, &byte) in r.chunks_exact_mut(2).zip(bytes) {
        two[0] = value(byte & 15);
        two[1] = value(byte >> 4);
    }
    r
}

fn triple_from_noise(bytes: &[u8]) -> [Element; 3] {
    [from_noise(&bytes[..512]), from_noise(&bytes[512..1024]), from_noise(&bytes[1024..])]
}

fn encode_triple(triple: &[Element; 3]) -> [u8; 768] {
    let mut bytes = [0; 768];
    for (part, bytes) in triple.iter().zip(bytes.chunks_exact_mut(256)) {
        encode(part, bytes);
    }
    bytes
}

fn judge_header(record: &[u8], mark: &[u8; 3], version: u8) -> Result<(), u32> {
    if record[..3] != *mark {
        Err(2)
    } else if record[3..5] != [version, 0] {
        Err(3)
    } else {
        Ok(())
    }
}

// The codes of include/polka.h: a record with its number, a part; the index stands above them.
const PUBLIC_KEY: u32 = 1 << 12 | 4;
const SEEDED_PUBLIC_KEY: u32 = 2 << 12 | 4;
const SECRET_KEY: u32 = 3 << 12 | 4;
const SEALED_ENTRY: u32 = 4 << 12 | 11;
const ENCAPSULATION: u32 = 5 << 12 | 11;
const A: u32 = 1 << 8;
const B: u32 = 2 << 8;
const STORED_INVERSE: u32 = 3 << 8;
const C1: u32 = 4 << 8;
const C2: u32 = 5 << 8;

/// Refused at the first word that is q or more, which is looked for only where there is one.
fn judge_words(record: u32, parts: &[(u32, &Element)]) -> Result<(), u32> {
    for &(part, element) in parts {
        if !in_range(element) {
            let index = element.iter().position(|&word| word >= Q).unwrap_or_default();
            return Err(record | part | (index as u32) << 16);
        }
    }
    Ok(())
}

fn put_header(record: &mut [u8], mark: &[u8; 3], version: u8) {
    record[..3].copy_from_slice(mark);
    record[3..5].copy_from_slice(&[version, 0]);
}

// ---- keys: elements and spectra

struct PublicKey {
    a: Element,
    b: Element,
}

fn is_public_key_length(length: usize) -> bool {
    length == 4101 || length == 2085
}

/// Spectra of a and b. The length picks the record.
fn judge_public_key(record: &[u8], w: &Factors) -> Result<PublicKey, u32> {
    let (a, b) = if record.len() == 2085 {
        judge_header(record, b"PDS", 1)?;
        let b = words(&record[37..]);
        judge_words(SEEDED_PUBLIC_KEY, &[(B, &b)])?;
        (seeded(&record[5..37]).ok_or(8u32)?, b)
    } else {
        judge_header(record, b"PDK", 1)?;
        let (a, b) = (words(&record[5..2053]), words(&record[2053..]));
        judge_words(PUBLIC_KEY, &[(A, &a), (B, &b)])?;
        (a, b)
    };
    let b = forward(&b, w);
    if has_zero(&b) {
        return Err(6);
    }
    Ok(PublicKey { a: forward(&a, w), b })
}

/// Spectra of a, b, s and, where it is stored, the inverse of b.
struct SecretKey {
    a: Element,
    b: Element,
    s: Element,
    inverse: Option<Element>,
}

/// Whether there are mark and version, which tell the length.
fn has_header(secret_key: &[u8]) -> bool {
    secret_key.len() >= 5
}

/// Of one of these versions. Not inlined an opening takes a twentieth more.
#[inline(always)]
fn judge_secret_key(record: &[u8], versions: &[u8], w: &Factors, v: &Factors) -> Result<SecretKey, u32> {
    let version = *versions.iter().find(|&&version| record[3..5] == [version, 0]).unwrap_or(&versions[0]);
    judge_header(record, b"SDK", version)?;
    if record.len() != if version == 1 { 4357 } else { 6405 } {
        return Err(1);
    }
    let (a, b) = (words(&record[5..2053]), words(&record[2053..4101]));
    judge_words(SECRET_KEY, &[(A, &a), (B, &b)])?;
    let stored = (version == 2).then(|| words(&record[4357..]));
    if let Some(stored) = &stored {
        judge_words(SECRET_KEY, &[(STORED_INVERSE, stored)])?;
    }
    if !codes_valid(&record[4101..4357]) {
        return Err(5);
    }
    let spectrum_b = forward(&b, w);
    let inverse = stored.map(|stored| forward(&stored, w));
    match &inverse {
        Some(inverse) if !all_one(&pointwise(&spectrum_b, inverse)) => return Err(13),
        None if has_zero(&spectrum_b) => return Err(6),
        _ => {}
    }
    let (spectrum_a, spectrum_s) = (forward(&a, w), forward(&decode(&record[4101..4357]), w));
    let a_s = backward_product(&spectrum_a, &spectrum_s, v);
    let e = difference(&multiple(to_montgomery(35_636), &b), &a_s);
    if !within(1, &e) {
        return Err(7);
    }
    Ok(SecretKey { a: spectrum_a, b: spectrum_b, s: spectrum_s, inverse })
}

/// For the conversions: inlined the first takes an eighth more.
#[inline(never)]
fn judge_apart(record: &[u8], version: u8, w: &Factors, v: &Factors) -> Result<SecretKey, u32> {
    judge_secret_key(record, &[version], w, v)
}

/// Reading ends at the word that completes the polynomial.
fn uniform(stream: &[u8]) -> Option<Element> {
    let mut r = [0; 1024];
    let mut taken = 0;
    for pair in stream.chunks_exact(2) {
        let word = u16::from_le_bytes([pair[0], pair[1]]);
        if word < Q {
            r[taken] = word;
            taken += 1;
            if taken == 1024 {
                return Some(r);
            }
        }
    }
    None
}

/// The a that a seed stands for.
pub fn seeded(seed: &[u8]) -> Option<Element> {
    let mut stream = [0; 2688];
    shake128(seed, &mut stream);
    uniform(&stream)
}

/// b and s; none where b is no unit.
fn new_key(a: &Element, noise_s: &[u8], noise_e: &[u8]) -> Option<[Element; 2]> {
    let (w, v) = (forward_factors(), backward_factors());
    let (s, e) = (from_noise(noise_s), from_noise(noise_e));
    let a_s = backward_product(&forward(a, &w), &forward(&s, &w), &v);
    let b = multiple(to_montgomery(5), &sum(&a_s, &e));
    (!has_zero(&forward(&b, &w))).then_some([b, s])
}

fn put_secret_key(record: &mut [u8], a: &Element, b: &Element, s: &Element) {
    put_header(record, b"SDK", 1);
    put_words(a, &mut record[5..2053]);
    put_words(b, &mut record[2053..4101]);
    encode(s, &mut record[4101..4357]);
}

// ---- encapsulation and decapsulation on spectra of the key

fn capsule(a: &Element, b: &Element, triple: &[Element; 3], w: &Factors, v: &Factors) -> [Element; 2] {
    let r = forward(&triple[0], w);
    [sum(&backward_product(a, &r, v), &triple[1]), sum(&backward_product(b, &r, v), &triple[2])]
}

/// Four more transforms forward and three back, after the key check's three and one, or four and one where the inverse of b is stored: the
/// sums of step 1 are kept as spectra. The quotients are written to a lent place: where they are returned, an opening takes up to an eighth
/// more.
fn opened(
    key: &SecretKey,
    c1: &Element,
    c2: &Element,
    dummy: &[Element; 3],
    quotients: &mut Quotients,
    w: &Factors,
    v: &Factors,
) -> Option<[Element; 3]> {
    let dummy_r = forward(&dummy[0], w);
    let first = sum(&pointwise(&key.a, &dummy_r), &forward(&sum(c1, &dummy[1]), w));
    let second = sum(&pointwise(&key.b, &dummy_r), &forward(&sum(c2, &dummy[2]), w));
    let m = backward(&difference(&second, &multiple(to_montgomery(5), &pointwise(&first, &key.s))), v);
    let e2 = divide_by_5(&m, quotients);
    let inverse = key.inverse.unwrap_or_else(|| reciprocals(&key.b));
    let spectrum_r = pointwise(&difference(&second, &forward(&e2, w)), &inverse);
    let r = backward(&spectrum_r, v);
    let e1 = backward(&difference(&first, &pointwise(&key.a, &spectrum_r)), v);
    let near = within(2, &r) & within(2, &e1);
    let answer = [difference(&r, &dummy[0]), difference(&e1, &dummy[1]), difference(&e2, &dummy[2])];
    let ternary = within(1, &answer[0]) & within(1, &answer[1]) & within(1, &answer[2]);
    (near & ternary).then_some(answer)
}

// ---- the product alone

pub fn product(a: &[u8], b: &[u8], out: &mut [u8]) -> u32 {
    if a.len() != 2048 || b.len() != 2048 || out.len() != 2048 {
        return 1;
    }
    let (w, v) = (forward_factors(), backward_factors());
    put_words(&backward_product(&forward(&words(a), &w), &forward(&words(b), &w), &v), out);
    0
}

// ---- the calls

pub fn keygen(stream: &[u8], noise_s: &[u8], noise_e: &[u8], public_key: &mut [u8], secret_key: &mut [u8]) -> u32 {
    if stream.len() != 2688 || noise_s.len() != 512 || noise_e.len() != 512 || public_key.len() != 4101 || secret_key.len() != 4357 {
        return 1;
    }
    let Some(a) = uniform(stream) else { return 8 };
    let Some([b, s]) = new_key(&a, noise_s, noise_e) else { return 6 };
    put_header(public_key, b"PDK", 1);
    put_words(&a, &mut public_key[5..2053]);
    put_words(&b, &mut public_key[2053..]);
    put_secret_key(secret_key, &a, &b, &s);
    0
}

pub fn keygen_from_seed(seed: &[u8], noise_s: &[u8], noise_e: &[u8], public_key: &mut [u8], secret_key: &mut [u8]) -> u32 {
    if seed.len() != 32 || noise_s.len() != 512 || noise_e.len() != 512 || public_key.len() != 2085 || secret_key.len() != 4357 {
        return 1;
    }
    let Some(a) = seeded(seed) else { return 8 };
    let Some([b, s]) = new_key(&a, noise_s, noise_e) else { return 6 };
    put_header(public_key, b"PDS", 1);
    public_key[5..37].copy_from_slice(seed);
    put_words(&b, &mut public_key[37..]);
    put_secret_key(secret_key, &a, &b, &s);
    0
}

pub fn check_secret_key(secret_key: &[u8]) -> u32 {
    if !has_header(secret_key) {
        return 1;
    }
    judge_secret_key(secret_key, &[1, 2], &forward_factors(), &backward_factors()).err().unwrap_or(0)
}

pub fn expand_secret_key(secret_key: &[u8], expanded: &mut [u8]) -> u32 {
    if !has_header(secret_key) || expanded.len() != 6405 {
        return 1;
    }
    let (w, v) = (forward_factors(), backward_factors());
    let key = match judge_apart(secret_key, 1, &w, &v) {
        Ok(key) => key,
        Err(code) => return code,
    };
    put_header(expanded, b"SDK", 2);
    expanded[5..4357].copy_from_slice(&secret_key[5..]);
    put_words(&backward(&reciprocals(&key.b), &v), &mut expanded[4357..]);
    0
}

pub fn compact_secret_key(expanded: &[u8], secret_key: &mut [u8]) -> u32 {
    if !has_header(expanded) || secret_key.len() != 4357 {
        return 1;
    }
    if let Err(code) = judge_apart(expanded, 2, &forward_factors(), &backward_factors()) {
        return code;
    }
    put_header(secret_key, b"SDK", 1);
    secret_key[5..].copy_from_slice(&expanded[5..4357]);
    0
}

pub fn encapsulate(public_key: &[u8], triple: &[u8], encapsulation: &mut [u8]) -> u32 {
    if !is_public_key_length(public_key.len()) || triple.len() != 768 || encapsulation.len() != 4096 {
        return 1;
    }
    let (w, v) = (forward_factors(), backward_factors());
    let key = match judge_public_key(public_key, &w) {
        Ok(key) => key,
        Err(code) => return code,
    };
    if !codes_valid(triple) {
        return 5;
    }
    let triple = [decode(&triple[..256]), decode(&triple[256..512]), decode(&triple[512..])];
    let [c1, c2] = capsule(&key.a, &key.b, &triple, &w, &v);
    put_words(&c1, &mut encapsulation[..2048]);
    put_words(&c2, &mut encapsulation[2048..]);
    0
}

pub fn decapsulate(secret_key: &[u8], encapsulation: &[u8], dummy: &[u8], triple: &mut [u8]) -> u32 {
    if !has_header(secret_key) || encapsulation.len() != 4096 || dummy.len() != 768 || triple.len() != 768 {
        return 1;
    }
    let (w, v) = (forward_factors(), backward_factors());
    let key = match judge_secret_key(secret_key, &[1, 2], &w, &v) {
        Ok(key) => key,
        Err(code) => return code,
    };
    let (c1, c2) = (words(&encapsulation[..2048]), words(&encapsulation[2048..]));
    if let Err(code) = judge_words(ENCAPSULATION, &[(C1, &c1), (C2, &c2)]) {
        return code;
    }
    if !codes_valid(dummy) {
        return 5;
    }
    let dummy = [decode(&dummy[..256]), decode(&dummy[256..512]), decode(&dummy[512..])];
    match opened(&key, &c1, &c2, &dummy, &mut [0; 1024], &w, &v) {
        Some(answer) => {
            triple.copy_from_slice(&encode_triple(&answer));
            0
        }
        None => 9,
    }
}

pub fn seal(public_key: &[u8], noise: &[u8], entry: &[u8], sealed: &mut [u8]) -> u32 {
    if !is_public_key_length(public_key.len()) || noise.len() != 1536 || entry.len() != 16 || sealed.len() != 4133 {
        return 1;
    }
    let (w, v) = (forward_factors(), backward_factors());
    let key = match judge_public_key(public_key, &w) {
        Ok(key) => key,
        Err(code) => return code,
    };
    let triple = triple_from_noise(noise);
    let [c1, c2] = capsule(&key.a, &key.b, &triple, &w, &v);
    let mut keystream = [0; 16];
    let keys = derived(&encode_triple(&triple), &mut keystream);
    let body = xor(block(entry), keystream);
    put_header(sealed, b"PLG", 1);
    put_words(&c1, &mut sealed[5..2053]);
    put_words(&c2, &mut sealed[2053..4101]);
    sealed[4101..4117].copy_from_slice(&body);
    sealed[4117..].copy_from_slice(&tag(&keys, body));
    0
}

/// The coded triple of a sealed entry or a batch, whose front, before c1, is judged behind the key. Not inlined it takes a twentieth more.
#[inline(always)]
fn opened_record(
    secret_key: &[u8],
    front: Result<(), u32>,
    record: &[u8],
    dummy_noise: &[u8],
    quotients: &mut Quotients,
) -> Result<[u8; 768], u32> {
    let (w, v) = (forward_factors(), backward_factors());
    let key = judge_secret_key(secret_key, &[1, 2], &w, &v)?;
    front?;
    let (c1, c2) = (words(&record[5..2053]), words(&record[2053..4101]));
    judge_words(SEALED_ENTRY, &[(C1, &c1), (C2, &c2)])?;
    let triple = opened(&key, &c1, &c2, &triple_from_noise(dummy_noise), quotients, &w, &v).ok_or(9u32)?;
    Ok(encode_triple(&triple))
}

fn open_entry(secret_key: &[u8], sealed: &[u8], dummy_noise: &[u8], entry: &mut [u8], quotients: &mut Quotients) -> u32 {
    if !has_header(secret_key) || sealed.len() != 4133 || dummy_noise.len() != 1536 || entry.len() != 16 {
        return 1;
    }
    let triple = match opened_record(secret_key, judge_header(sealed, b"PLG", 1), sealed, dummy_noise, quotients) {
        Ok(triple) => triple,
        Err(code) => return code,
    };
    let mut keystream = [0; 16];
    let keys = derived(&triple, &mut keystream);
    let body = block(&sealed[4101..4117]);
    if !same(tag(&keys, body), block(&sealed[4117..])) {
        return 10;
    }
    entry.copy_from_slice(&xor(body, keystream));
    0
}

pub fn open(secret_key: &[u8], sealed: &[u8], dummy_noise: &[u8], entry: &mut [u8]) -> u32 {
    open_entry(secret_key, sealed, dummy_noise, entry, &mut [0; 1024])
}

pub fn open_with_margin(secret_key: &[u8], sealed: &[u8], dummy_noise: &[u8], entry: &mut [u8], margin: &mut u32) -> u32 {
    let mut quotients = [0; 1024];
    let code = open_entry(secret_key, sealed, dummy_noise, entry, &mut quotients);
    if code == 0 {
        *margin = largest_size(&quotients).into();
    }
    code
}

pub fn seal_batch(public_key: &[u8], noise: &[u8], entries: &[u8], batch: &mut [u8]) -> u32 {
    if entries.len() % 16 != 0 {
        return 1;
    }
    if entries.is_empty() || entries.len() > 4080 {
        return 12;
    }
    if !is_public_key_length(public_key.len()) || noise.len() != 1536 || batch.len() != 4119 + entries.len() {
        return 1;
    }
    let (w, v) = (forward_factors(), backward_factors());
    let key = match judge_public_key(public_key, &w) {
        Ok(key) => key,
        Err(code) => return code,
    };
    let triple = triple_from_noise(noise);
    let [c1, c2] = capsule(&key.a, &key.b, &triple, &w, &v);
    let mut keystream = [0; 4080];
    let keys = derived(&encode_triple(&triple), &mut keystream[..entries.len()]);
    put_header(batch, b"PLG", 2);
    put_words(&c1, &mut batch[5..2053]);
    put_words(&c2, &mut batch[2053..4101]);
    batch[4101..4103].copy_from_slice(&((entries.len() / 16) as u16).to_le_bytes());
    let (body, end) = batch[4103..].split_at_mut(entries.len());
    put_xor(entries, &keystream, body);
    end.copy_from_slice(&batch_tag(&keys, body));
    0
}

/// The version, the count, and the length that fits it.
fn judge_batch_front(batch: &[u8], m: usize) -> Result<(), u32> {
    judge_header(batch, b"PLG", 2)?;
    if !(1..=255).contains(&m) {
        return Err(12);
    }
    if batch.len() != 4119 + 16 * m {
        return Err(1);
    }
    Ok(())
}

pub fn open_batch(secret_key: &[u8], batch: &[u8], dummy_noise: &[u8], entries: &mut [u8], count: &mut u32) -> u32 {
    if !has_header(secret_key) || batch.len() < 4119 || dummy_noise.len() != 1536 || entries.len() != 4080 {
        return 1;
    }
    let m = usize::from(u16::from_le_bytes([batch[4101], batch[4102]]));
    let triple = match opened_record(secret_key, judge_batch_front(batch, m), batch, dummy_noise, &mut [0; 1024]) {
        Ok(triple) => triple,
        Err(code) => return code,
    };
    let mut keystream = [0; 4080];
    let keys = derived(&triple, &mut keystream[..16 * m]);
    let (body, end) = batch[4103..].split_at(16 * m);
    if !same(batch_tag(&keys, body), block(end)) {
        return 10;
    }
    put_xor(body, &keystream, &mut entries[..16 * m]);
    *count = m as u32;
    0
}
