//! Documents 01 and 02 written out a second time, as plainly as they read: sums over pairs of coefficients, Euclid's algorithm on
//! polynomials, Keccak lane by lane, the tag's field bit by bit. It knows no transform and shares no code with the library. A refusal is
//! its code: the number, under 4 and 11 with the first bad word.
use super::answers;

pub const N: usize = 1024;
pub const Q: u32 = 59_393;

/// 1,024 coefficients below q, coefficient 0 first.
pub type Element = Vec<u32>;

/// A triple r, e1, e2.
pub type Triple = [Element; 3];

// ---- the field of coefficients

fn times(x: u32, y: u32) -> u32 {
    (u64::from(x) * u64::from(y) % u64::from(Q)) as u32
}

fn minus(x: u32, y: u32) -> u32 {
    (x + Q - y) % Q
}

/// By Fermat: x^(q − 2).
fn reciprocal(x: u32) -> u32 {
    let (mut result, mut square, mut exponent) = (1, x, Q - 2);
    while exponent > 0 {
        if exponent % 2 == 1 {
            result = times(result, square);
        }
        square = times(square, square);
        exponent /= 2;
    }
    result
}

// ---- the ring

pub fn sum(f: &[u32], g: &[u32]) -> Element {
    f.iter().zip(g).map(|(&x, &y)| (x + y) % Q).collect()
}

pub fn difference(f: &[u32], g: &[u32]) -> Element {
    f.iter().zip(g).map(|(&x, &y)| minus(x, y)).collect()
}

pub fn multiple(c: u32, f: &[u32]) -> Element {
    f.iter().map(|&x| times(c, x)).collect()
}

/// Every pair of coefficients, then X^1024 = −1. A sum of 1,024 products stays below 2^42.
pub fn product(f: &[u32], g: &[u32]) -> Element {
    let mut pairs = vec![0u64; 2 * N];
    for (i, &x) in f.iter().enumerate() {
        for (place, &y) in pairs[i..].iter_mut().zip(g) {
            *place += u64::from(x) * u64::from(y);
        }
    }
    let q = u64::from(Q);
    (0..N).map(|k| ((pairs[k] % q + q - pairs[k + N] % q) % q) as u32).collect()
}

fn one() -> Element {
    let mut result = vec![0; N];
    result[0] = 1;
    result
}

/// Without leading zeros; the zero polynomial is empty.
fn trimmed(mut f: Vec<u32>) -> Vec<u32> {
    while f.last() == Some(&0) {
        f.pop();
    }
    f
}

/// Quotient and rest of polynomials over the field; `g` is trimmed and not zero.
fn divided(f: &[u32], g: &[u32]) -> (Vec<u32>, Vec<u32>) {
    let mut rest = f.to_vec();
    let mut quotient = vec![0; (f.len() + 1).saturating_sub(g.len())];
    let lead = reciprocal(g[g.len() - 1]);
    for shift in (0..quotient.len()).rev() {
        let factor = times(rest[shift + g.len() - 1], lead);
        quotient[shift] = factor;
        for (place, &y) in rest[shift..].iter_mut().zip(g) {
            *place = minus(*place, times(factor, y));
        }
    }
    (quotient, trimmed(rest))
}

/// f − g × h for polynomials of any degree.
fn less_product(f: &[u32], g: &[u32], h: &[u32]) -> Vec<u32> {
    let mut result = f.to_vec();
    result.resize(f.len().max((g.len() + h.len()).saturating_sub(1)), 0);
    for (i, &x) in g.iter().enumerate() {
        for (place, &y) in result[i..].iter_mut().zip(h) {
            *place = minus(*place, times(x, y));
        }
    }
    trimmed(result)
}

/// The inverse modulo X^1024 + 1. Every remainder of Euclid's algorithm is its cofactor times f, and f is a unit when the last one is a
/// constant.
pub fn inverse(f: &[u32]) -> Option<Element> {
    let mut modulus = vec![0; N + 1];
    (modulus[0], modulus[N]) = (1, 1);
    let (mut last, mut next) = (modulus, trimmed(f.to_vec()));
    let (mut last_cofactor, mut next_cofactor) = (vec![], vec![1]);
    while !next.is_empty() {
        let (quotient, rest) = divided(&last, &next);
        let cofactor = less_product(&last_cofactor, &quotient, &next_cofactor);
        (last, next) = (next, rest);
        (last_cofactor, next_cofactor) = (next_cofactor, cofactor);
    }
    if last.len() != 1 {
        return None;
    }
    let mut result = multiple(reciprocal(last[0]), &last_cofactor);
    result.resize(N, 0);
    Some(result)
}

// ---- centred values

pub fn centred(c: u32) -> i32 {
    if c <= 29_696 {
        c as i32
    } else {
        c as i32 - Q as i32
    }
}

/// Between −2 and 2.
pub fn remainder_by_5(m: i32) -> i32 {
    (m + 2).rem_euclid(5) - 2
}

/// The integer nearest to m ÷ 5, which is never half way between two: m ÷ 5 + 1 ÷ 2, rounded down.
pub fn quotient_by_5(m: i32) -> i32 {
    (2 * m + 5).div_euclid(10)
}

fn coefficient(value: i32) -> u32 {
    value.rem_euclid(Q as i32) as u32
}

fn within(bound: i32, f: &[u32]) -> bool {
    f.iter().all(|&c| centred(c).abs() <= bound)
}

fn is_short(f: &[u32]) -> bool {
    within(1, f)
}

// ---- SHAKE128 and SHAKE256 (FIPS 202)

/// Bit t of the register behind the round constants.
fn register_bit(t: usize) -> bool {
    let mut register = 1u16;
    for _ in 0..t % 255 {
        register <<= 1;
        if register & 0x100 != 0 {
            register ^= 0x171;
        }
    }
    register & 1 == 1
}

fn keccak(state: &mut [u64; 25]) {
    for round in 0..24 {
        // theta
        let column: Vec<u64> = (0..5).map(|x| (0..5).fold(0, |c, y| c ^ state[x + 5 * y])).collect();
        for x in 0..5 {
            for y in 0..5 {
                state[x + 5 * y] ^= column[(x + 4) % 5] ^ column[(x + 1) % 5].rotate_left(1);
            }
        }
        // rho
        let (mut x, mut y) = (1, 0);
        for t in 0..24u32 {
            state[x + 5 * y] = state[x + 5 * y].rotate_left((t + 1) * (t + 2) / 2 % 64);
            (x, y) = (y, (2 * x + 3 * y) % 5);
        }
        // pi
        let turned = *state;
        for x in 0..5 {
            for y in 0..5 {
                state[x + 5 * y] = turned[(x + 3 * y) % 5 + 5 * x];
            }
        }
        // chi
        let moved = *state;
        for x in 0..5 {
            for y in 0..5 {
                state[x + 5 * y] = moved[x + 5 * y] ^ (!moved[(x + 1) % 5 + 5 * y] & moved[(x + 2) % 5 + 5 * y]);
            }
        }
        // iota
        for j in 0..7 {
            if register_bit(j + 7 * round) {
                state[0] ^= 1 << ((1 << j) - 1);
            }
        }
    }
}

/// The sponge takes and gives `rate` bytes a turn.
fn shake(rate: usize, input: &[u8], out: &mut [u8]) {
    let mut padded = input.to_vec();
    padded.push(0x1f);
    padded.resize(padded.len().next_multiple_of(rate), 0);
    *padded.last_mut().unwrap() |= 0x80;
    let mut state = [0u64; 25];
    for block in padded.chunks(rate) {
        for (i, &byte) in block.iter().enumerate() {
            state[i / 8] ^= u64::from(byte) << (8 * (i % 8));
        }
        keccak(&mut state);
    }
    for (turn, block) in out.chunks_mut(rate).enumerate() {
        if turn > 0 {
            keccak(&mut state);
        }
        for (i, byte) in block.iter_mut().enumerate() {
            *byte = (state[i / 8] >> (8 * (i % 8))) as u8;
        }
    }
}

pub fn shake128(input: &[u8], out: &mut [u8]) {
    shake(168, input, out);
}

pub fn shake256(input: &[u8], out: &mut [u8]) {
    shake(136, input, out);
}

fn shake256_of(first: u8, rest: &[u8], length: usize) -> Vec<u8> {
    let mut input = vec![first];
    input.extend_from_slice(rest);
    let mut out = vec![0; length];
    shake256(&input, &mut out);
    out
}

// ---- the tag's field

/// x × y modulo x^128 + x^7 + x^2 + x + 1; bit i of byte j stands for x^(8j + i).
pub fn field_product(x: [u8; 16], y: [u8; 16]) -> [u8; 16] {
    let (mut power, y, mut result) = (u128::from_le_bytes(x), u128::from_le_bytes(y), 0);
    for i in 0..128 {
        if y >> i & 1 == 1 {
            result ^= power;
        }
        let over = power >> 127 == 1;
        power <<= 1;
        if over {
            power ^= 0x87;
        }
    }
    result.to_le_bytes()
}

/// x, x^2 and so on, so many of them.
fn field_powers(x: [u8; 16], count: usize) -> Vec<[u8; 16]> {
    std::iter::successors(Some(x), |power| Some(field_product(*power, x))).take(count).collect()
}

fn xor(x: &[u8], y: &[u8]) -> Vec<u8> {
    assert_eq!(x.len(), y.len());
    x.iter().zip(y).map(|(x, y)| x ^ y).collect()
}

fn block(bytes: &[u8]) -> [u8; 16] {
    bytes.try_into().expect("a block of 16 bytes")
}

// ---- bytes

fn words(bytes: &[u8]) -> impl Iterator<Item = u32> + '_ {
    bytes.chunks(2).map(|pair| u32::from(pair[0]) + 256 * u32::from(pair[1]))
}

fn put_words(f: &[u32], bytes: &mut Vec<u8>) {
    for &c in f {
        bytes.extend_from_slice(&(c as u16).to_le_bytes());
    }
}

/// The parts of a record that are elements. Refused under `number` at the first word that is q or more.
fn elements(number: u32, record: &str, parts: &[&str], bytes: &[u8]) -> Result<Vec<Element>, u32> {
    if let Some(place) = words(bytes).position(|word| word >= Q) {
        return Err(answers::located(number, record, parts[place / N], place % N));
    }
    Ok(bytes.chunks(2 * N).map(|part| words(part).collect()).collect())
}

/// Refused under 5 where a code is 3.
fn coded(bytes: &[u8]) -> Result<Vec<Element>, u32> {
    let codes: Vec<u8> = bytes.iter().flat_map(|byte| [byte & 3, byte >> 2 & 3, byte >> 4 & 3, byte >> 6]).collect();
    if codes.contains(&3) {
        return Err(5);
    }
    let value = |&code: &u8| [0, 1, Q - 1][usize::from(code)];
    Ok(codes.chunks(N).map(|part| part.iter().map(value).collect()).collect())
}

fn put_codes(f: &[u32], bytes: &mut Vec<u8>) {
    let code = |c: u32| if c == Q - 1 { 2 } else { c as u8 };
    for four in f.chunks(4) {
        bytes.push(four.iter().rev().fold(0, |byte, &c| byte << 2 | code(c)));
    }
}

fn triple_bytes(triple: &Triple) -> Vec<u8> {
    let mut bytes = vec![];
    for part in triple {
        put_codes(part, &mut bytes);
    }
    bytes
}

pub fn noise_value(four: u8) -> i32 {
    let bit = |i: u8| i32::from(four >> i & 1);
    match bit(0) - bit(1) + bit(2) - bit(3) {
        2 => -1,
        -2 => 1,
        value => value,
    }
}

pub fn from_noise(bytes: &[u8]) -> Element {
    bytes.iter().flat_map(|byte| [byte & 15, byte >> 4]).map(|four| coefficient(noise_value(four))).collect()
}

fn triple_from_noise(bytes: &[u8]) -> Triple {
    [from_noise(&bytes[..512]), from_noise(&bytes[512..1024]), from_noise(&bytes[1024..])]
}

fn three(parts: Vec<Element>) -> Triple {
    parts.try_into().expect("768 bytes are three polynomials")
}

fn put_header(mark: &[u8; 3], version: u8) -> Vec<u8> {
    let mut bytes = mark.to_vec();
    bytes.extend_from_slice(&[version, 0]);
    bytes
}

/// 2, then 3 unless it is one of these versions, which is given.
fn judge_header(mark: &[u8; 3], versions: &[u8], record: &[u8]) -> Result<u8, u32> {
    if record[..3] != *mark {
        return Err(2);
    }
    if record[4] != 0 || !versions.contains(&record[3]) {
        return Err(3);
    }
    Ok(record[3])
}

/// Every buffer beside its length.
fn judge_lengths(buffers: &[(usize, usize)]) -> Result<(), u32> {
    if buffers.iter().any(|(length, needed)| length != needed) {
        return Err(1);
    }
    Ok(())
}

// ---- keys

struct PublicKey {
    a: Element,
    b: Element,
}

struct SecretKey {
    a: Element,
    b: Element,
    s: Element,
    inverse_of_b: Element,
}

/// What a public key is measured against: the seeded record where it has that length, else the long one.
fn public_key_length(public_key: &[u8]) -> usize {
    if public_key.len() == 2085 {
        2085
    } else {
        4101
    }
}

/// The length picks the record.
fn judge_public_key(record: &[u8]) -> Result<PublicKey, u32> {
    let (a, b) = if record.len() == 2085 {
        judge_header(b"PDS", &[1], record)?;
        let b = elements(4, "seeded_public_key", &["b"], &record[37..])?.pop().unwrap();
        (seeded(&record[5..37])?, b)
    } else {
        judge_header(b"PDK", &[1], record)?;
        let mut parts = elements(4, "public_key", &["a", "b"], &record[5..])?;
        let b = parts.pop().unwrap();
        (parts.pop().unwrap(), b)
    };
    inverse(&b).ok_or(6u32)?;
    Ok(PublicKey { a, b })
}

/// The first bytes of a secret key tell its version, and that its length: refused under 1, beside the other buffers, where they are missing.
fn judge_start(secret_key: &[u8]) -> Result<(), u32> {
    if secret_key.len() < 5 {
        return Err(1);
    }
    Ok(())
}

/// A secret key of one of these versions: 2, 3, 1 for its version's length, 4, 5, 6 or 13, 7.
fn judge_secret_key(versions: &[u8], record: &[u8]) -> Result<SecretKey, u32> {
    let version = judge_header(b"SDK", versions, record)?;
    judge_lengths(&[(record.len(), if version == 1 { 4357 } else { 6405 })])?;
    let (front, stored) = record.split_at(4357);
    let mut parts = elements(4, "secret_key", &["a", "b"], &front[5..4101])?;
    let b = parts.pop().unwrap();
    let a = parts.pop().unwrap();
    let stored = elements(4, "secret_key", &["stored_inverse"], stored)?.pop();
    let s = coded(&front[4101..])?.pop().unwrap();
    let inverse_of_b = match stored {
        None => inverse(&b).ok_or(6u32)?,
        Some(stored) if product(&b, &stored) == one() => stored,
        Some(_) => return Err(13),
    };
    let e = difference(&multiple(reciprocal(5), &b), &product(&a, &s));
    if !is_short(&e) {
        return Err(7);
    }
    Ok(SecretKey { a, b, s, inverse_of_b })
}

/// Words below q in order, until the polynomial is complete.
fn uniform(stream: &[u8]) -> Result<Element, u32> {
    let taken: Element = words(stream).filter(|&word| word < Q).take(N).collect();
    if taken.len() < N {
        return Err(8);
    }
    Ok(taken)
}

/// The a that a seed stands for.
pub fn seeded(seed: &[u8]) -> Result<Element, u32> {
    let mut stream = [0; 2688];
    shake128(seed, &mut stream);
    uniform(&stream)
}

/// b = 5 × (a × s + e), tried once, and s.
fn new_key(a: &[u32], noise_s: &[u8], noise_e: &[u8]) -> Result<(Element, Element), u32> {
    let (s, e) = (from_noise(noise_s), from_noise(noise_e));
    let b = multiple(5, &sum(&product(a, &s), &e));
    inverse(&b).ok_or(6u32)?;
    Ok((b, s))
}

/// Up to s; version 2 has the inverse of b behind it.
fn secret_key_bytes(version: u8, a: &[u32], b: &[u32], s: &[u32]) -> Vec<u8> {
    let mut record = put_header(b"SDK", version);
    put_words(a, &mut record);
    put_words(b, &mut record);
    put_codes(s, &mut record);
    record
}

// ---- capsule and opening

fn capsule(a: &[u32], b: &[u32], [r, e1, e2]: &Triple) -> (Element, Element) {
    (sum(&product(a, r), e1), sum(&product(b, r), e2))
}

/// The five steps, with document 01's numbers beside them: the triple, and the margin, the largest size of w where m = E2 + 5 × w.
fn opened(key: &SecretKey, c1: &[u32], c2: &[u32], dummy: &Triple) -> Result<(Triple, u32), u32> {
    // 1
    let (d1, d2) = capsule(&key.a, &key.b, dummy);
    let (first, second) = (sum(c1, &d1), sum(c2, &d2));
    // 2
    let m = difference(&second, &multiple(5, &product(&first, &key.s)));
    // 3
    let e2: Element = m.iter().map(|&c| coefficient(remainder_by_5(centred(c)))).collect();
    let margin = m.iter().map(|&c| quotient_by_5(centred(c)).unsigned_abs()).fold(0, u32::max);
    // 4
    let r = product(&difference(&second, &e2), &key.inverse_of_b);
    let e1 = difference(&first, &product(&key.a, &r));
    if !within(2, &r) || !within(2, &e1) {
        return Err(9);
    }
    // 5
    let answer = [difference(&r, &dummy[0]), difference(&e1, &dummy[1]), difference(&e2, &dummy[2])];
    if answer.iter().all(|part| is_short(part)) {
        Ok((answer, margin))
    } else {
        Err(9)
    }
}

/// The pad of this length, K1 and K2.
fn derived(triple: &Triple, length: usize) -> (Vec<u8>, [u8; 16], [u8; 16]) {
    let k = shake256_of(1, &triple_bytes(triple), 48);
    (shake256_of(2, &k[..16], length), block(&k[16..32]), block(&k[32..]))
}

fn tag(k1: [u8; 16], k2: [u8; 16], body: &[u8]) -> Vec<u8> {
    xor(&field_product(k1, block(body)), &k2)
}

/// K1^(m+1) × L + K1^m × B1 + .. + K1 × Bm + K2, every power written out; L holds m in its first two bytes.
fn batch_tag(k1: [u8; 16], k2: [u8; 16], body: &[u8]) -> Vec<u8> {
    let blocks: Vec<&[u8]> = body.chunks(16).collect();
    let m = blocks.len();
    let mut l = [0; 16];
    l[..2].copy_from_slice(&(m as u16).to_le_bytes());
    let powers = field_powers(k1, m + 1);
    let power = |exponent: usize| powers[exponent - 1];
    let first = xor(&field_product(power(m + 1), l), &k2);
    (1..=m).fold(first, |sum, i| xor(&sum, &field_product(power(m + 1 - i), block(blocks[i - 1]))))
}

/// Refused under 12 unless it is 1 to 255.
fn judge_count(m: usize) -> Result<(), u32> {
    if !(1..=255).contains(&m) {
        return Err(12);
    }
    Ok(())
}

// ---- the calls: the code, and outputs written under 0 alone

fn code(answer: Result<(), u32>) -> u32 {
    answer.err().unwrap_or(0)
}

pub fn keygen(stream: &[u8], noise_s: &[u8], noise_e: &[u8], public_key: &mut [u8], secret_key: &mut [u8]) -> u32 {
    let lengths = [(stream.len(), 2688), (noise_s.len(), 512), (noise_e.len(), 512), (public_key.len(), 4101), (secret_key.len(), 4357)];
    let mut work = || {
        judge_lengths(&lengths)?;
        let a = uniform(stream)?;
        let (b, s) = new_key(&a, noise_s, noise_e)?;
        let mut record = put_header(b"PDK", 1);
        put_words(&a, &mut record);
        put_words(&b, &mut record);
        public_key.copy_from_slice(&record);
        secret_key.copy_from_slice(&secret_key_bytes(1, &a, &b, &s));
        Ok(())
    };
    code(work())
}

pub fn keygen_from_seed(seed: &[u8], noise_s: &[u8], noise_e: &[u8], public_key: &mut [u8], secret_key: &mut [u8]) -> u32 {
    let lengths = [(seed.len(), 32), (noise_s.len(), 512), (noise_e.len(), 512), (public_key.len(), 2085), (secret_key.len(), 4357)];
    let mut work = || {
        judge_lengths(&lengths)?;
        let a = seeded(seed)?;
        let (b, s) = new_key(&a, noise_s, noise_e)?;
        let mut record = put_header(b"PDS", 1);
        record.extend_from_slice(seed);
        put_words(&b, &mut record);
        public_key.copy_from_slice(&record);
        secret_key.copy_from_slice(&secret_key_bytes(1, &a, &b, &s));
        Ok(())
    };
    code(work())
}

pub fn check_secret_key(secret_key: &[u8]) -> u32 {
    let work = || {
        judge_start(secret_key)?;
        judge_secret_key(&[1, 2], secret_key)?;
        Ok(())
    };
    code(work())
}

pub fn expand_secret_key(secret_key: &[u8], expanded: &mut [u8]) -> u32 {
    let mut work = || {
        judge_start(secret_key)?;
        judge_lengths(&[(expanded.len(), 6405)])?;
        let key = judge_secret_key(&[1], secret_key)?;
        let mut record = secret_key_bytes(2, &key.a, &key.b, &key.s);
        put_words(&key.inverse_of_b, &mut record);
        expanded.copy_from_slice(&record);
        Ok(())
    };
    code(work())
}

pub fn compact_secret_key(expanded: &[u8], secret_key: &mut [u8]) -> u32 {
    let mut work = || {
        judge_start(expanded)?;
        judge_lengths(&[(secret_key.len(), 4357)])?;
        let key = judge_secret_key(&[2], expanded)?;
        secret_key.copy_from_slice(&secret_key_bytes(1, &key.a, &key.b, &key.s));
        Ok(())
    };
    code(work())
}

pub fn encapsulate(public_key: &[u8], triple: &[u8], encapsulation: &mut [u8]) -> u32 {
    let mut work = || {
        judge_lengths(&[(public_key.len(), public_key_length(public_key)), (triple.len(), 768), (encapsulation.len(), 4096)])?;
        let key = judge_public_key(public_key)?;
        let triple = three(coded(triple)?);
        let (c1, c2) = capsule(&key.a, &key.b, &triple);
        let mut bytes = vec![];
        put_words(&c1, &mut bytes);
        put_words(&c2, &mut bytes);
        encapsulation.copy_from_slice(&bytes);
        Ok(())
    };
    code(work())
}

pub fn decapsulate(secret_key: &[u8], encapsulation: &[u8], dummy: &[u8], triple: &mut [u8]) -> u32 {
    let mut work = || {
        judge_start(secret_key)?;
        judge_lengths(&[(encapsulation.len(), 4096), (dummy.len(), 768), (triple.len(), 768)])?;
        let key = judge_secret_key(&[1, 2], secret_key)?;
        let capsule = elements(11, "encapsulation", &["c1", "c2"], encapsulation)?;
        let dummy = three(coded(dummy)?);
        let (answer, _) = opened(&key, &capsule[0], &capsule[1], &dummy)?;
        triple.copy_from_slice(&triple_bytes(&answer));
        Ok(())
    };
    code(work())
}

pub fn seal(public_key: &[u8], noise: &[u8], entry: &[u8], sealed: &mut [u8]) -> u32 {
    let mut work = || {
        judge_lengths(&[(public_key.len(), public_key_length(public_key)), (noise.len(), 1536), (entry.len(), 16), (sealed.len(), 4133)])?;
        let key = judge_public_key(public_key)?;
        let triple = triple_from_noise(noise);
        let (c1, c2) = capsule(&key.a, &key.b, &triple);
        let (pad, k1, k2) = derived(&triple, 16);
        let body = xor(entry, &pad);
        let mut record = put_header(b"PLG", 1);
        put_words(&c1, &mut record);
        put_words(&c2, &mut record);
        record.extend_from_slice(&body);
        record.extend_from_slice(&tag(k1, k2, &body));
        sealed.copy_from_slice(&record);
        Ok(())
    };
    code(work())
}

/// A sealed entry opened, and its margin.
fn opened_entry(secret_key: &[u8], sealed: &[u8], dummy_noise: &[u8], entry: &mut [u8]) -> Result<u32, u32> {
    judge_start(secret_key)?;
    judge_lengths(&[(sealed.len(), 4133), (dummy_noise.len(), 1536), (entry.len(), 16)])?;
    let key = judge_secret_key(&[1, 2], secret_key)?;
    judge_header(b"PLG", &[1], sealed)?;
    let capsule = elements(11, "sealed_entry", &["c1", "c2"], &sealed[5..4101])?;
    let (triple, margin) = opened(&key, &capsule[0], &capsule[1], &triple_from_noise(dummy_noise))?;
    let (pad, k1, k2) = derived(&triple, 16);
    let body = &sealed[4101..4117];
    if sealed[4117..] != tag(k1, k2, body) {
        return Err(10);
    }
    entry.copy_from_slice(&xor(body, &pad));
    Ok(margin)
}

pub fn open(secret_key: &[u8], sealed: &[u8], dummy_noise: &[u8], entry: &mut [u8]) -> u32 {
    code(opened_entry(secret_key, sealed, dummy_noise, entry).map(|_| ()))
}

pub fn open_with_margin(secret_key: &[u8], sealed: &[u8], dummy_noise: &[u8], entry: &mut [u8], margin: &mut u32) -> u32 {
    code(opened_entry(secret_key, sealed, dummy_noise, entry).map(|largest| *margin = largest))
}

pub fn seal_batch(public_key: &[u8], noise: &[u8], entries: &[u8], batch: &mut [u8]) -> u32 {
    let mut work = || {
        if entries.len() % 16 != 0 {
            return Err(1);
        }
        let m = entries.len() / 16;
        judge_count(m)?;
        judge_lengths(&[(public_key.len(), public_key_length(public_key)), (noise.len(), 1536), (batch.len(), 4119 + 16 * m)])?;
        let key = judge_public_key(public_key)?;
        let triple = triple_from_noise(noise);
        let (c1, c2) = capsule(&key.a, &key.b, &triple);
        let (pad, k1, k2) = derived(&triple, 16 * m);
        let body = xor(entries, &pad);
        let mut record = put_header(b"PLG", 2);
        put_words(&c1, &mut record);
        put_words(&c2, &mut record);
        record.extend_from_slice(&(m as u16).to_le_bytes());
        record.extend_from_slice(&body);
        record.extend_from_slice(&batch_tag(k1, k2, &body));
        batch.copy_from_slice(&record);
        Ok(())
    };
    code(work())
}

pub fn open_batch(secret_key: &[u8], batch: &[u8], dummy_noise: &[u8], entries: &mut [u8], count: &mut u32) -> u32 {
    let mut work = || {
        if batch.len() < 4119 {
            return Err(1);
        }
        judge_start(secret_key)?;
        judge_lengths(&[(dummy_noise.len(), 1536), (entries.len(), 4080)])?;
        let key = judge_secret_key(&[1, 2], secret_key)?;
        judge_header(b"PLG", &[2], batch)?;
        let m = usize::from(batch[4101]) + 256 * usize::from(batch[4102]);
        judge_count(m)?;
        judge_lengths(&[(batch.len(), 4119 + 16 * m)])?;
        let capsule = elements(11, "sealed_entry", &["c1", "c2"], &batch[5..4101])?;
        let (triple, _) = opened(&key, &capsule[0], &capsule[1], &triple_from_noise(dummy_noise))?;
        let (pad, k1, k2) = derived(&triple, 16 * m);
        let (body, tag) = batch[4103..].split_at(16 * m);
        if tag != batch_tag(k1, k2, body) {
            return Err(10);
        }
        entries[..16 * m].copy_from_slice(&xor(body, &pad));
        *count = m as u32;
        Ok(())
    };
    code(work())
}
