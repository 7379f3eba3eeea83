//! Thousands of random round trips through the typed wrapper.
mod common;

use common::cases::Count;
use common::random::Random;
use common::reference;
use polka::{
    Encapsulation, Entry, Error, ExpandedSecretKey, KeyNoise, Margin, PublicKey, SealedBatch, SealedEntry, SecretKey, SecretRecord,
    SeededPublicKey, Triple, TripleNoise, UniformStream,
};

/// A key pair, and how many tries were refused before it.
fn new_key(random: &mut Random) -> (PublicKey, SecretKey, usize) {
    let mut refused = 0;
    loop {
        match polka::keygen(&UniformStream::from(random.array()), KeyNoise::from(&random.array()), KeyNoise::from(&random.array())) {
            Ok((public_key, secret_key)) => return (public_key, secret_key, refused),
            // of random keys about one in sixty is no unit
            Err(Error::NotInvertible) => refused += 1,
            Err(error) => panic!("key generation: {error}"),
        }
    }
}

fn noise(random: &mut Random) -> TripleNoise {
    TripleNoise::from(&random.array())
}

fn triple(random: &mut Random) -> Triple {
    Triple::try_from(&random.codes(768)[..]).unwrap()
}

#[test]
fn seal_and_open() {
    const KEYS: usize = 1000;
    const ENTRIES: usize = 4;
    let mut random = Random::new(201);
    let (mut keys, mut entries) = (Count::new("round trips, keys"), Count::new("round trips, sealed and opened"));
    let mut refused = 0;
    for key in 0..KEYS {
        let (public_key, secret_key, tries) = new_key(&mut random);
        refused += tries;
        // what is written under 0 is accepted, and both records have the same a and b
        let same = public_key.as_bytes()[5..] == secret_key.as_bytes()[5..4101];
        keys.agree(&format!("key {key}"), same && polka::check_secret_key(&secret_key).is_ok());
        for entry in 0..ENTRIES {
            let bytes: [u8; 16] = random.array();
            let sealed = polka::seal(&public_key, noise(&mut random), &Entry::from(&bytes)).unwrap();
            let opened = polka::open(&secret_key, &sealed, noise(&mut random));
            entries.agree(&format!("key {key}, entry {entry}"), opened.is_ok_and(|opened| *opened.as_bytes() == bytes));
        }
    }
    keys.finish();
    entries.finish();
    println!("round trips: {refused} tries of key generation were no unit");
}

#[test]
fn encapsulate_and_decapsulate() {
    let mut random = Random::new(202);
    let mut count = Count::new("round trips, encapsulated and decapsulated");
    for key in 0..500 {
        let (public_key, secret_key, _) = new_key(&mut random);
        for i in 0..4 {
            let sent = triple(&mut random);
            let encapsulation = polka::encapsulate(&public_key, &sent).unwrap();
            let received = polka::decapsulate(&secret_key, &encapsulation, triple(&mut random));
            count.agree(&format!("key {key}, triple {i}"), received.is_ok_and(|received| received.as_bytes() == sent.as_bytes()));
        }
    }
    count.finish();
}

/// A seed and the stream that it stands for make one key, under whose two public records the same is sealed and encapsulated.
#[test]
fn seeded_public_keys() {
    let mut random = Random::new(204);
    let mut keys = Count::new("round trips, keys from a seed and from its stream");
    let mut entries = Count::new("round trips, sealed under both records and opened");
    let mut triples = Count::new("round trips, encapsulated under both records and decapsulated");
    for key in 0..500 {
        let (seed, noise_s, noise_e): ([u8; 32], [u8; 512], [u8; 512]) = (random.array(), random.array(), random.array());
        let mut stream = [0; 2688];
        polka::shake128(&seed, &mut stream);
        let made = polka::keygen(&stream.into(), KeyNoise::from(&noise_s), KeyNoise::from(&noise_e));
        let made_from_seed = polka::keygen_from_seed(&seed.into(), KeyNoise::from(&noise_s), KeyNoise::from(&noise_e));
        let ((long, secret_key_of_stream), (seeded, secret_key)) = match (made, made_from_seed) {
            (Ok(made), Ok(made_from_seed)) => (made, made_from_seed),
            (made, made_from_seed) => {
                keys.agree(&format!("key {key}"), made.err() == made_from_seed.err());
                continue;
            }
        };
        // the records are what the secret key's a and b make them
        let (a, b) = secret_key.as_bytes()[5..4101].split_at(2048);
        let same = secret_key_of_stream.as_bytes() == secret_key.as_bytes()
            && *long.as_bytes() == *[&b"PDK\x01\x00"[..], a, b].concat()
            && *seeded.as_bytes() == *[&b"PDS\x01\x00"[..], &seed[..], b].concat();
        keys.agree(&format!("key {key}"), same && polka::check_secret_key(&secret_key).is_ok());
        for i in 0..4 {
            let (bytes, sealing): ([u8; 16], [u8; 1536]) = (random.array(), random.array());
            let sealed = polka::seal(&seeded, TripleNoise::from(&sealing), &Entry::from(&bytes)).unwrap();
            let same = polka::seal(&long, TripleNoise::from(&sealing), &Entry::from(&bytes)).unwrap() == sealed;
            let opened = polka::open(&secret_key, &sealed, noise(&mut random));
            entries.agree(&format!("key {key}, entry {i}"), same && opened.is_ok_and(|opened| *opened.as_bytes() == bytes));
            let sent = triple(&mut random);
            let encapsulation = polka::encapsulate(&seeded, &sent).unwrap();
            let same = polka::encapsulate(&long, &sent).unwrap() == encapsulation;
            let received = polka::decapsulate(&secret_key, &encapsulation, triple(&mut random));
            triples.agree(&format!("key {key}, triple {i}"), same && received.is_ok_and(|received| received.as_bytes() == sent.as_bytes()));
        }
    }
    keys.finish();
    entries.finish();
    triples.finish();
}

/// A key from a seed, with both of its public records.
fn new_seeded_key(random: &mut Random) -> (PublicKey, SeededPublicKey, SecretKey) {
    loop {
        match polka::keygen_from_seed(&random.array().into(), KeyNoise::from(&random.array()), KeyNoise::from(&random.array())) {
            Ok((seeded, secret_key)) => {
                let long = [b"PDK\x01\x00", &secret_key.as_bytes()[5..4101]].concat();
                return (PublicKey::try_from(&long[..]).unwrap(), seeded, secret_key);
            }
            Err(Error::NotInvertible) => continue,
            Err(error) => panic!("key generation from a seed: {error}"),
        }
    }
}

fn are(opened: Result<Vec<Entry>, Error>, entries: &[Entry]) -> bool {
    opened.is_ok_and(|opened| opened.iter().map(Entry::as_bytes).eq(entries.iter().map(Entry::as_bytes)))
}

/// Batches of every size, under both public records and several keys and dummies.
#[test]
fn batches() {
    const KEYS: usize = 8;
    let mut random = Random::new(205);
    let mut count = Count::new("round trips, batches of 1 to 255 entries under both records");
    for key in 0..KEYS {
        let (long, seeded, secret_key) = new_seeded_key(&mut random);
        for entries in 1..=SealedBatch::MOST_ENTRIES {
            let (sealing, all): ([u8; 1536], Vec<Entry>) = (random.array(), (0..entries).map(|_| Entry::from(&random.array())).collect());
            let batch = polka::seal_batch(&long, TripleNoise::from(&sealing), &all).unwrap();
            let same = polka::seal_batch(&seeded, TripleNoise::from(&sealing), &all).unwrap() == batch;
            let opened = (0..2).all(|_| are(polka::open_batch(&secret_key, &batch, noise(&mut random)), &all));
            let fits = batch.as_bytes().len() == SealedBatch::length(entries);
            count.agree(&format!("key {key}, {entries} entries"), same && opened && fits);
        }
    }
    count.finish();
}

/// One sealing's noise has one keystream, however many entries there are: the body of an entry alone is the first block of each batch's, and
/// the body of a batch starts that of a longer one. Their tags differ.
#[test]
fn batches_and_entries_of_one_sealing() {
    let mut random = Random::new(206);
    let mut count = Count::new("round trips, bodies of batches and entries from the same noise");
    for key in 0..4 {
        let (public_key, _, _) = new_key(&mut random);
        let sealing: [u8; 1536] = random.array();
        let all: Vec<Entry> = (0..SealedBatch::MOST_ENTRIES).map(|_| Entry::from(&random.array())).collect();
        let sealed = polka::seal(&public_key, TripleNoise::from(&sealing), &all[0]).unwrap();
        let longest = polka::seal_batch(&public_key, TripleNoise::from(&sealing), &all).unwrap();
        let mut tags = vec![sealed.as_bytes()[4117..].to_vec()];
        for entries in 1..=all.len() {
            let batch = polka::seal_batch(&public_key, TripleNoise::from(&sealing), &all[..entries]).unwrap();
            let (head, tag) = batch.as_bytes().split_at(batch.as_bytes().len() - 16);
            let (front, body) = head.split_at(4103);
            let same = front[5..4101] == sealed.as_bytes()[5..4101]
                && body[..16] == sealed.as_bytes()[4101..4117]
                && longest.as_bytes()[4103..].starts_with(body);
            count.agree(&format!("key {key}, {entries} entries"), same && front[4101..] == [entries as u8, 0]);
            tags.push(tag.to_vec());
        }
        tags.sort();
        tags.dedup();
        count.agree(&format!("key {key}, tags"), tags.len() == all.len() + 1);
    }
    count.finish();
}

/// From each version to the other and back: the first bytes. The record is what a, b, s and the inverse of b make it.
#[test]
fn conversions() {
    let mut random = Random::new(207);
    let mut count = Count::new("round trips, secret keys expanded and compacted");
    for key in 0..500 {
        let (_, secret_key, _) = new_key(&mut random);
        let expanded_key = polka::expand_secret_key(&secret_key).unwrap();
        let compact_key = polka::compact_secret_key(&expanded_key).unwrap();
        let once_more = polka::expand_secret_key(&compact_key).unwrap();
        let (front, inverse) = expanded_key.as_bytes().split_at(SecretKey::LENGTH);
        let b = element(&secret_key.as_bytes()[2053..4101]);
        let one: reference::Element = (0..reference::N).map(|i| u32::from(i == 0)).collect();
        let right = compact_key.as_bytes() == secret_key.as_bytes()
            && once_more.as_bytes() == expanded_key.as_bytes()
            && *front == *[&b"SDK\x02\x00"[..], &secret_key.as_bytes()[5..]].concat()
            && reference::product(&b, &element(inverse)) == one
            && polka::check_secret_key(&expanded_key).is_ok();
        count.agree(&format!("key {key}"), right);
    }
    count.finish();
}

fn element(bytes: &[u8]) -> reference::Element {
    bytes.chunks(2).map(|pair| u32::from(u16::from_le_bytes([pair[0], pair[1]]))).collect()
}

/// Of an entry by both of its openings, a batch and an encapsulation.
type Answers = ([Result<[u8; 16], Error>; 2], Result<Vec<[u8; 16]>, Error>, Result<[u8; 768], Error>);

/// What the four openings answer with this key, each under a dummy of its own.
fn answers(key: &dyn SecretRecord, (sealed, batch, encapsulation): (&SealedEntry, &[u8], &Encapsulation), random: &mut Random) -> Answers {
    (
        [
            polka::open(key, sealed, noise(random)).map(|entry| *entry.as_bytes()),
            polka::open_with_margin(key, sealed, noise(random)).map(|(entry, _)| *entry.as_bytes()),
        ],
        polka::open_batch(key, batch, noise(random)).map(|all| all.iter().map(|entry| *entry.as_bytes()).collect()),
        polka::decapsulate(key, encapsulation, triple(random)).map(|triple| *triple.as_bytes()),
    )
}

/// Either form of a key gives one answer, under each of two dummies: what was sealed or encapsulated, or the same refusal. Each key has
/// something sound, with one bit of it turned, with one word of it moved by little, and of another key.
#[test]
fn either_form_one_answer() {
    let mut random = Random::new(208);
    let mut count = Count::new("round trips, one answer from a secret key and its expanded form");
    let (other_public_key, _, _) = new_key(&mut random);
    for key in 0..250 {
        let (public_key, secret_key, _) = new_key(&mut random);
        let expanded_key: ExpandedSecretKey = polka::expand_secret_key(&secret_key).unwrap();
        for kind in ["sound", "a bit turned", "a word moved", "of another key"] {
            let public_key = if kind == "of another key" { &other_public_key } else { &public_key };
            let entries: Vec<Entry> = (0..1 + random.below(255)).map(|_| Entry::from(&random.array())).collect();
            let mut sealed = polka::seal(public_key, noise(&mut random), &entries[0]).unwrap().as_bytes().to_vec();
            let mut batch = polka::seal_batch(public_key, noise(&mut random), &entries).unwrap().as_bytes().to_vec();
            let mut encapsulation = polka::encapsulate(public_key, &triple(&mut random)).unwrap().as_bytes().to_vec();
            for (record, start) in [(&mut sealed, 5), (&mut batch, 5), (&mut encapsulation, 0)] {
                match kind {
                    "a bit turned" => {
                        let at = random.below(record.len());
                        record[at] ^= 1 << random.below(8);
                    }
                    "a word moved" => {
                        let place = &mut record[start + 2 * random.below(2048)..][..2];
                        let word = u32::from(u16::from_le_bytes([place[0], place[1]]));
                        let moved = (word + random.pick(&[1, reference::Q - 1, 2, 5])) % reference::Q;
                        place.copy_from_slice(&(moved as u16).to_le_bytes());
                    }
                    _ => {}
                }
            }
            let (sealed, encapsulation) = (SealedEntry::try_from(&sealed[..]), Encapsulation::try_from(&encapsulation[..]));
            let lent = (&sealed.unwrap(), &batch[..], &encapsulation.unwrap());
            let forms: [&dyn SecretRecord; 2] = [&secret_key, &expanded_key];
            let given = [forms, forms].concat().into_iter().map(|form| answers(form, lent, &mut random)).collect::<Vec<_>>();
            let ([by_one, by_other], batch, triple) = &given[0];
            let sound = by_one.is_ok() && batch.is_ok() && triple.is_ok();
            let as_it_should = by_one == by_other && if kind == "sound" { sound } else { kind != "of another key" || !sound };
            count.agree(&format!("key {key}, {kind}"), as_it_should && given.iter().all(|one| *one == given[0]));
        }
    }
    count.finish();
}

/// s and e of a sound key.
fn secrets(secret_key: &SecretKey) -> [reference::Element; 2] {
    let bytes = secret_key.as_bytes();
    let value = |code: u8| [0, 1, reference::Q - 1][usize::from(code & 3)];
    let s = bytes[4101..].iter().flat_map(|byte| [0, 2, 4, 6].map(|shift| value(byte >> shift))).collect::<reference::Element>();
    // b ÷ 5 − a × s; 5 × 35,636 is 1
    let a_s = reference::product(&element(&bytes[5..2053]), &s);
    let e = reference::difference(&reference::multiple(35_636, &element(&bytes[2053..4101])), &a_s);
    [s, e]
}

/// The margin without an opening: w is e × R − E1 × s, where R and E1 are the sums of both r and of both e1.
fn margin_of([s, e]: &[reference::Element; 2], sealing: &[u8; 1536], dummy: &[u8; 1536]) -> u32 {
    let part = |noise: &[u8; 1536], at: usize| reference::from_noise(&noise[at..at + 512]);
    let [r, e1] = [0, 512].map(|at| reference::sum(&part(sealing, at), &part(dummy, at)));
    let w = reference::difference(&reference::product(e, &r), &reference::product(&e1, s));
    w.iter().map(|&c| reference::centred(c).unsigned_abs()).max().unwrap()
}

fn nonzero(f: &[u32]) -> u32 {
    f.iter().filter(|&&c| c != 0).count() as u32
}

/// Whether the entry opens to these bytes and with this margin.
fn opens(key: &dyn SecretRecord, sealed: &SealedEntry, dummy: &[u8; 1536], bytes: &[u8; 16], margin: u32) -> bool {
    let opened = polka::open_with_margin(key, sealed, TripleNoise::from(dummy));
    opened.is_ok_and(|(entry, found)| entry.as_bytes() == bytes && found.value() == margin)
}

/// The margin is what key, triple and dummy make it, with either form of the key. It varies with the dummy.
#[test]
fn margins() {
    let mut random = Random::new(209);
    let mut count = Count::new("round trips, margins");
    for key in 0..100 {
        let (public_key, secret_key, _) = new_key(&mut random);
        let expanded_key = polka::expand_secret_key(&secret_key).unwrap();
        let secrets = secrets(&secret_key);
        let bound = Margin::LARGEST.min(2 * (nonzero(&secrets[0]) + nonzero(&secrets[1])));
        let (bytes, sealing): ([u8; 16], [u8; 1536]) = (random.array(), random.array());
        let sealed = polka::seal(&public_key, TripleNoise::from(&sealing), &Entry::from(&bytes)).unwrap();
        let mut margins = vec![];
        for i in 0..8 {
            let dummy: [u8; 1536] = random.array();
            let margin = margin_of(&secrets, &sealing, &dummy);
            let right = opens(&secret_key, &sealed, &dummy, &bytes, margin) && opens(&expanded_key, &sealed, &dummy, &bytes, margin);
            count.agree(&format!("key {key}, dummy {i}"), right && margin <= bound);
            margins.push(margin);
        }
        count.agree(&format!("key {key}, all dummies"), margins.iter().any(|margin| *margin != margins[0]));
    }
    count.finish();
}

/// The ternary f whose product with g has the largest size that there is, the count of g's nonzero coefficients, at this place and with
/// this sign.
fn matched(g: &[u32], place: usize, sign: i32) -> Vec<i32> {
    let meets = |k: usize| sign * reference::centred(g[(place + reference::N - k) % reference::N]);
    // above the place the product of both is behind X^1023, and X^1024 is −1
    (0..reference::N).map(|k| if k <= place { meets(k) } else { -meets(k) }).collect()
}

/// Noise that is read as this: four bits 1 are 1, four bits 2 are −1.
fn noise_bytes(f: &[i32]) -> Vec<u8> {
    let four = |value: i32| value.rem_euclid(3) as u8;
    f.chunks(2).map(|two| four(two[0]) | four(two[1]) << 4).collect()
}

/// Triples and dummies that bring one coefficient of w to its bound in size, twice the count of nonzero coefficients of s and e: 4,096
/// where none of them is 0.
#[test]
fn largest_margins() {
    let mut random = Random::new(210);
    let mut count = Count::new("round trips, the largest margin of a key");
    let mut largest = 0;
    for key in 0..20 {
        let full = key % 2 == 0;
        let (public_key, secret_key) = loop {
            // four bits 1 or 2: no coefficient is 0
            let without_zero = |byte: u8| 1 << (byte & 1) | 16 << (byte >> 1 & 1);
            let mut part = || -> [u8; 512] { random.array().map(|byte| if full { without_zero(byte) } else { byte }) };
            let (noise_s, noise_e) = (KeyNoise::from(&part()), KeyNoise::from(&part()));
            if let Ok(keys) = polka::keygen(&UniformStream::from(random.array()), noise_s, noise_e) {
                break keys;
            }
        };
        let expanded_key = polka::expand_secret_key(&secret_key).unwrap();
        let secrets = secrets(&secret_key);
        let margin = 2 * (nonzero(&secrets[0]) + nonzero(&secrets[1]));
        for place in [0, 1, 511, 512, 1022, 1023, random.below(reference::N)] {
            for sign in [1, -1] {
                let front = [noise_bytes(&matched(&secrets[1], place, sign)), noise_bytes(&matched(&secrets[0], place, -sign))].concat();
                let mut triple = || -> [u8; 1536] { [&front[..], &random.bytes(512)].concat().try_into().unwrap() };
                let (bytes, sealing, dummy) = (*b"lane 4, 00:47.52", triple(), triple());
                let sealed = polka::seal(&public_key, TripleNoise::from(&sealing), &Entry::from(&bytes)).unwrap();
                let right = opens(&secret_key, &sealed, &dummy, &bytes, margin) && opens(&expanded_key, &sealed, &dummy, &bytes, margin);
                count.agree(&format!("key {key}, place {place}, sign {sign}"), right && margin <= Margin::LARGEST);
                largest = largest.max(margin);
            }
        }
    }
    count.finish();
    assert_eq!(largest, Margin::LARGEST);
}

/// The dummy has no part in the answer, whether it is the entry, the triple or a refusal.
#[test]
fn other_dummies_give_the_same_answer() {
    let mut random = Random::new(203);
    let mut count = Count::new("round trips, the same answer under other dummies");
    let edges = [[0x00u8; 1536], [0x11; 1536], [0x33; 1536], [0xcc; 1536]];
    let coded_edges = [[0x00u8; 768], [0x55; 768], [0xaa; 768]];
    for key in 0..100 {
        let (public_key, secret_key, _) = new_key(&mut random);
        let mut sealed = *polka::seal(&public_key, noise(&mut random), &Entry::from(&random.array())).unwrap().as_bytes();
        let mut encapsulation = *polka::encapsulate(&public_key, &triple(&mut random)).unwrap().as_bytes();
        let entries: Vec<Entry> = (0..1 + random.below(255)).map(|_| Entry::from(&random.array())).collect();
        let mut batch = polka::seal_batch(&public_key, noise(&mut random), &entries).unwrap().as_bytes().to_vec();
        // a quarter sound, a quarter with another c, a quarter with a bad word, a quarter with another tag
        let place = random.below(2048);
        match key % 4 {
            0 => {}
            1 => {
                sealed[5 + 2 * place] ^= 1;
                batch[5 + 2 * place] ^= 1;
                encapsulation[2 * place] ^= 1;
            }
            2 => {
                sealed[5 + 2 * place..][..2].fill(0xff);
                batch[5 + 2 * place..][..2].fill(0xff);
                encapsulation[2 * place..][..2].fill(0xff);
            }
            _ => {
                sealed[4117 + random.below(16)] ^= 0x10;
                batch[4103 + random.below(16)] ^= 0x10;
            }
        }
        let mut dummies =
            || -> Vec<TripleNoise> { edges.iter().map(TripleNoise::from).chain((0..8).map(|_| noise(&mut random))).collect() };
        let answers: Vec<Result<[u8; 16], Error>> =
            dummies().into_iter().map(|dummy| polka::open(&secret_key, &sealed.into(), dummy).map(|entry| *entry.as_bytes())).collect();
        count.agree(&format!("key {key}, open"), answers.iter().all(|answer| *answer == answers[0]));
        let with_margin = |dummy| polka::open_with_margin(&secret_key, &sealed.into(), dummy).map(|(entry, _)| *entry.as_bytes());
        count.agree(&format!("key {key}, open_with_margin"), dummies().into_iter().all(|dummy| with_margin(dummy) == answers[0]));
        let answers: Vec<Result<Vec<[u8; 16]>, Error>> = dummies()
            .into_iter()
            .map(|dummy| polka::open_batch(&secret_key, &batch, dummy).map(|all| all.iter().map(|entry| *entry.as_bytes()).collect()))
            .collect();
        count.agree(&format!("key {key}, open_batch"), answers.iter().all(|answer| *answer == answers[0]));
        let dummies: Vec<Triple> = coded_edges.iter().map(Triple::from).chain((0..8).map(|_| triple(&mut random))).collect();
        let answers: Vec<Result<[u8; 768], Error>> = dummies
            .into_iter()
            .map(|dummy| polka::decapsulate(&secret_key, &encapsulation.into(), dummy).map(|triple| *triple.as_bytes()))
            .collect();
        count.agree(&format!("key {key}, decapsulate"), answers.iter().all(|answer| *answer == answers[0]));
    }
    count.finish();
}
