//! The types of the wrapper: lengths, refusals, and that no secret is shown.
mod common;

use common::answers;
use polka::{
    Encapsulation, Entry, Error, ExpandedSecretKey, KeyNoise, Part, PublicKey, PublicRecord, Record, SealedBatch, SealedEntry, SecretKey,
    SecretRecord, Seed, SeededPublicKey, Triple, TripleNoise,
};

/// The refusal with this number and this location in the vectors' words.
fn error(number: u32, location: &str) -> Error {
    Error::from_code(answers::code(number, location)).unwrap()
}

#[test]
fn refusals_know_their_numbers_and_words() {
    for number in [1, 2, 3, 5, 6, 7, 8, 9, 10, 12, 13] {
        let error = error(number, "");
        assert_eq!((error.number(), error.location()), (number, None));
        assert_eq!(error.to_string(), format!("{} ({number}, {})", error.meaning(), error.word()));
    }
    assert_eq!(Error::from_code(0), None);
    assert_eq!(Error::DecapsulationFailure.to_string(), "no triple has this encapsulation under this key (9, no triple)");
    let _: &dyn std::error::Error = &Error::TagMismatch;
}

#[test]
fn a_bad_word_has_a_location() {
    let all = [
        (4, "public_key a 0", Record::PublicKey, Part::A, 0, "public key, a, word 0"),
        (4, "public_key b 1023", Record::PublicKey, Part::B, 1023, "public key, b, word 1023"),
        (4, "seeded_public_key b 1", Record::SeededPublicKey, Part::B, 1, "seeded public key, b, word 1"),
        (4, "secret_key a 512", Record::SecretKey, Part::A, 512, "secret key, a, word 512"),
        (4, "secret_key b 17", Record::SecretKey, Part::B, 17, "secret key, b, word 17"),
        (4, "secret_key stored_inverse 3", Record::SecretKey, Part::StoredInverse, 3, "secret key, stored inverse, word 3"),
        (11, "sealed_entry c1 1023", Record::SealedEntry, Part::C1, 1023, "sealed entry, c1, word 1023"),
        (11, "sealed_entry c2 17", Record::SealedEntry, Part::C2, 17, "sealed entry, c2, word 17"),
        (11, "encapsulation c1 0", Record::Encapsulation, Part::C1, 0, "encapsulation, c1, word 0"),
        (11, "encapsulation c2 255", Record::Encapsulation, Part::C2, 255, "encapsulation, c2, word 255"),
    ];
    for (number, words, record, part, index, shown) in all {
        let error = error(number, words);
        let location = error.location().unwrap();
        assert_eq!((error.number(), error.word()), (number, "off the ring"));
        assert_eq!((location.record(), location.part(), location.index()), (record, part, index));
        assert_eq!(location.to_string(), shown);
        assert_eq!(error.to_string(), format!("{}: {shown} ({number}, off the ring)", error.meaning()));
        let same = if number == 4 { Error::KeyOutOfRange(location) } else { Error::EncapsulationOutOfRange(location) };
        assert_eq!(error, same);
    }
}

/// No archive of this version gives them: bits above a number that has none, no or another record or part, an index past the last word.
#[test]
fn unknown_codes_are_kept() {
    let bad_word = answers::code(4, "secret_key b 17");
    let others = [4, 11, 14, 255, 0x100, 0x101, 0x0001_0000, bad_word & !0xf00, bad_word & !0xf000, bad_word | 0x500, bad_word | 0x7000];
    for code in others.into_iter().chain([bad_word + 0x0400_0000, bad_word | 0x1000_0000, bad_word + 1, u32::MAX]) {
        let error = Error::from_code(code).unwrap();
        assert_eq!((error, error.number(), error.location()), (Error::Unknown(code), code & 0xff, None));
        assert!(error.to_string().ends_with(&format!("({}, unknown)", code & 0xff)));
    }
}

#[test]
fn other_lengths_are_refused() {
    let bytes = [0u8; 7000];
    for off in [0, 2085, 4100, 4102] {
        assert_eq!(PublicKey::try_from(&bytes[..off]).unwrap_err(), Error::WrongLength);
    }
    for off in [0, 2084, 2086, 4101] {
        assert_eq!(SeededPublicKey::try_from(&bytes[..off]).unwrap_err(), Error::WrongLength);
    }
    assert_eq!(Seed::try_from(&bytes[..31]).unwrap_err(), Error::WrongLength);
    for off in [0, 4356, 4358, 6405] {
        assert_eq!(SecretKey::try_from(&bytes[..off]).unwrap_err(), Error::WrongLength);
    }
    for off in [0, 4357, 6404, 6406] {
        assert_eq!(ExpandedSecretKey::try_from(&bytes[..off]).unwrap_err(), Error::WrongLength);
    }
    assert_eq!(SealedEntry::try_from(&bytes[..4134]).unwrap_err(), Error::WrongLength);
    assert_eq!(Entry::try_from(&bytes[..15]).unwrap_err(), Error::WrongLength);
    assert!(SecretKey::try_from(&bytes[..SecretKey::LENGTH]).is_ok());
    assert!(ExpandedSecretKey::try_from(&bytes[..ExpandedSecretKey::LENGTH]).is_ok());
}

#[test]
fn debug_shows_no_secret() {
    assert_eq!(format!("{:?}", SecretKey::from(&[0xab; 4357])), "SecretKey(4357 secret bytes)");
    assert_eq!(format!("{:?}", ExpandedSecretKey::from(&[0xab; 6405])), "ExpandedSecretKey(6405 secret bytes)");
    assert_eq!(format!("{:?}", Triple::from(&[0xab; 768])), "Triple(768 secret bytes)");
    assert_eq!(format!("{:?}", Entry::from(&[0xab; 16])), "Entry(16 secret bytes)");
    assert_eq!(format!("{:?}", KeyNoise::from(&[0xab; 512])), "KeyNoise(512 secret bytes)");
    assert_eq!(format!("{:?}", TripleNoise::from(&[0xab; 1536])), "TripleNoise(1536 secret bytes)");
    let opened = polka::open_with_margin(&sound_key(), &sealed_entry(), noise_of(0x21)).unwrap();
    assert_eq!(format!("{opened:?}"), "(Entry(16 secret bytes), Margin(a secret number))");
    assert!(format!("{:?}", PublicKey::from([0xab; 4101])).starts_with("PublicKey(abab"));
    assert!(format!("{:?}", SeededPublicKey::from([0xab; 2085])).starts_with("SeededPublicKey(abab"));
    assert_eq!(format!("{:?}", SealedBatch::from(vec![0xab; 4135])), format!("SealedBatch({}.., 4135 bytes)", "ab".repeat(16)));
    assert_eq!(format!("{:?}", SealedBatch::from(&[0xab][..])), "SealedBatch(ab.., 1 bytes)");
}

#[test]
fn refusals_come_back_as_errors() {
    let zeros = SecretKey::from(&[0; 4357]);
    assert_eq!(polka::check_secret_key(&zeros), Err(Error::WrongMark));
    assert_eq!(polka::expand_secret_key(&zeros).unwrap_err(), Error::WrongMark);
    assert_eq!(polka::compact_secret_key(&ExpandedSecretKey::from(&[0; 6405])).unwrap_err(), Error::WrongMark);
    let sealed = SealedEntry::from([0; 4133]);
    assert_eq!(polka::open(&zeros, &sealed, TripleNoise::from(&[0; 1536])).unwrap_err(), Error::WrongMark);
    assert_eq!(polka::open_with_margin(&zeros, &sealed, TripleNoise::from(&[0; 1536])).unwrap_err(), Error::WrongMark);
    assert_eq!(polka::open_batch(&zeros, &[0; 4135], TripleNoise::from(&[0; 1536])).unwrap_err(), Error::WrongMark);
    // s and e are 0, and so is b
    let (noise_s, noise_e) = (KeyNoise::from(&[0; 512]), KeyNoise::from(&[0; 512]));
    assert_eq!(polka::keygen_from_seed(&Seed::from([0; 32]), noise_s, noise_e).unwrap_err(), Error::NotInvertible);
}

/// a = 0, b = 5 and s = 0.
fn sound_key() -> SecretKey {
    let mut key = [0; 4357];
    key[..5].copy_from_slice(b"SDK\x01\x00");
    key[2053] = 5;
    SecretKey::from(&key)
}

/// The same as version 2: 5 × 35,636 is 3 × 59,393 + 1.
fn sound_expanded_key() -> ExpandedSecretKey {
    let mut key = [0; 6405];
    key[..4357].copy_from_slice(sound_key().as_bytes());
    key[3] = 2;
    key[4357..4359].copy_from_slice(&35_636u16.to_le_bytes());
    ExpandedSecretKey::from(&key)
}

/// The public key of that one, with which sealing and opening go round.
fn sound_public_key() -> PublicKey {
    PublicKey::try_from(&[b"PDK\x01\x00", &sound_key().as_bytes()[5..4101]].concat()[..]).unwrap()
}

fn noise_of(fill: u8) -> TripleNoise {
    TripleNoise::from(&[fill; 1536])
}

/// Its r, e1 and e2 are 1, −1, 1, −1 and so on.
fn sealed_entry() -> SealedEntry {
    polka::seal(&sound_public_key(), noise_of(0x21), &Entry::from(b"lane 4, 00:47.52")).unwrap()
}

/// Under this key s is 0 and e is 1, so that w is the sum of both r. Entry and refusal are those of `open`; the margin alone varies with
/// the dummy.
#[test]
fn margins_vary_with_the_dummy() {
    // four bits 1 are 1, four bits 2 are −1 and all others here are 0; beside them stands the largest size of the sum
    let dummies = [(0x21, 2), (0x00, 1), (0xff, 1), (0x12, 0), (0x11, 2), (0x22, 2), (0x01, 2), (0x02, 1), (0x10, 1), (0x20, 2)];
    let keys: [&dyn SecretRecord; 2] = [&sound_key(), &sound_expanded_key()];
    for (fill, expected) in dummies {
        for key in keys {
            let (entry, margin) = polka::open_with_margin(key, &sealed_entry(), noise_of(fill)).unwrap();
            assert_eq!(entry.as_bytes(), b"lane 4, 00:47.52");
            assert_eq!(margin.value(), expected, "{fill:#04x}");
        }
    }
    let refusal = |edit: fn(&mut [u8; 4133])| {
        let mut changed = *sealed_entry().as_bytes();
        edit(&mut changed);
        let error = polka::open_with_margin(&sound_key(), &changed.into(), noise_of(0x12)).unwrap_err();
        assert_eq!(polka::open(&sound_key(), &changed.into(), noise_of(0x21)).unwrap_err(), error);
        error
    };
    assert_eq!(refusal(|sealed| sealed[0] = b'p'), Error::WrongMark);
    // a batch has an opening of its own
    assert_eq!(refusal(|sealed| sealed[3] = 2), Error::WrongVersion);
    assert_eq!(refusal(|sealed| sealed[2053 + 34..][..2].fill(0xff)), error(11, "sealed_entry c2 17"));
    assert_eq!(refusal(|sealed| sealed[5] ^= 4), Error::DecapsulationFailure);
    assert_eq!(refusal(|sealed| sealed[4101] ^= 1), Error::TagMismatch);
}

/// No entries and more than 255 are no batch, for sealing and for opening.
#[test]
fn counts_of_entries() {
    let entries: Vec<Entry> = (0..300u16).map(|i| Entry::from(&[i as u8; 16])).collect();
    let noise = || TripleNoise::from(&[0x21; 1536]);
    for count in [0, 256, 257, 300] {
        assert_eq!(polka::seal_batch(&sound_public_key(), noise(), &entries[..count]).unwrap_err(), Error::WrongCount);
    }
    for count in [1, 2, 254, 255] {
        let batch = polka::seal_batch(&sound_public_key(), noise(), &entries[..count]).unwrap();
        assert_eq!(batch.as_bytes().len(), SealedBatch::length(count));
        assert_eq!(batch.as_bytes()[..5], *b"PLG\x02\x00");
        let opened = polka::open_batch(&sound_key(), &batch, noise()).unwrap();
        assert!(opened.iter().map(Entry::as_bytes).eq(entries[..count].iter().map(Entry::as_bytes)));
        for other in [0, 256, 256 + count] {
            let mut changed = batch.as_bytes().to_vec();
            changed[4101..4103].copy_from_slice(&(other as u16).to_le_bytes());
            assert_eq!(polka::open_batch(&sound_key(), &changed, noise()).unwrap_err(), Error::WrongCount);
        }
    }
}

/// As a batch, as a slice, as a vector and as an array, and every refusal that bytes alone can bring about.
#[test]
fn a_batch_is_lent_as_bytes() {
    let noise = || TripleNoise::from(&[0x21; 1536]);
    let batch = polka::seal_batch(&sound_public_key(), noise(), &[b"lane 4, 00:47.52", b"lane 5, 00:47.90"].map(Entry::from)).unwrap();
    let bytes = batch.as_bytes();
    assert_eq!(SealedBatch::from(bytes), batch);
    assert_eq!(SealedBatch::from(bytes.to_vec()), batch);
    let array: [u8; SealedBatch::length(2)] = bytes.try_into().unwrap();
    for opened in [
        polka::open_batch(&sound_key(), &batch, noise()),
        polka::open_batch(&sound_key(), bytes, noise()),
        polka::open_batch(&sound_key(), &bytes.to_vec(), noise()),
        polka::open_batch(&sound_key(), &array, noise()),
    ] {
        assert_eq!(opened.unwrap()[1].as_bytes(), b"lane 5, 00:47.90");
    }
    let refusal = |edit: fn(&mut Vec<u8>)| {
        let mut changed = bytes.to_vec();
        edit(&mut changed);
        polka::open_batch(&sound_key(), &changed, noise()).unwrap_err()
    };
    assert_eq!(refusal(|batch| batch.clear()), Error::WrongLength);
    assert_eq!(refusal(|batch| batch.truncate(4118)), Error::WrongLength);
    assert_eq!(refusal(|batch| batch.push(0)), Error::WrongLength);
    assert_eq!(refusal(|batch| batch[0] = b'p'), Error::WrongMark);
    assert_eq!(refusal(|batch| batch[3] = 1), Error::WrongVersion);
    assert_eq!(refusal(|batch| batch[4101] = 0), Error::WrongCount);
    assert_eq!(refusal(|batch| batch[4101] = 3), Error::WrongLength);
    assert_eq!(refusal(|batch| batch[2053 + 34..][..2].fill(0xff)), error(11, "sealed_entry c2 17"));
    assert_eq!(refusal(|batch| batch[5] ^= 4), Error::DecapsulationFailure);
    assert_eq!(refusal(|batch| batch[4103] ^= 1), Error::TagMismatch);
    // an entry is no batch
    let sealed = polka::seal(&sound_public_key(), noise(), &Entry::from(b"lane 4, 00:47.52")).unwrap();
    assert_eq!(polka::open_batch(&sound_key(), sealed.as_bytes(), noise()).unwrap_err(), Error::WrongVersion);
    assert_eq!(SealedEntry::try_from(bytes).unwrap_err(), Error::WrongLength);
}

/// A bad word of each record, by each call that is lent it.
#[test]
fn bad_words_come_back_as_locations() {
    // all words of all records are 65,535
    let record = |mark: &[u8]| [&[mark, &[1, 0]].concat()[..], &[0xff; 4096]].concat();
    let secret_key = SecretKey::try_from(&[&record(b"SDK")[..], &[0; 256]].concat()[..]).unwrap();
    let public_key = PublicKey::try_from(&record(b"PDK")[..]).unwrap();
    let seeded = SeededPublicKey::try_from(&record(b"PDS")[..2085]).unwrap();
    let (noise, entry, triple) = (|| TripleNoise::from(&[0; 1536]), [Entry::from(&[0; 16])], Triple::from(&[0; 768]));
    assert_eq!(polka::check_secret_key(&secret_key), Err(error(4, "secret_key a 0")));
    for (key, location) in [(&public_key as &dyn PublicRecord, "public_key a 0"), (&seeded, "seeded_public_key b 0")] {
        assert_eq!(polka::seal(key, noise(), &entry[0]), Err(error(4, location)));
        assert_eq!(polka::seal_batch(key, noise(), &entry), Err(error(4, location)));
        assert_eq!(polka::encapsulate(key, &triple), Err(error(4, location)));
    }
    // the key is named where both are bad
    let sealed = SealedEntry::from([0xff; 4133]);
    assert_eq!(polka::open(&secret_key, &sealed, noise()).unwrap_err(), error(4, "secret_key a 0"));
    assert_eq!(polka::open_with_margin(&secret_key, &sealed, noise()).unwrap_err(), error(4, "secret_key a 0"));
    let sound = sound_key();
    let sealed = SealedEntry::try_from(&[&record(b"PLG")[..], &[0; 32]].concat()[..]).unwrap();
    assert_eq!(polka::open(&sound, &sealed, noise()).unwrap_err(), error(11, "sealed_entry c1 0"));
    assert_eq!(polka::open_with_margin(&sound, &sealed, noise()).unwrap_err(), error(11, "sealed_entry c1 0"));
    let mut batch = [&record(b"PLG")[..], &[1, 0], &[0; 32]].concat();
    batch[3] = 2;
    assert_eq!(polka::open_batch(&sound, &batch, noise()).unwrap_err(), error(11, "sealed_entry c1 0"));
    let encapsulation = Encapsulation::from([0xff; 4096]);
    assert_eq!(polka::decapsulate(&sound, &encapsulation, triple).unwrap_err(), error(11, "encapsulation c1 0"));
}

/// Either record, also where only the running program knows which. The mark is another, or b is 0.
#[test]
fn either_public_record_is_taken() {
    let (mut long, mut seeded) = ([0; 4101], [0; 2085]);
    for error in [Error::WrongMark, Error::NotInvertible] {
        let records: [&dyn PublicRecord; 2] = [&PublicKey::from(long), &SeededPublicKey::from(seeded)];
        for record in records {
            assert_eq!(polka::seal(record, TripleNoise::from(&[0; 1536]), &Entry::from(&[0; 16])), Err(error));
            assert_eq!(polka::seal_batch(record, TripleNoise::from(&[0; 1536]), &[Entry::from(&[0; 16])]), Err(error));
            assert_eq!(polka::encapsulate(record, &Triple::from(&[0; 768])), Err(error));
        }
        long[..5].copy_from_slice(b"PDK\x01\x00");
        seeded[..5].copy_from_slice(b"PDS\x01\x00");
    }
}

/// The bytes of a sound key, and every refusal that an edit of them can bring about.
#[test]
fn keys_are_converted() {
    assert_eq!(polka::expand_secret_key(&sound_key()).unwrap().as_bytes(), sound_expanded_key().as_bytes());
    assert_eq!(polka::compact_secret_key(&sound_expanded_key()).unwrap().as_bytes(), sound_key().as_bytes());
    let expanding: fn(fn(&mut [u8])) -> Error = |edit| {
        let mut key = *sound_key().as_bytes();
        edit(&mut key);
        polka::expand_secret_key(&SecretKey::from(&key)).unwrap_err()
    };
    let compacting: fn(fn(&mut [u8])) -> Error = |edit| {
        let mut key = *sound_expanded_key().as_bytes();
        edit(&mut key);
        polka::compact_secret_key(&ExpandedSecretKey::from(&key)).unwrap_err()
    };
    for refusal in [expanding, compacting] {
        assert_eq!(refusal(|key| key[1] = b'd'), Error::WrongMark);
        assert_eq!(refusal(|key| key[4] = 1), Error::WrongVersion);
        assert_eq!(refusal(|key| key[3] = 3 - key[3]), Error::WrongVersion);
        assert_eq!(refusal(|key| key[5 + 2 * 5..][..2].fill(0xff)), error(4, "secret_key a 5"));
        assert_eq!(refusal(|key| key[2053 + 34..][..2].fill(0xff)), error(4, "secret_key b 17"));
        assert_eq!(refusal(|key| key[4356] = 0xc0), Error::InvalidCode);
        // a is 3 and s is 1
        assert_eq!(refusal(|key| (key[5], key[4101]) = (3, 1)), Error::KeyMismatch);
    }
    assert_eq!(expanding(|key| key[2053] = 0), Error::NotInvertible);
    assert_eq!(expanding(|key| key[2053] = 10), Error::KeyMismatch);
    assert_eq!(compacting(|key| key[6403..].fill(0xff)), error(4, "secret_key stored_inverse 1023"));
    assert_eq!(compacting(|key| key[2053] = 0), Error::InverseMismatch);
    assert_eq!(compacting(|key| key[2053] = 10), Error::InverseMismatch);
    assert_eq!(compacting(|key| key[4357] ^= 1), Error::InverseMismatch);
    assert_eq!(compacting(|key| key[6403] ^= 1), Error::InverseMismatch);
    // b is 1, and so is its inverse
    assert_eq!(compacting(|key| (key[2053], key[4357], key[4358]) = (1, 1, 0)), Error::KeyMismatch);
    // the other version is too short, or too long
    let mut key = *sound_key().as_bytes();
    key[3] = 2;
    assert_eq!(polka::check_secret_key(&SecretKey::from(&key)), Err(Error::WrongLength));
    let mut key = *sound_expanded_key().as_bytes();
    key[3] = 1;
    assert_eq!(polka::check_secret_key(&ExpandedSecretKey::from(&key)), Err(Error::WrongLength));
}

/// Either version, as it is, by whatever points to it, and where only the running program knows which.
#[test]
fn either_secret_record_is_taken() {
    fn opens(key: &(impl SecretRecord + ?Sized)) {
        let noise = || TripleNoise::from(&[0x21; 1536]);
        let entry = Entry::from(b"lane 4, 00:47.52");
        let triple = || Triple::from(&[0x21; 768]);
        assert_eq!(polka::check_secret_key(key), Ok(()));
        let sealed = polka::seal(&sound_public_key(), noise(), &entry).unwrap();
        assert_eq!(polka::open(key, &sealed, noise()).unwrap().as_bytes(), entry.as_bytes());
        let (opened, margin) = polka::open_with_margin(key, &sealed, noise()).unwrap();
        assert_eq!((opened.as_bytes(), margin.value()), (entry.as_bytes(), 2));
        let batch = polka::seal_batch(&sound_public_key(), noise(), &[entry]).unwrap();
        assert_eq!(polka::open_batch(key, &batch, noise()).unwrap()[0].as_bytes(), b"lane 4, 00:47.52");
        let encapsulation = polka::encapsulate(&sound_public_key(), &triple()).unwrap();
        assert_eq!(polka::decapsulate(key, &encapsulation, triple()).unwrap().as_bytes(), triple().as_bytes());
    }
    let (key, expanded_key) = (sound_key(), sound_expanded_key());
    opens(&key);
    opens(&expanded_key);
    opens(&&key);
    let records: [Box<dyn SecretRecord>; 2] = [Box::new(sound_key()), Box::new(sound_expanded_key())];
    for (record, length) in records.iter().zip([4357, 6405]) {
        assert_eq!(record.as_slice().len(), length);
        opens(record);
        opens(&**record);
    }
    opens(&std::rc::Rc::new(sound_expanded_key()));
    opens(&std::sync::Arc::new(sound_key()));
    opens(&std::sync::Mutex::new(key).lock().unwrap());
}

/// What was written for one type of key compiles as it is: a call as a function on that type, and a key behind a pointer.
#[test]
fn calls_on_secret_keys_as_before() {
    let check: fn(&SecretKey) -> Result<(), Error> = polka::check_secret_key;
    let open: fn(&SecretKey, &SealedEntry, TripleNoise) -> Result<Entry, Error> = polka::open;
    let key = std::sync::Arc::new(sound_key());
    assert_eq!(check(&key), Ok(()));
    assert_eq!(polka::check_secret_key(&key), Ok(()));
    let noise = || TripleNoise::from(&[0x21; 1536]);
    let sealed = polka::seal(&sound_public_key(), noise(), &Entry::from(b"lane 4, 00:47.52")).unwrap();
    assert_eq!(open(&key, &sealed, noise()).unwrap().as_bytes(), b"lane 4, 00:47.52");
}

#[test]
fn shake128_of_nothing_and_into_nothing() {
    let mut out = [0u8; 8];
    polka::shake128(&[], &mut out);
    assert_eq!(out, [0x7f, 0x9c, 0x2b, 0xa4, 0xe8, 0x8f, 0x82, 0x7d]);
    polka::shake128(b"abc", &mut []);
}

#[test]
fn shake256_of_nothing_and_into_nothing() {
    let mut out = [0u8; 8];
    polka::shake256(&[], &mut out);
    assert_eq!(out, [0x46, 0xb9, 0xdd, 0x2b, 0x0b, 0xa8, 0x8d, 0x13]);
    polka::shake256(b"abc", &mut []);
}
