//! Calls at the same time on two threads, one key and records in common: the library has no state.
mod common;

use std::sync::Barrier;
use std::thread;

use common::answers;
use common::random::Random;
use polka::{Entry, Error, KeyNoise, PublicKey, SealedBatch, SealedEntry, SecretRecord, Seed, TripleNoise};

/// What an entry at this place of the log answers: every tenth has another tag, and every tenth a bad word.
fn refusal(place: usize) -> Option<Error> {
    let code = match place % 10 {
        9 => 10,
        4 => answers::located(11, "sealed_entry", if bad_word(place) < 1024 { "c1" } else { "c2" }, bad_word(place) % 1024),
        _ => 0,
    };
    Error::from_code(code)
}

/// Among the 2,048 of c1 and c2.
fn bad_word(place: usize) -> usize {
    4 * place
}

/// What an opening with margin answers under one dummy: entry and margin, or the refusal.
fn with_margin(key: &dyn SecretRecord, sealed: &SealedEntry, dummy: &[u8; 1536]) -> Result<([u8; 16], u32), Error> {
    let opened = polka::open_with_margin(key, sealed, TripleNoise::from(dummy));
    opened.map(|(entry, margin)| (*entry.as_bytes(), margin.value()))
}

/// The entries of this record of the log and of those before it, in a batch.
fn entries_until(log: &[([u8; 16], SealedEntry)], place: usize) -> Vec<Entry> {
    let start = (place + 1).saturating_sub(SealedBatch::MOST_ENTRIES);
    log[start..=place].iter().map(|(bytes, _)| Entry::from(bytes)).collect()
}

#[test]
fn two_threads_open_at_once() {
    const ENTRIES: usize = 500;
    let mut random = Random::new(401);
    let (seeded_key, secret_key) = loop {
        let seed = Seed::from(random.array());
        if let Ok(keys) = polka::keygen_from_seed(&seed, KeyNoise::from(&random.array()), KeyNoise::from(&random.array())) {
            break keys;
        }
    };
    let expanded_key = polka::expand_secret_key(&secret_key).unwrap();
    let public_key = PublicKey::try_from(&[&b"PDK\x01\x00"[..], &secret_key.as_bytes()[5..4101]].concat()[..]).unwrap();
    let entries: Vec<([u8; 16], SealedEntry)> = (0..ENTRIES)
        .map(|i| {
            let bytes: [u8; 16] = random.array();
            let mut sealed = *polka::seal(&public_key, TripleNoise::from(&random.array()), &Entry::from(&bytes)).unwrap().as_bytes();
            match refusal(i) {
                Some(Error::TagMismatch) => sealed[4132] ^= 1,
                Some(_) => sealed[5 + 2 * bad_word(i)..][..2].fill(0xff),
                None => {}
            }
            (bytes, SealedEntry::from(sealed))
        })
        .collect();
    let dummy: [u8; 1536] = random.array();
    let before: Vec<_> = entries.iter().map(|(_, sealed)| with_margin(&secret_key, sealed, &dummy)).collect();
    let start = Barrier::new(2);
    let wrong = thread::scope(|scope| {
        let handles: Vec<_> = [402, 403]
            .into_iter()
            .map(|seed| {
                let (start, entries, public_key, seeded_key) = (&start, &entries, &public_key, &seeded_key);
                let (secret_key, expanded_key, dummy, before) = (&secret_key, &expanded_key, &dummy, &before);
                scope.spawn(move || {
                    let mut random = Random::new(seed);
                    start.wait();
                    let mut wrong = 0;
                    for (i, (bytes, sealed)) in entries.iter().enumerate() {
                        // one thread has the other form of the key each time
                        let key: &dyn SecretRecord = if (seed + i as u64) % 2 == 0 { secret_key } else { expanded_key };
                        let opened = polka::open(key, sealed, TripleNoise::from(&random.array()));
                        let right = match opened {
                            Ok(entry) => refusal(i).is_none() && entry.as_bytes() == bytes,
                            Err(error) => refusal(i) == Some(error),
                        };
                        // the margin too is as it was on one thread
                        let right = right && with_margin(key, sealed, dummy) == before[i];
                        // sealing in between under both records, so that the threads do not stay in step
                        let noise: [u8; 1536] = random.array();
                        let sealed = polka::seal(public_key, TripleNoise::from(&noise), &Entry::from(bytes));
                        let same = sealed == polka::seal(seeded_key, TripleNoise::from(&noise), &Entry::from(bytes));
                        // and a batch there and back, of another size each time
                        let batch = polka::seal_batch(seeded_key, TripleNoise::from(&noise), &entries_until(entries, i)).unwrap();
                        let opened = polka::open_batch(key, &batch, TripleNoise::from(&random.array()));
                        let whole = opened.is_ok_and(|opened| {
                            opened.iter().map(Entry::as_bytes).eq(entries_until(entries, i).iter().map(Entry::as_bytes))
                        });
                        wrong += usize::from(!right || !same || sealed.is_err() || !whole);
                    }
                    wrong
                })
            })
            .collect();
        handles.into_iter().map(|handle| handle.join().unwrap()).sum::<usize>()
    });
    println!("two threads: {} cases, {wrong} mismatches", 2 * ENTRIES);
    assert_eq!(wrong, 0);
}
