//! Makes a key pair from the system's random bytes, seals an entry, opens it, once more with its margin, and shows that a changed tag is
//! refused, and a damaged word, which is named. Then it seals a heat as one batch, opens it, and shows that one entry less is refused. Last
//! it expands the key, opens an entry with that, and makes it compact again.
use std::error::Error;
use std::fs::File;
use std::io::Read;

use polka::{Entry, KeyNoise, Margin, PublicKey, SealedBatch, SealedEntry, SecretKey, TripleNoise, UniformStream};

fn make_key(random: &mut File) -> Result<(PublicKey, SecretKey), Box<dyn Error>> {
    loop {
        let stream = UniformStream::filled_by(|bytes| random.read_exact(bytes))?;
        let noise_s = KeyNoise::filled_by(|bytes| random.read_exact(bytes))?;
        let noise_e = KeyNoise::filled_by(|bytes| random.read_exact(bytes))?;
        match polka::keygen(&stream, noise_s, noise_e) {
            // about one b in sixty is no unit, and a stream may run dry: both call for new bytes
            Err(polka::Error::NotInvertible | polka::Error::StreamExhausted) => continue,
            answer => return Ok(answer?),
        }
    }
}

/// For one sealing or one opening.
fn noise(random: &mut File) -> Result<TripleNoise, std::io::Error> {
    TripleNoise::filled_by(|bytes| random.read_exact(bytes))
}

fn text(entry: &Entry) -> String {
    String::from_utf8_lossy(entry.as_bytes()).into_owned()
}

fn one_entry(public_key: &PublicKey, secret_key: &SecretKey, random: &mut File) -> Result<(), Box<dyn Error>> {
    let entry = Entry::from(b"lane 4, 00:47.52");
    let sealed = polka::seal(public_key, noise(random)?, &entry)?;
    println!("sealed {entry:?} as {sealed:?}");

    let opened = polka::open(secret_key, &sealed, noise(random)?)?;
    println!("opened \"{}\"", text(&opened));

    // for the service screen, which stands at the desk: the margin tells about the secret key, and goes nowhere else
    let (opened, margin) = polka::open_with_margin(secret_key, &sealed, noise(random)?)?;
    println!("opened \"{}\" with margin {} of at most {}", text(&opened), margin.value(), Margin::LARGEST);

    let mut changed = *sealed.as_bytes();
    changed[SealedEntry::LENGTH - 1] ^= 1;
    match polka::open(secret_key, &changed.into(), noise(random)?) {
        Err(refusal) => println!("with a changed tag: {refusal}"),
        Ok(_) => return Err("a changed tag was accepted".into()),
    }

    // word 17 of c2, behind mark, version and c1
    changed[5 + 2 * (1024 + 17)..][..2].fill(0xff);
    match polka::open(secret_key, &changed.into(), noise(random)?) {
        Err(refusal) => println!("with a damaged word: {refusal}"),
        Ok(_) => return Err("a damaged word was accepted".into()),
    }
    Ok(())
}

fn heat(public_key: &PublicKey, secret_key: &SecretKey, random: &mut File) -> Result<(), Box<dyn Error>> {
    let entries = [b"lane 3, 00:48.10", b"lane 4, 00:47.52", b"lane 5, 00:47.90"].map(Entry::from);
    let batch = polka::seal_batch(public_key, noise(random)?, &entries)?;
    println!("sealed {} entries as {batch:?}", entries.len());

    let opened = polka::open_batch(secret_key, &batch, noise(random)?)?;
    println!("opened \"{}\"", opened.iter().map(text).collect::<Vec<_>>().join("\", \""));

    // the last block goes, and the count, behind c2, fits again: only the tag tells
    let mut shorter = batch.as_bytes().to_vec();
    shorter.drain(SealedBatch::length(2) - 16..SealedBatch::length(2));
    shorter[4101] = 2;
    match polka::open_batch(secret_key, &shorter, noise(random)?) {
        Err(refusal) => println!("without its last entry: {refusal}"),
        Ok(_) => return Err("a batch without its last entry was accepted".into()),
    }
    Ok(())
}

/// What a desk does once with its key, and what it does for an old desk.
fn expanded_key(public_key: &PublicKey, secret_key: &SecretKey, random: &mut File) -> Result<(), Box<dyn Error>> {
    let expanded_key = polka::expand_secret_key(secret_key)?;
    println!("expanded {secret_key:?} to {expanded_key:?}");

    let sealed = polka::seal(public_key, noise(random)?, &Entry::from(b"lane 4, 00:47.52"))?;
    println!("opened \"{}\" with it", text(&polka::open(&expanded_key, &sealed, noise(random)?)?));

    let compact = polka::compact_secret_key(&expanded_key)?;
    if compact.as_bytes() != secret_key.as_bytes() {
        return Err("another key came back".into());
    }
    println!("compact again: {compact:?}, the same");
    Ok(())
}

fn main() -> Result<(), Box<dyn Error>> {
    let mut random = File::open("/dev/urandom")?;
    let (public_key, secret_key) = make_key(&mut random)?;
    polka::check_secret_key(&secret_key)?;
    println!("made {public_key:?} and {secret_key:?}");
    one_entry(&public_key, &secret_key, &mut random)?;
    heat(&public_key, &secret_key, &mut random)?;
    expanded_key(&public_key, &secret_key, &mut random)
}
