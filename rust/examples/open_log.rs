//! Opens a whole log under one key, as a desk does when the races are over.
//! usage: open_log KEY [LOG]     KEY is the file of a secret key, expanded or not. LOG is a file of sealed entries in a row, or a folder
//!                               with one in each file, taken in the order of their names; without it the entries come on standard input
//! Each entry has a line: its place (from 1, or its file), the number, and the entry in hexadecimal digits or `-`, then where a word of it
//! is damaged. A count ends the log, and the places of refused entries by number. Answers 0 if all were opened, 1 if one was refused, 2 if
//! there is no key or no log.
use std::collections::BTreeMap;
use std::error::Error;
use std::fs::{self, File};
use std::io::{self, Read, Write};
use std::path::Path;
use std::process::ExitCode;

use polka::{ExpandedSecretKey, SealedEntry, SecretKey, SecretRecord, TripleNoise};

/// Places, and the bytes that stand there.
type Log = Box<dyn Iterator<Item = io::Result<(String, Vec<u8>)>>>;

fn at_most(length: usize, source: &mut impl Read) -> io::Result<Vec<u8>> {
    let mut bytes = vec![];
    source.take(length as u64).read_to_end(&mut bytes)?;
    Ok(bytes)
}

/// Entries in a row. What is left at the end is an entry too, of a wrong length.
fn stream(mut source: impl Read + 'static) -> Log {
    Box::new((1..).map_while(move |place: usize| match at_most(SealedEntry::LENGTH, &mut source) {
        Ok(bytes) if bytes.is_empty() => None,
        read => Some(read.map(|bytes| (place.to_string(), bytes))),
    }))
}

/// An entry in each file. One byte more than an entry's tells that a file is too long.
fn folder(path: &Path) -> io::Result<Log> {
    let mut paths = fs::read_dir(path)?.map(|entry| Ok(entry?.path())).collect::<io::Result<Vec<_>>>()?;
    paths.sort();
    Ok(Box::new(paths.into_iter().map(|path| {
        let place = path.file_name().unwrap_or_default().to_string_lossy().into_owned();
        Ok((place, at_most(SealedEntry::LENGTH + 1, &mut File::open(path)?)?))
    })))
}

/// Where a word is damaged, with `before` in front of it; nothing where the refusal tells of none.
fn location(before: &str, refusal: polka::Error) -> String {
    refusal.location().map_or_else(String::new, |location| format!("{before}{location}"))
}

fn under(refusal: polka::Error) -> String {
    format!("refused under {}, {}{}", refusal.number(), refusal.word(), location(": ", refusal))
}

/// Its bytes go from the file to a place that is overwritten when it goes, and are judged once. The length tells the version.
fn read_key(path: &Path) -> Result<Box<dyn SecretRecord>, Box<dyn Error>> {
    let mut file = File::open(path)?;
    let mut length = 0;
    let room = ExpandedSecretKey::filled_by(|bytes| loop {
        match file.read(&mut bytes[length..])? {
            0 => return io::Result::Ok(()),
            more => length += more,
        }
    })?;
    let key: Box<dyn SecretRecord> = match length {
        SecretKey::LENGTH => Box::new(SecretKey::try_from(&room.as_bytes()[..length])?),
        ExpandedSecretKey::LENGTH if file.read(&mut [0])? == 0 => Box::new(room),
        _ => return Err(under(polka::Error::WrongLength).into()),
    };
    polka::check_secret_key(&key).map_err(under)?;
    Ok(key)
}

/// Whether all entries were opened.
fn open_log(key: &dyn SecretRecord, log: Log, out: &mut impl Write) -> Result<bool, Box<dyn Error>> {
    let mut random = File::open("/dev/urandom")?;
    let mut opened = 0;
    // by number: its word, and the places
    let mut refused: BTreeMap<u32, (&str, Vec<String>)> = BTreeMap::new();
    for entry in log {
        let (place, bytes) = entry?;
        let dummy = TripleNoise::filled_by(|bytes| random.read_exact(bytes))?;
        match SealedEntry::try_from(&bytes[..]).and_then(|sealed| polka::open(key, &sealed, dummy)) {
            Ok(entry) => {
                let digits: String = entry.as_bytes().iter().map(|byte| format!("{byte:02x}")).collect();
                writeln!(out, "{place}: 0 {digits}")?;
                opened += 1;
            }
            Err(refusal) => {
                writeln!(out, "{place}: {} -{}", refusal.number(), location(" ", refusal))?;
                refused.entry(refusal.number()).or_insert((refusal.word(), vec![])).1.push(place);
            }
        }
    }
    let count: usize = refused.values().map(|(_, places)| places.len()).sum();
    writeln!(out, "{} entries: {opened} opened, {count} refused", opened + count)?;
    for (number, (word, places)) in &refused {
        writeln!(out, "refused under {number}, {word}: {}", places.join(", "))?;
    }
    Ok(refused.is_empty())
}

/// The program, over its words.
pub fn run(words: &[String], out: &mut impl Write) -> Result<bool, Box<dyn Error>> {
    let (key, log) = match words {
        [key] => (key, None),
        [key, log] => (key, Some(Path::new(log))),
        _ => return Err("usage: open_log KEY [LOG]".into()),
    };
    let key = read_key(Path::new(key)).map_err(|error| format!("{key}: {error}"))?;
    let log = match log {
        None => stream(io::stdin()),
        Some(path) if path.is_dir() => folder(path)?,
        Some(path) => stream(io::BufReader::new(File::open(path).map_err(|error| format!("{}: {error}", path.display()))?)),
    };
    open_log(&*key, log, out)
}

fn main() -> ExitCode {
    let words: Vec<String> = std::env::args().skip(1).collect();
    match run(&words, &mut io::stdout().lock()) {
        Ok(true) => ExitCode::SUCCESS,
        Ok(false) => ExitCode::from(1),
        Err(error) => {
            eprintln!("{error}");
            ExitCode::from(2)
        }
    }
}
