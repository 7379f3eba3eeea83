//! Links the archive of the proved library, and has `rt` make it where it is missing or older than the sources; for the benchmark also
//! that of the product alone. POLKA_ARCHIVE names another archive, of any file name, which is linked as it is (a relative path starts at
//! this folder); POLKA_ARCHIVE=none links none, for the tests that need none. Documentation and checks of types start no prover.
use std::path::{Path, PathBuf};
use std::process::Command;
use std::time::SystemTime;
use std::{env, fs};

/// Ends the build with a line.
fn fail(why: &str) -> ! {
    eprintln!("{why}");
    std::process::exit(1)
}

/// The repository.
fn top() -> PathBuf {
    Path::new(env!("CARGO_MANIFEST_DIR")).join("..")
}

/// A crate and all that it uses, by the lines `NAME: USED..` and `NAME staticlib: USED..` of crates.txt. Where this package stands alone
/// there are no sources.
fn reached(name: &str) -> Vec<String> {
    let text = fs::read_to_string(top().join("crates.txt")).unwrap_or_default();
    let used_by = |line: &'_ str, name: &str| line.strip_prefix(name).map(|rest| rest.strip_prefix(" staticlib").unwrap_or(rest).strip_prefix(':').map(str::to_string));
    let uses = |name: &str| text.lines().find_map(|line| used_by(line, name).flatten()).unwrap_or_default();
    let mut all = vec![name.to_string()];
    let mut next = 0;
    while next < all.len() {
        for used in uses(&all[next]).split_whitespace() {
            if !all.iter().any(|seen| seen == used) {
                all.push(used.to_string());
            }
        }
        next += 1;
    }
    all
}

/// When a file of this folder last changed.
fn latest(folder: &Path) -> Option<SystemTime> {
    let entries = fs::read_dir(folder).ok()?.filter_map(Result::ok);
    entries.filter_map(|entry| if entry.path().is_dir() { latest(&entry.path()) } else { entry.metadata().ok()?.modified().ok() }).max()
}

/// Whether cargo was asked only for documentation or for a check of types. It does not tell its build scripts: its own words do, which
/// Linux shows.
fn links_nothing() -> bool {
    let words = fs::read(format!("/proc/{}/cmdline", std::os::unix::process::parent_id())).unwrap_or_default();
    let command = words.split(|&byte| byte == 0).skip(1).find(|word| !word.starts_with(b"-") && !word.starts_with(b"+"));
    let reading: [&[u8]; 7] = [b"doc", b"d", b"rustdoc", b"check", b"c", b"clippy", b"fix"];
    env::var_os("DOCS_RS").is_some() || command.is_some_and(|command| reading.contains(&command))
}

/// The archive of a crate, made where it is missing or older than code or definitions: other proofs of the same contracts give the same
/// archive. None where it would have to be made and nothing is linked.
fn made(name: &str) -> Option<PathBuf> {
    // kit crates stand elsewhere
    let sources = reached(name).into_iter().flat_map(|used| ["src", "specs"].map(|part| top().join("crates").join(&used).join(part)));
    let sources: Vec<PathBuf> = sources.filter(|folder| folder.exists()).collect();
    for folder in &sources {
        println!("cargo:rerun-if-changed={}", folder.display());
    }
    let archive = top().join(format!("target/staticlib/lib{name}.a"));
    let made = fs::metadata(&archive).and_then(|about| about.modified()).ok();
    let changed = sources.iter().filter_map(|folder| latest(folder)).max();
    if made.is_some() && made >= changed {
        return Some(archive);
    }
    if links_nothing() {
        // this file never exists, so that the next command asks again
        println!("cargo:rerun-if-changed={}/not-made", env::var("OUT_DIR").unwrap());
        return None;
    }
    // the script runs `rt lib` in the crate and in those below it
    let script = format!("top=$PWD; . tests/prove.sh; prove archive {name} {name}");
    let status = Command::new("bash").args(["-c", &script]).current_dir(top()).status();
    if !status.is_ok_and(|status| status.success()) {
        fail(&format!("lib{name}.a is missing or older than the sources, and making it failed; POLKA_ARCHIVE names one to link as it is"));
    }
    if made.is_some() {
        println!("cargo:warning=target/staticlib/lib{name}.a was older than the sources: proved and made anew");
    }
    Some(archive)
}

fn search(archive: &Path) {
    println!("cargo:rerun-if-changed={}", archive.display());
    println!("cargo:rustc-link-search=native={}", archive.parent().unwrap().display());
}

fn main() {
    println!("cargo:rerun-if-env-changed=POLKA_ARCHIVE");
    println!("cargo:rerun-if-changed=build.rs");
    let named = env::var_os("POLKA_ARCHIVE").map(PathBuf::from);
    // The benchmark says which archive it has timed.
    let shown = named.as_deref().unwrap_or(Path::new("target/staticlib/libpolka.a"));
    println!("cargo:rustc-env=POLKA_LINKED={}", shown.display());
    if named.as_deref() == Some(Path::new("none")) {
        return;
    }
    let archive = match named {
        Some(path) => Some(fs::canonicalize(&path).unwrap_or_else(|error| fail(&format!("POLKA_ARCHIVE={}: {error}", path.display())))),
        None => made("polka"),
    };
    if let Some(archive) = archive {
        search(&archive);
        println!("cargo:rustc-link-lib=static:+verbatim={}", archive.file_name().unwrap().to_str().expect("a file name in UTF-8"));
    }
    // The benchmark's source links this one itself.
    if env::var_os("CARGO_FEATURE_BENCH").is_some() {
        if let Some(archive) = made("ring_product") {
            search(&archive);
        }
    }
}
